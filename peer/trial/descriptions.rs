//! Descriptions: small ones in which much collides, full ones, ones at a limit, and ones with one fault.

use super::random::Random;
use crate::register::description::{Description, Relation};

/// Orders of levels: chains, levels side by side, and both.
const SHAPES: [&[u32]; 16] = [
    &[0],
    &[0, 1],
    &[1, 2],
    &[0, 1, 2],
    &[1, 2, 3],
    &[0, 1, 3],
    &[0, 1, 2, 3],
    &[0, 1, 2, 3],
    &[0, 1, 2, 3, 258],
    &[0, 1, 2, 3, 259],
    &[0, 256, 512, 768],
    &[0, 1, 2, 3, 259],
    &[0, 1, 2, 4, 7],
    &[0, 1, 2, 3, 4, 5, 6, 7],
    &[256, 257, 258, 515, 771],
    &[0, 1, 257, 2, 259, 4095],
];

pub fn small(random: &mut Random) -> Description {
    let labels = labels(random);
    let mut description = Description { labels, relations: Vec::new() };
    let count = random.pick(&[1, 2, 2, 2, 2, 3, 3, 4]);
    for number in 1..=count {
        let (columns, rows) = (random.pick(&[1, 2, 2, 2, 3, 3, 3, 4]), random.pick(&[1, 2, 2, 3, 3, 4]));
        add_relation(random, &mut description, number, columns, rows);
    }
    description
}

/// Two relations over levels that go up by several ways, the second with a reference to the first, most ranges wide.
pub fn referring(random: &mut Random) -> Description {
    let mut labels = random.pick(&[vec![0, 1, 3], vec![0, 1, 2, 3], vec![0, 1, 2, 3, 259], vec![0, 1, 257, 258, 259]]);
    random.shuffle(&mut labels);
    let mut description = Description { labels, relations: Vec::new() };
    let ends = ends(&description);
    let rows = random.between(2, 3);
    description.relations.push(Relation { rows, foreign: 0, refers: 0, ranges: vec![ends; random.between(1, 2)] });
    let mut ranges = vec![ends; random.between(2, 3)];
    if random.chance(50) {
        let place = random.between(1, ranges.len() - 1);
        ranges[place] = (ends.0, random.below(description.labels.len()));
    }
    description.relations.push(Relation { rows, foreign: 2, refers: 1, ranges });
    description
}

/// The levels with the least and the greatest label, which are bottom and top where there are such.
fn ends(description: &Description) -> (usize, usize) {
    let by_label = |level: &usize| description.labels[*level];
    (description.levels().min_by_key(by_label).unwrap_or(0), description.levels().max_by_key(by_label).unwrap_or(0))
}

fn labels(random: &mut Random) -> Vec<u32> {
    let mut labels = random.pick(&SHAPES).to_vec();
    if random.chance(15) {
        labels = some_labels(random, 7);
    }
    if random.chance(60) {
        random.shuffle(&mut labels);
    }
    labels
}

/// Distinct labels, up to so many, most of them with bottom.
fn some_labels(random: &mut Random, most: usize) -> Vec<u32> {
    let mut labels = if random.chance(80) { vec![0] } else { vec![] };
    let count = random.between(2, most);
    while labels.len() < count {
        let label = (random.below(3) * 256 + random.below(8)) as u32;
        if !labels.contains(&label) {
            labels.push(label);
        }
    }
    labels
}

/// Adds a relation with as wide a range as there is in most columns, and most times with a reference where it can have one.
fn add_relation(random: &mut Random, description: &mut Description, number: usize, columns: usize, rows: usize) {
    let refers = number > 1 && columns > 1 && random.chance(75);
    let relation = Relation {
        rows,
        foreign: if refers { random.between(2, columns) } else { 0 },
        refers: if refers { random.between(1, number - 1) } else { 0 },
        ranges: (0..columns).map(|_| range(random, description)).collect(),
    };
    description.relations.push(relation);
}

fn range(random: &mut Random, description: &Description) -> (usize, usize) {
    let mut ranges = Vec::new();
    for low in description.levels() {
        ranges.extend(description.levels().filter(|&high| description.dominates(high, low)).map(|high| (low, high)));
    }
    if random.chance(20) {
        return random.pick(&ranges);
    }
    let width = |&(low, high): &(usize, usize)| {
        description.levels().filter(|&level| description.dominates(high, level) && description.dominates(level, low)).count()
    };
    let widest = ranges.iter().map(width).max();
    ranges.retain(|range| Some(width(range)) == widest);
    random.pick(&ranges)
}

/// A description with levels 0 to 15 of one shape: bottom, top, and others between.
fn sixteen(random: &mut Random) -> Vec<u32> {
    let mut labels: Vec<u32> = (0..16).map(|level| if level < 8 { level } else { 256 + level - 8 }).collect();
    if random.chance(50) {
        random.shuffle(&mut labels);
    }
    labels
}

/// Exactly 8,192 cells.
pub fn full(random: &mut Random) -> Description {
    let (levels, relations, columns, rows) =
        random.pick(&[(16, 8, 8, 8), (16, 1, 8, 64), (16, 8, 1, 64), (2, 8, 8, 64), (4, 8, 4, 64), (8, 4, 4, 64)]);
    let mut labels = sixteen(random);
    if levels < 16 {
        labels = (0..levels).collect();
    }
    let mut description = Description { labels, relations: Vec::new() };
    for number in 1..=relations {
        add_relation(random, &mut description, number, columns, rows);
    }
    description
}

/// A sound description with one thing at its limit.
pub fn at_limit(random: &mut Random) -> Description {
    let mut description = small(random);
    match random.below(6) {
        0 => description = with_levels(random, 16),
        1 => add_relations(random, &mut description, 8),
        2 => add_relation_of(random, &mut description, 8, 2),
        3 => add_relation_of(random, &mut description, 2, 64),
        4 => return full(random),
        _ => description = with_label(random, 4095),
    }
    description
}

/// Two small relations over so many levels.
fn with_levels(random: &mut Random, count: usize) -> Description {
    let labels = sixteen(random).into_iter().chain(264..4000).take(count).collect();
    let mut description = Description { labels, relations: Vec::new() };
    add_relation(random, &mut description, 1, 2, 2);
    add_relation(random, &mut description, 2, 2, 2);
    description
}

fn add_relations(random: &mut Random, description: &mut Description, count: usize) {
    while description.relations.len() < count {
        add_relation_of(random, description, 2, 1);
    }
}

fn add_relation_of(random: &mut Random, description: &mut Description, columns: usize, rows: usize) {
    let number = description.relations.len() + 1;
    add_relation(random, description, number, columns, rows);
}

fn with_label(random: &mut Random, label: u32) -> Description {
    let mut description = Description { labels: vec![0, 1, label], relations: Vec::new() };
    add_relation_of(random, &mut description, 2, 2);
    description
}

/// 8,193 cells: three levels, and 2,731 cells for each.
fn one_cell_too_many(random: &mut Random) -> Description {
    let mut description = Description { labels: vec![0, 1, 3], relations: Vec::new() };
    for (columns, rows) in [(8, 64), (8, 64), (8, 64), (8, 64), (8, 64), (3, 57)] {
        add_relation_of(random, &mut description, columns, rows);
    }
    description
}

/// A description with one fault.
pub fn unsound(random: &mut Random) -> Description {
    let mut description = small(random);
    let levels = description.labels.len();
    match random.below(21) {
        0 => description.labels.clear(),
        1 => description = with_levels(random, 17),
        2 => description = with_label(random, 4096),
        3 => description.labels[levels - 1] = description.labels[0],
        4 => description.relations.clear(),
        5 => add_relations(random, &mut description, 9),
        9 => {
            let count = random.pick(&[10, 16, 256, 257, 258]);
            add_relations(random, &mut description, count);
        }
        6 => description = one_cell_too_many(random),
        7 => {
            let count = random.pick(&[17, 18, 32, 257, 259, 300]);
            description = with_levels(random, count);
        }
        8 => description.labels[levels - 1] = random.between(4096, 65535) as u32,
        _ => spoil_relation(random, &mut description),
    }
    if random.chance(10) && description.relations.iter().all(|relation| relation.columns() > 0) && !description.relations.is_empty() {
        spoil_relation(random, &mut description);
    }
    description
}

/// Puts one fault into one relation.
fn spoil_relation(random: &mut Random, description: &mut Description) {
    let place = random.below(description.relations.len());
    let levels = description.labels.len();
    let (low, high) = (random.below(levels.max(1)), random.below(levels.max(1)));
    let relation = &mut description.relations[place];
    let columns = relation.columns();
    let column = random.below(columns.max(1));
    match random.below(16) {
        0 => relation.ranges.clear(),
        1 => relation.ranges = vec![(low, low); 9],
        2 => relation.ranges = vec![(low, low); random.between(9, 254)],
        3 => relation.rows = 0,
        4 => relation.rows = 65,
        5 => relation.rows = random.pick(&[65, 66, 256, 258, 65535]),
        6 | 7 => relation.ranges[column] = (low, high),
        8 => relation.ranges[column].0 = random.pick(&[levels, levels + 1, 255, 256]),
        9 => relation.ranges[column].1 = random.pick(&[levels, levels + 1, 255, 256]),
        10 => (relation.foreign, relation.refers) = (1, place.max(1)),
        11 => (relation.foreign, relation.refers) = (random.pick(&[columns + 1, columns + 2, 255, 256, 258]), place.max(1)),
        12 => (relation.foreign, relation.refers) = (columns.max(2), place + 1),
        13 => (relation.foreign, relation.refers) = (columns.max(2), random.pick(&[place + 2, place + 3, 256, 257])),
        14 => (relation.foreign, relation.refers) = (0, random.between(1, 3)),
        _ => (relation.foreign, relation.refers) = (random.between(1, 3), 0),
    }
}
