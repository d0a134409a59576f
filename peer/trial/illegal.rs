//! Tables that are not legal: legal ones with one thing changed, and some put down by hand.

use super::random::Random;
use crate::register::description::{Description, Relation};
use crate::register::tables::*;

/// Rows with their relation and level, in the order in which they are placed.
pub type Rows = Vec<(usize, usize, Row)>;

pub fn rows_of(tables: &Tables) -> Rows {
    tables.all_rows().map(|(relation, level, row)| (relation, level, row.clone())).collect()
}

/// Changes one thing in rows, so that they most times are no longer legal.
pub fn damage(random: &mut Random, description: &Description, rows: &mut Rows) {
    if rows.is_empty() {
        return;
    }
    let place = random.below(rows.len());
    let levels = description.labels.len();
    if random.chance(20) {
        rows.remove(place);
        return;
    }
    let (_, level, row) = &mut rows[place];
    let (level, last) = (*level, row.len() - 1);
    let column = random.between(0, last);
    match random.below(11) {
        0 => row[column].class = random.below(levels),
        1 => row[column] = Cell { value: 5, class: level },
        2 => row[column] = Cell { value: 0, class: random.below(levels) },
        3 => row[0].value = 0,
        4 => row[0] = NOTHING,
        5 => row[column].class = random.pick(&[levels, 15, 16, 100, 254, NO_CLASS]),
        6 => row[column].value = random.between(1, 9) as u32,
        7 => row[column].value = 0,
        8 => row[0].class = random.below(levels),
        9 => row[last] = Cell { value: random.between(1, 9) as u32, class: random.below(levels) },
        _ => {
            let again = rows[place].clone();
            rows.push(again);
        }
    }
}

/// Labels 0, 1, 3 and two relations, the second with a reference to the first. Column 2 of the first is for levels 0 and 1.
fn two_relations() -> Description {
    let relation = |foreign, refers, high| Relation { rows: 2, foreign, refers, ranges: vec![(0, 2), (0, high)] };
    Description { labels: vec![0, 1, 3], relations: vec![relation(0, 0, 1), relation(2, 1, 2)] }
}

/// A borrowed reference that names another entity at its row's level than at its class. Both entities' key classes are dominated by the
/// reference's class, or the one at the row's level is not.
pub fn another_entity(random: &mut Random) -> (Description, Rows) {
    let key = random.between(1, 9) as u32;
    let named = |class| vec![Cell { value: key, class }, Cell { value: 0, class: NO_CLASS }];
    let refers = || vec![Cell { value: 50, class: 1 }, Cell { value: key, class: 1 }];
    let class_above = if random.chance(50) { 0 } else { 2 };
    let rows = vec![(1, 0, named(0)), (1, 1, named(1)), (1, 2, named(class_above)), (2, 1, refers()), (2, 2, refers())];
    (two_relations(), rows)
}

/// Rows that break one rule which a chance change seldom breaks alone.
pub fn by_hand(random: &mut Random) -> (Description, Rows) {
    let value = random.between(2, 9) as u32;
    let row = |key: (u32, usize), other: (u32, usize)| vec![Cell { value: key.0, class: key.1 }, Cell { value: other.0, class: other.1 }];
    let rows = match random.below(12) {
        0 => vec![(1, 1, row((7, 1), (0, 0)))],
        1 => vec![(1, 0, row((7, 0), (value, 0))), (1, 1, row((7, 0), (0, 0)))],
        2 => vec![(1, 0, row((0, 0), (value, 0)))],
        3 => vec![(1, 0, row((0, 255), (value, 0)))],
        4 => vec![(1, 0, row((7, 0), (value, 0))), (1, 1, row((7, 0), (value, 1))), (1, 2, row((7, 0), (value, 0))), (1, 2, row((7, 0), (value, 0)))],
        5 => vec![(1, 2, row((7, 2), (0, 2)))],
        6 => vec![(1, 2, row((7, 2), (value, 2)))],
        7 => vec![(1, 0, row((7, 0), (value, 0))), (1, 1, row((7, 0), (value, 0))), (1, 1, row((7, 1), (0, 255)))],
        8 => vec![(1, 0, row((7, 0), (value, 0))), (1, 1, row((7, 0), (value, 0))), (1, 2, row((7, 0), (value, 1)))],
        9 => vec![(1, 0, row((7, 0), (value, 0))), (1, 1, row((7, 0), (value, 0))), (1, 2, row((7, 0), (value + 1, 1)))],
        10 => vec![(1, 0, row((value, 0), (0, 0))), (2, 1, row((50, 1), (value, 1)))],
        _ => vec![(2, 0, row((7, 0), (value, 0)))],
    };
    (two_relations(), rows)
}
