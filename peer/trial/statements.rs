//! Statements picked with the tables in view, so that they find rows, and refusals come often and not always.

use super::random::Random;
use crate::register::conditions::Condition;
use crate::register::delete::Delete;
use crate::register::description::Description;
use crate::register::insert::Insert;
use crate::register::select::Select;
use crate::register::tables::*;
use crate::register::update::Update;
use crate::register::uplevel::Uplevel;
use crate::register::Statement;

/// What a statement is picked from.
pub struct View<'a> {
    pub description: &'a Description,
    pub tables: &'a Tables,
}

pub fn any(random: &mut Random, view: &View) -> Statement {
    match random.below(100) {
        0..=29 => insert(random, view),
        30..=39 => delete(random, view),
        40..=59 => update(random, view),
        60..=91 => uplevel(random, view),
        _ => select(random, view),
    }
}

/// A statement of any kind, each as often.
pub fn any_evenly(random: &mut Random, view: &View) -> Statement {
    let all: [fn(&mut Random, &View) -> Statement; 5] = [insert, delete, update, uplevel, select];
    random.pick(&all)(random, view)
}

/// A statement that puts rows into tables.
pub fn filling(random: &mut Random, view: &View) -> Statement {
    match random.below(10) {
        0..=4 => insert(random, view),
        5 => update(random, view),
        _ => uplevel(random, view),
    }
}

fn level(random: &mut Random, view: &View) -> usize {
    random.below(view.description.labels.len())
}

fn relation(random: &mut Random, view: &View) -> usize {
    random.between(1, view.description.relations.len())
}

/// The columns but the key, in any order; in most statements all of them in a range that holds the level.
fn columns(random: &mut Random, view: &View, relation: usize, level: usize) -> Vec<usize> {
    let all = 2..=view.description.relation(relation).columns();
    let outside = random.pick(&[0, 0, 0, 0, 0, 0, 60]);
    let mut columns: Vec<usize> = all
        .filter(|&column| {
            let often = if view.description.in_range(relation, column, level) { 80 } else { outside };
            random.chance(often)
        })
        .collect();
    random.shuffle(&mut columns);
    columns
}

/// A value for a column: a reference most times names a row at that level.
fn value(random: &mut Random, view: &View, relation: usize, level: usize, column: usize) -> u32 {
    let of = view.description.relation(relation);
    if of.foreign == column && random.chance(80) {
        let keys: Vec<u32> = view.tables.rows(of.refers, level).map(|row| row[0].value).collect();
        return random.one_of(&keys).unwrap_or(0);
    }
    match random.below(20) {
        0 | 1 => 0,
        2 => random.next() as u32,
        3..=12 => random.between(1, 3) as u32,
        _ => random.between(1, 9) as u32,
    }
}

pub fn insert(random: &mut Random, view: &View) -> Statement {
    let relation = relation(random, view);
    let levels: Vec<usize> = view.description.levels().filter(|&level| view.description.in_range(relation, 1, level)).collect();
    let level = if random.chance(95) { random.pick(&levels) } else { level(random, view) };
    insert_at(random, view, relation, level)
}

/// An INSERT into a relation at a level.
pub fn insert_at(random: &mut Random, view: &View, relation: usize, level: usize) -> Statement {
    let mut key = random.between(1, 4) as u32;
    if random.chance(60) && view.tables.row_with_key(relation, level, key).is_some() {
        key = random.between(1, 9) as u32;
    }
    let rows = view.description.relation(relation).rows;
    if rows > 4 && random.chance(60) {
        key = (rows + random.below(3)) as u32;
    }
    if random.chance(5) {
        key = random.pick(&[key + 256, key + 65536, key << 24, u32::MAX]);
    }
    let mut listed = vec![(1, key)];
    for column in columns(random, view, relation, level) {
        listed.push((column, value(random, view, relation, level, column)));
    }
    random.shuffle(&mut listed);
    Statement::Insert(Insert { level, relation, listed })
}

/// A relation and level, most times with rows.
fn place(random: &mut Random, view: &View) -> (usize, usize) {
    let places: Vec<(usize, usize)> = view.tables.all_rows().map(|(relation, level, _)| (relation, level)).collect();
    match random.one_of(&places) {
        Some(place) if random.chance(92) => place,
        _ => (relation(random, view), level(random, view)),
    }
}

/// A cell that a row borrows: its relation and column, the lender, and whose it is.
#[derive(Clone, Copy)]
struct Loan {
    relation: usize,
    column: usize,
    lender: usize,
    who: Entity,
}

/// A loan, nulls that wait for one included; keys are not counted. Twice as often one of a reference, where there is any.
fn loan(random: &mut Random, view: &View) -> Option<Loan> {
    let mut loans = Vec::new();
    for (relation, level, row) in view.tables.all_rows() {
        for column in 2..=row.len() {
            let lender = cell(row, column).class;
            if view.description.above(level, lender) {
                let often = if view.description.relation(relation).foreign == column { 3 } else { 1 };
                loans.extend(vec![Loan { relation, column, lender, who: entity(row) }; often]);
            }
        }
    }
    random.one_of(&loans)
}

/// An entity that a row above its base row refers to, with its relation.
fn referred(random: &mut Random, view: &View) -> Option<(usize, Entity)> {
    let mut found = Vec::new();
    for (relation, level, row) in view.tables.all_rows() {
        let of = view.description.relation(relation);
        if of.foreign != 0 {
            let named = view.tables.row_with_key(of.refers, level, cell(row, of.foreign).value);
            found.extend(named.map(|named| (of.refers, entity(named))).filter(|(_, who)| who.class != level));
        }
    }
    random.one_of(&found)
}

fn only(key: u32) -> Vec<Condition> {
    vec![Condition { column: 1, mark: 0, test: 1, constant: key }]
}

/// Conditions that often single out a row by its key, and else are any.
fn conditions(random: &mut Random, view: &View, relation: usize, level: usize) -> Vec<Condition> {
    let rows: Vec<&Row> = view.tables.rows(relation, level).collect();
    let row = random.one_of(&rows);
    if let (Some(row), true) = (row, random.chance(55)) {
        let only_key = Condition { column: 1, mark: 0, test: 1, constant: row[0].value };
        return if random.chance(80) { vec![only_key] } else { vec![only_key, condition(random, view, relation, Some(row))] };
    }
    let count = random.pick(&[0, 0, 1, 1, 1, 2, 2, 3, 4]);
    (0..count).map(|_| condition(random, view, relation, row)).collect()
}

fn condition(random: &mut Random, view: &View, relation: usize, row: Option<&Row>) -> Condition {
    let column = random.between(1, view.description.relation(relation).columns());
    let (mark, test) = (random.below(2), random.between(1, 5));
    let near = row.map_or(3, |row| cell(row, column).value);
    let constant = match (test, mark) {
        (5, _) => 0,
        (_, 1) => random.below(view.description.labels.len()) as u32,
        _ => random.pick(&[near, near, near.wrapping_add(1), near.wrapping_sub(1)]).max(1),
    };
    Condition { column, mark, test, constant }
}

/// A DELETE; now and then of an entity that is referred to above, or of a lender's row.
pub fn delete(random: &mut Random, view: &View) -> Statement {
    match random.below(10) {
        0..=2 => {
            if let Some((relation, who)) = referred(random, view) {
                return Statement::Delete(Delete { level: who.class, relation, conditions: only(who.key) });
            }
        }
        3 | 4 => {
            if let Some(loan) = loan(random, view) {
                return Statement::Delete(Delete { level: loan.lender, relation: loan.relation, conditions: only(loan.who.key) });
            }
        }
        _ => {}
    }
    let (relation, level) = place(random, view);
    Statement::Delete(Delete { level, relation, conditions: conditions(random, view, relation, level) })
}

/// An UPDATE; often of a cell that is lent, now and then with two faults.
pub fn update(random: &mut Random, view: &View) -> Statement {
    if random.chance(5) {
        return update_with_two_faults(random, view);
    }
    if let (Some(loan), true) = (loan(random, view), random.chance(50)) {
        let value = value(random, view, loan.relation, loan.lender, loan.column);
        let set = vec![(loan.column, value)];
        return Statement::Update(Update { level: loan.lender, relation: loan.relation, set, conditions: only(loan.who.key) });
    }
    let (relation, level) = place(random, view);
    update_at(random, view, relation, level)
}

/// An UPDATE of a reference that names no row, most times, with columns out of range where there are any.
fn update_with_two_faults(random: &mut Random, view: &View) -> Statement {
    let (relation, level) = place(random, view);
    let of = view.description.relation(relation);
    let outside = (2..=of.columns()).filter(|&column| column == of.foreign || !view.description.in_range(relation, column, level));
    let set = outside.map(|column| (column, random.between(8, 20) as u32)).collect();
    Statement::Update(Update { level, relation, set, conditions: Vec::new() })
}

/// An UPDATE of rows of a relation at a level.
pub fn update_at(random: &mut Random, view: &View, relation: usize, level: usize) -> Statement {
    let columns = columns(random, view, relation, level);
    let set = columns.iter().map(|&column| (column, value(random, view, relation, level, column))).collect();
    Statement::Update(Update { level, relation, set, conditions: conditions(random, view, relation, level) })
}

/// An UPLEVEL; now and then of a row that lends, so that it is replaced, or with two faults.
pub fn uplevel(random: &mut Random, view: &View) -> Statement {
    if random.chance(8) {
        if let Some(statement) = uplevel_with_two_faults(random, view) {
            return statement;
        }
    }
    if let (Some(loan), true) = (loan(random, view), random.chance(25)) {
        return uplevel_of(random, view, (loan.relation, loan.lender), loan.who);
    }
    let bases: Vec<(usize, usize, &Row)> = view.tables.all_rows().filter(|(_, level, row)| row[0].class == *level).collect();
    let (relation, class, key) = match random.one_of(&bases) {
        Some((relation, level, row)) if random.chance(95) => (relation, level, row[0].value),
        _ => (relation(random, view), level(random, view), random.between(1, 9) as u32),
    };
    let above = view.description.levels_above(class);
    let level = match random.one_of(&above) {
        Some(level) if random.chance(80) => level,
        _ if random.chance(70) => class,
        _ => level(random, view),
    };
    uplevel_of(random, view, (relation, level), Entity { key, class })
}

/// An UPLEVEL that borrows a reference to any level above, and the other columns from anywhere.
fn uplevel_with_two_faults(random: &mut Random, view: &View) -> Option<Statement> {
    let owns_reference = |(relation, level, row): &(usize, usize, &Row)| {
        let foreign = view.description.relation(*relation).foreign;
        foreign != 0 && cell(row, foreign).value != 0 && cell(row, foreign).class == *level
    };
    let lenders: Vec<(usize, usize, &Row)> = view.tables.all_rows().filter(owns_reference).collect();
    let (relation, lender, row) = random.one_of(&lenders)?;
    let level = random.one_of(&view.description.levels_above(lender))?;
    let of = view.description.relation(relation);
    let any = |random: &mut Random, column| if column == of.foreign { lender } else { random.below(view.description.labels.len()) };
    let from = (2..=of.columns()).map(|column| (column, any(random, column))).collect();
    Some(Statement::Uplevel(Uplevel { level, relation, key: row[0].value, key_class: row[0].class, from }))
}

/// An UPLEVEL of an entity to a level.
pub fn uplevel_of(random: &mut Random, view: &View, (relation, level): (usize, usize), who: Entity) -> Statement {
    let (key, class) = (who.key, who.class);
    let key_class = if random.chance(45) { class } else { NO_CLASS };
    let columns = view.description.relation(relation).columns();
    let astray = if random.chance(20) { random.between(2, columns.max(2)) } else { 0 };
    let mut from = Vec::new();
    for column in 2..=columns {
        if column == astray {
            from.push((column, random.below(view.description.labels.len())));
        } else if random.chance(75) {
            from.push((column, lender(random, view, (relation, level, column), who)));
        }
    }
    random.shuffle(&mut from);
    Statement::Uplevel(Uplevel { level, relation, key, key_class, from })
}

/// A FROM level, most times one that is not refused, and often one where the entity has a row.
fn lender(random: &mut Random, view: &View, (relation, level, column): (usize, usize, usize), who: Entity) -> usize {
    let description = view.description;
    let between = description.levels().filter(|&from| description.dominates(level, from) && description.dominates(from, who.class));
    let fit: Vec<usize> = between.filter(|&from| description.in_range(relation, column, from)).collect();
    let with_row: Vec<usize> = fit.iter().copied().filter(|&from| view.tables.row_of(relation, from, who).is_some()).collect();
    let mut list = if random.chance(60) && !with_row.is_empty() { with_row } else { fit };
    if random.chance(60) && list.iter().any(|&from| from != level) {
        list.retain(|&from| from != level);
    }
    random.one_of(&list).unwrap_or(who.class)
}

pub fn select(random: &mut Random, view: &View) -> Statement {
    let (relation, level) = place(random, view);
    let mut at: Vec<usize> = view.description.levels().filter(|&at| view.description.dominates(level, at) && random.chance(70)).collect();
    if random.chance(10) {
        let any = random.below(view.description.labels.len());
        if !at.contains(&any) {
            at.push(any);
        }
    }
    random.shuffle(&mut at);
    Statement::Select(Select { level, relation, at, conditions: conditions(random, view, relation, level) })
}

/// SELECTs that show every table: each level is shown by itself, or together with what it dominates where nothing dominates it.
pub fn show_everything(random: &mut Random, description: &Description) -> Vec<Statement> {
    let together = random.chance(60) || description.labels.len() > 8;
    let mut statements = Vec::new();
    for relation in description.relation_numbers() {
        for level in description.levels() {
            if together && !description.levels_above(level).is_empty() {
                continue;
            }
            let mut at: Vec<usize> = description.levels().filter(|&at| together && description.dominates(level, at)).collect();
            random.shuffle(&mut at);
            statements.push(Statement::Select(Select { level, relation, at, conditions: Vec::new() }));
        }
    }
    statements
}
