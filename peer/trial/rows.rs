//! Legal tables to begin with, small and full.

use super::random::Random;
use super::statements::{self, View};
use crate::register::description::Description;
use crate::register::tables::*;
use crate::register::{call, Outcome, Statement};

/// Carries out a statement, and leaves the tables as they are where it is refused.
pub fn carry_out(description: &Description, tables: &mut Tables, statement: &Statement) {
    if let Outcome::Changed(new, _) = call(description, tables, statement) {
        *tables = new;
    }
}

/// Tables that some statements leave. What the statements make is legal.
pub fn some(random: &mut Random, description: &Description) -> Tables {
    let mut tables = Tables::empty(description);
    for turn in 0..random.pick(&[0, 5, 10, 15, 25, 40]) {
        let view = View { description, tables: &tables };
        let statement = if turn % 8 == 7 { statements::any(random, &view) } else { statements::filling(random, &view) };
        carry_out(description, &mut tables, &statement);
    }
    tables
}

/// Tables in which most entities have rows at several levels that borrow from each other. Relations are filled one after the other and levels
/// from below, so that there is something to refer to and to borrow.
pub fn rich(random: &mut Random, description: &Description) -> Tables {
    let mut tables = Tables::empty(description);
    let mut levels: Vec<usize> = description.levels().collect();
    levels.sort_by_key(|&level| description.height(level));
    for relation in description.relation_numbers() {
        let lowest = if random.chance(40) { random.below(levels.len()) } else { 0 };
        for &level in &levels[lowest..] {
            for class in description.levels().filter(|&class| description.above(level, class)) {
                borrow_all(random, description, &mut tables, (relation, level, class));
            }
            if random.chance(60) {
                let statement = statements::update_at(random, &View { description, tables: &tables }, relation, level);
                carry_out(description, &mut tables, &statement);
            }
            for _ in 0..random.pick(&[0, 1, 1, 2]) {
                let statement = statements::insert_at(random, &View { description, tables: &tables }, relation, level);
                carry_out(description, &mut tables, &statement);
            }
        }
    }
    tables
}

/// Gives most entities with a base row at a class a row at the level.
fn borrow_all(random: &mut Random, description: &Description, tables: &mut Tables, (relation, level, class): (usize, usize, usize)) {
    let bases = tables.rows(relation, class).filter(|row| row[0].class == class);
    let keys: Vec<u32> = bases.map(|row| row[0].value).collect();
    for key in keys {
        if random.chance(65) {
            let view = View { description, tables };
            let statement = statements::uplevel_of(random, &view, (relation, level), Entity { key, class });
            carry_out(description, tables, &statement);
        }
    }
}

/// Takes the class from some nulls, which no statement does: (0, 255) is legal everywhere.
pub fn take_classes(random: &mut Random, description: &Description, tables: &mut Tables) {
    for relation in description.relation_numbers() {
        for level in description.levels() {
            for cell in tables.rows_mut(relation, level).flatten() {
                if cell.value == 0 && random.chance(40) {
                    cell.class = NO_CLASS;
                }
            }
        }
    }
}

/// Tables with nearly every row in use: each entity has its base row at bottom and a row at every level. A relation whose keys can't be of
/// bottom's class stays empty.
pub fn full(random: &mut Random, description: &Description) -> Tables {
    let mut tables = Tables::empty(description);
    let bottom = match description.levels().find(|&level| description.labels[level] == 0) {
        Some(bottom) => bottom,
        None => return tables,
    };
    let mut levels: Vec<usize> = description.levels().filter(|&level| level != bottom).collect();
    levels.insert(0, bottom);
    for relation in description.relation_numbers() {
        let spare = random.below(2);
        let keys = if description.in_range(relation, 1, bottom) { description.relation(relation).rows - spare } else { 0 };
        for place in 0..keys {
            let who = Entity { key: place as u32 + 1, class: bottom };
            for &level in &levels {
                let columns = 1..=description.relation(relation).columns();
                let row = columns.map(|column| full_cell(random, description, &tables, (relation, level, column), who)).collect();
                tables.put(relation, level, place, row);
            }
        }
    }
    tables
}

/// A cell that is owned, borrowed from the base row, or own null.
fn full_cell(random: &mut Random, description: &Description, tables: &Tables, place: (usize, usize, usize), who: Entity) -> Cell {
    let (relation, level, column) = place;
    if column == 1 {
        return Cell { value: who.key, class: who.class };
    }
    let base = tables.row_of(relation, who.class, who).map(|row| cell(row, column));
    if let (Some(base), true) = (base, random.chance(40)) {
        if base.class == who.class {
            return base;
        }
    }
    if !description.in_range(relation, column, level) || random.chance(5) {
        return description.own_null(relation, column, level);
    }
    let of = description.relation(relation);
    let keys: Vec<u32> = tables.rows(of.refers, level).map(|row| row[0].value).collect();
    let value = if of.foreign == column { random.one_of(&keys).unwrap_or(0) } else { random.next() as u32 };
    Cell { value, class: level }
}
