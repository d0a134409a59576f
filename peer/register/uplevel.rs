//! "**UPLEVEL** (key value, optional key class, list of column FROM level)"

use super::description::Description;
use super::fields::{column_faults, place_faults};
use super::tables::*;
use super::{least, note_freed, Outcome};
use crate::reached;

/// `key_class` is 255 where none is given.
#[derive(Clone)]
pub struct Uplevel {
    pub level: usize,
    pub relation: usize,
    pub key: u32,
    pub key_class: usize,
    pub from: Vec<(usize, usize)>,
}

pub fn answer(description: &Description, tables: &Tables, uplevel: &Uplevel) -> Outcome {
    let entities = visible_entities(description, tables, uplevel);
    let only = if entities.len() == 1 { Some(entities[0]) } else { None };
    let asked = |test: &dyn Fn(Entity) -> bool| only.map_or(false, test);
    let grounds = [
        (5, not_dominated(description, uplevel)),
        (6, out_of_range(description, uplevel)),
        (7, entities.is_empty()),
        (8, entities.len() > 1),
        (9, asked(&|who| another_has_key(tables, uplevel, who))),
        (10, asked(&|who| from_below_key_class(description, uplevel, who))),
        (11, asked(&|who| reference_without_row(description, tables, uplevel, who))),
        (13, asked(&|who| no_row_left(tables, uplevel, who))),
    ];
    match least("UPLEVEL", &grounds) {
        Some(number) => Outcome::Refused(number),
        None => Outcome::Changed(with_row(description, tables, uplevel, entities[0]), 1),
    }
}

/// Number 4: "key missing or 0; key in .. FROM list", and levels that do not exist, besides what statements share.
pub fn faults(description: &Description, uplevel: &Uplevel) -> Vec<&'static str> {
    let mut faults = place_faults(description, uplevel.level, uplevel.relation);
    let columns: Vec<usize> = uplevel.from.iter().map(|&(column, _)| column).collect();
    if uplevel.key == 0 {
        faults.push("key 0");
    }
    if uplevel.key_class != NO_CLASS && !description.has_level(uplevel.key_class) {
        faults.push("no such key class");
    }
    if description.has_relation(uplevel.relation) {
        faults.extend(column_faults(description, uplevel.relation, &columns));
    }
    if columns.contains(&1) {
        faults.push("key in FROM");
    }
    if uplevel.from.iter().any(|&(_, level)| !description.has_level(level)) {
        faults.push("no such level");
    }
    faults
}

/// "the entity is the one with a base row (TC equal to key class) visible to c."
fn visible_entities(description: &Description, tables: &Tables, uplevel: &Uplevel) -> Vec<Entity> {
    let classes = description.levels().filter(|&class| uplevel.key_class == NO_CLASS || uplevel.key_class == class);
    let visible = classes.filter(|&class| description.dominates(uplevel.level, class));
    let entities = visible.map(|class| Entity { key: uplevel.key, class });
    entities.filter(|who| tables.row_of(uplevel.relation, who.class, *who).is_some()).collect()
}

/// Number 5: "a FROM, .. or key class level isn't dominated by c".
fn not_dominated(description: &Description, uplevel: &Uplevel) -> bool {
    let hidden = |level: usize| !description.dominates(uplevel.level, level);
    let from = uplevel.from.iter().any(|&(_, level)| hidden(level));
    let key_class = uplevel.key_class != NO_CLASS && hidden(uplevel.key_class);
    if from != key_class {
        reached::note(if from { "UPLEVEL, a FROM level not dominated" } else { "UPLEVEL, a key class not dominated" });
    }
    from || key_class
}

/// Number 6: "FROM level outside its column's range".
fn out_of_range(description: &Description, uplevel: &Uplevel) -> bool {
    uplevel.from.iter().any(|&(column, level)| !description.in_range(uplevel.relation, column, level))
}

/// Number 9: "UPLEVEL: another entity has that key at c".
fn another_has_key(tables: &Tables, uplevel: &Uplevel, who: Entity) -> bool {
    let present = tables.row_with_key(uplevel.relation, uplevel.level, who.key);
    present.map_or(false, |row| entity(row) != who)
}

/// Number 10: "UPLEVEL: FROM level does not dominate the key class".
fn from_below_key_class(description: &Description, uplevel: &Uplevel, who: Entity) -> bool {
    uplevel.from.iter().any(|&(_, level)| !description.dominates(level, who.class))
}

/// Number 11: "non-null reference and no row with that key at c". The reference is the one that is borrowed.
fn reference_without_row(description: &Description, tables: &Tables, uplevel: &Uplevel, who: Entity) -> bool {
    let relation = description.relation(uplevel.relation);
    let borrowed = uplevel.from.iter().find(|&&(column, _)| column == relation.foreign);
    let reference = borrowed.map_or(0, |&(column, lender)| lent(tables, uplevel, who, column, lender).value);
    reference != 0 && tables.row_with_key(relation.refers, uplevel.level, reference).is_none()
}

/// Number 13: "a new row is needed and none is empty".
fn no_row_left(tables: &Tables, uplevel: &Uplevel, who: Entity) -> bool {
    let has_row = tables.row_of(uplevel.relation, uplevel.level, who).is_some();
    !has_row && tables.lowest_empty(uplevel.relation, uplevel.level).is_none()
}

/// "For each listed column with FROM d, the cell is (v, d) if that entity's row at d holds (v, d), else (0, d). It never follows a further
/// borrowing."
fn lent(tables: &Tables, uplevel: &Uplevel, who: Entity, column: usize, lender: usize) -> Cell {
    match tables.row_of(uplevel.relation, lender, who).map(|row| cell(row, column)) {
        Some(held) if held.class == lender => held,
        _ => Cell { value: 0, class: lender },
    }
}

/// "The key cell is the entity's; other unlisted columns become own null at c."
fn new_cell(description: &Description, tables: &Tables, uplevel: &Uplevel, who: Entity, column: usize) -> Cell {
    if column == 1 {
        return Cell { value: who.key, class: who.class };
    }
    let lender = match uplevel.from.iter().find(|&&(listed, _)| listed == column) {
        Some(&(_, lender)) => lender,
        None => return own_null(description, uplevel, column),
    };
    note_lender(tables, uplevel, who, column, lender);
    let borrowed = lent(tables, uplevel, who, column, lender);
    if names_another(description, tables, uplevel, column, borrowed) {
        let null = own_null(description, uplevel, column);
        let class = if null.class == NO_CLASS { "without a class" } else { "of its level" };
        reached::note(&format!("UPLEVEL, a reference that names another entity turned own null {class}"));
        return null;
    }
    borrowed
}

/// "A borrowed reference whose named row at c is a different entity from the one at d becomes own null at c (our choice where c is out of
/// range)."
fn names_another(description: &Description, tables: &Tables, uplevel: &Uplevel, column: usize, borrowed: Cell) -> bool {
    let relation = description.relation(uplevel.relation);
    if column != relation.foreign || borrowed.value == 0 {
        return false;
    }
    let here = tables.row_with_key(relation.refers, uplevel.level, borrowed.value).map(entity);
    let there = tables.row_with_key(relation.refers, borrowed.class, borrowed.value).map(entity);
    if here == there && borrowed.class != uplevel.level {
        reached::note("UPLEVEL, a reference borrowed");
    }
    here != there
}

fn own_null(description: &Description, uplevel: &Uplevel, column: usize) -> Cell {
    let null = description.own_null(uplevel.relation, column, uplevel.level);
    if null.class == NO_CLASS {
        reached::note("UPLEVEL, own null without a class");
    }
    null
}

/// "The new row replaces that entity's row at c or takes a new row."
fn with_row(description: &Description, tables: &Tables, uplevel: &Uplevel, who: Entity) -> Tables {
    let columns = 1..=description.relation(uplevel.relation).columns();
    let row: Row = columns.map(|column| new_cell(description, tables, uplevel, who, column)).collect();
    let mut new = tables.clone();
    if uplevel.from.is_empty() {
        reached::note("UPLEVEL, an empty list");
    }
    if let Some(old) = new.row_of_mut(uplevel.relation, uplevel.level, who) {
        reached::note("UPLEVEL, a row replaced");
        *old = row.clone();
        null_cells_above(description, &mut new, uplevel, who, &row);
    } else if let Some(place) = tables.lowest_empty(uplevel.relation, uplevel.level) {
        note_freed(tables, uplevel.relation, uplevel.level, place);
        reached::note("UPLEVEL, a new row");
        new.put(uplevel.relation, uplevel.level, place, row);
    }
    new
}

/// "Where a row was replaced, that entity's cells of class c above, same column, that differ from the new cell in value or class become null,
/// class kept."
fn null_cells_above(description: &Description, new: &mut Tables, uplevel: &Uplevel, who: Entity, row: &Row) {
    for level in description.levels_above(uplevel.level) {
        let above = new.row_of_mut(uplevel.relation, level, who).into_iter().flatten();
        for (cell, replaced) in above.zip(row).skip(1) {
            if cell.class != uplevel.level {
                continue;
            }
            if cell.value != 0 {
                reached::note(if cell == replaced { "UPLEVEL, a cell above kept" } else { "UPLEVEL, a cell above nulled" });
            }
            if cell != replaced {
                cell.value = 0;
            }
        }
    }
}

/// Notes what the lender has to say.
fn note_lender(tables: &Tables, uplevel: &Uplevel, who: Entity, column: usize, lender: usize) {
    let whose = if lender == uplevel.level { "the own level" } else { "a lender" };
    let says = match tables.row_of(uplevel.relation, lender, who).map(|row| cell(row, column)) {
        None => "without a row",
        Some(held) if held.class == lender && held.value != 0 => "with a value",
        Some(held) if held.class == lender => "with a null of its own",
        Some(held) if held.class == NO_CLASS => "with a null without a class",
        Some(held) if held.value == 0 => "with a null from below",
        Some(_) => "that borrows itself",
    };
    reached::note(&format!("UPLEVEL, FROM {whose} {says}"));
}
