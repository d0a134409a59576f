//! "**UPDATE**: each row at c that meets the conditions gets (value, c) in each SET column."

use super::conditions::{self, Condition};
use super::description::Description;
use super::fields::{column_faults, place_faults};
use super::tables::*;
use super::{least, Outcome};
use crate::reached;

#[derive(Clone)]
pub struct Update {
    pub level: usize,
    pub relation: usize,
    pub set: Vec<(usize, u32)>,
    pub conditions: Vec<Condition>,
}

pub fn answer(description: &Description, tables: &Tables, update: &Update) -> Outcome {
    let met = entities_met(description, tables, update);
    let grounds = [(6, out_of_range(description, update)), (11, !met.is_empty() && reference_without_row(description, tables, update))];
    match least("UPDATE", &grounds) {
        Some(number) => Outcome::Refused(number),
        None => Outcome::Changed(with_cells_set(description, tables, update, &met), met.len()),
    }
}

/// Number 4: "key in SET", "empty SET" besides what statements share.
pub fn faults(description: &Description, update: &Update) -> Vec<&'static str> {
    let mut faults = place_faults(description, update.level, update.relation);
    let columns: Vec<usize> = update.set.iter().map(|&(column, _)| column).collect();
    if description.has_relation(update.relation) {
        faults.extend(column_faults(description, update.relation, &columns));
        faults.extend(conditions::faults(description, update.relation, &update.conditions));
    }
    if columns.contains(&1) {
        faults.push("key in SET");
    }
    if columns.is_empty() {
        faults.push("empty SET");
    }
    faults
}

/// The entities of the rows at c that meet the conditions.
fn entities_met(description: &Description, tables: &Tables, update: &Update) -> Vec<Entity> {
    let rows = tables.rows(update.relation, update.level);
    rows.filter(|row| conditions::meets(description, row, &update.conditions)).map(entity).collect()
}

/// Number 6: "c outside the range of a .. SET column".
fn out_of_range(description: &Description, update: &Update) -> bool {
    update.set.iter().any(|&(column, _)| !description.in_range(update.relation, column, update.level))
}

/// Number 11: "UPDATE with a row met, ..: non-null reference and no row with that key at c".
fn reference_without_row(description: &Description, tables: &Tables, update: &Update) -> bool {
    let relation = description.relation(update.relation);
    let reference = update.set.iter().find(|&&(column, _)| column == relation.foreign);
    match reference {
        None | Some((_, 0)) => false,
        Some(&(_, key)) => tables.row_with_key(relation.refers, update.level, key).is_none(),
    }
}

fn with_cells_set(description: &Description, tables: &Tables, update: &Update, met: &[Entity]) -> Tables {
    let mut new = tables.clone();
    for &who in met {
        for &(column, value) in &update.set {
            if value == 0 {
                reached::note("UPDATE, a null set");
            }
            if let Some(row) = new.row_of_mut(update.relation, update.level, who) {
                row[column - 1] = Cell { value, class: update.level };
            }
            set_above(description, tables, &mut new, update, who, (column, value));
        }
    }
    new
}

/// "In that entity's rows above c, cells of class c in that column take the value."
fn set_above(description: &Description, old: &Tables, new: &mut Tables, update: &Update, who: Entity, (column, value): (usize, u32)) {
    for level in description.levels_above(update.level) {
        let row = match new.row_of_mut(update.relation, level, who) {
            Some(row) => row,
            None => continue,
        };
        let cell = &mut row[column - 1];
        if cell.class != update.level {
            continue;
        }
        if cell.value == 0 && value != 0 {
            reached::note("UPDATE, a waiting null above");
        }
        if takes(description, old, update, level, (column, value)) {
            reached::note("UPDATE, a cell above takes the value");
            cell.value = value;
        } else {
            *cell = description.own_null(update.relation, column, level);
            let class = if cell.class == NO_CLASS { "without a class" } else { "of its level" };
            reached::note(&format!("UPDATE, a reference above turned own null {class}"));
        }
    }
}

/// "For a non-null reference, a row above takes it only if the row it would name there is the same entity as at c; otherwise that cell becomes
/// own null of its row's level."
fn takes(description: &Description, old: &Tables, update: &Update, level: usize, (column, value): (usize, u32)) -> bool {
    let relation = description.relation(update.relation);
    if column != relation.foreign || value == 0 {
        return true;
    }
    let here = old.row_with_key(relation.refers, update.level, value).map(entity);
    let there = old.row_with_key(relation.refers, level, value).map(entity);
    reached::note(match there {
        None => "UPDATE, a reference that names no row above",
        Some(_) if there == here => "UPDATE, a reference that names the same entity above",
        Some(_) => "UPDATE, a reference that names another entity above",
    });
    there == here
}
