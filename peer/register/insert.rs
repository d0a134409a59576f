//! "**INSERT** (columns and values): listed cells become (value, c), unlisted ones own null."

use super::description::Description;
use super::fields::{column_faults, place_faults};
use super::tables::*;
use super::{least, note_freed, note_outside, Outcome};
use crate::reached;

#[derive(Clone)]
pub struct Insert {
    pub level: usize,
    pub relation: usize,
    pub listed: Vec<(usize, u32)>,
}

pub fn answer(description: &Description, tables: &Tables, insert: &Insert) -> Outcome {
    let grounds = [
        (6, out_of_range(description, insert)),
        (9, key_present(tables, insert)),
        (11, reference_without_row(description, tables, insert)),
        (13, tables.lowest_empty(insert.relation, insert.level).is_none()),
    ];
    match least("INSERT", &grounds) {
        Some(number) => Outcome::Refused(number),
        None => Outcome::Changed(with_new_row(description, tables, insert), 1),
    }
}

/// Number 4: "key missing or 0" besides what statements share.
pub fn faults(description: &Description, insert: &Insert) -> Vec<&'static str> {
    let mut faults = place_faults(description, insert.level, insert.relation);
    let columns: Vec<usize> = insert.listed.iter().map(|&(column, _)| column).collect();
    if description.has_relation(insert.relation) {
        faults.extend(column_faults(description, insert.relation, &columns));
    }
    match listed_value(insert, 1) {
        None => faults.push("key missing"),
        Some(0) => faults.push("key 0"),
        Some(_) => {}
    }
    faults
}

fn listed_value(insert: &Insert, column: usize) -> Option<u32> {
    insert.listed.iter().find(|&&(listed, _)| listed == column).map(|&(_, value)| value)
}

/// Number 6: "c outside the range of a listed INSERT column".
fn out_of_range(description: &Description, insert: &Insert) -> bool {
    let outside = |column: usize| !description.in_range(insert.relation, column, insert.level);
    let columns: Vec<usize> = insert.listed.iter().map(|&(column, _)| column).filter(|&column| outside(column)).collect();
    note_outside(description, insert.relation, &columns, insert.level);
    match columns.as_slice() {
        [] => {}
        [1] => reached::note("INSERT 6, the key column"),
        columns if !columns.contains(&1) => reached::note("INSERT 6, another column"),
        _ => {}
    }
    !columns.is_empty()
}

/// Number 9: "INSERT: key present at c".
fn key_present(tables: &Tables, insert: &Insert) -> bool {
    let key = listed_value(insert, 1).unwrap_or(0);
    let present = tables.row_with_key(insert.relation, insert.level, key);
    if let Some(row) = present {
        let whose = if row[0].class == insert.level { "its own" } else { "a borrowed" };
        reached::note(&format!("INSERT, the key present in {whose} row"));
    }
    present.is_some()
}

/// Number 11: "non-null reference and no row with that key at c".
fn reference_without_row(description: &Description, tables: &Tables, insert: &Insert) -> bool {
    let relation = description.relation(insert.relation);
    match listed_value(insert, relation.foreign) {
        None | Some(0) => false,
        Some(key) => tables.row_with_key(relation.refers, insert.level, key).is_none(),
    }
}

fn with_new_row(description: &Description, tables: &Tables, insert: &Insert) -> Tables {
    let columns = 1..=description.relation(insert.relation).columns();
    let row: Row = columns.map(|column| new_cell(description, insert, column)).collect();
    let mut new = tables.clone();
    if let Some(place) = tables.lowest_empty(insert.relation, insert.level) {
        note_freed(tables, insert.relation, insert.level, place);
        new.put(insert.relation, insert.level, place, row);
    }
    new
}

fn new_cell(description: &Description, insert: &Insert, column: usize) -> Cell {
    if let Some(value) = listed_value(insert, column) {
        if value == 0 {
            reached::note("INSERT, a null listed");
        }
        return Cell { value, class: insert.level };
    }
    let null = description.own_null(insert.relation, column, insert.level);
    if null.class == NO_CLASS {
        reached::note("INSERT, own null without a class");
    }
    null
}
