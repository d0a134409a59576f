//! "**DELETE**: among rows at c that meet the conditions, each is emptied."

use super::conditions::{self, Condition};
use super::description::Description;
use super::fields::place_faults;
use super::tables::*;
use super::{least, Outcome};
use crate::reached;

#[derive(Clone)]
pub struct Delete {
    pub level: usize,
    pub relation: usize,
    pub conditions: Vec<Condition>,
}

pub fn answer(description: &Description, tables: &Tables, delete: &Delete) -> Outcome {
    let met = entities_met(description, tables, delete);
    let grounds = [(12, some_row_refers(description, tables, delete, &met))];
    match least("DELETE", &grounds) {
        Some(number) => Outcome::Refused(number),
        None => Outcome::Changed(with_rows_emptied(description, tables, delete, &met), met.len()),
    }
}

/// Number 4.
pub fn faults(description: &Description, delete: &Delete) -> Vec<&'static str> {
    let mut faults = place_faults(description, delete.level, delete.relation);
    if description.has_relation(delete.relation) {
        faults.extend(conditions::faults(description, delete.relation, &delete.conditions));
    }
    faults
}

/// The entities of the rows at c that meet the conditions. Legal tables have one row of an entity at a level.
fn entities_met(description: &Description, tables: &Tables, delete: &Delete) -> Vec<Entity> {
    let rows = tables.rows(delete.relation, delete.level);
    rows.filter(|row| conditions::meets(description, row, &delete.conditions)).map(entity).collect()
}

/// Number 12: "a row at c refers to a row to be emptied".
fn some_row_refers(description: &Description, tables: &Tables, delete: &Delete, met: &[Entity]) -> bool {
    let emptied = |key: u32| met.iter().any(|who| who.key == key);
    description.referring_to(delete.relation).into_iter().any(|(relation, foreign)| {
        let mut references = tables.rows(relation, delete.level).map(|row| cell(row, foreign).value);
        references.any(|reference| reference != 0 && emptied(reference))
    })
}

fn with_rows_emptied(description: &Description, tables: &Tables, delete: &Delete, met: &[Entity]) -> Tables {
    let mut new = tables.clone();
    for &who in met {
        new.empty_row_of(delete.relation, delete.level, who);
        if who.class == delete.level {
            empty_entity_above(description, tables, &mut new, delete, who);
        } else {
            null_cells_above(description, &mut new, delete, who);
        }
    }
    new
}

/// "If its key class is c, every row of that entity above c is emptied; then at each level above, in every relation referring to it, a
/// reference whose named row was emptied becomes null, class kept."
fn empty_entity_above(description: &Description, old: &Tables, new: &mut Tables, delete: &Delete, who: Entity) {
    for level in description.levels_above(delete.level) {
        if old.row_of(delete.relation, level, who).is_none() {
            continue;
        }
        reached::note("DELETE, an entity's row above emptied");
        new.empty_row_of(delete.relation, level, who);
        for (relation, foreign) in description.referring_to(delete.relation) {
            for row in new.rows_mut(relation, level) {
                null_reference(&mut row[foreign - 1], level, who.key);
            }
        }
    }
}

fn null_reference(reference: &mut Cell, level: usize, key: u32) {
    if reference.value == key {
        let whose = if reference.class == level { "its level's own" } else { "a borrowed" };
        reached::note(&format!("DELETE, {whose} reference above nulled"));
        reference.value = 0;
    }
}

/// "If its key class is below c, cells of class c in that entity's rows above c become null, class kept."
fn null_cells_above(description: &Description, new: &mut Tables, delete: &Delete, who: Entity) {
    for level in description.levels_above(delete.level) {
        let row = new.row_of_mut(delete.relation, level, who).into_iter().flatten();
        for cell in row.filter(|cell| cell.class == delete.level) {
            if cell.value != 0 {
                reached::note("DELETE, a cell of its class above nulled");
            }
            cell.value = 0;
        }
    }
}
