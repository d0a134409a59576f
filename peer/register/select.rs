//! "**SELECT**: rows at the AT levels (none listed: c alone) that meet the conditions, all columns."

use super::conditions::{self, Condition};
use super::description::Description;
use super::fields::{place_faults, some_twice};
use super::tables::*;
use super::{least, Outcome};
use crate::reached;

#[derive(Clone)]
pub struct Select {
    pub level: usize,
    pub relation: usize,
    pub at: Vec<usize>,
    pub conditions: Vec<Condition>,
}

/// A row of the answer, with its TC.
pub struct Shown {
    pub level: usize,
    pub row: Row,
}

pub fn answer(description: &Description, tables: &Tables, select: &Select) -> Outcome {
    let grounds = [(5, not_dominated(description, select))];
    match least("SELECT", &grounds) {
        Some(number) => Outcome::Refused(number),
        None => Outcome::Shown(rows_shown(description, tables, select)),
    }
}

/// Number 4: AT levels that do not exist or are listed twice, besides what statements share.
pub fn faults(description: &Description, select: &Select) -> Vec<&'static str> {
    let mut faults = place_faults(description, select.level, select.relation);
    if select.at.iter().any(|&level| !description.has_level(level)) {
        faults.push("no such level");
    }
    if some_twice(&select.at) {
        faults.push("an AT level twice");
    }
    if description.has_relation(select.relation) {
        faults.extend(conditions::faults(description, select.relation, &select.conditions));
    }
    faults
}

/// Number 5: "a .. AT .. level isn't dominated by c".
pub fn not_dominated(description: &Description, select: &Select) -> bool {
    select.at.iter().any(|&level| !description.dominates(select.level, level))
}

/// "Levels come by height, then number; rows by position."
fn rows_shown(description: &Description, tables: &Tables, select: &Select) -> Vec<Shown> {
    let mut levels = if select.at.is_empty() { vec![select.level] } else { select.at.clone() };
    note_levels(description, select);
    levels.sort_by_key(|&level| (description.height(level), level));
    let mut shown = Vec::new();
    for level in levels {
        for row in tables.rows(select.relation, level) {
            if conditions::meets(description, row, &select.conditions) {
                shown.push(Shown { level, row: row.clone() });
            }
        }
    }
    shown
}

fn note_levels(description: &Description, select: &Select) {
    let heights: Vec<u32> = select.at.iter().map(|&level| description.height(level)).collect();
    let against = |a: usize, b: usize| select.at[a] < select.at[b] && heights[a] > heights[b];
    let numbers = 0..select.at.len();
    if select.at.is_empty() {
        reached::note("SELECT, no AT level");
    }
    if numbers.clone().any(|a| numbers.clone().any(|b| against(a, b))) {
        reached::note("SELECT, a level with a lower number that is higher");
    }
    if numbers.clone().any(|a| (0..a).any(|b| heights[a] == heights[b])) {
        reached::note("SELECT, levels of one height");
    }
    if numbers.clone().any(|a| (0..a).any(|b| select.at[a] < select.at[b])) {
        reached::note("SELECT, AT levels not in the order of their numbers");
    }
}
