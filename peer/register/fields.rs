//! Number 4, as far as statements share it: "subject, relation, column, level or test does not exist; a column or AT level listed twice".

use super::description::Description;

/// Whether the subject's level and the relation exist.
pub fn place_faults(description: &Description, level: usize, relation: usize) -> Vec<&'static str> {
    let mut faults = Vec::new();
    if !description.has_level(level) {
        faults.push("no such subject");
    }
    if !description.has_relation(relation) {
        faults.push("no such relation");
    }
    faults
}

/// Whether the listed columns of an existing relation exist, each listed once.
pub fn column_faults(description: &Description, relation: usize, columns: &[usize]) -> Vec<&'static str> {
    let mut faults = Vec::new();
    if columns.iter().any(|&column| !description.relation(relation).has_column(column)) {
        faults.push("no such column");
    }
    if some_twice(columns) {
        faults.push("a column twice");
    }
    faults
}

pub fn some_twice(list: &[usize]) -> bool {
    (0..list.len()).any(|last| list[..last].contains(&list[last]))
}
