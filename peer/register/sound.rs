//! Number 1: "the description breaks a limit, a label or relation is not as above, or L is not dominated by H".

use super::description::*;
use crate::reached;

/// What is wrong with a description, in words; nothing where it is sound.
pub fn faults(description: &Description) -> Vec<&'static str> {
    let mut faults = level_faults(description);
    faults.extend(relation_count_faults(description));
    for number in description.relation_numbers() {
        faults.extend(size_faults(description.relation(number)));
        faults.extend(range_faults(description, description.relation(number)));
        faults.extend(foreign_faults(description.relation(number), number));
    }
    if description.cells() > MOST_CELLS {
        faults.push("over 8,192 cells");
    }
    faults
}

/// "A description lists 1 to 16 levels", "Each has a distinct label 0 to 4095".
fn level_faults(description: &Description) -> Vec<&'static str> {
    let labels = &description.labels;
    let mut faults = Vec::new();
    if labels.is_empty() {
        faults.push("no level");
    }
    if labels.len() > MOST_LEVELS {
        faults.push("over 16 levels");
    }
    if labels.iter().any(|&label| label > GREATEST_LABEL) {
        faults.push("a label over 4095");
    }
    if description.levels().any(|level| labels[..level].contains(&labels[level])) {
        faults.push("equal labels");
    }
    faults
}

/// "1 to 8 relations"
fn relation_count_faults(description: &Description) -> Vec<&'static str> {
    match description.relations.len() {
        0 => vec!["no relation"],
        count if count > MOST_RELATIONS => vec!["over 8 relations"],
        _ => vec![],
    }
}

/// "Each has 1 to 8 columns (column 1 is the key), 1 to 64 rows for EACH level"
fn size_faults(relation: &Relation) -> Vec<&'static str> {
    let mut faults = Vec::new();
    match relation.columns() {
        0 => faults.push("no column"),
        count if count > MOST_COLUMNS => faults.push("over 8 columns"),
        _ => {}
    }
    match relation.rows {
        0 => faults.push("no row"),
        count if count > MOST_ROWS => faults.push("over 64 rows"),
        _ => {}
    }
    faults
}

/// "a range L to H of levels per column"; "or L is not dominated by H". Where there is no level, that is the fault.
fn range_faults(description: &Description, relation: &Relation) -> Vec<&'static str> {
    let mut faults = Vec::new();
    if description.labels.is_empty() {
        return faults;
    }
    for &(low, high) in &relation.ranges {
        if !description.has_level(low) {
            faults.push("L is no level");
        } else if !description.has_level(high) {
            faults.push("H is no level");
        } else if !description.dominates(high, low) {
            faults.push("L not dominated by H");
        }
    }
    faults
}

/// "At most one foreign key column, never column 1, referring to a lower-numbered relation's key"; "0 0: none, else both non-zero".
fn foreign_faults(relation: &Relation, number: usize) -> Vec<&'static str> {
    let mut faults = Vec::new();
    match (relation.foreign, relation.refers) {
        (0, 0) => {}
        (0, _) => faults.push("a referred relation without a foreign column"),
        (_, 0) => faults.push("a foreign column without a referred relation"),
        (foreign, refers) => {
            if foreign == 1 {
                faults.push("foreign column 1");
            }
            if foreign > relation.columns() {
                faults.push("no such foreign column");
            }
            if refers == number {
                faults.push("a reference to the relation itself");
            }
            if refers > number {
                faults.push("a reference to a higher relation");
            }
        }
    }
    faults
}

/// Notes the one thing that is wrong, and on which side of a limit the description stands.
pub fn note(description: &Description, faults: &[&str]) {
    if faults.len() > 1 {
        return;
    }
    if let [fault] = faults {
        reached::note(&format!("1, {fault}"));
    }
    let said = if faults.is_empty() { "accepted" } else { "refused" };
    let most = |count: fn(&Relation) -> usize| description.relations.iter().map(count).max().unwrap_or(0);
    let columns = most(|relation| relation.columns());
    let rows = most(|relation| relation.rows);
    let label = description.labels.iter().copied().max().unwrap_or(0);
    let sides = [
        ("levels", description.labels.len() as u64, [16, 17]),
        ("relations", description.relations.len() as u64, [8, 9]),
        ("columns", columns as u64, [8, 9]),
        ("rows", rows as u64, [64, 65]),
        ("cells", description.cells(), [8192, 8193]),
        ("label", label as u64, [4095, 4096]),
    ];
    for (what, count, [inside, outside]) in sides {
        if count == inside && faults.is_empty() || count == outside && !faults.is_empty() {
            reached::note(&format!("limit, {what} {count} {said}"));
        }
    }
}
