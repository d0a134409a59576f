// What is wrong with a description, if anything: the first breach of its rules, with its line. It is looked for only where mlrun has refused
// something, to tell people where the fault is.

use crate::names::Names;
use crate::record::Relation;
use crate::state::State;

/// The most levels, relations, columns of a relation, rows for each level and cells in all.
const LEVELS: usize = 16;
const RELATIONS: usize = 8;
const COLUMNS: usize = 8;
const ROWS: u16 = 64;
const CELLS: usize = 8192;
const LABEL: u16 = 4095;

pub fn fault(state: &State, names: &Names) -> Option<(usize, String)> {
    let (line, labels) = &state.labels;
    if let Some(why) = labels_fault(labels) {
        return Some((*line, why));
    }
    if state.relations.is_empty() {
        return Some((*line, "no RELATION follows these labels".to_string()));
    }
    let mut cells = 0;
    for (at, (line, relation)) in state.relations.iter().enumerate() {
        if let Some(why) = relation_fault(state, names, at + 1, relation) {
            return Some((*line, why));
        }
        cells += labels.len() * relation.ranges.len() * usize::from(relation.rows);
        if cells > CELLS {
            return Some((*line, format!("with this relation there are {cells} cells, and the most is {CELLS}")));
        }
    }
    None
}

fn labels_fault(labels: &[u16]) -> Option<String> {
    if labels.is_empty() || labels.len() > LEVELS {
        return Some(format!("there are {} levels, and there may be 1 to {LEVELS}", labels.len()));
    }
    if let Some(label) = labels.iter().find(|label| **label > LABEL) {
        return Some(format!("label {label} is over {LABEL}"));
    }
    let twice = labels.iter().enumerate().find(|(at, label)| labels[..*at].contains(label));
    twice.map(|(_, label)| format!("two levels have the label {label}"))
}

fn relation_fault(state: &State, names: &Names, number: usize, relation: &Relation) -> Option<String> {
    if number > RELATIONS {
        return Some(format!("this is relation {number}, and there may be 1 to {RELATIONS}"));
    }
    let columns = relation.ranges.len();
    if columns == 0 || columns > COLUMNS {
        return Some(format!("the relation has {columns} columns, and may have 1 to {COLUMNS}"));
    }
    if relation.rows == 0 || relation.rows > ROWS {
        return Some(format!("the relation has {} rows for each level, and may have 1 to {ROWS}", relation.rows));
    }
    for (at, (low, high)) in relation.ranges.iter().enumerate() {
        let column = names.column(number as u32, at as u32 + 1);
        if let Some(level) = [low, high].into_iter().find(|level| !state.is_level(u32::from(**level))) {
            return Some(format!("{column} has {} in its range, which is no level", names.level(u32::from(*level))));
        }
        if !state.dominates(*high, *low) {
            let (low, high) = (names.level(u32::from(*low)), names.level(u32::from(*high)));
            return Some(format!("the range of {column} goes from {low} to {high}, and {high} doesn't dominate {low}"));
        }
    }
    reference_fault(number, relation)
}

fn reference_fault(number: usize, relation: &Relation) -> Option<String> {
    let (foreign, referred) = (usize::from(relation.foreign), usize::from(relation.referred));
    if (foreign, referred) == (0, 0) {
        None
    } else if foreign < 2 || foreign > relation.ranges.len() {
        Some(format!("the reference is column {foreign}, and may be column 2 to the last"))
    } else if referred == 0 || referred >= number {
        Some(format!("the reference is to relation {referred}, and may be to one that stands above"))
    } else {
        None
    }
}
