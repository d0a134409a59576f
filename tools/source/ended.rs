// Why mlrun could not read a record, as far as the record and what stands before it tell: the line that is at fault, and what is wrong with it.

use crate::decode::Found;
use crate::names::Names;
use crate::record::{Record, NO_CLASS};
use crate::sound;
use crate::state::State;

pub fn reason(state: &State, names: &Names, line: usize, found: &Found) -> (usize, String) {
    let record = match found {
        Found::Record(record) => record,
        Found::Bytes { why, .. } => return (line, why.clone()),
    };
    if let Some(why) = out_of_order(state.last, record.kind()) {
        return (line, why.to_string());
    }
    if let Record::Row { relation, level, cells } = record {
        if let Some((at, why)) = sound::fault(state, names) {
            return (at, format!("{why}; so the description breaks a rule, and the row of line {line} can't be placed"));
        }
        let classes: Vec<u16> = cells.iter().map(|cell| cell.class).collect();
        if let Some(why) = unplaced(state, names, (*relation, *level), &classes) {
            return (line, why);
        }
    }
    (line, "mlrun can't read this record, and why isn't known".to_string())
}

// LABELS comes once and first, then every RELATION, then every ROW, then the statements.
fn out_of_order(last: Option<u16>, kind: u16) -> Option<&'static str> {
    match (last, kind) {
        (None, 2..) => Some("LABELS must come first"),
        (Some(_), 1) => Some("LABELS must come once, before everything else"),
        (Some(3), 2) => Some("a RELATION must come before every ROW"),
        (Some(16..), 2) => Some("a RELATION must come before every statement"),
        (Some(16..), 3) => Some("a ROW must come before every statement"),
        _ => None,
    }
}

fn unplaced(state: &State, names: &Names, (number, level): (u16, u16), classes: &[u16]) -> Option<String> {
    let relation = match state.relation(number) {
        Some(relation) => relation,
        None => return Some(format!("there is no relation {number}")),
    };
    let (called, columns) = (names.relation(number.into()), relation.ranges.len());
    if !state.is_level(level.into()) {
        Some(format!("there is no level {level}"))
    } else if classes.len() != columns {
        Some(format!("the row has {} cells, and {called} has {columns} columns", classes.len()))
    } else if let Some(class) = classes.iter().find(|class| **class > NO_CLASS) {
        Some(format!("class {class} is over {NO_CLASS}"))
    } else if state.is_full(number, level) {
        Some(format!("{called} has {} rows for each level, and those of {} are in use", relation.rows, names.level(level.into())))
    } else {
        None
    }
}
