// A record as bytes: body length and kind, two bytes each, then the body. Every number has its low byte first.

use crate::record::{Condition, Record, Relation, What};

/// The record's bytes. The length field has room for every body that may be written, of at most 1,024 bytes.
pub fn encode(record: &Record) -> Vec<u8> {
    let body = body(record);
    let mut bytes = Vec::with_capacity(4 + body.len());
    half(&mut bytes, body.len() as u16);
    half(&mut bytes, record.kind());
    bytes.extend(body);
    bytes
}

pub fn body(record: &Record) -> Vec<u8> {
    let mut out = Vec::new();
    match record {
        Record::Labels(labels) => labels.iter().for_each(|label| half(&mut out, *label)),
        Record::Relation(relation) => describe(&mut out, relation),
        Record::Row { relation, level, cells } => {
            half(&mut out, *relation);
            half(&mut out, *level);
            for cell in cells {
                full(&mut out, cell.value);
                half(&mut out, cell.class);
            }
        }
        Record::Statement { level, relation, what } => {
            half(&mut out, *level);
            half(&mut out, *relation);
            ask(&mut out, what);
        }
    }
    out
}

fn describe(out: &mut Vec<u8>, relation: &Relation) {
    half(out, relation.ranges.len() as u16);
    half(out, relation.rows);
    half(out, relation.foreign);
    half(out, relation.referred);
    for (low, high) in &relation.ranges {
        half(out, *low);
        half(out, *high);
    }
}

fn ask(out: &mut Vec<u8>, what: &What) {
    match what {
        What::Insert { values: list } => values(out, list),
        What::Delete { conditions: list } => conditions(out, list),
        What::Update { values: list, conditions: met } => {
            values(out, list);
            conditions(out, met);
        }
        What::Uplevel { key, class, from } => {
            full(out, *key);
            half(out, *class);
            half(out, from.len() as u16);
            for (column, level) in from {
                half(out, *column);
                half(out, *level);
            }
        }
        What::Select { at, conditions: met } => {
            half(out, at.len() as u16);
            at.iter().for_each(|level| half(out, *level));
            conditions(out, met);
        }
    }
}

fn values(out: &mut Vec<u8>, list: &[(u16, u32)]) {
    half(out, list.len() as u16);
    for (column, value) in list {
        half(out, *column);
        full(out, *value);
    }
}

fn conditions(out: &mut Vec<u8>, list: &[Condition]) {
    half(out, list.len() as u16);
    for condition in list {
        half(out, condition.column);
        half(out, condition.mark);
        half(out, condition.test);
        full(out, condition.constant);
    }
}

fn half(out: &mut Vec<u8>, number: u16) {
    out.extend(number.to_le_bytes());
}

fn full(out: &mut Vec<u8>, number: u32) {
    out.extend(number.to_le_bytes());
}
