//! Records as bytes: what `register/records.rs` reads.

use crate::register::conditions::Condition;
use crate::register::description::{Description, Relation};
use crate::register::tables::Row;
use crate::register::Statement;

/// A record of any kind and body. A length that two bytes can't hold is cut down to them.
pub fn record(kind: usize, body: Vec<u8>) -> Vec<u8> {
    let mut bytes = two(body.len());
    bytes.extend(two(kind));
    bytes.extend(body);
    bytes
}

fn two(number: usize) -> Vec<u8> {
    (number as u16).to_le_bytes().to_vec()
}

fn four(number: u32) -> Vec<u8> {
    number.to_le_bytes().to_vec()
}

pub fn labels(labels: &[u32]) -> Vec<u8> {
    record(1, labels.iter().flat_map(|&label| two(label as usize)).collect())
}

pub fn relation(relation: &Relation) -> Vec<u8> {
    let numbers = [relation.columns(), relation.rows, relation.foreign, relation.refers];
    let mut body: Vec<u8> = numbers.into_iter().flat_map(two).collect();
    body.extend(relation.ranges.iter().flat_map(|&(low, high)| [two(low), two(high)].concat()));
    record(2, body)
}

pub fn description(description: &Description) -> Vec<Vec<u8>> {
    let mut records = vec![labels(&description.labels)];
    records.extend(description.relations.iter().map(relation));
    records
}

pub fn row(relation: usize, level: usize, row: &Row) -> Vec<u8> {
    let mut body = [two(relation), two(level)].concat();
    body.extend(row.iter().flat_map(|cell| [four(cell.value), two(cell.class)].concat()));
    record(3, body)
}

fn pairs(list: &[(usize, u32)]) -> Vec<u8> {
    let mut body = two(list.len());
    body.extend(list.iter().flat_map(|&(column, value)| [two(column), four(value)].concat()));
    body
}

fn conditions(list: &[Condition]) -> Vec<u8> {
    let mut body = two(list.len());
    for condition in list {
        body.extend([two(condition.column), two(condition.mark), two(condition.test), four(condition.constant)].concat());
    }
    body
}

pub fn statement(statement: &Statement) -> Vec<u8> {
    match statement {
        Statement::Insert(insert) => record(16, [two(insert.level), two(insert.relation), pairs(&insert.listed)].concat()),
        Statement::Delete(delete) => record(17, [two(delete.level), two(delete.relation), conditions(&delete.conditions)].concat()),
        Statement::Update(update) => {
            let lists = [pairs(&update.set), conditions(&update.conditions)].concat();
            record(18, [two(update.level), two(update.relation), lists].concat())
        }
        Statement::Uplevel(uplevel) => {
            let key = [four(uplevel.key), two(uplevel.key_class), two(uplevel.from.len())].concat();
            let from = uplevel.from.iter().flat_map(|&(column, level)| [two(column), two(level)].concat()).collect();
            record(19, [two(uplevel.level), two(uplevel.relation), key, from].concat())
        }
        Statement::Select(select) => {
            let at = select.at.iter().flat_map(|&level| two(level)).collect();
            let lists = [two(select.at.len()), at, conditions(&select.conditions)].concat();
            record(20, [two(select.level), two(select.relation), lists].concat())
        }
    }
}
