//! "Conditions: 0 to 4, all must hold. Each names a column, its value or its class, a test and a constant."

use super::description::Description;
use super::tables::*;
use crate::reached;

/// `mark` is 0 for the column's value and 1 for its class.
#[derive(Clone)]
pub struct Condition {
    pub column: usize,
    pub mark: usize,
    pub test: usize,
    pub constant: u32,
}

/// What is wrong with conditions on an existing relation.
pub fn faults(description: &Description, relation: usize, conditions: &[Condition]) -> Vec<&'static str> {
    let mut faults = Vec::new();
    if conditions.len() > 4 {
        faults.push("over 4 conditions");
    }
    for condition in conditions {
        if !description.relation(relation).has_column(condition.column) {
            faults.push("no such column in a condition");
        }
        if condition.mark > 1 {
            faults.push("a bad mark");
        }
        if condition.test < 1 || condition.test > 5 {
            faults.push("no such test");
        }
        faults.extend(constant_fault(description, condition));
    }
    faults
}

/// "A null meets only test 5, whose constant is 0. For tests 1 to 4 a value constant is non-zero and a class constant is a level."
fn constant_fault(description: &Description, condition: &Condition) -> Option<&'static str> {
    match (condition.test, condition.mark) {
        (5, 0) if condition.constant != 0 => Some("a value tested null with a constant"),
        (5, 1) if condition.constant != 0 => Some("a class tested null with a constant"),
        (1..=4, 0) if condition.constant == 0 => Some("a value constant 0"),
        (1..=4, 1) if !description.has_level(condition.constant as usize) => Some("a class constant that is no level"),
        _ => None,
    }
}

/// "all must hold"
pub fn meets(description: &Description, row: &Row, conditions: &[Condition]) -> bool {
    conditions.iter().all(|condition| holds(description, row, condition))
}

fn holds(description: &Description, row: &Row, condition: &Condition) -> bool {
    let cell = cell(row, condition.column);
    let (what, null, met) = if condition.mark == 0 {
        ("value", cell.value == 0, value_meets(cell.value, condition.test, condition.constant))
    } else {
        ("class", cell.class == NO_CLASS, class_meets(description, cell.class, condition.test, condition.constant as usize))
    };
    if reached::on() {
        let by = if null { "null" } else { what };
        reached::note(&format!("test {} on a {what}, {} by a {by}", condition.test, if met { "met" } else { "unmet" }));
    }
    met
}

/// "Tests: 1 equal, 2 not equal, 3 less, 4 at most, 5 null." "A null meets only test 5".
fn value_meets(value: u32, test: usize, constant: u32) -> bool {
    if value == 0 {
        return test == 5;
    }
    match test {
        1 => value == constant,
        2 => value != constant,
        3 => value < constant,
        4 => value <= constant,
        _ => false,
    }
}

/// "For classes, 3 is strictly dominated by and 4 dominated by."
fn class_meets(description: &Description, class: usize, test: usize, constant: usize) -> bool {
    if class == NO_CLASS {
        return test == 5;
    }
    match test {
        1 => class == constant,
        2 => class != constant,
        3 => description.above(constant, class),
        4 => description.dominates(constant, class),
        _ => false,
    }
}
