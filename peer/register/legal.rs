//! "Tables are legal when every non-empty row and cell satisfies": the rules, one after the other.

use super::description::Description;
use super::tables::*;
use crate::reached;
use std::collections::{BTreeMap, BTreeSet};

type Rule = fn(&Description, &Tables) -> bool;

/// Every rule with its name.
const RULES: [(&str, Rule); 11] = [
    ("a value's class out of range", values_have_classes_in_range),
    ("a null's class out of range", nulls_have_classes_in_range_or_none),
    ("a class that TC doesn't dominate", tuple_class_dominates_classes),
    ("a key null", keys_are_not_null),
    ("a class that doesn't dominate the key's", classes_dominate_key_class),
    ("two rows with one key", one_row_for_a_key),
    ("equal classes with two values", equal_classes_mean_equal_values),
    ("a borrowed value that isn't lent", borrowed_values_are_lent),
    ("a reference without a row", references_have_rows),
    ("a reference below the key class it names", references_dominate_named_key_classes),
    ("a borrowed reference to another entity", borrowed_references_name_one_entity),
];

/// The names of the rules that tables break; none where they are legal.
pub fn broken_rules(description: &Description, tables: &Tables) -> Vec<&'static str> {
    RULES.iter().filter(|(_, holds)| !holds(description, tables)).map(|(name, _)| *name).collect()
}

/// Whether something is so of every cell: its relation, level, row and column are given.
fn every_cell(tables: &Tables, holds: impl Fn(usize, usize, &Row, usize) -> bool) -> bool {
    tables.all_rows().all(|(relation, level, row)| (1..=row.len()).all(|column| holds(relation, level, row, column)))
}

/// "Form: a non-null value has a class in range"
fn values_have_classes_in_range(description: &Description, tables: &Tables) -> bool {
    every_cell(tables, |relation, _, row, column| {
        let cell = cell(row, column);
        cell.value == 0 || description.in_range(relation, column, cell.class)
    })
}

/// "a null has a class in range or 255"
fn nulls_have_classes_in_range_or_none(description: &Description, tables: &Tables) -> bool {
    every_cell(tables, |relation, _, row, column| {
        let cell = cell(row, column);
        cell.value != 0 || cell.class == NO_CLASS || description.in_range(relation, column, cell.class)
    })
}

/// "TC dominates every class."
fn tuple_class_dominates_classes(description: &Description, tables: &Tables) -> bool {
    every_cell(tables, |_, level, row, column| {
        let class = cell(row, column).class;
        class == NO_CLASS || description.dominates(level, class)
    })
}

/// "Entity integrity: key and its class non-null"
fn keys_are_not_null(_: &Description, tables: &Tables) -> bool {
    tables.all_rows().all(|(_, _, row)| row[0].value != 0 && row[0].class != NO_CLASS)
}

/// "every other non-null class dominates the key's class." A key without a class is the rule before.
fn classes_dominate_key_class(description: &Description, tables: &Tables) -> bool {
    every_cell(tables, |_, _, row, column| {
        let (class, key_class) = (cell(row, column).class, row[0].class);
        column == 1 || class == NO_CLASS || key_class == NO_CLASS || description.dominates(class, key_class)
    })
}

/// "Polyinstantiation: one row per key at each level of a relation"
fn one_row_for_a_key(_: &Description, tables: &Tables) -> bool {
    let mut met = BTreeSet::new();
    tables.all_rows().all(|(relation, level, row)| met.insert((relation, level, row[0].value)))
}

/// "within one entity and column, equal classes mean equal values. Null and 255 count as values here (our choice)."
fn equal_classes_mean_equal_values(_: &Description, tables: &Tables) -> bool {
    let mut first_value = BTreeMap::new();
    tables.all_rows().all(|(relation, _, row)| {
        (1..=row.len()).all(|column| {
            let cell = cell(row, column);
            let first = *first_value.entry((relation, entity(row), column, cell.class)).or_insert(cell.value);
            first == cell.value
        })
    })
}

/// "Data-borrow: a non-null value of class c below TC, the key included, equals the one held with class c in that entity's row at c, which
/// exists."
fn borrowed_values_are_lent(description: &Description, tables: &Tables) -> bool {
    every_cell(tables, |relation, level, row, column| {
        let here = cell(row, column);
        if here.value == 0 || !description.above(level, here.class) {
            return true;
        }
        match tables.row_of(relation, here.class, entity(row)) {
            Some(lender) => cell(lender, column) == here,
            None => false,
        }
    })
}

/// Whether something is so of every non-null reference: its referred relation, level and cell are given.
fn every_reference(description: &Description, tables: &Tables, holds: impl Fn(usize, usize, Cell) -> bool) -> bool {
    tables.all_rows().all(|(relation, level, row)| {
        let relation = description.relation(relation);
        if relation.foreign == 0 {
            return true;
        }
        let reference = cell(row, relation.foreign);
        reference.value == 0 || holds(relation.refers, level, reference)
    })
}

/// "Referential, part 1: a non-null reference has a row with that key at the SAME level in the referred relation"
fn references_have_rows(description: &Description, tables: &Tables) -> bool {
    every_reference(description, tables, |refers, level, reference| tables.row_with_key(refers, level, reference.value).is_some())
}

/// "whose key class is dominated by the reference's class."
fn references_dominate_named_key_classes(description: &Description, tables: &Tables) -> bool {
    every_reference(description, tables, |refers, level, reference| match tables.row_with_key(refers, level, reference.value) {
        Some(named) => description.dominates(reference.class, named[0].class),
        None => true,
    })
}

/// "Part 2: where the reference is borrowed from c, the rows it names at TC and at c are one entity." Where it names none, part 1 is broken.
fn borrowed_references_name_one_entity(description: &Description, tables: &Tables) -> bool {
    every_reference(description, tables, |refers, level, reference| {
        if !description.above(level, reference.class) {
            return true;
        }
        let here = tables.row_with_key(refers, level, reference.value);
        let there = tables.row_with_key(refers, reference.class, reference.value);
        match (here, there) {
            (Some(here), Some(there)) => entity(here) == entity(there),
            _ => true,
        }
    })
}

/// Notes more of a rule that is broken alone, where there are several ways to break it.
pub fn note_ways(description: &Description, tables: &Tables, rule: &str) {
    for (relation, level, row) in tables.all_rows() {
        if rule == "two rows with one key" {
            let same_key = tables.rows(relation, level).filter(|other| other[0].value == row[0].value);
            let entities: Vec<Entity> = same_key.map(entity).collect();
            if entities.len() > 1 {
                let one = entities.iter().all(|who| *who == entities[0]);
                reached::note(if one { "3, two rows of one entity" } else { "3, two entities with one key" });
            }
        }
        if rule == "a borrowed value that isn't lent" {
            for column in (1..=row.len()).filter(|&column| description.above(level, cell(row, column).class)) {
                note_loan(tables, relation, row, column);
            }
        }
    }
}

/// Notes how the lender differs from a cell that a row above it holds.
fn note_loan(tables: &Tables, relation: usize, row: &Row, column: usize) {
    let here = cell(row, column);
    let lender = tables.row_of(relation, here.class, entity(row)).map(|row| cell(row, column));
    match lender {
        _ if here.value == 0 => {}
        None if column == 1 => reached::note("3, a key without a base row"),
        None => reached::note("3, a value whose lender has no row"),
        Some(there) if there == here => {}
        Some(there) if there.value == here.value => reached::note("3, a value that its lender holds with another class"),
        Some(_) => reached::note("3, a value that its lender does not hold"),
    }
}
