//! The register of document 01, "01" for short: one call, the rules of legal tables, the five statements, and `mlrun`.
//! Each function stands under the sentence of 01 that it renders.

pub mod conditions;
pub mod delete;
pub mod description;
pub mod fields;
pub mod insert;
pub mod legal;
pub mod lines;
pub mod program;
pub mod records;
pub mod select;
pub mod sound;
pub mod tables;
pub mod update;
pub mod uplevel;

use crate::reached;
use delete::Delete;
use description::Description;
use insert::Insert;
use select::{Select, Shown};
use tables::Tables;
use update::Update;
use uplevel::Uplevel;

#[derive(Clone)]
pub enum Statement {
    Insert(Insert),
    Delete(Delete),
    Update(Update),
    Uplevel(Uplevel),
    Select(Select),
}

/// What a statement comes to: a refusal's number, new tables with the count, or rows.
pub enum Outcome {
    Refused(u32),
    Changed(Tables, usize),
    Shown(Vec<Shown>),
}

/// One call: "Exactly the least that applies is given." 2 and 14 are about buffers of the caller, which there are none of here.
pub fn call(description: &Description, tables: &Tables, statement: &Statement) -> Outcome {
    let unsound = sound::faults(description);
    if reached::on() {
        sound::note(description, &unsound);
    }
    if !unsound.is_empty() {
        return Outcome::Refused(1);
    }
    let faults = faults(description, statement);
    let broken = legal::broken_rules(description, tables);
    if !broken.is_empty() {
        note_broken(&broken, &faults);
        if let ([rule], true) = (broken.as_slice(), reached::on()) {
            legal::note_ways(description, tables, rule);
        }
        return Outcome::Refused(3);
    }
    if !faults.is_empty() {
        reached::note_alone(&format!("{} 4", name(statement)), &faults);
        note_hidden_too(description, statement, &faults);
        return Outcome::Refused(4);
    }
    match statement {
        Statement::Insert(insert) => insert::answer(description, tables, insert),
        Statement::Delete(delete) => delete::answer(description, tables, delete),
        Statement::Update(update) => update::answer(description, tables, update),
        Statement::Uplevel(uplevel) => uplevel::answer(description, tables, uplevel),
        Statement::Select(select) => select::answer(description, tables, select),
    }
}

pub fn name(statement: &Statement) -> &'static str {
    match statement {
        Statement::Insert(_) => "INSERT",
        Statement::Delete(_) => "DELETE",
        Statement::Update(_) => "UPDATE",
        Statement::Uplevel(_) => "UPLEVEL",
        Statement::Select(_) => "SELECT",
    }
}

/// The grounds for number 4.
pub fn faults(description: &Description, statement: &Statement) -> Vec<&'static str> {
    match statement {
        Statement::Insert(insert) => insert::faults(description, insert),
        Statement::Delete(delete) => delete::faults(description, delete),
        Statement::Update(update) => update::faults(description, update),
        Statement::Uplevel(uplevel) => uplevel::faults(description, uplevel),
        Statement::Select(select) => select::faults(description, select),
    }
}

/// The least number whose ground applies. The grounds stand in the order of their numbers.
fn least(name: &str, grounds: &[(u32, bool)]) -> Option<u32> {
    let applying: Vec<u32> = grounds.iter().filter(|(_, applies)| *applies).map(|&(number, _)| number).collect();
    for (place, number) in applying.iter().enumerate() {
        for later in &applying[place + 1..] {
            reached::note(&format!("{name} {number} and {later}"));
        }
    }
    applying.first().copied()
}

/// A new row stands before a row in use only where its place was freed.
fn note_freed(tables: &Tables, relation: usize, level: usize, place: usize) {
    if tables.places(relation, level)[place..].iter().any(|later| later.is_some()) {
        reached::note("a freed row used again");
    }
}

/// Notes on which side of a column's range a level stands that is outside it.
fn note_outside(description: &Description, relation: usize, columns: &[usize], level: usize) {
    for &column in columns {
        let (low, high) = description.relation(relation).ranges[column - 1];
        match (description.dominates(high, level), description.dominates(level, low)) {
            (false, true) => reached::note("6, a level that H doesn't dominate"),
            (true, false) => reached::note("6, a level that doesn't dominate L"),
            _ => {}
        }
    }
}

/// Notes the one rule that is broken. The class of a named row's key can't be wrong alone.
fn note_broken(broken: &[&str], faults: &[&str]) {
    let never_alone = "a reference below the key class it names";
    reached::note_alone("3", broken);
    if broken.contains(&never_alone) {
        reached::note(&format!("3, {never_alone}"));
    }
    if !faults.is_empty() {
        reached::note("3 and 4");
    }
}

/// Notes where a statement that is answered 4 also names a level that its subject doesn't dominate.
fn note_hidden_too(description: &Description, statement: &Statement, faults: &[&str]) {
    if faults.iter().any(|&fault| fault == "no such subject" || fault == "no such level") {
        return;
    }
    let hidden = match statement {
        Statement::Uplevel(uplevel) => uplevel.from.iter().any(|&(_, from)| !description.dominates(uplevel.level, from)),
        Statement::Select(select) => select::not_dominated(description, select),
        _ => false,
    };
    if hidden {
        reached::note(&format!("{} 4 and 5", name(statement)));
    }
}
