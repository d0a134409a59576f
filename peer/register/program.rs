//! `mlrun`: a stream of records to its end or to its `x`.

use super::description::Description;
use super::records::{self, Record};
use super::tables::{Row, Tables, NO_CLASS};
use super::{call, lines, name, sound, Outcome, Statement};
use crate::reached;

/// What came last. "Order: one kind 1, kind 2s, kind 3s, statements."
#[derive(Clone, Copy, PartialEq)]
enum Last {
    Nothing,
    Labels,
    Relation,
    Row,
    Statement,
}

struct Program {
    last: Last,
    description: Description,
    /// None until a row or a statement comes, and where the description isn't sound.
    tables: Option<Tables>,
    output: String,
    were_legal: bool,
}

/// Everything that is printed for an input.
pub fn run(input: &[u8]) -> String {
    let description = Description { labels: Vec::new(), relations: Vec::new() };
    let mut program = Program { last: Last::Nothing, description, tables: None, output: String::new(), were_legal: false };
    let mut rest = input;
    let mut number = 0;
    while !rest.is_empty() {
        number += 1;
        let taken = records::next(rest).and_then(|(record, after)| program.take(&record).map(|()| after));
        match taken {
            Ok(after) => rest = after,
            Err(reason) => {
                reached::note(&format!("x, {reason}"));
                program.output += &lines::refusal(number);
                return program.output;
            }
        }
    }
    if number == 0 {
        reached::note("empty input");
    }
    program.output
}

impl Program {
    /// Takes one record, or says why it is refused.
    fn take(&mut self, record: &Record) -> Result<(), &'static str> {
        self.test_order(record.kind)?;
        if record.body.len() == 1024 {
            reached::note("a body of 1,024 bytes");
        }
        match record.kind {
            1 => {
                self.description.labels = records::labels(record.body).ok_or("kind 1 of wrong length")?;
                self.last = Last::Labels;
            }
            2 => {
                self.description.relations.push(records::relation(record.body).ok_or("kind 2 of wrong length")?);
                self.last = Last::Relation;
            }
            3 => {
                let (relation, level, row) = records::row(record.body).ok_or("kind 3 of wrong length")?;
                self.place(relation, level, row)?;
                self.last = Last::Row;
            }
            kind => {
                let statement = records::statement(kind, record.body).ok_or(wrong_length(kind))?;
                self.answer(kind, &statement);
                self.last = Last::Statement;
            }
        }
        Ok(())
    }

    /// Kind 1 comes once, first; kind 2 after kind 1 or 2; kind 3 after kind 1, 2 or 3; a statement after any of them.
    fn test_order(&self, kind: usize) -> Result<(), &'static str> {
        match (kind, self.last) {
            (1, Last::Nothing) => Ok(()),
            (1, Last::Labels) => Err("kind 1 after kind 1"),
            (1, Last::Relation) => Err("kind 1 after kind 2"),
            (1, Last::Row) => Err("kind 1 after kind 3"),
            (1, Last::Statement) => Err("kind 1 after a statement"),
            (2, Last::Nothing) => Err("kind 2 first"),
            (2, Last::Labels | Last::Relation) => Ok(()),
            (2, Last::Row) => Err("kind 2 after kind 3"),
            (2, Last::Statement) => Err("kind 2 after a statement"),
            (3, Last::Nothing) => Err("kind 3 first"),
            (3, Last::Labels | Last::Relation | Last::Row) => Ok(()),
            (3, Last::Statement) => Err("kind 3 after a statement"),
            (16, Last::Nothing) => Err("kind 16 first"),
            (17, Last::Nothing) => Err("kind 17 first"),
            (18, Last::Nothing) => Err("kind 18 first"),
            (19, Last::Nothing) => Err("kind 19 first"),
            (20, Last::Nothing) => Err("kind 20 first"),
            (16..=20, _) => Ok(()),
            _ => Err("an unknown kind"),
        }
    }

    /// "a row that can't be placed (no such place, wrong cell count, class over 255)"; it "goes to the lowest empty row".
    fn place(&mut self, relation: usize, level: usize, row: Row) -> Result<(), &'static str> {
        self.lay_out_tables();
        let tables = self.tables.as_mut().ok_or("a row on a description that breaks a rule")?;
        if !self.description.has_relation(relation) {
            return Err("a row of no such relation");
        }
        if !self.description.has_level(level) {
            return Err("a row at no such level");
        }
        if row.len() != self.description.relation(relation).columns() {
            return Err("a row with a wrong cell count");
        }
        if row.iter().any(|cell| cell.class > NO_CLASS) {
            return Err("a class over 255");
        }
        let place = tables.lowest_empty(relation, level).ok_or("a row at a full level")?;
        tables.put(relation, level, place, row);
        if tables.places(relation, level)[place].is_none() {
            reached::note("a row of (0, 255) throughout");
        }
        Ok(())
    }

    /// Lays out empty tables, once, where the description is sound.
    fn lay_out_tables(&mut self) {
        if self.tables.is_none() && sound::faults(&self.description).is_empty() {
            self.tables = Some(Tables::empty(&self.description));
        }
    }

    /// "On a description that breaks a rule no row can be placed, and statements answer 1."
    fn answer(&mut self, kind: usize, statement: &Statement) {
        self.lay_out_tables();
        let nothing = Tables::empty(&Description { labels: Vec::new(), relations: Vec::new() });
        let outcome = call(&self.description, self.tables.as_ref().unwrap_or(&nothing), statement);
        self.output += &lines::answer(kind, &outcome);
        self.note(statement, &outcome);
        if let Outcome::Changed(new, _) = outcome {
            self.tables = Some(new);
        }
    }

    fn note(&mut self, statement: &Statement, outcome: &Outcome) {
        if !reached::on() {
            return;
        }
        let (number, count) = match outcome {
            Outcome::Refused(number) => (*number, 0),
            Outcome::Changed(_, count) => (0, *count),
            Outcome::Shown(rows) => (0, rows.len()),
        };
        reached::note(&format!("{} {number}", name(statement)));
        if self.were_legal && number == 3 {
            reached::note("legal tables that a statement made illegal");
        }
        self.were_legal = !matches!(number, 1 | 3);
        if number == 0 && !matches!(statement, Statement::Insert(_) | Statement::Uplevel(_)) {
            let many = ["none", "one", "several"][count.min(2)];
            reached::note(&format!("{}, count of {many}", name(statement)));
        }
    }
}

fn wrong_length(kind: usize) -> &'static str {
    match kind {
        16 => "kind 16 of wrong length",
        17 => "kind 17 of wrong length",
        18 => "kind 18 of wrong length",
        19 => "kind 19 of wrong length",
        _ => "kind 20 of wrong length",
    }
}
