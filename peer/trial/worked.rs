//! 01's worked rows P1 to P12, put down by hand.

use crate::register::delete::Delete;
use crate::register::description::{Description, Relation};
use crate::register::insert::Insert;
use crate::register::lines;
use crate::register::tables::*;
use crate::register::update::Update;
use crate::register::uplevel::Uplevel;
use crate::register::{call, Outcome, Statement};

/// Tables that statements are carried out on, one after the other.
#[derive(Clone)]
struct Stand {
    description: Description,
    tables: Tables,
}

/// "Labels 0, 1, 2, 3, 259. Relations have two rows a level. Relation 1: three columns, ranges 0 to 4." Relation 2 has a key and a reference.
fn empty() -> Stand {
    let relation = |columns, foreign, refers| Relation { rows: 2, foreign, refers, ranges: vec![(0, 4); columns] };
    let description = Description { labels: vec![0, 1, 2, 3, 259], relations: vec![relation(3, 0, 0), relation(2, 2, 1)] };
    let tables = Tables::empty(&description);
    Stand { description, tables }
}

/// "Tables X, as value/class: level 0: 7/0 20/0 30/0. Level 1: 7/0 21/1 30/0. Level 2: 7/0 20/0 31/2."
fn tables_x() -> Stand {
    empty().with(1, 0, "7/0 20/0 30/0").with(1, 1, "7/0 21/1 30/0").with(1, 2, "7/0 20/0 31/2")
}

/// A row from its text.
fn row(text: &str) -> Row {
    let number = |text: &str| text.parse().unwrap_or(NO_CLASS);
    let cells = text.split(' ').filter_map(|cell| cell.split_once('/'));
    cells.map(|(value, class)| Cell { value: number(value) as u32, class: number(class) }).collect()
}

impl Stand {
    fn with(mut self, relation: usize, level: usize, text: &str) -> Stand {
        if let Some(place) = self.tables.lowest_empty(relation, level) {
            self.tables.put(relation, level, place, row(text));
        }
        self
    }

    /// Carries out a statement; the number answered and the count.
    fn say(&mut self, statement: Statement) -> (u32, usize) {
        match call(&self.description, &self.tables, &statement) {
            Outcome::Refused(number) => (number, 0),
            Outcome::Shown(rows) => (0, rows.len()),
            Outcome::Changed(new, count) => {
                self.tables = new;
                (0, count)
            }
        }
    }

    /// The tables once a statement is done.
    fn then(mut self, statement: Statement) -> Stand {
        self.say(statement);
        self
    }

    /// The rows of a relation and level as text.
    fn shows(&self, relation: usize, level: usize) -> String {
        let row = |row: &Row| row.iter().map(lines::cell).collect::<Vec<_>>().join(" ");
        self.tables.rows(relation, level).map(row).collect::<Vec<_>>().join("; ")
    }

    fn relation_is_empty(&self, relation: usize) -> bool {
        self.description.levels().all(|level| self.shows(relation, level).is_empty())
    }
}

fn uplevel(level: usize, relation: usize, key: u32, key_class: usize, from: &[(usize, usize)]) -> Statement {
    Statement::Uplevel(Uplevel { level, relation, key, key_class, from: from.to_vec() })
}

fn update(level: usize, column: usize, value: u32) -> Statement {
    Statement::Update(Update { level, relation: 1, set: vec![(column, value)], conditions: Vec::new() })
}

fn delete(level: usize) -> Statement {
    Statement::Delete(Delete { level, relation: 1, conditions: Vec::new() })
}

fn insert(level: usize, listed: &[(usize, u32)]) -> Statement {
    Statement::Insert(Insert { level, relation: 1, listed: listed.to_vec() })
}

fn p1() -> Stand {
    tables_x().then(uplevel(3, 1, 7, 255, &[(2, 1), (3, 2)]))
}

fn p3() -> Stand {
    p1().then(update(3, 3, 32)).then(update(1, 2, 22))
}

fn p8() -> Stand {
    tables_x().then(insert(3, &[(1, 7), (2, 5)]))
}

/// P1 to P6: each claim with whether it holds.
fn borrowing() -> Vec<(&'static str, bool)> {
    let p2 = p1().then(update(3, 3, 32));
    let p4 = p3().then(delete(1));
    let p5 = p3().then(uplevel(1, 1, 7, 255, &[(2, 0), (3, 0)]));
    let p6 = tables_x().then(uplevel(3, 1, 7, 255, &[(2, 2)]));
    vec![
        ("P1", p1().shows(1, 3) == "7/0 21/1 31/2"),
        ("P2", p2.shows(1, 3) == "7/0 21/1 32/3"),
        ("P3", p3().shows(1, 1) == "7/0 22/1 30/0" && p3().shows(1, 3) == "7/0 22/1 32/3"),
        ("P4", p4.shows(1, 3) == "7/0 0/1 32/3" && p4.shows(1, 1).is_empty()),
        ("P5", p5.shows(1, 1) == "7/0 20/0 30/0" && p5.shows(1, 3) == "7/0 0/1 32/3"),
        ("P6", p6.shows(1, 3) == "7/0 0/2 0/3"),
    ]
}

/// P7 to P10.
fn keys() -> Vec<(&'static str, bool)> {
    let mut p7 = tables_x();
    let counted = p7.say(delete(0));
    vec![
        ("P7", counted == (0, 1) && p7.relation_is_empty(1)),
        ("P8 at 1", tables_x().say(insert(1, &[(1, 7)])) == (9, 0)),
        ("P8 at 3", p8().shows(1, 3) == "7/3 5/3 0/3"),
        ("P9 without a key class", p8().say(uplevel(4, 1, 7, 255, &[])) == (8, 0)),
        ("P9 with key class 3", p8().say(uplevel(4, 1, 7, 3, &[(2, 1)])) == (10, 0)),
        ("P10", tables_x().say(uplevel(1, 1, 7, 255, &[(2, 2)])) == (5, 0)),
    ]
}

/// P11 and P12.
fn references() -> Vec<(&'static str, bool)> {
    let p11 = p1().with(2, 1, "50/1 7/1");
    let low = p11.clone().then(delete(0));
    let borrow = || uplevel(3, 2, 50, 255, &[(2, 1)]);
    let beside_p8 = p8().with(2, 1, "50/1 7/1").then(borrow());
    let beside_none = tables_x().with(2, 1, "50/1 7/1").say(borrow());
    vec![
        ("P11 at 1", p11.clone().say(delete(1)) == (12, 0)),
        ("P11 at 0", low.relation_is_empty(1) && low.shows(2, 1) == "50/1 0/1"),
        ("P12", p11.then(borrow()).shows(2, 3) == "50/1 7/1"),
        ("P12 beside P8's row", beside_p8.shows(2, 3) == "50/1 0/3"),
        ("P12 beside none", beside_none == (11, 0)),
    ]
}

/// The names of the claims with whether each holds.
pub fn claims() -> Vec<(&'static str, bool)> {
    [borrowing(), keys(), references()].concat()
}
