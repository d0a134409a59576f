// What the records of a stream have told so far: the description, the rows that the tables begin with, and the last kind.

use crate::record::{Cell, Record, Relation, NO_CLASS};
use std::collections::BTreeMap;

#[derive(Default)]
pub struct State {
    /// The labels and the relations, each with its line.
    pub labels: (usize, Vec<u16>),
    pub relations: Vec<(usize, Relation)>,
    /// How many rows of a relation and level are handed in.
    rows: BTreeMap<(u16, u16), u16>,
    pub last: Option<u16>,
}

impl State {
    pub fn learn(&mut self, line: usize, record: Record) {
        self.last = Some(record.kind());
        match record {
            Record::Labels(labels) => self.labels = (line, labels),
            Record::Relation(relation) => self.relations.push((line, relation)),
            Record::Row { relation, level, cells } if !empty(&cells) => *self.rows.entry((relation, level)).or_insert(0) += 1,
            _ => (),
        }
    }

    pub fn relation(&self, number: u16) -> Option<&Relation> {
        self.relations.get(usize::from(number).checked_sub(1)?).map(|(_, relation)| relation)
    }

    pub fn is_level(&self, level: u32) -> bool {
        (level as usize) < self.labels.1.len()
    }

    pub fn is_full(&self, number: u16, level: u16) -> bool {
        let rows = self.relation(number).map_or(0, |relation| relation.rows);
        self.rows.get(&(number, level)).copied().unwrap_or(0) >= rows
    }

    /// Whether level a dominates b: its rank is at least b's and its compartments contain b's. False where either is no level.
    pub fn dominates(&self, a: u16, b: u16) -> bool {
        match (self.labels.1.get(usize::from(a)), self.labels.1.get(usize::from(b))) {
            (Some(a), Some(b)) => a / 256 >= b / 256 && b & !a & 255 == 0,
            _ => false,
        }
    }

    /// Whether a level is in a column's range: the highest dominates it, and it dominates the lowest.
    pub fn in_range(&self, number: u16, column: u16, level: u16) -> bool {
        let ranges = self.relation(number).map_or(&[][..], |relation| &relation.ranges);
        let range = usize::from(column).checked_sub(1).and_then(|at| ranges.get(at));
        range.map_or(false, |(low, high)| self.dominates(*high, level) && self.dominates(level, *low))
    }
}

// An empty row takes no place.
fn empty(cells: &[Cell]) -> bool {
    cells.iter().all(|cell| cell.value == 0 && cell.class == NO_CLASS)
}
