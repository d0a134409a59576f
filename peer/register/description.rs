//! A description: its levels with their order, and its relations with their columns and ranges.

use super::tables::{Cell, NO_CLASS};
use std::ops::{Range, RangeInclusive};

/// The greatest numbers that 01 allows.
pub const MOST_LEVELS: usize = 16;
pub const MOST_RELATIONS: usize = 8;
pub const MOST_COLUMNS: usize = 8;
pub const MOST_ROWS: usize = 64;
pub const MOST_CELLS: u64 = 8192;
pub const GREATEST_LABEL: u32 = 4095;

/// A relation. `foreign` and `refers` are 0 where it has no foreign key column.
#[derive(Clone)]
pub struct Relation {
    pub rows: usize,
    pub foreign: usize,
    pub refers: usize,
    pub ranges: Vec<(usize, usize)>,
}

impl Relation {
    pub fn columns(&self) -> usize {
        self.ranges.len()
    }

    pub fn has_column(&self, column: usize) -> bool {
        1 <= column && column <= self.columns()
    }
}

#[derive(Clone)]
pub struct Description {
    pub labels: Vec<u32>,
    pub relations: Vec<Relation>,
}

/// "rank = label / 256"
fn rank(label: u32) -> u32 {
    label / 256
}

/// "the low 8 bits are a set of compartments"
fn compartments(label: u32) -> u32 {
    label % 256
}

impl Description {
    /// Levels are numbered from 0.
    pub fn levels(&self) -> Range<usize> {
        0..self.labels.len()
    }

    pub fn has_level(&self, level: usize) -> bool {
        level < self.labels.len()
    }

    /// Relations are numbered from 1.
    pub fn relation_numbers(&self) -> RangeInclusive<usize> {
        1..=self.relations.len()
    }

    pub fn has_relation(&self, relation: usize) -> bool {
        self.relation_numbers().contains(&relation)
    }

    pub fn relation(&self, relation: usize) -> &Relation {
        &self.relations[relation - 1]
    }

    /// "Level a dominates b when its rank is at least b's and its set contains b's."
    pub fn dominates(&self, a: usize, b: usize) -> bool {
        if !self.has_level(a) || !self.has_level(b) {
            return false;
        }
        let (a, b) = (self.labels[a], self.labels[b]);
        rank(a) >= rank(b) && compartments(a) & compartments(b) == compartments(b)
    }

    /// Level a is above b: it dominates b and is another level.
    pub fn above(&self, a: usize, b: usize) -> bool {
        a != b && self.dominates(a, b)
    }

    pub fn levels_above(&self, level: usize) -> Vec<usize> {
        self.levels().filter(|&other| self.above(other, level)).collect()
    }

    /// "height = rank + number of compartments"
    pub fn height(&self, level: usize) -> u32 {
        rank(self.labels[level]) + compartments(self.labels[level]).count_ones()
    }

    /// "c is in range when H dominates c and c dominates L."
    pub fn in_range(&self, relation: usize, column: usize, class: usize) -> bool {
        let (low, high) = self.relation(relation).ranges[column - 1];
        self.dominates(high, class) && self.dominates(class, low)
    }

    /// "'Own null' at level e is (0, e) if e is in the column's range, else (0, 255)."
    pub fn own_null(&self, relation: usize, column: usize, level: usize) -> Cell {
        let class = if self.in_range(relation, column, level) { level } else { NO_CLASS };
        Cell { value: 0, class }
    }

    /// The relations whose foreign key column refers to this one, with that column.
    pub fn referring_to(&self, relation: usize) -> Vec<(usize, usize)> {
        let numbers = self.relation_numbers().filter(|&other| self.relation(other).refers == relation);
        numbers.map(|other| (other, self.relation(other).foreign)).collect()
    }

    pub fn cells(&self) -> u64 {
        let for_each_level: u64 = self.relations.iter().map(|relation| relation.columns() as u64 * relation.rows as u64).sum();
        for_each_level * self.labels.len() as u64
    }
}
