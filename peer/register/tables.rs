//! Tables: for each relation and level a list of places, each empty or with a row.

use super::description::Description;
use std::collections::BTreeMap;

/// "A class is a level number, 255 meaning null."
pub const NO_CLASS: usize = 255;

/// A value (0 is null) with its class.
#[derive(Clone, Copy, PartialEq, Eq, Debug)]
pub struct Cell {
    pub value: u32,
    pub class: usize,
}

/// What an empty row has throughout.
pub const NOTHING: Cell = Cell { value: 0, class: NO_CLASS };

/// The cells of columns 1, 2, .. in their order.
pub type Row = Vec<Cell>;

/// "'Entity' means key value with key class."
#[derive(Clone, Copy, PartialEq, Eq, PartialOrd, Ord, Debug)]
pub struct Entity {
    pub key: u32,
    pub class: usize,
}

pub fn entity(row: &Row) -> Entity {
    Entity { key: row[0].value, class: row[0].class }
}

/// The cell of a column, which is numbered from 1.
pub fn cell(row: &Row, column: usize) -> Cell {
    row[column - 1]
}

#[derive(Clone, PartialEq)]
pub struct Tables {
    places: BTreeMap<(usize, usize), Vec<Option<Row>>>,
}

impl Tables {
    /// The tables of a description, with nothing in them.
    pub fn empty(description: &Description) -> Tables {
        let mut places = BTreeMap::new();
        for relation in description.relation_numbers() {
            for level in description.levels() {
                places.insert((relation, level), vec![None; description.relation(relation).rows]);
            }
        }
        Tables { places }
    }

    /// The places of a relation and level; none where there is no such relation or level.
    pub fn places(&self, relation: usize, level: usize) -> &[Option<Row>] {
        match self.places.get(&(relation, level)) {
            Some(places) => places,
            None => &[],
        }
    }

    pub fn places_mut(&mut self, relation: usize, level: usize) -> &mut [Option<Row>] {
        match self.places.get_mut(&(relation, level)) {
            Some(places) => places,
            None => &mut [],
        }
    }

    /// The rows that are not empty, by position.
    pub fn rows(&self, relation: usize, level: usize) -> impl Iterator<Item = &Row> {
        self.places(relation, level).iter().flatten()
    }

    pub fn rows_mut(&mut self, relation: usize, level: usize) -> impl Iterator<Item = &mut Row> {
        self.places_mut(relation, level).iter_mut().flatten()
    }

    /// Every row that is not empty, with its relation and level.
    pub fn all_rows(&self) -> impl Iterator<Item = (usize, usize, &Row)> {
        self.places.iter().flat_map(|(&(relation, level), places)| places.iter().flatten().map(move |row| (relation, level, row)))
    }

    pub fn row_with_key(&self, relation: usize, level: usize, key: u32) -> Option<&Row> {
        self.rows(relation, level).find(|row| row[0].value == key)
    }

    pub fn row_of(&self, relation: usize, level: usize, who: Entity) -> Option<&Row> {
        self.rows(relation, level).find(|row| entity(row) == who)
    }

    pub fn row_of_mut(&mut self, relation: usize, level: usize, who: Entity) -> Option<&mut Row> {
        self.rows_mut(relation, level).find(|row| entity(row) == who)
    }

    /// "A new row takes the lowest empty row of its relation and level, so freed rows are used again."
    pub fn lowest_empty(&self, relation: usize, level: usize) -> Option<usize> {
        self.places(relation, level).iter().position(|place| place.is_none())
    }

    /// Puts a row into a place. A row of (0, 255) throughout is an empty row.
    pub fn put(&mut self, relation: usize, level: usize, place: usize, row: Row) {
        let empty = row.iter().all(|&cell| cell == NOTHING);
        self.places_mut(relation, level)[place] = if empty { None } else { Some(row) };
    }

    /// Empties the row of an entity, if there is one.
    pub fn empty_row_of(&mut self, relation: usize, level: usize, who: Entity) {
        for place in self.places_mut(relation, level) {
            if place.as_ref().map(entity) == Some(who) {
                *place = None;
            }
        }
    }
}
