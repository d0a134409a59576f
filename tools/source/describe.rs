// The lines that describe the tables and fill them: LABELS, RELATION and ROW.

use crate::line::{Line, Read};
use crate::lists::{items, list};
use crate::names::{Described, Naming};
use crate::record::{Cell, Record, Relation, NO_CLASS};

pub fn labels(line: &mut Line) -> Read<(Record, Naming)> {
    let mut levels = Vec::new();
    let labels = items(line, "a label", |line| {
        let named = line.at_name("a level's name");
        levels.push(if named { Some(line.new_name("a level's name", &levels)?) } else { None });
        if named {
            line.need("=")?;
        }
        line.half("a label")
    })?;
    Ok((Record::Labels(labels), Naming::Levels(levels)))
}

/// `number` is the relation's own.
pub fn relation(line: &mut Line, number: u32) -> Read<(Record, Naming)> {
    let name = if line.at_name("the relation's name") { Some(line.new_name("the relation's name", &[])?) } else { None };
    let mut described = Described { name, columns: Vec::new() };
    line.need("ROWS")?;
    let rows = line.half("how many rows a level has")?;
    let ranges = list(line, "COLUMNS", "a column's range", |line| {
        let named = line.at_naming();
        described.columns.push(if named { Some(line.new_column(&described.columns)?) } else { None });
        if named {
            line.need("=")?;
        }
        let low = line.level("a column's range")?;
        line.need("..")?;
        Ok((low, line.level("the range's highest level")?))
    })?;
    let (mut foreign, mut referred) = (0, 0);
    if line.take("REFERENCE") {
        foreign = line.column_of(&described, "this relation")?;
        line.need("TO")?;
        referred = line.relation("a relation")?;
    }
    Ok((Record::Relation(Relation { rows, ranges, foreign, referred }), Naming::Relation(number, described)))
}

pub fn row(line: &mut Line) -> Read<Record> {
    line.need("IN")?;
    let relation = line.relation("a relation")?;
    line.need("AT")?;
    let level = line.level("a level")?;
    Ok(Record::Row { relation, level, cells: list(line, "CELLS", "a cell", cell)? })
}

fn cell(line: &mut Line) -> Read<Cell> {
    let value = line.value("a value")?;
    line.need("/")?;
    Ok(Cell { value, class: class(line, "a class")? })
}

/// A class is a level, or - for null.
pub fn class(line: &mut Line, what: &'static str) -> Read<u16> {
    if line.take("-") { Ok(NO_CLASS) } else { line.level(what) }
}
