// Text as records. A line is a record, a name for a value, plain bytes, or nothing.

use crate::ask;
use crate::decode::Found;
use crate::describe;
use crate::encode::{body, encode};
use crate::follow::Follow;
use crate::line::{Fault, Line, Read};
use crate::names::{Names, Naming};
use crate::pieces::{pieces, Sort};
use crate::record::{Record, MOST};

/// A text as far as it is read.
#[derive(Default)]
pub struct Text {
    names: Names,
    follow: Follow,
    relations: u32,
}

/// What a line says: its bytes, what it gives names to, and the records that are whole with it, each with the line that it begins on.
pub struct Said {
    pub bytes: Vec<u8>,
    pub naming: Naming,
    pub found: Vec<(usize, Found)>,
}

impl Text {
    /// Reads a line. A name that it gives may stand in the lines below.
    pub fn line(&mut self, number: usize, line: &[u8]) -> Read<Said> {
        let text = match std::str::from_utf8(line) {
            Ok(text) => text,
            Err(fault) => {
                let column = String::from_utf8_lossy(&line[..fault.valid_up_to()]).chars().count() + 1;
                return Err(Fault { line: number, column, message: "a byte that is no text; expected UTF-8".to_string() });
            }
        };
        let pieces = pieces(text);
        let (bytes, naming) = said(&mut Line::new(number, &pieces, &self.names), self.relations + 1)?;
        self.names.learn(naming.clone());
        let found = self.follow.take(number, &bytes);
        let described = found.iter().filter(|(_, found)| matches!(found, Found::Record(Record::Relation(_))));
        self.relations = self.relations.saturating_add(described.count() as u32);
        Ok(Said { bytes, naming, found })
    }

    /// The record that the text breaks off in, if there is one.
    pub fn end(&mut self) -> Option<(usize, Found)> {
        self.follow.end()
    }
}

// A line's bytes and what it names; `relation` is the number that a relation would have here.
fn said(line: &mut Line, relation: u32) -> Read<(Vec<u8>, Naming)> {
    if line.here().sort == Sort::End {
        return Ok((Vec::new(), Naming::Nothing));
    }
    let said = if line.take("NAME") {
        (Vec::new(), value(line)?)
    } else if line.take("BYTES") {
        (bytes(line)?, Naming::Nothing)
    } else {
        fitting(line, relation)?
    };
    line.end()?;
    Ok(said)
}

// A record whose body is short enough.
fn fitting(line: &mut Line, relation: u32) -> Read<(Vec<u8>, Naming)> {
    let column = line.here().column;
    let (record, naming) = record(line, relation)?;
    line.end()?;
    let length = body(&record).len();
    if length > MOST {
        return Err(Fault { line: line.number, column, message: format!("this record's body has {length} bytes; expected at most {MOST}") });
    }
    Ok((encode(&record), naming))
}

fn record(line: &mut Line, relation: u32) -> Read<(Record, Naming)> {
    if line.take("LABELS") {
        return describe::labels(line);
    }
    if line.take("RELATION") {
        return describe::relation(line, relation);
    }
    if line.take("ROW") {
        return Ok((describe::row(line)?, Naming::Nothing));
    }
    Ok((ask::statement(line)?, Naming::Nothing))
}

fn value(line: &mut Line) -> Read<Naming> {
    let name = line.new_name("a name, which begins with a small letter", &[])?;
    line.need("=")?;
    Ok(Naming::Value(name, line.full("a value")?))
}

fn bytes(line: &mut Line) -> Read<Vec<u8>> {
    let mut bytes = Vec::new();
    while bytes.is_empty() || line.here().sort != Sort::End {
        let text = &line.here().text;
        if text.len() != 2 || !text.chars().all(|letter| letter.is_ascii_hexdigit()) {
            return Err(line.instead_of("a byte in two hexadecimal digits"));
        }
        bytes.extend(u8::from_str_radix(text, 16));
        line.step();
    }
    Ok(bytes)
}
