//! The records of `mlrun`: "little-endian: two-byte body length, two-byte kind, body".

use super::conditions::Condition;
use super::delete::Delete;
use super::description::Relation;
use super::insert::Insert;
use super::select::Select;
use super::tables::{Cell, Row};
use super::update::Update;
use super::uplevel::Uplevel;
use super::Statement;

/// A record that is neither cut nor over 1,024 bytes.
pub struct Record<'a> {
    pub kind: usize,
    pub body: &'a [u8],
}

/// The next record and what follows it, or why there is none.
pub fn next(input: &[u8]) -> Result<(Record<'_>, &[u8]), &'static str> {
    if input.len() < 4 {
        return Err("a cut header");
    }
    let (header, rest) = input.split_at(4);
    let length = header[0] as usize + 256 * header[1] as usize;
    let kind = header[2] as usize + 256 * header[3] as usize;
    if length > 1024 {
        return Err("a body over 1,024 bytes");
    }
    if rest.len() < length {
        return Err("a cut body");
    }
    let (body, rest) = rest.split_at(length);
    Ok((Record { kind, body }, rest))
}

/// The fields of a body, read one after the other. A read past the end gives None, which is a wrong length.
struct Fields<'a> {
    left: &'a [u8],
}

impl Fields<'_> {
    fn byte(&mut self) -> Option<u32> {
        let (&first, rest) = self.left.split_first()?;
        self.left = rest;
        Some(first as u32)
    }

    /// "All fields are two bytes"
    fn two(&mut self) -> Option<usize> {
        let low = self.byte()?;
        let high = self.byte()?;
        Some((low + 256 * high) as usize)
    }

    /// "but values, keys and constants (four)"
    fn four(&mut self) -> Option<u32> {
        let low = self.two()? as u32;
        let high = self.two()? as u32;
        Some(low + 65536 * high)
    }

    fn pairs_with_value(&mut self) -> Option<Vec<(usize, u32)>> {
        let count = self.two()?;
        (0..count).map(|_| Some((self.two()?, self.four()?))).collect()
    }

    fn pairs_with_level(&mut self) -> Option<Vec<(usize, usize)>> {
        let count = self.two()?;
        (0..count).map(|_| Some((self.two()?, self.two()?))).collect()
    }

    fn levels(&mut self) -> Option<Vec<usize>> {
        let count = self.two()?;
        (0..count).map(|_| self.two()).collect()
    }

    /// "Conditions: n, n of (column, 0 value or 1 class, test, constant)."
    fn conditions(&mut self) -> Option<Vec<Condition>> {
        let count = self.two()?;
        (0..count).map(|_| Some(Condition { column: self.two()?, mark: self.two()?, test: self.two()?, constant: self.four()? })).collect()
    }
}

/// Reads a whole body; None where its length isn't the one that its kind and its counts ask.
fn whole<T>(body: &[u8], read: impl FnOnce(&mut Fields) -> Option<T>) -> Option<T> {
    let mut fields = Fields { left: body };
    let result = read(&mut fields)?;
    fields.left.is_empty().then_some(result)
}

/// "1: labels."
pub fn labels(body: &[u8]) -> Option<Vec<u32>> {
    whole(body, |fields| (0..body.len() / 2).map(|_| fields.two().map(|label| label as u32)).collect())
}

/// "2: columns, rows per level, foreign column, referred relation (0 0: none, else both non-zero), then L, H per column."
pub fn relation(body: &[u8]) -> Option<Relation> {
    whole(body, |fields| {
        let columns = fields.two()?;
        let (rows, foreign, refers) = (fields.two()?, fields.two()?, fields.two()?);
        let ranges = (0..columns).map(|_| Some((fields.two()?, fields.two()?))).collect::<Option<Vec<_>>>()?;
        Some(Relation { rows, foreign, refers, ranges })
    })
}

/// "3: relation, level, then value, class per cell". A class may be over 255 here.
pub fn row(body: &[u8]) -> Option<(usize, usize, Row)> {
    whole(body, |fields| {
        let (relation, level) = (fields.two()?, fields.two()?);
        let count = fields.left.len() / 6;
        let row = (0..count).map(|_| Some(Cell { value: fields.four()?, class: fields.two()? })).collect::<Option<Row>>()?;
        Some((relation, level, row))
    })
}

/// "16 INSERT: level, relation, n, n of (column, value). 17 DELETE: level, relation, conditions. 18 UPDATE: as 16, then conditions. 19 UPLEVEL:
/// level, relation, key, key class or 255, n, n of (column, FROM). 20 SELECT: level, relation, n, n levels, conditions."
pub fn statement(kind: usize, body: &[u8]) -> Option<Statement> {
    whole(body, |fields| {
        let (level, relation) = (fields.two()?, fields.two()?);
        Some(match kind {
            16 => Statement::Insert(Insert { level, relation, listed: fields.pairs_with_value()? }),
            17 => Statement::Delete(Delete { level, relation, conditions: fields.conditions()? }),
            18 => Statement::Update(Update { level, relation, set: fields.pairs_with_value()?, conditions: fields.conditions()? }),
            19 => {
                let (key, key_class) = (fields.four()?, fields.two()?);
                Statement::Uplevel(Uplevel { level, relation, key, key_class, from: fields.pairs_with_level()? })
            }
            _ => Statement::Select(Select { level, relation, at: fields.levels()?, conditions: fields.conditions()? }),
        })
    })
}
