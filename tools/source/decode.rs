// Bytes as records. What is no record is kept as it stands, with the reason, so that no byte of a stream is lost.

use crate::record::{Cell, Condition, Record, Relation, What, MOST};

pub enum Found {
    Record(Record),
    Bytes { bytes: Vec<u8>, why: String },
}

pub fn decode(stream: &[u8]) -> Vec<Found> {
    let mut found = Vec::new();
    let mut rest = stream;
    while !rest.is_empty() {
        let (first, length) = next(rest).unwrap_or_else(|| (cut(rest), rest.len()));
        found.push(first);
        rest = &rest[length..];
    }
    found
}

/// The first record of a stream and how many bytes it takes, or none where the stream ends before it does. One that is too long takes all bytes:
/// where the next one starts can't be told.
pub fn next(stream: &[u8]) -> Option<(Found, usize)> {
    let mut header = Fields { rest: stream };
    let (length, kind) = (header.half()? as usize, header.half()?);
    let odd = |length: usize, why: String| Some((Found::Bytes { bytes: stream[..length].to_vec(), why }, length));
    if length > MOST {
        return odd(stream.len(), format!("a body of {length} bytes, which is over {MOST}, and all that follows it"));
    }
    let body = header.rest.get(..length)?;
    match record(kind, body) {
        Some(record) => Some((Found::Record(record), 4 + length)),
        None if known(kind) => odd(4 + length, format!("a body of {length} bytes, which isn't what kind {kind} and its counts ask")),
        None => odd(4 + length, format!("no such kind: {kind}")),
    }
}

/// Whether the first record of a stream says that its body is over the most.
pub fn too_long(stream: &[u8]) -> bool {
    let mut header = Fields { rest: stream };
    header.half().map_or(false, |length| length as usize > MOST)
}

/// A record that the stream ends inside of.
pub fn cut(stream: &[u8]) -> Found {
    let why = match stream.get(..4) {
        None => "the stream ends inside a record's first four bytes".to_string(),
        Some(header) => {
            let length = u16::from_le_bytes([header[0], header[1]]);
            format!("the stream ends inside a record, with {} of its body's {length} bytes", stream.len() - 4)
        }
    };
    Found::Bytes { bytes: stream.to_vec(), why }
}

fn known(kind: u16) -> bool {
    matches!(kind, 1..=3 | 16..=20)
}

// The record of that kind whose body is exactly these bytes.
fn record(kind: u16, body: &[u8]) -> Option<Record> {
    let mut fields = Fields { rest: body };
    let record = match kind {
        1 => Record::Labels(fields.until_end(Fields::half)?),
        2 => Record::Relation(fields.relation()?),
        3 => Record::Row { relation: fields.half()?, level: fields.half()?, cells: fields.until_end(Fields::cell)? },
        16..=20 => Record::Statement { level: fields.half()?, relation: fields.half()?, what: fields.what(kind)? },
        _ => return None,
    };
    fields.rest.is_empty().then_some(record)
}

// What is left of a body. Each function takes its part from the front, or answers none where too little is left.
struct Fields<'a> {
    rest: &'a [u8],
}

impl Fields<'_> {
    fn half(&mut self) -> Option<u16> {
        let first = self.rest.get(..2)?;
        self.rest = &self.rest[2..];
        Some(u16::from_le_bytes([first[0], first[1]]))
    }

    fn full(&mut self) -> Option<u32> {
        let first = self.rest.get(..4)?;
        self.rest = &self.rest[4..];
        Some(u32::from_le_bytes([first[0], first[1], first[2], first[3]]))
    }

    fn until_end<T>(&mut self, item: fn(&mut Self) -> Option<T>) -> Option<Vec<T>> {
        let mut items = Vec::new();
        while !self.rest.is_empty() {
            items.push(item(self)?);
        }
        Some(items)
    }

    // A count, then as many items.
    fn counted<T>(&mut self, item: fn(&mut Self) -> Option<T>) -> Option<Vec<T>> {
        let count = self.half()?;
        (0..count).map(|_| item(self)).collect()
    }

    fn relation(&mut self) -> Option<Relation> {
        let columns = self.half()?;
        let (rows, foreign, referred) = (self.half()?, self.half()?, self.half()?);
        let ranges = (0..columns).map(|_| self.halves()).collect::<Option<Vec<_>>>()?;
        Some(Relation { rows, ranges, foreign, referred })
    }

    fn what(&mut self, kind: u16) -> Option<What> {
        Some(match kind {
            16 => What::Insert { values: self.counted(Self::value)? },
            17 => What::Delete { conditions: self.counted(Self::condition)? },
            18 => What::Update { values: self.counted(Self::value)?, conditions: self.counted(Self::condition)? },
            19 => What::Uplevel { key: self.full()?, class: self.half()?, from: self.counted(Self::halves)? },
            20 => What::Select { at: self.counted(Self::half)?, conditions: self.counted(Self::condition)? },
            _ => return None,
        })
    }

    fn cell(&mut self) -> Option<Cell> {
        Some(Cell { value: self.full()?, class: self.half()? })
    }

    fn value(&mut self) -> Option<(u16, u32)> {
        Some((self.half()?, self.full()?))
    }

    fn halves(&mut self) -> Option<(u16, u16)> {
        Some((self.half()?, self.half()?))
    }

    fn condition(&mut self) -> Option<Condition> {
        Some(Condition { column: self.half()?, mark: self.half()?, test: self.half()?, constant: self.full()? })
    }
}
