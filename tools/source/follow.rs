// A stream as it grows, line by line: which records are whole, and on which line each begins.

use crate::decode::{cut, next, too_long, Found};

/// The bytes that are no whole record yet, and the line of the first of them.
#[derive(Default)]
pub struct Follow {
    rest: Vec<u8>,
    begun: usize,
    lost: bool,
}

impl Follow {
    /// The records that these bytes of a line make whole.
    pub fn take(&mut self, line: usize, bytes: &[u8]) -> Vec<(usize, Found)> {
        let mut found = Vec::new();
        if self.rest.is_empty() {
            self.begun = line;
        }
        self.rest.extend(bytes);
        while !self.lost {
            let (record, length) = match next(&self.rest) {
                Some(first) => first,
                None => break,
            };
            // Behind a body that is too long, where the next record starts can't be told.
            self.lost = too_long(&self.rest);
            found.push((self.begun, record));
            self.rest.drain(..length);
            self.begun = line;
        }
        found
    }

    /// The record that the stream ends inside of, if it does.
    pub fn end(&mut self) -> Option<(usize, Found)> {
        if self.lost || self.rest.is_empty() {
            return None;
        }
        Some((self.begun, cut(&self.rest)))
    }
}
