// The lines of an input, one at a time, as soon as each is there. A line ends with LF, with CR LF or with CR.

use std::io::{BufRead, ErrorKind, Result};

pub struct Lines<R> {
    input: R,
    first: bool,
    // The line before ended with a CR, so an LF here belongs to it.
    after_cr: bool,
}

impl<R: BufRead> Lines<R> {
    pub fn new(input: R) -> Lines<R> {
        Lines { input, first: true, after_cr: false }
    }

    /// The next line without its end, and none past the last.
    pub fn next(&mut self) -> Result<Option<Vec<u8>>> {
        let (mut line, mut ended) = (Vec::new(), false);
        while !ended {
            let some = match self.input.fill_buf() {
                Ok(some) => some,
                Err(fault) if fault.kind() == ErrorKind::Interrupted => continue,
                Err(fault) => return Err(fault),
            };
            if some.is_empty() {
                break;
            }
            let skip = usize::from(self.after_cr && some[0] == b'\n');
            let length = some[skip..].iter().position(|byte| matches!(byte, b'\n' | b'\r'));
            let end = skip + length.unwrap_or(some.len() - skip);
            line.extend(&some[skip..end]);
            ended = length.is_some();
            self.after_cr = ended && some[end] == b'\r';
            let taken = end + usize::from(ended);
            self.input.consume(taken);
        }
        // A byte order mark at the beginning of the text is no part of it.
        if std::mem::take(&mut self.first) && line.starts_with(b"\xef\xbb\xbf") {
            line.drain(..3);
        }
        Ok(if ended || !line.is_empty() { Some(line) } else { None })
    }
}
