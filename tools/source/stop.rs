// How the tool ends where it doesn't end well, and its way to standard output.

use std::io::{ErrorKind, Write};

pub enum Stop {
    /// The text or the stream is wrong.
    Wrong(String),
    /// The call is wrong, or its input or output can't be read or written.
    Call(String),
    /// The register's program can't be started, dies, or writes what doesn't fit.
    Program(String),
    /// Whoever read standard output reads no more.
    Closed,
}

impl Stop {
    /// A closed output has the status that a shell gives a program which it ends.
    pub fn status(&self) -> u8 {
        match self {
            Stop::Wrong(_) => 1,
            Stop::Call(_) => 2,
            Stop::Program(_) => 3,
            Stop::Closed => 141,
        }
    }

    pub fn message(&self) -> Option<&str> {
        match self {
            Stop::Wrong(message) | Stop::Call(message) | Stop::Program(message) => Some(message),
            Stop::Closed => None,
        }
    }
}

/// Writes to standard output at once.
pub fn put(bytes: &[u8]) -> Result<(), Stop> {
    let mut out = std::io::stdout().lock();
    out.write_all(bytes).and_then(|()| out.flush()).map_err(|fault| match fault.kind() {
        ErrorKind::BrokenPipe => Stop::Closed,
        _ => Stop::Call(format!("standard output: not written: {fault}")),
    })
}
