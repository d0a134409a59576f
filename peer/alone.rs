//! `mlrun` alone: the register without the trial. The misreadings of tests/misreadings are built from this.
#![allow(dead_code)]

mod reached;
mod register;

use std::io::{Read, Write};

fn main() -> std::io::Result<()> {
    let mut input = Vec::new();
    std::io::stdin().read_to_end(&mut input)?;
    std::io::stdout().write_all(register::program::run(&input).as_bytes())?;
    std::io::stdout().flush()
}
