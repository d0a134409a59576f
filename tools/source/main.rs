// `tools/records`: a readable text as the records that mlrun reads, records as text, and a text run by mlrun with its answers in words.

mod answers;
mod ask;
mod decode;
mod describe;
mod encode;
mod ended;
mod feed;
mod follow;
mod input;
mod line;
mod lines;
mod lists;
mod malformed;
mod names;
mod pieces;
mod program;
mod read;
mod record;
mod refusal;
mod run;
mod sound;
mod state;
mod stop;
mod table;
mod told;
mod words;
mod write;

use input::{unread, Input};
use std::ffi::OsString;
use std::io::{Read, Write};
use std::process::ExitCode;
use stop::{put, Stop};

const FORM: &str = include_str!("form.txt");

// The number of the text form.
const VERSION: &str = "records 1\n";

const USAGE: &str = "    tools/records run [--with PROGRAM] [FILE]   runs a text, and says each answer in words
    tools/records pack [FILE]                   text to records
    tools/records unpack [FILE]                 records to text
    tools/records help                          the text form
    tools/records --help                        this
    tools/records --version                     the number of the text form
Without FILE, or where it is -, standard input is read. The result goes to standard output.
";

const MORE: &str = "
run takes PROGRAM for mlrun; without --with, the one that tools/program finds or builds.

Exit status:
    0      all is done; with run, every statement
    1      a statement was refused, a record can't be read, or the text is wrong
    2      the call is wrong, or something can't be read or written
    3      mlrun can't be started, dies, or writes what doesn't fit the statements
    141    nobody reads the output any more
";

fn main() -> ExitCode {
    let words: Vec<OsString> = std::env::args_os().skip(1).collect();
    let stop = match call(&words) {
        Ok(status) => return ExitCode::from(status),
        Err(stop) => stop,
    };
    if let Some(message) = stop.message() {
        // Nobody is left to tell where this fails too.
        _ = writeln!(std::io::stderr(), "{message}");
    }
    ExitCode::from(stop.status())
}

fn call(words: &[OsString]) -> Result<u8, Stop> {
    let usage = || Stop::Call(format!("tools/records: expected one of\n{}", USAGE.trim_end()));
    let (command, rest) = words.split_first().ok_or_else(usage)?;
    match (command.to_str().unwrap_or(""), rest) {
        ("--help" | "-h", []) => put(format!("{USAGE}{MORE}").as_bytes())?,
        ("--version", []) => put(VERSION.as_bytes())?,
        ("help", []) => put(FORM.as_bytes())?,
        ("pack", files) => pack(Input::open(file(files).ok_or_else(usage)?)?)?,
        ("unpack", files) => unpack(Input::open(file(files).ok_or_else(usage)?)?)?,
        ("run", [with, program, files @ ..]) if with == "--with" => {
            return run::run(Input::open(file(files).ok_or_else(usage)?)?, program);
        }
        ("run", files) => {
            let input = Input::open(file(files).ok_or_else(usage)?)?;
            return run::run(input, &program::find()?);
        }
        _ => return Err(usage()),
    }
    Ok(0)
}

// At most one file, whose name isn't an option.
fn file(files: &[OsString]) -> Option<Option<&OsString>> {
    match files {
        [] => Some(None),
        [file] if file == "-" || !file.to_string_lossy().starts_with('-') => Some(Some(file)),
        _ => None,
    }
}

// Each record is written when its line is read.
fn pack(input: Input) -> Result<(), Stop> {
    let (mut text, mut lines, mut number) = (read::Text::default(), lines::Lines::new(input.from), 0);
    while let Some(line) = lines.next().map_err(|fault| unread(&input.name, &fault))? {
        number += 1;
        let said = text.line(number, &line).map_err(|fault| Stop::Wrong(fault.within(&input.name)))?;
        if !said.bytes.is_empty() {
            put(&said.bytes)?;
        }
    }
    Ok(())
}

fn unpack(mut input: Input) -> Result<(), Stop> {
    let mut stream = Vec::new();
    input.from.read_to_end(&mut stream).map_err(|fault| unread(&input.name, &fault))?;
    put(write::unpack(&stream).as_bytes())
}
