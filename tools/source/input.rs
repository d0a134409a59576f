// What is read: a file, or standard input where none is named or where it is called -.

use crate::stop::Stop;
use std::ffi::OsString;
use std::fs::File;
use std::io::{BufRead, BufReader};

pub struct Input {
    /// What faults call it.
    pub name: String,
    pub from: Box<dyn BufRead + Send>,
}

impl Input {
    pub fn open(file: Option<&OsString>) -> Result<Input, Stop> {
        match file {
            Some(file) if file != "-" => {
                let name = file.to_string_lossy().into_owned();
                let from = File::open(file).map_err(|fault| unread(&name, &fault))?;
                Ok(Input { name, from: Box::new(BufReader::new(from)) })
            }
            _ => Ok(Input { name: "standard input".to_string(), from: Box::new(BufReader::new(std::io::stdin())) }),
        }
    }
}

pub fn unread(name: &str, fault: &std::io::Error) -> Stop {
    Stop::Call(format!("{name}: not read: {fault}"))
}
