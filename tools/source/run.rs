// A text run by mlrun: each statement with its line and its answer, in words and names.

use crate::answers::{answer, Answer, Row};
use crate::ended;
use crate::feed::feed;
use crate::input::Input;
use crate::lines::Lines;
use crate::record::{Record, What};
use crate::refusal::{self, Asked};
use crate::stop::{put, Stop};
use crate::table::table;
use crate::told::{Ending, Told};
use crate::words::{asked, rows, word};
use std::ffi::OsStr;
use std::io::BufReader;
use std::process::{Child, ChildStdout, Command, Stdio};
use std::sync::mpsc::channel;

/// The status: 0 where every statement was done, 1 where one was refused.
pub fn run(input: Input, program: &OsStr) -> Result<u8, Stop> {
    let (file, called) = (input.name.clone(), program.to_string_lossy().into_owned());
    let not_started = |why: String| Stop::Program(format!("{called}: not started: {why}"));
    let started = Command::new(program).stdin(Stdio::piped()).stdout(Stdio::piped()).spawn();
    let mut child = Started(started.map_err(|fault| not_started(fault.to_string()))?);
    let (to, from) = match (child.0.stdin.take(), child.0.stdout.take()) {
        (Some(to), Some(from)) => (to, from),
        _ => return Err(not_started("it has no pipes".to_string())),
    };
    let (sender, events) = channel();
    std::thread::spawn(move || feed(input, to, sender));
    let mut run = Run { file, called, output: Lines::new(BufReader::new(from)), told: Told::new(events), done: 0, refused: 0 };
    run.answers()?;
    let ended = child.0.wait().map_err(|fault| run.unfit(fault.to_string()))?;
    if !ended.success() {
        return Err(run.unfit(format!("it ended with {ended}")));
    }
    run.end()
}

// mlrun doesn't outlive the tool.
struct Started(Child);

impl Drop for Started {
    fn drop(&mut self) {
        _ = self.0.kill();
        _ = self.0.wait();
    }
}

struct Run {
    file: String,
    called: String,
    output: Lines<BufReader<ChildStdout>>,
    told: Told,
    done: usize,
    refused: usize,
}

impl Run {
    // Every line that mlrun writes.
    fn answers(&mut self) -> Result<(), Stop> {
        while let Some(answer) = self.next()? {
            match answer {
                Answer::Answered { kind, number, count } => self.answered(kind, number, count)?,
                Answer::Ended(number) => return self.ended(number),
                Answer::Row(_) => return Err(self.unfit("it wrote a row that no SELECT asked for".to_string())),
            }
        }
        Ok(())
    }

    fn next(&mut self) -> Result<Option<Answer>, Stop> {
        let line = match self.output.next().map_err(|fault| self.unfit(fault.to_string()))? {
            Some(line) => String::from_utf8_lossy(&line).into_owned(),
            None => return Ok(None),
        };
        let answer = answer(&line).ok_or_else(|| self.unfit(format!("it wrote '{}', which is no answer", line.escape_debug())))?;
        Ok(Some(answer))
    }

    // The answer to the next statement.
    fn answered(&mut self, kind: u16, number: u32, count: u64) -> Result<(), Stop> {
        let (line, record) = self.told.statement().ok_or_else(|| self.unfit("it wrote an answer that no statement asked for".to_string()))?;
        let fits = record.kind() == kind && (number == 0 || count == 0);
        let (level, relation, what) = match record {
            Record::Statement { level, relation, what } if fits => (level, relation, what),
            _ => return Err(self.unfit(format!("its answer to line {line} has kind {kind}, number {number} and count {count}"))),
        };
        let shown = match what {
            What::Select { .. } if number == 0 => self.rows(line, relation, count)?,
            _ => Vec::new(),
        };
        let names = &self.told.names;
        let mut text = format!("line {line}, {} by {} in {}: ", word(&what), names.level(level.into()), names.relation(relation.into()));
        if number == 0 {
            self.done += 1;
            text += &format!("done, {}\n", rows(count));
        } else {
            self.refused += 1;
            let why = refusal::reason(number, &Asked { state: &self.told.state, names, level, relation, what: &what });
            let why = why.ok_or_else(|| self.unfit(format!("its answer to line {line} has the number {number}")))?;
            text += &format!("refused ({number}): {why}; nothing changed\n");
        }
        let asked = asked(names, relation, &what);
        if !asked.is_empty() {
            text += &format!("    {asked}\n");
        }
        if !shown.is_empty() {
            text += &format!("\n{}\n", table(names, relation.into(), &shown));
        }
        put(text.as_bytes())
    }

    fn rows(&mut self, line: usize, relation: u16, count: u64) -> Result<Vec<Row>, Stop> {
        let columns = self.told.state.relation(relation).map_or(0, |relation| relation.ranges.len());
        let mut rows = Vec::new();
        for _ in 0..count {
            match self.next()? {
                Some(Answer::Row(row)) if row.cells.len() == columns => rows.push(row),
                _ => return Err(self.unfit(format!("its answer to line {line} says {count} rows, and they don't follow"))),
            }
        }
        Ok(rows)
    }

    // The record of that number can't be read.
    fn ended(&mut self, number: u64) -> Result<(), Stop> {
        if self.output.next().map_or(true, |more| more.is_some()) {
            return Err(self.unfit(format!("it wrote more behind 'x {number}'")));
        }
        let culprit = self.told.record(number);
        if culprit.is_none() && matches!(self.told.ending, Some(Ending::Wrong(_))) {
            return Ok(());
        }
        let (line, found) = culprit.ok_or_else(|| self.unfit(format!("it wrote 'x {number}', and there is no such record")))?;
        let (at, why) = ended::reason(&self.told.state, &self.told.names, line, &found);
        self.told.ending = Some(Ending::Refused { line, message: format!("{}:{at}: {why}; the run ended at record {number}", self.file) });
        Ok(())
    }

    // What is left to tell when mlrun has ended.
    fn end(&mut self) -> Result<u8, Stop> {
        if !matches!(self.told.ending, Some(Ending::Refused { .. })) {
            if let Some(line) = self.told.unanswered() {
                return Err(self.unfit(format!("it ended and left line {line} without an answer")));
            }
        }
        let (line, stop) = match self.told.ending.take() {
            Some(Ending::Whole) => (None, None),
            Some(Ending::Wrong(fault)) => (Some(fault.line), Some(Stop::Wrong(fault.within(&self.file)))),
            Some(Ending::Refused { line, message }) => (Some(line), Some(Stop::Wrong(message))),
            Some(Ending::Unread(fault)) => (None, Some(crate::input::unread(&self.file, &fault))),
            None => return Err(self.unfit("it ended before the text did".to_string())),
        };
        put(self.summary(line).as_bytes())?;
        stop.map_or(Ok(u8::from(self.refused > 0)), Err)
    }

    // How many statements were done and refused, and where the run ended before the text did.
    fn summary(&self, line: Option<usize>) -> String {
        let total = self.done + self.refused;
        let mut text = format!("{total} statement{}: {} done", if total == 1 { "" } else { "s" }, self.done);
        if self.refused > 0 {
            text += &format!(", {} refused", self.refused);
        }
        if let Some(line) = line {
            text += &format!("; nothing from line {line} on was run");
        }
        text + "\n"
    }

    fn unfit(&self, why: String) -> Stop {
        Stop::Program(format!("{}: {why}", self.called))
    }
}
