// What the text has told up to the answer that mlrun gives: names, description and records, taken in as far as the answers have come.

use crate::decode::Found;
use crate::feed::Event;
use crate::line::Fault;
use crate::names::Names;
use crate::record::Record;
use crate::state::State;
use std::sync::mpsc::Receiver;

/// How the text ended, or the run before it.
pub enum Ending {
    Whole,
    Wrong(Fault),
    Unread(std::io::Error),
    /// The record of that line could not be read.
    Refused { line: usize, message: String },
}

pub struct Told {
    pub names: Names,
    pub state: State,
    pub ending: Option<Ending>,
    events: Receiver<Event>,
    records: u64,
}

impl Told {
    pub fn new(events: Receiver<Event>) -> Told {
        Told { names: Names::default(), state: State::default(), ending: None, events, records: 0 }
    }

    // The next record, if the text has told one. An answer comes after its statement is told, so nothing is waited for.
    fn next(&mut self) -> Option<(usize, Found)> {
        loop {
            self.ending = match self.events.try_recv().ok()? {
                Event::Named(naming) => {
                    self.names.learn(naming);
                    continue;
                }
                Event::Record(line, found) => {
                    self.records += 1;
                    return Some((line, found));
                }
                Event::Wrong(fault) => Some(Ending::Wrong(fault)),
                Event::Unread(fault) => Some(Ending::Unread(fault)),
                Event::End => Some(Ending::Whole),
            };
        }
    }

    /// The next statement; none where something else must have an answer first.
    pub fn statement(&mut self) -> Option<(usize, Record)> {
        while let Some((line, Found::Record(record))) = self.next() {
            if matches!(record, Record::Statement { .. }) {
                self.state.last = Some(record.kind());
                return Some((line, record));
            }
            self.state.learn(line, record);
        }
        None
    }

    /// The record of that number, if it is yet to come; what stands before it is taken in.
    pub fn record(&mut self, number: u64) -> Option<(usize, Found)> {
        while self.records < number {
            let (line, found) = self.next()?;
            match found {
                found if self.records == number => return Some((line, found)),
                Found::Record(record) => self.state.learn(line, record),
                Found::Bytes { .. } => (),
            }
        }
        None
    }

    /// The line of a record that must have an answer and has none.
    pub fn unanswered(&mut self) -> Option<usize> {
        while let Some((line, found)) = self.next() {
            if !matches!(found, Found::Record(Record::Labels(_) | Record::Relation(_) | Record::Row { .. })) {
                return Some(line);
            }
        }
        None
    }
}
