// The text goes to mlrun line by line. What each line said is told first, so that whoever reads mlrun's answers knows it by then.

use crate::decode::Found;
use crate::input::Input;
use crate::line::Fault;
use crate::lines::Lines;
use crate::names::Naming;
use crate::read::Text;
use std::io::Write;
use std::process::ChildStdin;
use std::sync::mpsc::Sender;

pub enum Event {
    Named(Naming),
    /// A record and the line that it begins on.
    Record(usize, Found),
    Wrong(Fault),
    Unread(std::io::Error),
    End,
}

/// Ends with the text, with its first fault, or when nobody listens any more. mlrun's input ends with it.
pub fn feed(input: Input, mut to: ChildStdin, events: Sender<Event>) {
    let (mut text, mut lines, mut number) = (Text::default(), Lines::new(input.from), 0);
    // Whether the listener is still there doesn't matter here: mlrun's input ends with it, and then so does this.
    let tell = |event| _ = events.send(event);
    loop {
        number += 1;
        let line = match lines.next() {
            Ok(Some(line)) => line,
            Ok(None) => break,
            Err(fault) => return tell(Event::Unread(fault)),
        };
        let said = match text.line(number, &line) {
            Ok(said) => said,
            Err(fault) => return tell(Event::Wrong(fault)),
        };
        tell(Event::Named(said.naming));
        said.found.into_iter().for_each(|(line, found)| tell(Event::Record(line, found)));
        if to.write_all(&said.bytes).is_err() {
            return;
        }
    }
    text.end().into_iter().for_each(|(line, found)| tell(Event::Record(line, found)));
    tell(Event::End);
}
