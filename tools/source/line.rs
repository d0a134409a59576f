// Reading one line from left to right. What could have stood at a place is kept until something does, so that a fault can say it.

use crate::names::{Described, Kind, Names};
use crate::pieces::{Piece, Sort};

/// What is wrong with a text, and where; lines and columns are counted from 1.
#[derive(Debug)]
pub struct Fault {
    pub line: usize,
    pub column: usize,
    pub message: String,
}

impl Fault {
    pub fn within(&self, file: &str) -> String {
        format!("{file}:{}:{}: {}", self.line, self.column, self.message)
    }
}

pub type Read<T> = Result<T, Fault>;

pub struct Line<'a> {
    pub number: usize,
    pub pieces: &'a [Piece],
    pub names: &'a Names,
    at: usize,
    wanted: Vec<&'static str>,
}

impl<'a> Line<'a> {
    pub fn new(number: usize, pieces: &'a [Piece], names: &'a Names) -> Line<'a> {
        Line { number, pieces, names, at: 0, wanted: Vec::new() }
    }

    pub fn here(&self) -> &'a Piece {
        &self.pieces[self.at]
    }

    pub fn step(&mut self) {
        self.at += 1;
        self.wanted.clear();
    }

    // ---- words and signs

    /// Goes past a word or a sign, if it stands here.
    pub fn take(&mut self, text: &'static str) -> bool {
        let piece = self.here();
        let stands = matches!(piece.sort, Sort::Word | Sort::Sign) && piece.text == text;
        if stands {
            self.step();
        } else {
            self.wanted.push(text);
        }
        stands
    }

    pub fn need(&mut self, text: &'static str) -> Read<()> {
        if self.take(text) { Ok(()) } else { Err(self.unexpected()) }
    }

    // ---- names that a line gives

    /// Whether a name and = stand here: something is being named.
    pub fn at_naming(&self) -> bool {
        self.here().sort == Sort::Name && self.pieces[self.at + 1].text == "="
    }

    /// Whether a name stands here.
    pub fn at_name(&mut self, what: &'static str) -> bool {
        let stands = self.here().sort == Sort::Name;
        if !stands {
            self.wanted.push(what);
        }
        stands
    }

    /// A name that nothing has yet, neither above nor among those that this line has given.
    pub fn new_name(&mut self, what: &'static str, given: &[Option<String>]) -> Read<String> {
        let piece = self.here();
        if piece.sort != Sort::Name {
            return Err(self.instead_of(what));
        }
        let name = piece.text.clone();
        if let Some(kind) = self.names.shared_kind(&name) {
            return Err(self.fault(format!("'{name}' is {} already; expected another name", kind.called())));
        }
        self.unlike(&name, given)?;
        self.step();
        Ok(name)
    }

    /// A column's name, which no other column of its relation has.
    pub fn new_column(&mut self, given: &[Option<String>]) -> Read<String> {
        let name = self.here().text.clone();
        self.unlike(&name, given)?;
        self.step();
        Ok(name)
    }

    fn unlike(&self, name: &str, given: &[Option<String>]) -> Read<()> {
        if given.iter().any(|other| other.as_deref() == Some(name)) {
            return Err(self.fault(format!("this line gives the name '{name}' already; expected another name")));
        }
        Ok(())
    }

    // ---- numbers, and names for them

    /// Whether a number or a name stands here.
    pub fn at_number(&mut self, what: &'static str) -> bool {
        let stands = matches!(self.here().sort, Sort::Number | Sort::Name);
        if !stands {
            self.wanted.push(what);
        }
        stands
    }

    pub fn level(&mut self, what: &'static str) -> Read<u16> {
        Ok(self.up_to(what, u16::MAX.into(), |names, name| names.number(name, Kind::Level))? as u16)
    }

    pub fn relation(&mut self, what: &'static str) -> Read<u16> {
        Ok(self.up_to(what, u16::MAX.into(), |names, name| names.number(name, Kind::Relation))? as u16)
    }

    /// A column of a relation that stands above.
    pub fn column(&mut self, relation: u16) -> Read<u16> {
        let of = self.names.described(relation.into());
        self.column_of(&of, &self.names.relation(relation.into()))
    }

    /// A column of a relation, which is called so in a fault.
    pub fn column_of(&mut self, of: &Described, called: &str) -> Read<u16> {
        Ok(self.up_to("a column", u16::MAX.into(), |names, name| names.column_number(name, of, called))? as u16)
    }

    pub fn value(&mut self, what: &'static str) -> Read<u32> {
        self.up_to(what, u32::MAX, |names, name| names.number(name, Kind::Value))
    }

    /// The constant of a class condition: a level, in four bytes.
    pub fn wide_level(&mut self, what: &'static str) -> Read<u32> {
        self.up_to(what, u32::MAX, |names, name| names.number(name, Kind::Level))
    }

    /// A number of two bytes that has no name.
    pub fn half(&mut self, what: &'static str) -> Read<u16> {
        Ok(self.up_to(what, u16::MAX.into(), |names, name| Err(names.instead(name, "a number")))? as u16)
    }

    /// A number of four bytes that has no name.
    pub fn full(&mut self, what: &'static str) -> Read<u32> {
        self.up_to(what, u32::MAX, |names, name| Err(names.instead(name, "a number")))
    }

    fn up_to(&mut self, what: &'static str, most: u32, named: impl Fn(&Names, &str) -> Result<u32, String>) -> Read<u32> {
        if !self.at_number(what) {
            return Err(self.unexpected());
        }
        let piece = self.here();
        let number = match piece.sort {
            Sort::Number => piece.text.parse().ok(),
            _ => Some(named(self.names, &piece.text).map_err(|wrong| self.fault(format!("{wrong}; expected {what}")))?),
        };
        match number {
            Some(number) if number <= most => {
                self.step();
                Ok(number)
            }
            Some(number) if piece.sort == Sort::Name => {
                Err(self.fault(format!("'{}' is {number}, which is too large; expected {what}, at most {most}", piece.text)))
            }
            _ => Err(self.fault(format!("{} is too large; expected {what}, at most {most}", piece.text))),
        }
    }

    // ---- the end, and faults

    pub fn end(&mut self) -> Read<()> {
        if self.here().sort == Sort::End {
            return Ok(());
        }
        Err(self.instead_of("the end of the line"))
    }

    pub fn instead_of(&mut self, what: &'static str) -> Fault {
        self.wanted.push(what);
        self.unexpected()
    }

    /// The fault that what stands here is none of what could.
    pub fn unexpected(&self) -> Fault {
        let piece = self.here();
        let found = if piece.sort == Sort::End { "the line ends here".to_string() } else { format!("found '{}'", piece.text.escape_debug()) };
        let wanted = match self.wanted.split_last() {
            Some((last, [])) => last.to_string(),
            Some((last, others)) => format!("{} or {last}", others.join(", ")),
            None => "something else".to_string(),
        };
        self.fault(format!("{found}; expected {wanted}"))
    }

    pub fn fault(&self, message: String) -> Fault {
        Fault { line: self.number, column: self.here().column, message }
    }
}
