// Tries the tool on generated input: `trial SEED COUNT`. Records of each kind with fields of any width, streams of them that are cut, changed or
// joined to random bytes, and texts with a letter changed go both ways. Its last line is `N passed, M failed`.

// What only a run of mlrun needs isn't tried here.
#![allow(dead_code)]

mod ask;
mod decode;
mod describe;
mod encode;
mod follow;
mod line;
mod lines;
mod lists;
mod names;
mod pieces;
mod read;
mod record;
mod write;

use record::{Cell, Condition, Record, Relation, What, MOST};

const FORM: &str = include_str!("form.txt");

struct Chance(u64);

impl Chance {
    fn next(&mut self) -> u64 {
        self.0 ^= self.0 << 13;
        self.0 ^= self.0 >> 7;
        self.0 ^= self.0 << 17;
        self.0.wrapping_mul(0x2545_F491_4F6C_DD1D) >> 16
    }

    fn below(&mut self, bound: usize) -> usize {
        (self.next() % bound as u64) as usize
    }

    // Small numbers, the ends of the width and anything between, since those are where a form goes wrong.
    fn full(&mut self) -> u32 {
        match self.below(4) {
            0 => self.below(7) as u32,
            1 => [255, 256, 65535, 65536, u32::MAX - 1, u32::MAX][self.below(6)],
            _ => self.next() as u32,
        }
    }

    fn half(&mut self) -> u16 {
        self.full() as u16
    }

    fn pair(&mut self) -> (u16, u16) {
        (self.half(), self.half())
    }

    fn value(&mut self) -> (u16, u32) {
        (self.half(), self.full())
    }

    fn cell(&mut self) -> Cell {
        Cell { value: self.full(), class: self.half() }
    }

    fn condition(&mut self) -> Condition {
        Condition { column: self.half(), mark: self.half(), test: self.half(), constant: self.full() }
    }

    fn list<T>(&mut self, item: fn(&mut Self) -> T) -> Vec<T> {
        let long = self.below(20) == 0;
        (0..self.below(if long { 300 } else { 6 })).map(|_| item(self)).collect()
    }

    fn what(&mut self, kind: usize) -> What {
        match kind {
            0 => What::Insert { values: self.list(Self::value) },
            1 => What::Delete { conditions: self.list(Self::condition) },
            2 => What::Update { values: self.list(Self::value), conditions: self.list(Self::condition) },
            3 => What::Uplevel { key: self.full(), class: self.half(), from: self.list(Self::pair) },
            _ => What::Select { at: self.list(Self::half), conditions: self.list(Self::condition) },
        }
    }

    fn any(&mut self) -> Record {
        match self.below(8) {
            0 => Record::Labels(self.list(Self::half)),
            1 => {
                let (foreign, referred) = if self.below(2) == 0 { (0, 0) } else { self.pair() };
                Record::Relation(Relation { rows: self.half(), ranges: self.list(Self::pair), foreign, referred })
            }
            2 => Record::Row { relation: self.half(), level: self.half(), cells: self.list(Self::cell) },
            kind => Record::Statement { level: self.half(), relation: self.half(), what: self.what(kind - 3) },
        }
    }

    // A record whose body isn't too long.
    fn record(&mut self) -> Record {
        loop {
            let record = self.any();
            if encode::body(&record).len() <= MOST {
                return record;
            }
        }
    }

    fn bytes(&mut self, most: usize) -> Vec<u8> {
        (0..self.below(most + 1)).map(|_| self.next() as u8).collect()
    }

    fn stream(&mut self) -> Vec<u8> {
        (0..self.below(6)).flat_map(|_| encode::encode(&self.record())).collect()
    }

    // A stream with one thing wrong with it, or random bytes, which begin like a record in half of the cases.
    fn damaged(&mut self) -> Vec<u8> {
        let mut stream = self.stream();
        match self.below(4) {
            0 => stream.truncate(self.below(stream.len() + 1)),
            1 if !stream.is_empty() => {
                let at = self.below(stream.len());
                stream[at] = self.next() as u8;
            }
            2 => stream.extend(self.bytes(40)),
            _ => {
                let body = self.bytes(60);
                if self.below(2) == 0 {
                    stream.extend((body.len() as u16).to_le_bytes());
                    stream.extend([self.below(24) as u8, 0]);
                }
                stream.extend(body);
            }
        }
        stream
    }

    // A text with a letter changed, put in or taken out.
    fn changed(&mut self, text: &str) -> String {
        const LETTERS: &[char] = &['0', '9', ' ', '=', '!', '<', '/', '-', '.', ',', '#', 'A', 'z', 'l', '\n', '\r', '\t', 'ä', '\u{0}', '\u{feff}'];
        let mut letters: Vec<char> = text.chars().collect();
        let at = self.below(letters.len() + 1);
        let letter = LETTERS[self.below(LETTERS.len())];
        match self.below(3) {
            0 if at < letters.len() => letters[at] = letter,
            1 if at < letters.len() => _ = letters.remove(at),
            _ => letters.insert(at, letter),
        }
        letters.into_iter().collect()
    }
}

fn lines_of(text: &str) -> Vec<Vec<u8>> {
    let (mut lines, mut all) = (lines::Lines::new(text.as_bytes()), Vec::new());
    while let Ok(Some(line)) = lines.next() {
        all.push(line);
    }
    all
}

// The records of a text, or the first thing that is wrong with it. Line by line as many are found as in the whole stream.
fn pack(text: &str) -> Result<Vec<u8>, line::Fault> {
    let (mut read, mut stream, mut found) = (read::Text::default(), Vec::new(), 0);
    for (above, line) in lines_of(text).iter().enumerate() {
        let said = read.line(above + 1, line)?;
        stream.extend(said.bytes);
        found += said.found.len();
    }
    found += read.end().into_iter().count();
    assert_eq!(found, decode::decode(&stream).len(), "records of {text}");
    Ok(stream)
}

// Bytes to text and back are the same bytes, and the text doesn't change on a second way through.
fn both_ways(stream: &[u8]) -> bool {
    let text = write::unpack(stream);
    pack(&text).map_or(false, |bytes| bytes == stream && write::unpack(&bytes) == text)
}

// A record is one line of its own, which doesn't fall back on BYTES.
fn one_line(record: &Record) -> bool {
    let text = write::unpack(&encode::encode(record));
    text.matches('\n').count() == 1 && !text.contains("BYTES")
}

// A changed text goes both ways, or it is refused at a place that is there, with what was expected.
fn refused_or_sound(text: &str) -> bool {
    match pack(text) {
        Ok(bytes) => both_ways(&bytes),
        Err(fault) => {
            let lines = lines_of(text);
            let line = lines.get(fault.line.wrapping_sub(1)).map(|line| String::from_utf8_lossy(line));
            line.map_or(false, |line| (1..=line.chars().count() + 1).contains(&fault.column)) && fault.message.contains("; expected ")
        }
    }
}

fn main() {
    let numbers: Vec<u64> = std::env::args().skip(1).filter_map(|word| word.parse().ok()).collect();
    let (seed, count) = match numbers[..] {
        [seed, count] => (seed, count),
        _ => {
            println!("expected: trial SEED COUNT");
            std::process::exit(1);
        }
    };
    let mut chance = Chance(seed.wrapping_mul(0x9E37_79B9_7F4A_7C15) | 1);
    let (mut passed, mut failed) = (0, 0);
    let mut tell = |good: bool, what: &str, case: u64, stream: &[u8]| {
        if good {
            passed += 1;
        } else {
            failed += 1;
            println!("FAILED: seed {seed}, case {case}, {what}: {stream:02x?}");
        }
    };
    for case in 0..count {
        let (record, stream, damaged) = (chance.record(), chance.stream(), chance.damaged());
        tell(one_line(&record), "a record on one line", case, &encode::encode(&record));
        tell(both_ways(&stream), "a stream", case, &stream);
        tell(both_ways(&damaged), "a damaged stream", case, &damaged);
        let text = chance.changed(&write::unpack(&stream));
        tell(refused_or_sound(&text), "a changed text", case, text.as_bytes());
        let named = chance.changed(FORM);
        tell(refused_or_sound(&named), "a changed text with names", case, named.as_bytes());
    }
    println!("{passed} passed, {failed} failed");
    std::process::exit((failed > 0 || passed == 0) as i32);
}
