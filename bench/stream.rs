// What `mlrun` is timed on: the tables as records, then one statement many times over; and the same statements read, carried out and printed
// by the Rust program.

use crate::judge::Room;
use crate::statements::{run, Kind, Statement};
use crate::tables::Tables;
use std::fmt::Write;

fn record(kind: u16, body: &[u8]) -> Vec<u8> {
    let mut bytes = (body.len() as u16).to_le_bytes().to_vec();
    bytes.extend(kind.to_le_bytes());
    bytes.extend(body);
    bytes
}

fn pairs(numbers: &[usize]) -> Vec<u8> {
    numbers.iter().flat_map(|n| (*n as u16).to_le_bytes()).collect()
}

// The description and every row.
pub fn opening(t: &Tables) -> Vec<u8> {
    let d = &t.d;
    let mut bytes = record(1, &d.labels.iter().flat_map(|l| l.to_le_bytes()).collect::<Vec<u8>>());
    for r in 1..d.columns.len() {
        let mut body = pairs(&[d.columns[r], d.rows[r], d.foreign[r], d.refers[r]]);
        for k in 1..=d.columns[r] {
            body.extend(pairs(&[d.low[9 * r + k], d.high[9 * r + k]]));
        }
        bytes.extend(record(2, &body));
    }
    let mut at = 0;
    for r in 1..d.columns.len() {
        for level in 0..d.levels {
            for _ in 0..d.rows[r] {
                let mut body = pairs(&[r, level]);
                for _ in 0..d.columns[r] {
                    body.extend(t.values[at].to_le_bytes());
                    body.extend((t.classes[at] as u16).to_le_bytes());
                    at += 1;
                }
                bytes.extend(record(3, &body));
            }
        }
    }
    bytes
}

fn conditions(s: &Statement) -> Vec<u8> {
    let mut bytes = pairs(&[s.conditions.len() / 4]);
    for q in s.conditions.chunks_exact(4) {
        bytes.extend(pairs(&[q[0] as usize, q[1] as usize, q[2] as usize]));
        bytes.extend(q[3].to_le_bytes());
    }
    bytes
}

// The number of a kind of statement in a record.
pub fn number(kind: Kind) -> u16 {
    match kind {
        Kind::Delete => 17,
        Kind::Update => 18,
        Kind::Uplevel => 19,
        Kind::Select => 20,
    }
}

// A statement on relation 1.
pub fn statement(s: &Statement) -> Vec<u8> {
    let mut body = pairs(&[s.level, 1]);
    match s.kind {
        Kind::Delete => {}
        Kind::Update => {
            body.extend(pairs(&[s.list.len() / 2]));
            for p in s.list.chunks_exact(2) {
                body.extend(pairs(&[p[0] as usize]));
                body.extend(p[1].to_le_bytes());
            }
        }
        Kind::Uplevel => {
            body.extend(s.key.to_le_bytes());
            body.extend(pairs(&[255, s.list.len() / 2]));
            body.extend(pairs(&s.list.iter().map(|n| *n as usize).collect::<Vec<_>>()));
        }
        Kind::Select => {
            body.extend(pairs(&[s.list.len()]));
            body.extend(pairs(&s.list.iter().map(|n| *n as usize).collect::<Vec<_>>()));
        }
    }
    if s.kind != Kind::Uplevel {
        body.extend(conditions(s));
    }
    record(number(s.kind), &body)
}

fn field(bytes: &[u8], at: usize) -> u32 {
    u16::from_le_bytes([bytes[at], bytes[at + 1]]) as u32
}

fn wide(bytes: &[u8], at: usize) -> u32 {
    u32::from_le_bytes([bytes[at], bytes[at + 1], bytes[at + 2], bytes[at + 3]])
}

// The list, the conditions and the key of a statement's record.
fn read(bytes: &[u8], list: &mut Vec<u32>, tests: &mut Vec<u32>) -> (Kind, usize, u32) {
    let kind = [Kind::Delete, Kind::Update, Kind::Uplevel, Kind::Select][field(bytes, 2) as usize - 17];
    list.clear();
    tests.clear();
    let mut at = 8;
    let mut key = 0;
    if kind == Kind::Uplevel {
        key = wide(bytes, 8);
        at = 14;
    }
    if kind != Kind::Delete {
        let n = field(bytes, at) as usize;
        at += 2;
        for _ in 0..n {
            list.push(field(bytes, at));
            at += 2;
            if kind == Kind::Update {
                list.push(wide(bytes, at));
                at += 4;
            } else if kind == Kind::Uplevel {
                list.push(field(bytes, at));
                at += 2;
            }
        }
    }
    if kind != Kind::Uplevel {
        let n = field(bytes, at) as usize;
        for q in 0..n {
            let p = at + 2 + 10 * q;
            tests.extend([field(bytes, p), field(bytes, p + 2), field(bytes, p + 4), wide(bytes, p + 6)]);
        }
    }
    (kind, field(bytes, 4) as usize, key)
}

// What the statements of a stream print, each on what the one before it left.
pub fn serve(t: &mut Tables, room: &mut Room, records: &[u8], text: &mut String) {
    let columns = t.d.columns[1];
    let (mut list, mut tests) = (Vec::new(), Vec::new());
    let (mut shown, mut owners) = (Vec::with_capacity(8192), Vec::with_capacity(9216));
    let mut at = 0;
    while at < records.len() {
        let size = 4 + field(records, at) as usize;
        let (kind, level, key) = read(&records[at..at + size], &mut list, &mut tests);
        at += size;
        shown.clear();
        owners.clear();
        let mut tables = crate::statements::Tables { d: &t.d, values: &mut t.values, classes: &mut t.classes };
        let s = Statement { kind, level, key, list: &list, conditions: &tests };
        let count = run(&mut tables, room, &s, &mut shown, &mut owners).expect("done");
        let _ = writeln!(text, "a {} 0 {}", number(kind), count);
        for (v, o) in shown.chunks_exact(columns).zip(owners.chunks_exact(columns + 1)) {
            let _ = write!(text, "r {}", o[columns]);
            for k in 0..columns {
                let _ = if o[k] == 255 { write!(text, " {}/-", v[k]) } else { write!(text, " {}/{}", v[k], o[k]) };
            }
            text.push('\n');
        }
    }
}
