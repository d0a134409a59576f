//! Streams that are cut, of wrong length, out of order, of unknown kind, or no stream at all.

use super::random::Random;
use super::{encode, generate};
use crate::register::description::Description;
use crate::register::tables::{Cell, NOTHING};

pub type Records = Vec<Vec<u8>>;

/// A stream that is damaged in one way.
pub fn damaged(random: &mut Random) -> Vec<u8> {
    let mut records = generate::sound(random);
    let place = random.below(records.len());
    match random.below(9) {
        0 | 1 => return cut(random, records.concat()),
        2 => {
            let length = random.pick(&[-7i32, -6, -2, -1, 1, 2, 6, 7, 300]);
            let header = u16::from_le_bytes([records[place][0], records[place][1]]) as i32 + length;
            records[place][..2].copy_from_slice(&(header as u16).to_le_bytes());
        }
        3 => set_kind(&mut records[place], random.pick(&[0, 4, 5, 15, 21, 255, 257, 258, 272, 65535])),
        4 => set_kind(&mut records[place], random.pick(&[1, 2, 3, 16, 17, 18, 19, 20])),
        5 => {
            let other = random.below(records.len());
            records.swap(place, other);
        }
        6 => {
            let again = records[place].clone();
            let to = random.between(0, records.len());
            records.insert(to, again);
        }
        7 => return flip_bytes(random, records.concat()),
        _ => records.insert(place, over_long(random)),
    }
    records.concat()
}

fn set_kind(record: &mut [u8], kind: u16) {
    record[2..4].copy_from_slice(&kind.to_le_bytes());
}

/// The first record of a kind in a stream that has every kind.
fn first_of(records: &mut Records, kind: u8) -> &mut Vec<u8> {
    let place = records.iter().position(|record| record[2] == kind).unwrap_or(0);
    &mut records[place]
}

/// A stream with a record after those of a stage that it may not follow. Stages: 0 nothing, then kinds 1, 2, 3 and statements.
pub fn out_of_order(random: &mut Random) -> Vec<u8> {
    let mut records = generate::of_every_kind(random);
    let all = [(1, 1), (1, 2), (1, 3), (1, 4), (2, 0), (2, 3), (2, 4), (3, 0), (3, 4), (16, 0), (17, 0), (18, 0), (19, 0), (20, 0)];
    let (kind, stages) = random.pick(&all);
    let misplaced = first_of(&mut records, kind).clone();
    let (mut first, after): (Records, Records) = records.into_iter().partition(|record| record[2].min(4) <= stages);
    first.truncate(if stages == 4 { random.between(first.len() / 2, first.len()) } else { first.len() });
    first.push(misplaced);
    first.extend(after);
    first.concat()
}

/// A stream with a record of wrong length, each kind as often.
pub fn of_wrong_length(random: &mut Random) -> Vec<u8> {
    let mut records = generate::of_every_kind(random);
    let kind = random.pick(&[1, 2, 3, 16, 17, 18, 19, 20]);
    change_length(random, first_of(&mut records, kind));
    records.concat()
}

fn cut(random: &mut Random, mut bytes: Vec<u8>) -> Vec<u8> {
    bytes.truncate(random.below(bytes.len()));
    bytes
}

/// Makes a body longer or shorter, and says so in the header.
fn change_length(random: &mut Random, record: &mut Vec<u8>) {
    let length = record.len() + random.pick(&[0, 1, 2, 3, 4, 5, 6, 7, 8, 10, 12]) - 4;
    let mut body = record[4..].to_vec();
    body.resize(length.saturating_sub(6), 0);
    let kind = u16::from_le_bytes([record[2], record[3]]);
    *record = encode::record(kind as usize, body);
}

fn flip_bytes(random: &mut Random, mut bytes: Vec<u8>) -> Vec<u8> {
    for _ in 0..random.between(1, 3) {
        let place = random.below(bytes.len());
        bytes[place] = random.pick(&[0, 1, 2, 16, 255, bytes[place] ^ 1, bytes[place] ^ 128]);
    }
    bytes
}

/// A record that would be fine but for a body over 1,024 bytes.
fn over_long(random: &mut Random) -> Vec<u8> {
    match random.below(3) {
        0 => encode::record(1, vec![0; 1026]),
        1 => encode::record(3, vec![0; 4 + 6 * 171]),
        _ => select_of_length(1026),
    }
}

/// A SELECT whose body has so many bytes, with AT levels that are all 0.
fn select_of_length(length: usize) -> Vec<u8> {
    let count = (length - 8) / 2;
    let mut body = vec![0, 0, 1, 0, count as u8, (count / 256) as u8];
    body.resize(length, 0);
    encode::record(20, body)
}

/// Zeros after some bytes, as a record.
fn with_zeros(kind: usize, first: &[u8], zeros: usize) -> Vec<u8> {
    encode::record(kind, [first, &vec![0; zeros]].concat())
}

/// A record of 1,024 bytes, or as near as its kind comes to that; its lists are the longest that can be read.
pub fn longest(random: &mut Random) -> Vec<u8> {
    match random.below(7) {
        0 => encode::labels(&(0..512).collect::<Vec<u32>>()),
        1 => with_zeros(2, &[254, 0, 1, 0, 0, 0, 0, 0], 4 * 254),
        2 => with_zeros(16, &[0, 0, 1, 0, 169, 0], 6 * 169),
        3 => with_zeros(17, &[0, 0, 1, 0, 101, 0], 10 * 101),
        4 => with_zeros(18, &[0, 0, 1, 0, 166, 0], 6 * 166 + 2 + 10 * 2),
        5 => with_zeros(19, &[0, 0, 1, 0, 7, 0, 0, 0, 255, 0, 253, 0], 4 * 253),
        _ => select_of_length(1024),
    }
}

/// Bytes of no stream, some of which begin like one.
pub fn random_bytes(random: &mut Random) -> Vec<u8> {
    let mut bytes = if random.chance(50) { encode::labels(&[0, 1]) } else { vec![] };
    let most = random.pick(&[1, 3, 8, 60, 600]);
    for _ in 0..random.between(0, most) {
        bytes.push(if random.chance(60) { random.below(21) as u8 } else { random.next() as u8 });
    }
    bytes
}

/// Rows that can't be placed, or only just can.
pub fn bad_rows(random: &mut Random, description: &Description) -> Records {
    let (levels, relations) = (description.labels.len(), description.relations.len());
    let (level, number) = (random.below(levels), random.between(1, relations));
    let relation = description.relation(number);
    let row = vec![NOTHING; relation.columns()];
    let used = |key: u32| {
        let mut row = row.clone();
        row[0] = Cell { value: key, class: level };
        row
    };
    match random.below(8) {
        0 => vec![encode::row(random.pick(&[0, relations + 1, 256 + number, 65535]), level, &row)],
        1 => vec![encode::row(number, random.pick(&[levels, levels + 1, 255, 256 + level, 65535]).max(levels), &row)],
        2 => vec![encode::row(number, level, &vec![NOTHING; random.pick(&[0, row.len() - 1, row.len() + 1, 170])])],
        3 => vec![encode::row(number, level, &vec![Cell { value: 1, class: random.pick(&[256, 257, 511, 65535]) }; row.len()])],
        4 => (0..relation.rows + 1).map(|place| encode::row(number, level, &used(place as u32 + 1))).collect(),
        5 => (0..relation.rows).map(|place| encode::row(number, level, &used(place as u32 + 1))).chain([encode::row(number, level, &row)]).collect(),
        6 => (0..relation.rows + 2).map(|_| encode::row(number, level, &row)).chain([encode::row(number, level, &used(3))]).collect(),
        _ => vec![encode::row(number, level, &vec![Cell { value: 0, class: random.pick(&[16, 254, 255]) }; row.len()])],
    }
}
