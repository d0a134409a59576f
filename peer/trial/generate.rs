//! Streams, each from a seed and its number alone.

use super::damage::{self, Records};
use super::illegal::Rows;
use super::random::Random;
use super::statements::{self, View};
use super::{descriptions, encode, illegal, rows, spoil};
use crate::register::description::Description;
use crate::register::tables::{Tables, NOTHING};
use crate::register::Statement;

pub fn stream(seed: u64, number: u64) -> Vec<u8> {
    let random = &mut Random::new(seed, number);
    match random.below(1000) {
        0..=7 => full(random),
        8..=349 => sound(random).concat(),
        350..=489 => referring(random),
        490..=529 => at_limit(random),
        530..=639 => unsound(random),
        640..=779 => not_legal(random),
        780..=789 => longest(random),
        790..=849 => bad_rows(random),
        850..=889 => damage::damaged(random),
        890..=939 => damage::out_of_order(random),
        940..=979 => damage::of_wrong_length(random),
        _ => damage::random_bytes(random),
    }
}

/// A stream with records of every kind.
pub fn of_every_kind(random: &mut Random) -> Records {
    loop {
        let records = sound(random);
        if [1, 2, 3, 16, 17, 18, 19, 20].iter().all(|&kind| records.iter().any(|record| record[2] == kind)) {
            return records;
        }
    }
}

/// Statements on tables, and at the end SELECTs that show every table.
fn statements_and_show(random: &mut Random, description: &Description, tables: &Tables, count: usize, spoilt: usize) -> Records {
    let mut tables = tables.clone();
    let mut records = Vec::new();
    for _ in 0..count {
        let view = View { description, tables: &tables };
        let mut statement = statements::any(random, &view);
        if random.chance(spoilt) {
            statement = statements::any_evenly(random, &view);
            spoil::spoil(random, description, &mut statement);
            if random.chance(10) {
                spoil::spoil(random, description, &mut statement);
            }
        }
        rows::carry_out(description, &mut tables, &statement);
        records.push(encode::statement(&statement));
    }
    records.extend(statements::show_everything(random, description).iter().map(encode::statement));
    records
}

/// A small sound description, rows or none, and statements.
pub fn sound(random: &mut Random) -> Records {
    let description = descriptions::small(random);
    with_tables(random, &description)
}

fn with_tables(random: &mut Random, description: &Description) -> Records {
    let mut tables = if random.chance(60) { rows::rich(random, description) } else { rows::some(random, description) };
    if random.chance(20) {
        rows::take_classes(random, description, &mut tables);
    }
    let mut rows = rows_in_any_order(random, &tables);
    if random.chance(10) {
        let relation = random.between(1, description.relations.len());
        let level = random.below(description.labels.len());
        if tables.lowest_empty(relation, level).is_some() {
            rows.insert(0, (relation, level, vec![NOTHING; description.relation(relation).columns()]));
        }
    }
    let count = random.between(5, 40);
    on_rows(random, description, &rows, count, 15)
}

/// The rows of tables, now and then in no order.
fn rows_in_any_order(random: &mut Random, tables: &Tables) -> Rows {
    let mut rows = illegal::rows_of(tables);
    if random.chance(40) {
        random.shuffle(&mut rows);
    }
    rows
}

/// A description, rows, and statements on the tables that they make once they have been placed one after the other.
fn on_rows(random: &mut Random, description: &Description, rows: &Rows, count: usize, spoilt: usize) -> Records {
    let mut records = encode::description(description);
    let mut tables = Tables::empty(description);
    for (relation, level, row) in rows {
        records.push(encode::row(*relation, *level, row));
        if let Some(place) = tables.lowest_empty(*relation, *level) {
            tables.put(*relation, *level, place, row.clone());
        }
    }
    records.extend(statements_and_show(random, description, &tables, count, spoilt));
    records
}

/// References at several levels, and keys that several entities have.
fn referring(random: &mut Random) -> Vec<u8> {
    let description = descriptions::referring(random);
    let tables = rows::rich(random, &description);
    let rows = rows_in_any_order(random, &tables);
    let count = random.between(5, 30);
    on_rows(random, &description, &rows, count, 3).concat()
}

/// Tables of 8,192 cells with nearly every row in use; now and then with one thing changed, so that they most times are not legal.
fn full(random: &mut Random) -> Vec<u8> {
    let description = descriptions::full(random);
    let tables = rows::full(random, &description);
    let mut rows = rows_in_any_order(random, &tables);
    if random.chance(40) {
        illegal::damage(random, &description, &mut rows);
    }
    on_rows(random, &description, &rows, 12, 5).concat()
}

fn at_limit(random: &mut Random) -> Vec<u8> {
    let description = descriptions::at_limit(random);
    if description.cells() == 8192 {
        let mut records = encode::description(&description);
        records.extend(statements_and_show(random, &description, &Tables::empty(&description), 3, 0));
        return records.concat();
    }
    with_tables(random, &description).concat()
}

/// A description that breaks a rule, a row now and then, and statements of every kind.
fn unsound(random: &mut Random) -> Vec<u8> {
    let sound = descriptions::small(random);
    let tables = Tables::empty(&sound);
    let mut records = encode::description(&descriptions::unsound(random));
    if random.chance(12) {
        records.push(encode::row(1, 0, &vec![NOTHING; random.between(1, 3)]));
    }
    let view = View { description: &sound, tables: &tables };
    let all: [fn(&mut Random, &View) -> Statement; 5] =
        [statements::insert, statements::delete, statements::update, statements::uplevel, statements::select];
    records.extend(all.iter().map(|make| encode::statement(&make(random, &view))));
    records.concat()
}

/// Tables that most times break a rule, and statements.
fn not_legal(random: &mut Random) -> Vec<u8> {
    let (description, placed) = match random.below(10) {
        0 => illegal::another_entity(random),
        1..=3 => illegal::by_hand(random),
        _ => {
            let description = descriptions::small(random);
            let mut placed = illegal::rows_of(&rows::rich(random, &description));
            illegal::damage(random, &description, &mut placed);
            (description, placed)
        }
    };
    on_rows(random, &description, &placed, 6, 20).concat()
}

/// A stream with a record of exactly 1,024 bytes.
fn longest(random: &mut Random) -> Vec<u8> {
    let description = descriptions::small(random);
    let longest = damage::longest(random);
    let mut records = encode::description(&description);
    match longest[2] {
        1 => records[0] = longest,
        _ => records.push(longest),
    }
    records.extend(statements_and_show(random, &description, &Tables::empty(&description), 3, 0));
    records.concat()
}

fn bad_rows(random: &mut Random) -> Vec<u8> {
    let description = descriptions::small(random);
    let mut records = encode::description(&description);
    records.extend(damage::bad_rows(random, &description));
    records.extend(statements_and_show(random, &description, &Tables::empty(&description), 5, 0));
    records.concat()
}

/// Very many statements on small tables: a stream of at least so many bytes.
pub fn long(seed: u64, bytes: usize) -> Vec<u8> {
    let random = &mut Random::new(seed, u64::MAX);
    let description = descriptions::referring(random);
    let mut stream = encode::description(&description).concat();
    let mut tables = Tables::empty(&description);
    while stream.len() < bytes {
        let statement = statements::any(random, &View { description: &description, tables: &tables });
        rows::carry_out(&description, &mut tables, &statement);
        stream.extend(encode::statement(&statement));
    }
    stream
}
