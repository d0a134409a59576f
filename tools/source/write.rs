// Records as text, in the one form that `unpack` writes.

use crate::decode::{decode, Found};
use crate::record::{Condition, Record, Relation, What, NO_CLASS};

// How many bytes stand on a BYTES line.
const WIDE: usize = 32;

/// The text of a stream, one record a line.
pub fn unpack(stream: &[u8]) -> String {
    let mut text = String::new();
    for found in decode(stream) {
        match found {
            Found::Record(record) => text += &format!("{}\n", line(&record)),
            Found::Bytes { bytes, why } => text += &plain(&bytes, &why),
        }
    }
    text
}

// Bytes that are no record: a comment that says why, then the bytes.
fn plain(bytes: &[u8], why: &str) -> String {
    let mut text = format!("# {why}\n");
    for some in bytes.chunks(WIDE) {
        text += &format!("BYTES{}\n", some.iter().map(|byte| format!(" {byte:02x}")).collect::<String>());
    }
    text
}

fn line(record: &Record) -> String {
    match record {
        Record::Labels(labels) => format!("LABELS{}", labels.iter().map(|label| format!(" {label}")).collect::<String>()),
        Record::Relation(relation) => described(relation),
        Record::Row { relation, level, cells } => {
            let cells = list(" CELLS ", cells, " ", |cell| format!("{}/{}", cell.value, class(cell.class)));
            format!("ROW IN {relation} AT {level}{cells}")
        }
        Record::Statement { level, relation, what } => {
            let (word, rest) = asked(what);
            format!("{word} BY {level} IN {relation}{rest}")
        }
    }
}

fn described(relation: &Relation) -> String {
    let columns = list(" COLUMNS ", &relation.ranges, " ", |(low, high)| format!("{low}..{high}"));
    let reference = match (relation.foreign, relation.referred) {
        (0, 0) => String::new(),
        (foreign, referred) => format!(" REFERENCE {foreign} TO {referred}"),
    };
    format!("RELATION ROWS {}{columns}{reference}", relation.rows)
}

// A statement's word, and what follows its level and relation.
fn asked(what: &What) -> (&'static str, String) {
    let pairs = |word, items: &[(u16, u32)]| list(word, items, " ", |(column, value)| format!("{column}={value}"));
    let met = |items: &[Condition]| list(" WHERE ", items, " AND ", condition);
    match what {
        What::Insert { values } => ("INSERT", pairs(" VALUES ", values)),
        What::Delete { conditions } => ("DELETE", met(conditions)),
        What::Update { values, conditions } => ("UPDATE", pairs(" SET ", values) + &met(conditions)),
        What::Uplevel { key, class, from } => {
            let class = if *class == NO_CLASS { String::new() } else { format!(" CLASS {class}") };
            let from = list(" BORROW ", from, ", ", |(column, level)| format!("{column} FROM {level}"));
            ("UPLEVEL", format!(" KEY {key}{class}{from}"))
        }
        What::Select { at, conditions } => ("SELECT", list(" AT ", at, " ", |level| level.to_string()) + &met(conditions)),
    }
}

fn condition(condition: &Condition) -> String {
    let mark = match condition.mark {
        0 => String::new(),
        1 => "CLASS ".to_string(),
        other => format!("MARK {other} "),
    };
    let test = match (condition.test, condition.constant) {
        (1, constant) => format!("= {constant}"),
        (2, constant) => format!("!= {constant}"),
        (3, constant) => format!("< {constant}"),
        (4, constant) => format!("<= {constant}"),
        (5, 0) => "NULL".to_string(),
        (5, constant) => format!("NULL {constant}"),
        (other, constant) => format!("TEST {other} {constant}"),
    };
    format!("{mark}{} {test}", condition.column)
}

fn class(class: u16) -> String {
    if class == NO_CLASS { "-".to_string() } else { class.to_string() }
}

// The items behind their word; nothing at all for an empty list.
fn list<T>(word: &str, items: &[T], between: &str, item: impl Fn(&T) -> String) -> String {
    if items.is_empty() {
        return String::new();
    }
    word.to_string() + &items.iter().map(item).collect::<Vec<_>>().join(between)
}
