// A statement in words and names: its head, and what it asks for.

use crate::names::Names;
use crate::record::{Condition, What, NO_CLASS};

pub fn word(what: &What) -> &'static str {
    match what {
        What::Insert { .. } => "INSERT",
        What::Delete { .. } => "DELETE",
        What::Update { .. } => "UPDATE",
        What::Uplevel { .. } => "UPLEVEL",
        What::Select { .. } => "SELECT",
    }
}

/// A count of rows.
pub fn rows(count: u64) -> String {
    match count {
        0 => "no row".to_string(),
        1 => "1 row".to_string(),
        many => format!("{many} rows"),
    }
}

/// What a statement asks for behind its level and relation; nothing where it says no more.
pub fn asked(names: &Names, relation: u16, what: &What) -> String {
    let column = |number: u16| names.column(relation.into(), number.into());
    let values = |list: &[(u16, u32)]| join(list, ", ", |(number, value)| format!("{} = {value}", column(*number)));
    let met = |list: &[Condition]| {
        if list.is_empty() { String::new() } else { format!("where {}", join(list, " and ", |one| condition(names, &column(one.column), one))) }
    };
    let parts = match what {
        What::Insert { values: list } => vec![values(list)],
        What::Delete { conditions } => vec![met(conditions)],
        What::Update { values: list, conditions } => vec![values(list), met(conditions)],
        What::Uplevel { key, class, from } => {
            let class = if *class == NO_CLASS { String::new() } else { format!(" of {}", names.level((*class).into())) };
            let from = from.iter().map(|(number, level)| format!(", {} from {}", column(*number), names.level((*level).into())));
            vec![format!("key {key}{class}{}", from.collect::<String>())]
        }
        What::Select { at, conditions } => {
            let at = if at.is_empty() { String::new() } else { format!("at {}", join(at, ", ", |level| names.level((*level).into()))) };
            vec![at, met(conditions)]
        }
    };
    parts.into_iter().filter(|part| !part.is_empty()).collect::<Vec<_>>().join(" ")
}

fn condition(names: &Names, column: &str, condition: &Condition) -> String {
    let (what, constant) = match condition.mark {
        0 => (column.to_string(), condition.constant.to_string()),
        1 => (format!("the class of {column}"), names.level(condition.constant)),
        mark => (format!("mark {mark} of {column}"), condition.constant.to_string()),
    };
    match condition.test {
        1 => format!("{what} = {constant}"),
        2 => format!("{what} != {constant}"),
        3 => format!("{what} < {constant}"),
        4 => format!("{what} <= {constant}"),
        5 if condition.constant == 0 => format!("{what} is null"),
        test => format!("{what} test {test} {}", condition.constant),
    }
}

fn join<T>(items: &[T], between: &str, item: impl Fn(&T) -> String) -> String {
    items.iter().map(item).collect::<Vec<_>>().join(between)
}
