// Why a statement was refused, in words: what its number says of this statement. What neither the number nor the description tells is not
// guessed.

use crate::malformed::malformed;
use crate::names::Names;
use crate::record::{What, NO_CLASS};
use crate::sound;
use crate::state::State;

/// A statement with what it stands in.
pub struct Asked<'a> {
    pub state: &'a State,
    pub names: &'a Names,
    pub level: u16,
    pub relation: u16,
    pub what: &'a What,
}

/// The reason for a number from 1 to 14; none for any other.
pub fn reason(number: u32, asked: &Asked) -> Option<String> {
    let subject = asked.names.level(asked.level.into());
    let relation = asked.names.relation(asked.relation.into());
    let uplevel = matches!(asked.what, What::Uplevel { .. });
    Some(match number {
        1 => match sound::fault(asked.state, asked.names) {
            Some((line, why)) => format!("the description breaks a rule: line {line}: {why}"),
            None => "the description breaks a rule".to_string(),
        },
        2 => "a table buffer has another length than the description says".to_string(),
        3 => "the tables aren't legal: the ROW lines break a rule".to_string(),
        4 => format!("it isn't well put: {}", malformed(asked)),
        5 => match unseen(asked) {
            Some(level) => format!("it names {level}, which {subject} doesn't dominate"),
            None => format!("it names a level that {subject} doesn't dominate"),
        },
        6 => match outside(asked) {
            Some((column, level)) => format!("{level} is outside the range of {column}"),
            None => "it writes or borrows at a level outside a column's range".to_string(),
        },
        7 => format!("no entity with key {}{} is visible to {subject}", key(asked), of_class(asked)),
        8 => format!("several entities with key {} are visible to {subject}, and no CLASS says which is meant", key(asked)),
        9 if uplevel => format!("another entity has key {} at {subject} already", key(asked)),
        9 => format!("there is a row with key {} at {subject} already", key(asked)),
        10 => "it borrows from a level that doesn't dominate the key's class".to_string(),
        11 => format!("its reference names no row of {} at {subject}", referred(asked)),
        12 => format!("a row at {subject} refers to a row that it would empty"),
        13 => {
            let rows = asked.state.relation(asked.relation).map_or(0, |relation| relation.rows);
            format!("it needs a new row, and the {rows} of {relation} at {subject} are in use")
        }
        14 => "an output buffer is too short".to_string(),
        _ => return None,
    })
}

// The first level it names that its own doesn't dominate.
fn unseen(asked: &Asked) -> Option<String> {
    let named: Vec<u16> = match asked.what {
        What::Uplevel { class, from, .. } => {
            let class = Some(*class).filter(|class| *class != NO_CLASS);
            class.into_iter().chain(from.iter().map(|(_, level)| *level)).collect()
        }
        What::Select { at, .. } => at.clone(),
        _ => Vec::new(),
    };
    let level = named.into_iter().find(|level| !asked.state.dominates(asked.level, *level))?;
    Some(asked.names.level(level.into()))
}

// The first column, and the level that its range doesn't have.
fn outside(asked: &Asked) -> Option<(String, String)> {
    let pairs: Vec<(u16, u16)> = match asked.what {
        What::Insert { values } | What::Update { values, .. } => values.iter().map(|(column, _)| (*column, asked.level)).collect(),
        What::Uplevel { from, .. } => from.clone(),
        _ => Vec::new(),
    };
    let (column, level) = pairs.into_iter().find(|(column, level)| !asked.state.in_range(asked.relation, *column, *level))?;
    Some((asked.names.column(asked.relation.into(), column.into()), asked.names.level(level.into())))
}

fn key(asked: &Asked) -> String {
    match asked.what {
        What::Uplevel { key, .. } => key.to_string(),
        What::Insert { values } => values.iter().find(|(column, _)| *column == 1).map_or("0".to_string(), |(_, key)| key.to_string()),
        _ => "asked for".to_string(),
    }
}

fn of_class(asked: &Asked) -> String {
    match asked.what {
        What::Uplevel { class, .. } if *class != NO_CLASS => format!(" of {}", asked.names.level((*class).into())),
        _ => String::new(),
    }
}

fn referred(asked: &Asked) -> String {
    let referred = asked.state.relation(asked.relation).map_or(0, |relation| relation.referred);
    asked.names.relation(referred.into())
}
