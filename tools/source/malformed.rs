// What isn't well put in a statement that was answered 4: the first thing found in it. Each of these alone is a 4.

use crate::record::{Condition, What, NO_CLASS};
use crate::refusal::Asked;

pub fn malformed(asked: &Asked) -> String {
    let places = if !asked.state.is_level(asked.level.into()) {
        Some(format!("there is no level {}", asked.level))
    } else if asked.state.relation(asked.relation).is_none() {
        Some(format!("there is no relation {}", asked.relation))
    } else {
        None
    };
    let why = places.or_else(|| match asked.what {
        What::Insert { values } => inserted(asked, values),
        What::Delete { conditions: list } => conditions(asked, list),
        What::Update { values, conditions: list } => set(asked, values).or_else(|| conditions(asked, list)),
        What::Uplevel { key, class, from } => raised(asked, *key, *class, from),
        What::Select { at, conditions: list } => shown(asked, at).or_else(|| conditions(asked, list)),
    });
    why.unwrap_or_else(|| "something in it doesn't exist, is listed twice or is missing".to_string())
}

fn inserted(asked: &Asked, values: &[(u16, u32)]) -> Option<String> {
    columns(asked, values.iter().map(|(column, _)| *column)).or_else(|| {
        match values.iter().find(|(column, _)| *column == 1) {
            Some((_, 0)) => Some("its key is 0, which is null".to_string()),
            Some(_) => None,
            None => Some(format!("it has no value for the key, {}", column(asked, 1))),
        }
    })
}

fn set(asked: &Asked, values: &[(u16, u32)]) -> Option<String> {
    if values.is_empty() {
        return Some("it sets nothing".to_string());
    }
    columns(asked, values.iter().map(|(column, _)| *column)).or_else(|| {
        if values.iter().any(|(column, _)| *column == 1) { Some(format!("it sets the key, {}", column(asked, 1))) } else { None }
    })
}

fn raised(asked: &Asked, key: u32, class: u16, from: &[(u16, u16)]) -> Option<String> {
    if key == 0 {
        return Some("its key is 0, which is null".to_string());
    }
    if class != NO_CLASS && !asked.state.is_level(class.into()) {
        return Some(format!("there is no level {class}"));
    }
    let levels = from.iter().find(|(_, level)| !asked.state.is_level((*level).into())).map(|(_, level)| format!("there is no level {level}"));
    levels.or_else(|| columns(asked, from.iter().map(|(column, _)| *column))).or_else(|| {
        if from.iter().any(|(column, _)| *column == 1) { Some(format!("it borrows the key, {}", column(asked, 1))) } else { None }
    })
}

fn shown(asked: &Asked, at: &[u16]) -> Option<String> {
    if let Some(level) = at.iter().find(|level| !asked.state.is_level(u32::from(**level))) {
        return Some(format!("there is no level {level}"));
    }
    twice(at.iter().copied()).map(|level| format!("{} is listed twice", asked.names.level(level.into())))
}

fn columns(asked: &Asked, listed: impl Iterator<Item = u16> + Clone) -> Option<String> {
    let missing = listed.clone().find(|number| !is_column(asked, *number));
    missing.map(|number| no_column(asked, number)).or_else(|| twice(listed).map(|number| format!("{} is listed twice", column(asked, number))))
}

fn conditions(asked: &Asked, list: &[Condition]) -> Option<String> {
    if list.len() > 4 {
        return Some(format!("it has {} conditions, and may have 4", list.len()));
    }
    list.iter().find_map(|condition| {
        let (mark, test, constant) = (condition.mark, condition.test, condition.constant);
        if !is_column(asked, condition.column) {
            Some(no_column(asked, condition.column))
        } else if mark > 1 {
            Some(format!("there is no mark {mark}"))
        } else if !(1..=5).contains(&test) {
            Some(format!("there is no test {test}"))
        } else if test == 5 && constant != 0 {
            Some("NULL has a constant".to_string())
        } else if test < 5 && mark == 0 && constant == 0 {
            Some(format!("it compares {} with 0, which is null; NULL asks for that", column(asked, condition.column)))
        } else if test < 5 && mark == 1 && !asked.state.is_level(constant) {
            Some(format!("there is no level {constant}"))
        } else {
            None
        }
    })
}

fn is_column(asked: &Asked, number: u16) -> bool {
    let columns = asked.state.relation(asked.relation).map_or(0, |relation| relation.ranges.len());
    (1..=columns).contains(&usize::from(number))
}

fn no_column(asked: &Asked, number: u16) -> String {
    format!("{} has no column {number}", asked.names.relation(asked.relation.into()))
}

fn column(asked: &Asked, number: u16) -> String {
    asked.names.column(asked.relation.into(), number.into())
}

// The first that stands there a second time.
fn twice(mut listed: impl Iterator<Item = u16>) -> Option<u16> {
    let mut seen = Vec::new();
    listed.find(|number| {
        let again = seen.contains(number);
        seen.push(*number);
        again
    })
}
