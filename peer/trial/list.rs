//! The list of what must be reached, `peer/reached.txt`: a line has a name, a colon and a sentence.

use crate::reached::Counts;

const LIST: &str = include_str!("../reached.txt");

/// The names on the list, in its order.
pub fn names() -> Vec<&'static str> {
    let lines = LIST.lines().filter(|line| !line.is_empty() && !line.starts_with('#'));
    lines.map(|line| line.split(": ").next().unwrap_or(line)).collect()
}

/// How often each name was reached, then what is wrong: a name that was not reached, one that is not on the list, one that stands there twice.
pub fn report(reached: &Counts) -> (Vec<String>, Vec<String>) {
    let names = names();
    let mut lines = Vec::new();
    let mut wrong = Vec::new();
    for (place, name) in names.iter().enumerate() {
        let count = reached.get(*name).copied().unwrap_or(0);
        lines.push(format!("{count:>9}  {name}"));
        if count == 0 {
            wrong.push(format!("not reached: {name}"));
        }
        if names[..place].contains(name) {
            wrong.push(format!("twice on the list: {name}"));
        }
    }
    let unlisted = reached.keys().filter(|name| !names.contains(&name.as_str()));
    wrong.extend(unlisted.map(|name| format!("reached and not on the list: {name} ({} times)", reached[name])));
    (lines, wrong)
}
