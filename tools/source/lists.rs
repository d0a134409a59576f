// Lists within a line.

use crate::line::{Line, Read};

/// A list behind its word, of at least one item; an empty list where the word isn't there.
pub fn list<T>(line: &mut Line, word: &'static str, what: &'static str, mut item: impl FnMut(&mut Line) -> Read<T>) -> Read<Vec<T>> {
    if !line.take(word) {
        return Ok(Vec::new());
    }
    let first = item(line)?;
    let mut items = items(line, what, item)?;
    items.insert(0, first);
    Ok(items)
}

/// Items as long as a number or a name stands there, which each of them begins with.
pub fn items<T>(line: &mut Line, what: &'static str, mut item: impl FnMut(&mut Line) -> Read<T>) -> Read<Vec<T>> {
    let mut items = Vec::new();
    while line.at_number(what) {
        items.push(item(line)?);
    }
    Ok(items)
}
