//! The lines that `mlrun` prints.

use super::select::Shown;
use super::tables::{Cell, NO_CLASS};
use super::Outcome;

/// "Each statement prints `a`, its kind, the number answered and the count; SELECT adds a line a row".
pub fn answer(kind: usize, outcome: &Outcome) -> String {
    match outcome {
        Outcome::Refused(number) => format!("a {kind} {number} 0\n"),
        Outcome::Changed(_, count) => format!("a {kind} 0 {count}\n"),
        Outcome::Shown(rows) => {
            let lines: Vec<String> = rows.iter().map(shown).collect();
            format!("a {kind} 0 {}\n{}", rows.len(), lines.concat())
        }
    }
}

/// "`r`, TC and cells, class 255 as `-`."
fn shown(shown: &Shown) -> String {
    let cells: Vec<String> = shown.row.iter().map(cell).collect();
    format!("r {} {}\n", shown.level, cells.join(" "))
}

pub fn cell(cell: &Cell) -> String {
    match cell.class {
        NO_CLASS => format!("{}/-", cell.value),
        class => format!("{}/{class}", cell.value),
    }
}

/// "prints `x`, a space and its number from 1, and ends."
pub fn refusal(number: usize) -> String {
    format!("x {number}\n")
}
