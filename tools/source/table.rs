// Rows as an aligned table: the row's level, then each column's values, each with a word that says whose it is.

use crate::answers::{Row, Shown};
use crate::names::Names;

const INDENT: &str = "    ";
const BETWEEN: &str = "  ";

/// The table of some rows of a relation, a line a row behind its header.
pub fn table(names: &Names, relation: u32, rows: &[Row]) -> String {
    let mut columns = vec![column("level".to_string(), rows.iter().map(|row| names.level(row.level)).collect())];
    for at in 0..rows.iter().map(|row| row.cells.len()).max().unwrap_or(0) {
        let values: Vec<String> = rows.iter().map(|row| row.cells.get(at).map_or(String::new(), value)).collect();
        let widest = values.iter().map(|text| width(text)).max().unwrap_or(0);
        let marks = rows.iter().map(|row| row.cells.get(at).map_or(String::new(), |cell| whose(names, row.level, cell)));
        let cells = values.iter().zip(marks).map(|(value, mark)| format!("{value:>widest$} {mark}")).collect();
        columns.push(column(names.column(relation, at as u32 + 1), cells));
    }
    let lines = (0..rows.len() + 2).map(|at| columns.iter().map(|column| column[at].as_str()).collect::<Vec<_>>().join(BETWEEN));
    lines.map(|line| format!("{INDENT}{}\n", line.trim_end())).collect()
}

fn value(cell: &Shown) -> String {
    if cell.value == 0 { "null".to_string() } else { cell.value.to_string() }
}

// Whose a cell is, in a row of that level.
fn whose(names: &Names, level: u32, cell: &Shown) -> String {
    match cell.class {
        None => "of no level".to_string(),
        Some(class) if class == level => "own".to_string(),
        Some(class) if cell.value == 0 => format!("waits for {}", names.level(class)),
        Some(class) => format!("from {}", names.level(class)),
    }
}

// A column's header, a line below it and its cells, all of one width.
fn column(header: String, cells: Vec<String>) -> Vec<String> {
    let widest = cells.iter().chain([&header]).map(|text| width(text)).max().unwrap_or(0);
    let all = [header, "-".repeat(widest)].into_iter().chain(cells);
    all.map(|text| format!("{text:widest$}")).collect()
}

fn width(text: &str) -> usize {
    text.chars().count()
}
