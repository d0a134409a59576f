// Full legal tables to time a judge on.

use crate::judge::Description;
use crate::statements::Statement;
use crate::stream::number;
use std::fmt::Write;

#[derive(Clone)]
pub struct Tables {
    pub name: String,
    pub d: Description,
    pub values: Vec<u32>,
    pub classes: Vec<u8>,
}

// How the columns of a row are lent.
#[derive(Clone, Copy, PartialEq)]
pub enum Lending {
    // every column but the key by the lowest level
    Lowest,
    // the same, the rows of each level in another order
    Shuffled,
    // every column by another level
    Many,
}

// Sixteen levels: all sets of four compartments, or sixteen ranks one above the other.
#[derive(Clone, Copy, PartialEq)]
pub enum Order {
    Sets,
    Ranks,
}

// Relations of eight columns that are alike, each but the first referring to the one before it where `refer` says so; all rows in use.
pub fn full(order: Order, relations: usize, rows: usize, refer: bool, lending: Lending) -> Tables {
    let (levels, columns) = (16, 8);
    let labels: Vec<u16> = (0..16).map(|l| if order == Order::Sets { l } else { 256 * l }).collect();
    let by_relation = |n: usize| (0..=relations).map(|r| if r == 0 { 0 } else { n }).collect::<Vec<usize>>();
    let refers_at = |r: usize, n: usize| if refer && r > 1 { n } else { 0 };
    let d = Description {
        levels,
        labels,
        columns: by_relation(columns),
        rows: by_relation(rows),
        foreign: (0..=relations).map(|r| refers_at(r, columns)).collect(),
        refers: (0..=relations).map(|r| refers_at(r, r.saturating_sub(1))).collect(),
        low: vec![0; 81],
        high: vec![15; 81],
    };
    let (mut values, mut classes) = (Vec::new(), Vec::new());
    for r in 1..=relations {
        for level in 0..levels {
            for place in 0..rows {
                let row = if lending == Lending::Shuffled { (place * 5 + level * 3 + r) % rows } else { place };
                let key = (1000 * r + row + 1) as u32;
                values.push(key);
                classes.push(0);
                for column in 2..=columns {
                    let reference = d.foreign[r] == column;
                    let owner = match (lending, order) {
                        (Lending::Many, Order::Ranks) if !reference => column - 1,
                        (Lending::Many, Order::Sets) if !reference => [1, 2, 4, 8, 3, 5, 0][column - 2],
                        _ => 0,
                    };
                    let sees = if order == Order::Sets { level & owner == owner } else { level >= owner };
                    let value = if reference { key - 1000 } else { key * 10 + column as u32 };
                    values.push(if sees { value } else { 0 });
                    classes.push(if sees { owner } else { level } as u8);
                }
            }
        }
    }
    let shape = if order == Order::Sets { "sets" } else { "ranks" };
    let lent = ["lent by the lowest level", "the same, rows in another order", "each column lent by another level"][lending as usize];
    let name = format!("{relations} x 8 columns x {rows} rows x 16 levels ({shape}), {lent}");
    Tables { name, d, values, classes }
}

// What is done so often with the tables, as lines for the program `tried`: a statement, or the judge where there is none.
pub fn case(t: &Tables, times: u32, statement: Option<&Statement>) -> String {
    let d = &t.d;
    let mut lines = String::new();
    let mut given = |place: usize, numbers: Vec<usize>| {
        for (at, part) in numbers.chunks(500).enumerate() {
            writeln!(lines, "given {} {}: {}", place + 500 * at, part.len(), listed(part)).expect("a string");
        }
    };
    let nine = |numbers: &[usize]| (0..9).map(|r| numbers.get(r).copied().unwrap_or(0)).collect::<Vec<usize>>();
    given(0, vec![d.levels]);
    given(1, d.labels.iter().map(|l| *l as usize).collect());
    given(17, vec![d.columns.len() - 1]);
    for (place, numbers) in [(18, &d.columns), (27, &d.rows), (36, &d.foreign), (45, &d.refers)] {
        given(place, nine(numbers));
    }
    given(54, d.low.clone());
    given(135, d.high.clone());
    given(216, vec![t.values.len(), t.classes.len()]);
    given(1000, t.values.iter().map(|v| *v as usize).collect());
    given(10000, t.classes.iter().map(|c| *c as usize).collect());
    lines.push_str("tables\n");
    match statement {
        None => writeln!(lines, "repeat {times} 0"),
        Some(s) => writeln!(
            lines,
            "repeat {times} {} BY {} IN 1 KEY {} 255 LIST {}: {} WHERE {}",
            number(s.kind),
            s.level,
            s.key,
            s.list.len(),
            listed(s.list),
            listed(s.conditions)
        ),
    }
    .expect("a string");
    lines
}

fn listed<T: ToString>(numbers: &[T]) -> String {
    numbers.iter().map(|n| n.to_string()).collect::<Vec<String>>().join(" ")
}
