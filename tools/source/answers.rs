// What mlrun prints, line by line.

/// A row's level and its cells.
pub struct Row {
    pub level: u32,
    pub cells: Vec<Shown>,
}

/// A cell as it is shown; no class where it is null.
pub struct Shown {
    pub value: u32,
    pub class: Option<u32>,
}

pub enum Answer {
    Answered { kind: u16, number: u32, count: u64 },
    Row(Row),
    /// The record of that number can't be read.
    Ended(u64),
}

pub fn answer(line: &str) -> Option<Answer> {
    let words: Vec<&str> = line.split(' ').collect();
    match words[..] {
        ["a", kind, number, count] => Some(Answer::Answered { kind: plain(kind)?, number: plain(number)?, count: plain(count)? }),
        ["x", number] => Some(Answer::Ended(plain(number)?)),
        ["r", level, ref cells @ ..] => {
            let cells = cells.iter().map(|text| cell(text)).collect::<Option<Vec<_>>>()?;
            Some(Answer::Row(Row { level: plain(level)?, cells }))
        }
        _ => None,
    }
}

fn cell(text: &str) -> Option<Shown> {
    let (value, class) = text.split_once('/')?;
    let class = if class == "-" { None } else { Some(plain(class)?) };
    Some(Shown { value: plain(value)?, class })
}

// A number in digits alone.
fn plain<T: std::str::FromStr>(text: &str) -> Option<T> {
    if text.bytes().all(|byte| byte.is_ascii_digit()) { text.parse().ok() } else { None }
}
