// A line of text as its pieces: numbers, names, words in capitals and signs. A `#` begins a comment.

#[derive(Clone, Copy, PartialEq)]
pub enum Sort {
    Number,
    Name,
    Word,
    Sign,
    End,
}

/// A piece of a line and the column of its first letter, counted from 1. The last piece is the end, one past what stands before it.
pub struct Piece {
    pub sort: Sort,
    pub text: String,
    pub column: usize,
}

pub fn pieces(line: &str) -> Vec<Piece> {
    let letters: Vec<char> = line.chars().take_while(|letter| *letter != '#').collect();
    let bytes = line.split_whitespace().next() == Some("BYTES");
    let (mut pieces, mut at, mut end) = (Vec::new(), 0, 0);
    while at < letters.len() {
        if letters[at].is_whitespace() {
            at += 1;
            continue;
        }
        let length = if bytes { until_blank(&letters[at..]) } else { length(&letters[at..]) };
        let text: String = letters[at..at + length].iter().collect();
        let sort = if bytes { Sort::Word } else { sort(&text) };
        pieces.push(Piece { sort, text, column: at + 1 });
        at += length;
        end = at;
    }
    pieces.push(Piece { sort: Sort::End, text: String::new(), column: end + 1 });
    pieces
}

fn until_blank(rest: &[char]) -> usize {
    rest.iter().take_while(|letter| !letter.is_whitespace()).count()
}

// How long the piece is that begins here.
fn length(rest: &[char]) -> usize {
    let inside = |letter: &&char| letter.is_alphanumeric() || **letter == '-' || **letter == '_';
    if rest[0].is_alphanumeric() {
        return rest.iter().take_while(inside).count();
    }
    match (rest[0], rest.get(1)) {
        ('!', Some('=')) | ('<', Some('=')) | ('.', Some('.')) => 2,
        _ => 1,
    }
}

fn sort(text: &str) -> Sort {
    if text.chars().all(|letter| letter.is_ascii_digit()) {
        Sort::Number
    } else if text.starts_with(|letter: char| letter.is_lowercase()) {
        Sort::Name
    } else if text.starts_with(|letter: char| letter.is_alphanumeric()) {
        Sort::Word
    } else {
        Sort::Sign
    }
}
