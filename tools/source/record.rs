// What a record says, in the words of the scope. Each field is as wide as in the record, so that a damaged statement can be said too.

/// The most bytes that a record's body may have.
pub const MOST: usize = 1024;

/// A class that is null, and a key class that isn't given.
pub const NO_CLASS: u16 = 255;

pub enum Record {
    Labels(Vec<u16>),
    Relation(Relation),
    Row { relation: u16, level: u16, cells: Vec<Cell> },
    Statement { level: u16, relation: u16, what: What },
}

/// The reference is 0 0 where there is none.
pub struct Relation {
    pub rows: u16,
    pub ranges: Vec<(u16, u16)>,
    pub foreign: u16,
    pub referred: u16,
}

pub struct Cell {
    pub value: u32,
    pub class: u16,
}

/// What a subject asks. `values` has columns with their values, `from` columns with their FROM levels.
pub enum What {
    Insert { values: Vec<(u16, u32)> },
    Delete { conditions: Vec<Condition> },
    Update { values: Vec<(u16, u32)>, conditions: Vec<Condition> },
    Uplevel { key: u32, class: u16, from: Vec<(u16, u16)> },
    Select { at: Vec<u16>, conditions: Vec<Condition> },
}

/// The mark says what is tested: 0 the column's value, 1 its class.
pub struct Condition {
    pub column: u16,
    pub mark: u16,
    pub test: u16,
    pub constant: u32,
}

impl Record {
    pub fn kind(&self) -> u16 {
        match self {
            Record::Labels(_) => 1,
            Record::Relation(_) => 2,
            Record::Row { .. } => 3,
            Record::Statement { what, .. } => match what {
                What::Insert { .. } => 16,
                What::Delete { .. } => 17,
                What::Update { .. } => 18,
                What::Uplevel { .. } => 19,
                What::Select { .. } => 20,
            },
        }
    }
}
