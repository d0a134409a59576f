// The names of a text. Levels, relations and values share one list of names; a column's name belongs to its relation.

use std::collections::BTreeMap;

#[derive(Clone, Copy, PartialEq)]
pub enum Kind {
    Level,
    Relation,
    Value,
}

impl Kind {
    pub fn called(self) -> &'static str {
        match self {
            Kind::Level => "a level",
            Kind::Relation => "a relation",
            Kind::Value => "a value",
        }
    }
}

/// A relation's name and those of its columns, none where a thing has no name.
#[derive(Clone, Default)]
pub struct Described {
    pub name: Option<String>,
    pub columns: Vec<Option<String>>,
}

/// What one line gives names to. A relation comes with its number.
#[derive(Clone)]
pub enum Naming {
    Nothing,
    Levels(Vec<Option<String>>),
    Relation(u32, Described),
    Value(String, u32),
}

#[derive(Default)]
pub struct Names {
    shared: BTreeMap<String, (Kind, u32)>,
    relations: BTreeMap<u32, Described>,
}

impl Names {
    pub fn learn(&mut self, naming: Naming) {
        match naming {
            Naming::Nothing => (),
            Naming::Levels(levels) => {
                for (level, name) in levels.into_iter().enumerate() {
                    self.share(name, Kind::Level, level as u32);
                }
            }
            Naming::Relation(number, described) => {
                self.share(described.name.clone(), Kind::Relation, number);
                self.relations.insert(number, described);
            }
            Naming::Value(name, value) => self.share(Some(name), Kind::Value, value),
        }
    }

    fn share(&mut self, name: Option<String>, kind: Kind, number: u32) {
        if let Some(name) = name {
            self.shared.insert(name, (kind, number));
        }
    }

    // ---- from a name to its number

    /// The number of that level, relation or value, or what the name is instead.
    pub fn number(&self, name: &str, kind: Kind) -> Result<u32, String> {
        match self.shared.get(name) {
            Some((its, number)) if *its == kind => Ok(*number),
            _ => Err(self.instead(name, kind.called())),
        }
    }

    /// The number of that column of a relation, which is called so, or what the name is instead.
    pub fn column_number(&self, name: &str, of: &Described, called: &str) -> Result<u32, String> {
        match of.columns.iter().position(|column| column.as_deref() == Some(name)) {
            Some(at) => Ok(at as u32 + 1),
            None => Err(self.instead(name, &format!("a column of {called}"))),
        }
    }

    pub fn instead(&self, name: &str, wanted: &str) -> String {
        let mut kinds: Vec<String> = self.shared_kind(name).map(|kind| kind.called().to_string()).into_iter().collect();
        for (number, described) in &self.relations {
            if described.columns.iter().any(|column| column.as_deref() == Some(name)) {
                kinds.push(format!("a column of {}", self.relation(*number)));
            }
        }
        if kinds.is_empty() {
            return format!("no line above gives the name '{name}'");
        }
        format!("'{name}' is {}, not {wanted}", kinds.join(" and "))
    }

    pub fn shared_kind(&self, name: &str) -> Option<Kind> {
        self.shared.get(name).map(|(kind, _)| *kind)
    }

    pub fn described(&self, relation: u32) -> Described {
        self.relations.get(&relation).cloned().unwrap_or_default()
    }

    // ---- from a number to what people call it

    pub fn level(&self, level: u32) -> String {
        let named = self.shared.iter().find(|(_, number)| **number == (Kind::Level, level));
        named.map_or_else(|| format!("level {level}"), |(name, _)| name.clone())
    }

    pub fn relation(&self, relation: u32) -> String {
        self.described(relation).name.unwrap_or_else(|| format!("relation {relation}"))
    }

    pub fn column(&self, relation: u32, column: u32) -> String {
        let columns = self.described(relation).columns;
        let name = (column as usize).checked_sub(1).and_then(|at| columns.get(at).cloned().flatten());
        name.unwrap_or_else(|| format!("column {column}"))
    }
}
