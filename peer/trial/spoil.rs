//! Statements with a field that is wrong: the grounds for number 4, one at a time.

use super::random::Random;
use crate::register::conditions::Condition;
use crate::register::description::Description;
use crate::register::Statement;

/// Puts one wrong field into a statement.
pub fn spoil(random: &mut Random, description: &Description, statement: &mut Statement) {
    let levels = description.labels.len();
    let no_level = random.pick(&[levels, levels + 1, 16, 255, 256, 257, 65535]).max(levels);
    match random.below(6) {
        0 => *level_of(statement) = no_level,
        1 => {
            let relations = description.relations.len();
            *relation_of(statement) = random.pick(&[0, relations + 1, relations + 2, 257, 65535]);
        }
        _ => spoil_list(random, description, statement, no_level),
    }
}

fn level_of(statement: &mut Statement) -> &mut usize {
    match statement {
        Statement::Insert(insert) => &mut insert.level,
        Statement::Delete(delete) => &mut delete.level,
        Statement::Update(update) => &mut update.level,
        Statement::Uplevel(uplevel) => &mut uplevel.level,
        Statement::Select(select) => &mut select.level,
    }
}

fn relation_of(statement: &mut Statement) -> &mut usize {
    match statement {
        Statement::Insert(insert) => &mut insert.relation,
        Statement::Delete(delete) => &mut delete.relation,
        Statement::Update(update) => &mut update.relation,
        Statement::Uplevel(uplevel) => &mut uplevel.relation,
        Statement::Select(select) => &mut select.relation,
    }
}

fn spoil_list(random: &mut Random, description: &Description, statement: &mut Statement, no_level: usize) {
    let relation = *relation_of(statement);
    let columns = if description.has_relation(relation) { description.relation(relation).columns() } else { 1 };
    let no_column = random.pick(&[0, columns + 1, columns + 2, 256 + columns, 65535]);
    match statement {
        Statement::Insert(insert) => match random.below(4) {
            0 => insert.listed.push((no_column, 1)),
            1 => repeat(random, &mut insert.listed),
            2 => insert.listed.retain(|&(column, _)| column != 1),
            _ => insert.listed.iter_mut().filter(|(column, _)| *column == 1).for_each(|(_, value)| *value = 0),
        },
        Statement::Delete(delete) => spoil_conditions(random, columns, no_column, no_level, &mut delete.conditions),
        Statement::Update(update) => match random.below(8) {
            0 => update.set.push((no_column, 1)),
            1 => repeat(random, &mut update.set),
            2 => update.set.push((1, 3)),
            3 => update.set.clear(),
            _ => spoil_conditions(random, columns, no_column, no_level, &mut update.conditions),
        },
        Statement::Uplevel(uplevel) => match random.below(6) {
            0 => uplevel.key = 0,
            1 => uplevel.key_class = if no_level == 255 { 254 } else { no_level },
            2 => uplevel.from.push((no_column, uplevel.level)),
            3 => repeat(random, &mut uplevel.from),
            4 => uplevel.from.push((1, uplevel.level)),
            _ => uplevel.from.iter_mut().take(1).for_each(|(_, from)| *from = no_level),
        },
        Statement::Select(select) => match random.below(4) {
            0 => select.at.push(no_level),
            1 => repeat(random, &mut select.at),
            _ => spoil_conditions(random, columns, no_column, no_level, &mut select.conditions),
        },
    }
}

/// Lists one of a list twice.
fn repeat<T: Clone>(random: &mut Random, list: &mut Vec<T>) {
    if let Some(again) = random.one_of(list) {
        list.push(again);
    }
}

fn spoil_conditions(random: &mut Random, columns: usize, no_column: usize, no_level: usize, list: &mut Vec<Condition>) {
    let column = random.between(1, columns);
    let sound = Condition { column, mark: 0, test: 2, constant: 7 };
    let wrong = match random.below(8) {
        0 => {
            let count = random.pick(&[5, 5, 6, 9]);
            *list = vec![sound; count];
            return;
        }
        1 => Condition { column: no_column, ..sound },
        2 => Condition { mark: random.pick(&[2, 255, 256, 257, 65535]), ..sound },
        3 => Condition { test: random.pick(&[0, 6, 7, 257, 65535]), ..sound },
        4 => Condition { test: random.between(1, 4), constant: 0, ..sound },
        5 => Condition { mark: 1, test: random.between(1, 4), constant: random.pick(&[no_level as u32, 255, 256, 65536]), ..sound },
        6 => Condition { test: 5, constant: 1, ..sound },
        _ => Condition { mark: 1, test: 5, constant: random.pick(&[1, 255, 65536]), ..sound },
    };
    if list.len() == 4 {
        list.pop();
    }
    list.push(wrong);
    random.shuffle(list);
}
