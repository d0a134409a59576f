// The lines that ask something: the five statements and their conditions.

use crate::describe::class;
use crate::line::{Line, Read};
use crate::lists::list;
use crate::record::{Condition, Record, What, NO_CLASS};

pub fn statement(line: &mut Line) -> Read<Record> {
    let words = ["INSERT", "DELETE", "UPDATE", "UPLEVEL", "SELECT"];
    let word = words.into_iter().find(|word| line.take(word)).ok_or_else(|| line.unexpected())?;
    line.need("BY")?;
    let level = line.level("the subject's level")?;
    line.need("IN")?;
    let relation = line.relation("a relation")?;
    let what = match word {
        "INSERT" => What::Insert { values: values(line, "VALUES", relation)? },
        "DELETE" => What::Delete { conditions: conditions(line, relation)? },
        "UPDATE" => What::Update { values: values(line, "SET", relation)?, conditions: conditions(line, relation)? },
        "UPLEVEL" => uplevel(line, relation)?,
        _ => What::Select { at: list(line, "AT", "a level", |line| line.level("a level"))?, conditions: conditions(line, relation)? },
    };
    Ok(Record::Statement { level, relation, what })
}

fn values(line: &mut Line, word: &'static str, relation: u16) -> Read<Vec<(u16, u32)>> {
    list(line, word, "a column", |line| {
        let column = line.column(relation)?;
        line.need("=")?;
        Ok((column, line.value("a value")?))
    })
}

fn uplevel(line: &mut Line, relation: u16) -> Read<What> {
    line.need("KEY")?;
    let key = line.value("a key")?;
    let class = if line.take("CLASS") { class(line, "a key class")? } else { NO_CLASS };
    let mut from = Vec::new();
    if line.take("BORROW") {
        from.push(borrow(line, relation)?);
        while line.take(",") {
            from.push(borrow(line, relation)?);
        }
    }
    Ok(What::Uplevel { key, class, from })
}

fn borrow(line: &mut Line, relation: u16) -> Read<(u16, u16)> {
    let column = line.column(relation)?;
    line.need("FROM")?;
    Ok((column, line.level("a level")?))
}

fn conditions(line: &mut Line, relation: u16) -> Read<Vec<Condition>> {
    let mut conditions = Vec::new();
    if line.take("WHERE") {
        conditions.push(condition(line, relation)?);
        while line.take("AND") {
            conditions.push(condition(line, relation)?);
        }
    }
    Ok(conditions)
}

fn condition(line: &mut Line, relation: u16) -> Read<Condition> {
    let mark = if line.take("CLASS") {
        1
    } else if line.take("MARK") {
        line.half("a mark")?
    } else {
        0
    };
    let column = line.column(relation)?;
    let (test, constant) = test(line, mark)?;
    Ok(Condition { column, mark, test, constant })
}

fn test(line: &mut Line, mark: u16) -> Read<(u16, u32)> {
    for (test, sign) in [(1, "="), (2, "!="), (3, "<"), (4, "<=")] {
        if line.take(sign) {
            return Ok((test, constant(line, mark)?));
        }
    }
    if line.take("NULL") {
        let constant = if line.at_number("a constant") { constant(line, mark)? } else { 0 };
        return Ok((5, constant));
    }
    line.need("TEST")?;
    Ok((line.half("a test's number")?, constant(line, mark)?))
}

// A value is compared with a value, a class with a level.
fn constant(line: &mut Line, mark: u16) -> Read<u32> {
    match mark {
        0 => line.value("a constant"),
        1 => line.wide_level("a level"),
        _ => line.full("a constant"),
    }
}
