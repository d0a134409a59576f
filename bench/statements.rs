// The statements that are timed, in Rust on top of the one-pass judge: its hash of keys finds the rows at other levels. Written for speed,
// for the tables of this benchmark; no reference is changed there.

use crate::judge::{find, judge, order, Description, Room};

#[derive(Clone, Copy, PartialEq)]
pub enum Kind {
    Delete,
    Update,
    Uplevel,
    Select,
}

pub struct Statement<'a> {
    pub kind: Kind,
    pub level: usize,
    pub key: u32,
    pub list: &'a [u32],
    pub conditions: &'a [u32],
}

pub struct Tables<'a> {
    pub d: &'a Description,
    pub values: &'a mut [u32],
    pub classes: &'a mut [u8],
}

fn passes(test: u32, equal: bool, most: bool) -> bool {
    match test {
        1 => equal,
        2 => !equal,
        3 => most && !equal,
        4 => most,
        _ => false,
    }
}

fn meets(below: &[u16; 16], conditions: &[u32], values: &[u32], classes: &[u8]) -> bool {
    conditions.chunks_exact(4).all(|q| {
        let k = q[0] as usize - 1;
        if q[1] == 0 {
            let x = values[k];
            if x == 0 { q[2] == 5 } else { passes(q[2], x == q[3], x <= q[3]) }
        } else {
            let x = classes[k];
            if x == 255 { q[2] == 5 } else { passes(q[2], x as u32 == q[3], below[q[3] as usize] >> x & 1 == 1) }
        }
    })
}

// What is tested before anything is done: the list's columns and levels, each once and in range, and the conditions.
fn formed(d: &Description, below: &[u16; 16], s: &Statement, columns: usize) -> bool {
    let pairs: Vec<(usize, u32)> = if s.kind == Kind::Select { Vec::new() } else { s.list.chunks_exact(2).map(|p| (p[0] as usize, p[1])).collect() };
    let range = |k: usize, c: usize| below[d.high[9 + k]] >> c & 1 == 1 && below[c] >> d.low[9 + k] & 1 == 1;
    pairs.iter().enumerate().all(|(i, p)| {
        (2..=columns).contains(&p.0)
            && pairs[..i].iter().all(|q| q.0 != p.0)
            && if s.kind == Kind::Uplevel { (p.1 as usize) < d.levels && range(p.0, p.1 as usize) && below[s.level] >> p.1 & 1 == 1 } else { range(p.0, s.level) }
    }) && (s.kind != Kind::Select
        || s.list.iter().enumerate().all(|(i, l)| (*l as usize) < d.levels && below[s.level] >> l & 1 == 1 && !s.list[..i].contains(l)))
        && s.conditions.len() <= 16
        && s.conditions.chunks_exact(4).all(|q| (1..=columns as u32).contains(&q[0]) && q[1] <= 1 && (1..=5).contains(&q[2]))
}

// One statement on relation 1; the count, or None where it is refused. Rows that are shown go to the two lists.
pub fn run(t: &mut Tables, room: &mut Room, s: &Statement, shown: &mut Vec<u32>, owners: &mut Vec<u8>) -> Option<usize> {
    if !judge(t.d, t.values, t.classes, room) {
        return None;
    }
    let (below, _) = order(t.d);
    let (rows, columns) = (t.d.rows[1], t.d.columns[1]);
    if !formed(t.d, &below, s, columns) {
        return None;
    }
    let at = |level: usize, row: usize| (level * rows + row) * columns;
    let c = s.level;
    let above: Vec<usize> = (0..t.d.levels).filter(|l| *l != c && below[*l] >> c & 1 == 1).collect();
    match s.kind {
        Kind::Select => {
            let mut levels: Vec<usize> = s.list.iter().map(|l| *l as usize).collect();
            levels.sort_by_key(|l| ((t.d.labels[*l] / 256) as u32 + (t.d.labels[*l] % 256).count_ones(), *l));
            let mut count = 0;
            for level in levels {
                for row in 0..rows {
                    let p = at(level, row);
                    let (v, k) = (&t.values[p..p + columns], &t.classes[p..p + columns]);
                    if v[0] != 0 && meets(&below, s.conditions, v, k) {
                        shown.extend_from_slice(v);
                        owners.extend_from_slice(k);
                        owners.push(level as u8);
                        count += 1;
                    }
                }
            }
            Some(count)
        }
        Kind::Delete | Kind::Update => {
            let mut count = 0;
            for row in 0..rows {
                let p = at(c, row);
                let key = t.values[p];
                if key == 0 || !meets(&below, s.conditions, &t.values[p..p + columns], &t.classes[p..p + columns]) {
                    continue;
                }
                count += 1;
                let class = t.classes[p];
                for &level in &above {
                    let found = find(&room.keys[1], level, key);
                    if found == usize::MAX || t.classes[found * columns] != class {
                        continue;
                    }
                    let q = found * columns;
                    if s.kind == Kind::Update {
                        for pair in s.list.chunks_exact(2) {
                            let k = q + pair[0] as usize - 1;
                            if t.classes[k] as usize == c {
                                t.values[k] = pair[1];
                            }
                        }
                    } else if class as usize == c {
                        t.values[q..q + columns].fill(0);
                        t.classes[q..q + columns].fill(255);
                    } else {
                        for k in q..q + columns {
                            if t.classes[k] as usize == c {
                                t.values[k] = 0;
                            }
                        }
                    }
                }
                if s.kind == Kind::Update {
                    for pair in s.list.chunks_exact(2) {
                        t.values[p + pair[0] as usize - 1] = pair[1];
                        t.classes[p + pair[0] as usize - 1] = c as u8;
                    }
                } else {
                    t.values[p..p + columns].fill(0);
                    t.classes[p..p + columns].fill(255);
                }
            }
            Some(count)
        }
        Kind::Uplevel => {
            let base = |level: usize| {
                let found = find(&room.keys[1], level, s.key);
                below[c] >> level & 1 == 1 && found != usize::MAX && t.classes[found * columns] as usize == level
            };
            let bases: Vec<usize> = (0..t.d.levels).filter(|l| base(*l)).collect();
            if bases.len() != 1 {
                return None;
            }
            let class = bases[0] as u8;
            let (mut news, mut classes) = (vec![0u32; columns], vec![c as u8; columns]);
            news[0] = s.key;
            classes[0] = class;
            for pair in s.list.chunks_exact(2) {
                let (k, from) = (pair[0] as usize - 1, pair[1] as usize);
                if below[from] >> class & 1 == 0 {
                    return None;
                }
                let found = find(&room.keys[1], from, s.key);
                classes[k] = from as u8;
                if found != usize::MAX && t.classes[found * columns] == class && t.classes[found * columns + k] as usize == from {
                    news[k] = t.values[found * columns + k];
                }
            }
            let here = find(&room.keys[1], c, s.key);
            let p = if here == usize::MAX {
                at(c, (0..rows).find(|row| t.classes[at(c, *row)] == 255)?)
            } else if t.classes[here * columns] != class {
                return None;
            } else {
                here * columns
            };
            if here != usize::MAX {
                for &level in &above {
                    let found = find(&room.keys[1], level, s.key);
                    if found == usize::MAX || t.classes[found * columns] != class {
                        continue;
                    }
                    for k in 0..columns {
                        let q = found * columns + k;
                        if t.classes[q] as usize == c && (classes[k] as usize != c || t.values[q] != news[k]) {
                            t.values[q] = 0;
                        }
                    }
                }
            }
            t.values[p..p + columns].copy_from_slice(&news);
            t.classes[p..p + columns].copy_from_slice(&classes);
            Some(1)
        }
    }
}
