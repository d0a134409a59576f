// A judge of tables in one pass, the opponent that the proved judge is timed against: order and ranges laid out once, keys in a hash, each
// lender's row looked up once per row and class. Written for speed, in Rust with its standard library alone.

#[derive(Clone)]
pub struct Description {
    pub levels: usize,
    pub labels: Vec<u16>,
    pub columns: Vec<usize>,
    pub rows: Vec<usize>,
    pub foreign: Vec<usize>,
    pub refers: Vec<usize>,
    pub low: Vec<usize>,
    pub high: Vec<usize>,
}

// Open addressing over (level, key) of one relation. An entry holds both and, in its low 24 bits, the row's number among all rows of the
// relation, plus one; 0 is an empty slot.
pub struct Keys {
    slots: Vec<u64>,
    mask: usize,
}

fn tag(level: usize, key: u32) -> u64 {
    (key as u64) << 8 | level as u64
}

fn slot(tag: u64) -> usize {
    (tag.wrapping_mul(0x9E37_79B9_7F4A_7C15) >> 40) as usize
}

pub struct Room {
    pub keys: Vec<Keys>,
}

impl Room {
    pub fn new(d: &Description) -> Room {
        let keys = (0..d.rows.len())
            .map(|r| {
                let size = (d.levels * d.rows[r] * 2).next_power_of_two().max(16);
                Keys { slots: vec![0; size], mask: size - 1 }
            })
            .collect();
        Room { keys }
    }
}

// The row with a key at a level, among all rows of the relation.
#[inline(always)]
pub fn find(keys: &Keys, level: usize, key: u32) -> usize {
    let tag = tag(level, key);
    let mut at = slot(tag) & keys.mask;
    loop {
        let entry = keys.slots[at];
        if entry >> 24 == tag {
            return (entry & 0xFF_FFFF) as usize - 1;
        }
        if entry == 0 {
            return usize::MAX;
        }
        at = (at + 1) & keys.mask;
    }
}

fn dominates(a: u16, b: u16) -> bool {
    b / 256 <= a / 256 && a & b & 255 == b & 255
}

// The levels that each level dominates, and those that dominate it, as words.
pub fn order(d: &Description) -> ([u16; 16], [u16; 16]) {
    let mut below = [0u16; 16];
    let mut above = [0u16; 16];
    for a in 0..d.levels {
        for b in 0..d.levels {
            if dominates(d.labels[a], d.labels[b]) {
                below[a] |= 1 << b;
                above[b] |= 1 << a;
            }
        }
    }
    (below, above)
}

fn cells(d: &Description) -> usize {
    (1..d.columns.len()).map(|r| d.levels * d.rows[r] * d.columns[r]).sum()
}

// Whether the description is sound.
fn sound(d: &Description, below: &[u16; 16]) -> bool {
    let labels = &d.labels[..d.levels];
    if labels.iter().enumerate().any(|(i, label)| *label > 4095 || labels[..i].contains(label)) {
        return false;
    }
    for r in 1..d.columns.len() {
        if !(1..=8).contains(&d.columns[r]) || !(1..=64).contains(&d.rows[r]) {
            return false;
        }
        for k in 9 * r + 1..9 * r + 1 + d.columns[r] {
            if d.high[k] >= d.levels || d.low[k] >= d.levels || below[d.high[k]] & 1 << d.low[k] == 0 {
                return false;
            }
        }
        let (foreign, refers) = (d.foreign[r], d.refers[r]);
        if foreign == 0 && refers != 0 || foreign != 0 && (foreign < 2 || foreign > d.columns[r] || refers == 0 || refers >= r) {
            return false;
        }
    }
    cells(d) <= 8192
}

// Whether the description is sound, the buffers are as long as it says, and the tables are legal.
pub fn judge(d: &Description, values: &[u32], classes: &[u8], room: &mut Room) -> bool {
    if !(1..=16).contains(&d.levels) || !(2..=9).contains(&d.columns.len()) {
        return false;
    }
    let (below, above) = order(d);
    let total = cells(d);
    sound(d, &below) && values.len() == total && classes.len() == total && legal(d, &below, &above, values, classes, room)
}

// Whether the tables are legal.
fn legal(d: &Description, below: &[u16; 16], above: &[u16; 16], values: &[u32], classes: &[u8], room: &mut Room) -> bool {
    let mut starts = [0usize; 9];
    for r in 1..d.columns.len() {
        starts[r] = starts[r - 1] + if r > 1 { d.levels * d.rows[r - 1] * d.columns[r - 1] } else { 0 };
    }
    for r in 1..d.columns.len() {
        let keys = &mut room.keys[r];
        keys.slots.fill(0);
        let (rows, columns, start) = (d.rows[r], d.columns[r], starts[r]);
        for level in 0..d.levels {
            for row in level * rows..(level + 1) * rows {
                let key = values[start + row * columns];
                if key == 0 {
                    continue;
                }
                let tag = tag(level, key);
                let mut at = slot(tag) & keys.mask;
                while keys.slots[at] != 0 {
                    if keys.slots[at] >> 24 == tag {
                        return false;
                    }
                    at = (at + 1) & keys.mask;
                }
                keys.slots[at] = tag << 24 | (row as u64 + 1);
            }
        }
    }
    for r in 1..d.columns.len() {
        let (rows, columns, start) = (d.rows[r], d.columns[r], starts[r]);
        let mut ranges = [0u16; 8];
        for k in 0..columns {
            ranges[k] = below[d.high[9 * r + k + 1]] & above[d.low[9 * r + k + 1]];
        }
        for level in 0..d.levels {
            for row in level * rows..(level + 1) * rows {
                let from = start + row * columns;
                let (vs, cs) = (&values[from..from + columns], &classes[from..from + columns]);
                if vs[0] == 0 {
                    if !vs.iter().all(|v| *v == 0) || !cs.iter().all(|c| *c == 255) {
                        return false;
                    }
                    continue;
                }
                if cs[0] as usize >= d.levels {
                    return false;
                }
                let may = below[level] & above[cs[0] as usize];
                let mut known = [usize::MAX - 1; 16];
                for k in 0..columns {
                    let (v, c) = (vs[k], cs[k]);
                    if c == 255 {
                        if v != 0 {
                            return false;
                        }
                        continue;
                    }
                    if c >= 16 || may & ranges[k] & (1 << c) == 0 {
                        return false;
                    }
                    if c as usize == level {
                        continue;
                    }
                    let mut p = known[c as usize];
                    if p == usize::MAX - 1 {
                        p = find(&room.keys[r], c as usize, vs[0]);
                        if p != usize::MAX {
                            p = start + p * columns;
                            if classes[p] != cs[0] {
                                p = usize::MAX;
                            }
                        }
                        known[c as usize] = p;
                    }
                    let lent = if p != usize::MAX && classes[p + k] == c { values[p + k] } else { 0 };
                    if lent != v || (k == 0 && p == usize::MAX) {
                        return false;
                    }
                }
                let f = d.foreign[r];
                if f != 0 && vs[f - 1] != 0 {
                    let (v, c, q) = (vs[f - 1], cs[f - 1] as usize, d.refers[r]);
                    let here = find(&room.keys[q], level, v);
                    if here == usize::MAX {
                        return false;
                    }
                    if c != level {
                        let there = find(&room.keys[q], c, v);
                        if there == usize::MAX || classes[starts[q] + there * d.columns[q]] != classes[starts[q] + here * d.columns[q]] {
                            return false;
                        }
                    }
                }
            }
        }
    }
    true
}
