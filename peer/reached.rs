//! Notes of what a run reached, by name. `peer/reached.txt` lists the names that must be reached.

use std::cell::RefCell;
use std::collections::BTreeMap;

pub type Counts = BTreeMap<String, u64>;

thread_local! {
    static NOTES: RefCell<Option<Counts>> = const { RefCell::new(None) };
}

/// Begins to take notes in this thread, with none taken yet.
pub fn begin() {
    NOTES.with(|notes| *notes.borrow_mut() = Some(Counts::new()));
}

/// Ends taking notes and gives those that were taken.
pub fn end() -> Counts {
    NOTES.with(|notes| notes.borrow_mut().take()).unwrap_or_default()
}

/// Whether notes are being taken, for those that cost work to find.
pub fn on() -> bool {
    NOTES.with(|notes| notes.borrow().is_some())
}

pub fn note(name: &str) {
    NOTES.with(|notes| {
        if let Some(counts) = notes.borrow_mut().as_mut() {
            match counts.get_mut(name) {
                Some(count) => *count += 1,
                None => {
                    counts.insert(name.to_string(), 1);
                }
            }
        }
    });
}

/// Notes the only one of several grounds, so that the name stands for that ground alone.
pub fn note_alone(what: &str, grounds: &[&str]) {
    if let [ground] = grounds {
        if on() {
            note(&format!("{what}, {ground}"));
        }
    }
}
