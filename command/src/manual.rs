//! The row of Arm's manual that a word has.

include!(concat!(env!("OUT_DIR"), "/rows.rs"));

/// The titles of all rows, by their numbers, each with the table that has it.
pub fn rows() -> &'static [(&'static str, &'static str)] {
    &ROWS
}

/// The number of a word's row in DDI 0406C, as the definition of the manual's tables has it.
pub fn number(word: u32) -> usize {
    // Safety: it takes a number, gives one, and does nothing else.
    usize::from(unsafe { brassdozen_manual_row(word) })
}

/// The title of a word's row, and its table.
pub fn row(word: u32) -> (&'static str, &'static str) {
    ROWS.get(number(word))
        .copied()
        .unwrap_or(("no row", "no table"))
}

pub fn title(word: u32) -> &'static str {
    row(word).0
}

unsafe extern "C" {
    fn brassdozen_manual_row(word: u32) -> u16;
}
