//! The departures from Arm's manual: the twin of `crates/manual/specs/Departures.antt`, under its names and in its order.
//! `departures/run` holds it against the proved decoder over all words.

use crate::manual::title;

/// Where the decoder answers otherwise than the manual.
pub struct Departure {
    pub name: &'static str,
    /// Whether the decoder refuses what the manual names.
    pub refuses: bool,
    /// What the manual says, and what is answered.
    pub says: &'static str,
    rows: &'static [&'static str],
    covers: fn(u32) -> bool,
}

impl Departure {
    /// Whether it covers a word of one of its rows.
    pub fn covers(&self, word: u32) -> bool {
        (self.covers)(word)
    }
}

/// The departure that covers a word: the first of the list.
pub fn of(word: u32) -> Option<&'static Departure> {
    of_row(title(word)).find(|departure| departure.covers(word))
}

/// Those that can cover a word of the row of that title, in their order.
pub fn of_row(title: &str) -> impl Iterator<Item = &'static Departure> {
    DEPARTURES
        .iter()
        .filter(move |departure| departure.rows.contains(&title))
}

fn field(word: u32, low: u32, width: u32) -> u32 {
    word >> low & ((1 << width) - 1)
}

fn is_set(word: u32, bit: u32) -> bool {
    field(word, bit, 1) == 1
}

fn always(_: u32) -> bool {
    true
}

fn to_pc(word: u32) -> bool {
    field(word, 12, 4) == 15
}

fn offset_mode(word: u32) -> bool {
    is_set(word, 24) && !is_set(word, 21)
}

fn left_index(word: u32) -> bool {
    is_set(word, 23) && field(word, 5, 2) == 0
}

fn literal_pldw(word: u32) -> bool {
    field(word, 28, 4) == 15
        && field(word, 24, 4) == 5
        && field(word, 20, 3) == 1
        && field(word, 16, 4) == 15
        && to_pc(word)
}

const COMPARES: &[&str] = &[
    "TST (register)",
    "TEQ (register)",
    "CMP (register)",
    "CMN (register)",
    "TST (register-shifted register)",
    "TEQ (register-shifted register)",
    "CMP (register-shifted register)",
    "CMN (register-shifted register)",
];
const REGISTER_SHIFTS: &[&str] = &[
    "AND (register-shifted register)",
    "EOR (register-shifted register)",
    "SUB (register-shifted register)",
    "RSB (register-shifted register)",
    "ADD (register-shifted register)",
    "ADC (register-shifted register)",
    "SBC (register-shifted register)",
    "RSC (register-shifted register)",
    "ORR (register-shifted register)",
    "LSL (register)",
    "LSR (register)",
    "ASR (register)",
    "ROR (register)",
    "BIC (register-shifted register)",
    "MVN (register-shifted register)",
];
const PAIRS: &[&str] = &[
    "LDRD (register)",
    "LDRD (immediate)",
    "LDRD (literal)",
    "STRD (register)",
    "STRD (immediate)",
];
const EXTRA_INDEXES: &[&str] = &[
    "STRH (register)",
    "LDRH (register)",
    "LDRD (register)",
    "LDRSB (register)",
    "STRD (register)",
    "LDRSH (register)",
];
const INDEXES: &[&str] = &[
    "STR (register)",
    "LDR (register, ARM)",
    "STRB (register)",
    "LDRB (register)",
];
const UNPRIVILEGEDS: &[&str] = &["STRT", "LDRT", "STRBT", "LDRBT"];
const LOADS: &[&str] = &[
    "LDRB (immediate, ARM)",
    "LDRB (literal)",
    "LDRB (register)",
    "LDRT",
    "LDRBT",
];
const LITERALS: &[&str] = &[
    "LDR (literal)",
    "LDRB (literal)",
    "LDRH (literal)",
    "LDRD (literal)",
    "LDRSB (literal)",
    "LDRSH (literal)",
];
const DISPLACED: &[&str] = &[
    "STR (immediate, ARM)",
    "LDR (immediate, ARM)",
    "LDR (literal)",
    "STRB (immediate, ARM)",
    "LDRB (immediate, ARM)",
    "LDRB (literal)",
];
const MULTIPLES: &[&str] = &[
    "STMDA", "LDMDA", "STM", "LDM", "STMDB", "LDMDB", "STMIB", "LDMIB",
];
const EXTENDS: &[&str] = &[
    "SXTAB16", "SXTB16", "SXTAB", "SXTB", "SXTAH", "SXTH", "UXTAB16", "UXTB16", "UXTAB", "UXTB",
    "UXTAH", "UXTH",
];
const HINTS: &[&str] = &[
    "NOP",
    "YIELD",
    "WFE",
    "WFI",
    "SEV",
    "DBG",
    "unallocated hint",
];
const COPROCESSOR_TRANSFERS: &[&str] = &["STC", "LDC (immediate)", "LDC (literal)"];
const PRELOADS: &[&str] = &["PLDW (immediate)", "PLD (immediate)", "PLD (literal)"];

/// In the order of `coverings`.
static DEPARTURES: [Departure; 27] = [
    Departure {
        name: "adr",
        refuses: false,
        says: "ADR is read as the add or subtract that it is",
        rows: &["ADR"],
        covers: always,
    },
    Departure {
        name: "subs-pc-lr",
        refuses: false,
        says: "the status is restored too; it is read as data processing to pc",
        rows: &["SUBS PC, LR and related instructions"],
        covers: always,
    },
    Departure {
        name: "compare-15",
        refuses: false,
        says: "15:12 should be zero, and nothing is written; with 15 there the flow is ijump",
        rows: COMPARES,
        covers: to_pc,
    },
    Departure {
        name: "shifted-15",
        refuses: false,
        says: "a shift by a register to pc is unpredictable; the flow is ijump",
        rows: REGISTER_SHIFTS,
        covers: to_pc,
    },
    Departure {
        name: "push-pop-one",
        refuses: false,
        says: "PUSH or POP of one register is read as the store or load that it is",
        rows: &["PUSH, one register", "POP, one register"],
        covers: always,
    },
    Departure {
        name: "pair-write-back",
        refuses: true,
        says: "LDRD or STRD with P clear and W set is unpredictable",
        rows: PAIRS,
        covers: |word| !is_set(word, 24) && is_set(word, 21),
    },
    Departure {
        name: "odd-pair",
        refuses: true,
        says: "LDRD or STRD with an odd first register is unpredictable",
        rows: PAIRS,
        covers: |word| is_set(word, 12),
    },
    Departure {
        name: "index",
        refuses: true,
        says: INDEX,
        rows: EXTRA_INDEXES,
        covers: |word| !is_set(word, 23),
    },
    Departure {
        name: "index",
        refuses: true,
        says: INDEX,
        rows: INDEXES,
        covers: |word| !left_index(word),
    },
    Departure {
        name: "index",
        refuses: true,
        says: INDEX,
        rows: UNPRIVILEGEDS,
        covers: |word| is_set(word, 25) && !left_index(word),
    },
    Departure {
        name: "load-15",
        refuses: false,
        says: "LDRB, LDRT or LDRBT to pc is unpredictable; the flow is ijump",
        rows: LOADS,
        covers: to_pc,
    },
    Departure {
        name: "literal-index",
        refuses: false,
        says: "a load from pc has an offset; bits 24 and 21 are read all the same",
        rows: LITERALS,
        covers: |word| !offset_mode(word),
    },
    Departure {
        name: "minus-zero",
        refuses: false,
        says: MINUS_ZERO,
        rows: DISPLACED,
        covers: |word| offset_mode(word) && !is_set(word, 23) && field(word, 0, 12) == 0,
    },
    Departure {
        name: "empty-list",
        refuses: true,
        says: "LDM or STM of no register is unpredictable",
        rows: MULTIPLES,
        covers: |word| field(word, 0, 16) == 0,
    },
    Departure {
        name: "width",
        refuses: true,
        says: "BFC or BFI with msb below lsb is unpredictable",
        rows: &["BFC", "BFI"],
        covers: |word| field(word, 16, 5) < field(word, 7, 5),
    },
    Departure {
        name: "reverse-bits",
        refuses: true,
        says: "19:16 and 11:8 should be ones",
        rows: &["REV", "REV16", "RBIT", "REVSH"],
        covers: |word| !(field(word, 16, 4) == 15 && field(word, 8, 4) == 15),
    },
    Departure {
        name: "extend-bits",
        refuses: true,
        says: "9:8 should be zeros",
        rows: EXTENDS,
        covers: |word| field(word, 8, 2) != 0,
    },
    Departure {
        name: "hint-bits",
        refuses: false,
        says: "15:12 of a hint should be ones; it is read as msr of no field",
        rows: HINTS,
        covers: |word| !to_pc(word),
    },
    Departure {
        name: "trap-condition",
        refuses: false,
        says: "BKPT and UDF have no condition; the name has the word's",
        rows: &["BKPT", "UDF"],
        covers: |word| field(word, 28, 4) != 14,
    },
    Departure {
        name: "preload-bits",
        refuses: true,
        says: "15:12 should be ones",
        rows: PRELOADS,
        covers: |word| !to_pc(word),
    },
    Departure {
        name: "minus-zero",
        refuses: false,
        says: MINUS_ZERO,
        rows: PRELOADS,
        covers: |word| !is_set(word, 23) && field(word, 0, 12) == 0,
    },
    Departure {
        name: "preload-literal",
        refuses: false,
        says: "PLDW from pc is unpredictable; it is read as pldw",
        rows: &["UNPREDICTABLE"],
        covers: literal_pldw,
    },
    Departure {
        name: "barrier-bits",
        refuses: true,
        says: "19:12 should be ones, and 11:8 zeros",
        rows: &["CLREX", "DSB", "DMB", "ISB"],
        covers: |word| field(word, 8, 12) != 0xff0,
    },
    Departure {
        name: "unindexed",
        refuses: false,
        says: "nothing is written back; it is read in post mode, as if bit 21 were set, and its home word does other work",
        rows: COPROCESSOR_TRANSFERS,
        covers: |word| !is_set(word, 24) && !is_set(word, 21),
    },
    Departure {
        name: "literal-index",
        refuses: false,
        says: "LDC from pc has an offset; bits 24 and 21 are read all the same",
        rows: &["LDC (literal)"],
        covers: |word| is_set(word, 21),
    },
    Departure {
        name: "minus-zero",
        refuses: false,
        says: MINUS_ZERO,
        rows: COPROCESSOR_TRANSFERS,
        covers: |word| !is_set(word, 23) && field(word, 0, 8) == 0,
    },
    Departure {
        name: "flags-15",
        refuses: false,
        says: "MRC with 15 writes the flags; it is read as pc, and the flow is next",
        rows: &["MRC"],
        covers: to_pc,
    },
];

const INDEX: &str =
    "an index that is subtracted, or is not shifted left, has no place in an answer";
const MINUS_ZERO: &str = "#-0 is told from #0; it is read as 0";
