//! The home word of an accepted word, as document 01 has it in "Home words", and 02, P1, P3, P4,
//! P5 and P9.

use Field::{Ones, Zeros};

use crate::pattern::{Pattern, pattern};

/// What fills the bits that a row ignores: what the manual draws, or zeros.
#[derive(Debug, Clone, Copy, PartialEq, Eq)]
pub enum Filler {
    Manual,
    Zeros,
}

/// A field that a row ignores, from its highest bit to its lowest, by what the manual draws there.
/// Where document 02, P5, says nothing, it is zeros.
enum Field {
    Zeros(u32, u32),
    Ones(u32, u32),
}

/// The words under a condition below 15, or those under condition 15.
pub struct Space {
    /// The first row that has a word counts. A word that is in none ignores nothing.
    pub rows: &'static [Row],
    /// The words in which a bit is set, in addition, each with the bit.
    set: &'static [(Pattern, u32)],
}

/// The words of a row, the bits that are ignored in them, and which of these the manual draws as
/// ones.
#[derive(Clone, Copy)]
pub struct Row {
    pub words: Pattern,
    ignored: u32,
    ones: u32,
}

/// Register data processing is drawn twice: shifted by a number, with bit 4 clear, and by a
/// register, with bit 4 set and 7 clear.
pub static CONDITIONAL: Space = Space {
    rows: &[
        // mov, mvn and shift names
        row("0001 1.1. .... .... .... ...0 ....", &[Zeros(19, 16)]),
        row("0001 1.1. .... .... .... 0..1 ....", &[Zeros(19, 16)]),
        row("0011 1.1. .... .... .... .... ....", &[Zeros(19, 16)]),
        // immediate compares
        row("0011 0..1 .... .... .... .... ....", &[Zeros(15, 12)]),
        // register compares, unless 15:12 is 15
        row("0001 0..1 .... 1111 .... ...0 ....", &[]),
        row("0001 0..1 .... 1111 .... 0..1 ....", &[]),
        row("0001 0..1 .... .... .... ...0 ....", &[Zeros(15, 12)]),
        row("0001 0..1 .... .... .... 0..1 ....", &[Zeros(15, 12)]),
        // mrs
        row(
            "0001 0.00 .... .... ..0. 0000 ....",
            &[Ones(19, 16), Zeros(11, 10), Zeros(8, 8), Zeros(3, 0)],
        ),
        // msr register
        row(
            "0001 0.10 .... .... ..0. 0000 ....",
            &[Ones(15, 12), Zeros(11, 10), Zeros(8, 8)],
        ),
        // hints, before msr immediate: they are drawn among its words
        row("0011 0010 0000 1111 .... .... ....", &[Zeros(11, 8)]),
        // msr immediate, with mask 0 and bit 22 clear and then all others
        row("0011 0010 0000 .... .... .... ....", &[Zeros(15, 12)]),
        row("0011 0.10 .... .... .... .... ....", &[Ones(15, 12)]),
        // bx, bxj, blx register
        row("0001 0010 .... .... .... 0001 ....", &[Ones(19, 8)]),
        row("0001 0010 .... .... .... 0010 ....", &[Ones(19, 8)]),
        row("0001 0010 .... .... .... 0011 ....", &[Ones(19, 8)]),
        // clz
        row(
            "0001 0110 .... .... .... 0001 ....",
            &[Ones(19, 16), Ones(11, 8)],
        ),
        // saturating adds
        row("0001 0..0 .... .... .... 0101 ....", &[Zeros(11, 8)]),
        // exclusives: stores, then loads
        row("0001 1..0 .... .... .... 1001 ....", &[Ones(11, 8)]),
        row(
            "0001 1..1 .... .... .... 1001 ....",
            &[Ones(11, 8), Ones(3, 0)],
        ),
        // extra index form: 6:5 = 01, then 1x
        row("000. .0.. .... .... .... 1011 ....", &[Zeros(11, 8)]),
        row("000. .0.. .... .... .... 11.1 ....", &[Zeros(11, 8)]),
        // mul
        row("0000 000. .... .... .... 1001 ....", &[Zeros(15, 12)]),
        // smul, smulw
        row("0001 0110 .... .... .... 1..0 ....", &[Zeros(15, 12)]),
        row("0001 0010 .... .... .... 1.10 ....", &[Zeros(15, 12)]),
        // sdiv, udiv
        row("0111 0001 .... .... .... 0001 ....", &[Ones(15, 12)]),
        row("0111 0011 .... .... .... 0001 ....", &[Ones(15, 12)]),
    ],
    set: &[
        // load/store (not extra) immediate offset mode, when 11:0 is 0
        (pattern("0101 ..0. .... .... 0000 0000 0000"), 23),
        // ldc and stc: U when 7:0 is 0, before and after; W when P is clear
        (pattern("1101 .... .... .... .... 0000 0000"), 23),
        (pattern("1100 0.1. .... .... .... 0000 0000"), 23),
        (pattern("1100 1.0. .... .... .... .... ...."), 21),
    ],
};

static CONDITION_15: Space = Space {
    // clrex
    rows: &[row("0101 0111 1111 1111 0000 0001 ....", &[Ones(3, 0)])],
    // preloads, when 11:0 is 0
    set: &[(pattern("0101 ..01 .... 1111 0000 0000 0000"), 23)],
};

/// The home word of an accepted word; a refused one has none.
pub fn home(word: u32, filler: Filler) -> u32 {
    let space = if word >> 28 < 15 {
        &CONDITIONAL
    } else {
        &CONDITION_15
    };
    let row = space.rows.iter().find(|row| row.words.has(word));
    let (ignored, ones) = row.map_or((0, 0), |row| (row.ignored, row.ones));
    let filled = if filler == Filler::Manual { ones } else { 0 };
    let set = space.set.iter().filter(|(words, _)| words.has(word));
    set.fold(word & !ignored | filled, |home, (_, bit)| home | 1 << bit)
}

/// A row: bits 27:0 of its words as they are drawn, and the fields that are ignored in them.
const fn row(drawn: &str, fields: &[Field]) -> Row {
    let mut row = Row {
        words: pattern(drawn),
        ignored: 0,
        ones: 0,
    };
    let mut place = 0;
    while place < fields.len() {
        match fields[place] {
            Zeros(high, low) => row.ignored |= (2 << high) - (1 << low),
            Ones(high, low) => {
                row.ignored |= (2 << high) - (1 << low);
                row.ones |= (2 << high) - (1 << low);
            }
        }
        place += 1;
    }
    row
}

#[cfg(test)]
mod tests {
    use super::Filler::{self, Manual, Zeros};
    use super::home;

    fn check_with(cases: &[(u32, u32)], filler: Filler) {
        for &(word, expected) in cases {
            let found = home(word, filler);
            assert!(
                found == expected,
                "{word:08x}: {found:08x}, not {expected:08x}"
            );
            assert!(
                home(found, filler) == found,
                "{found:08x} is not its own home"
            );
        }
    }

    /// Words with their home words, which are the same under both fillers.
    fn check(cases: &[(u32, u32)]) {
        check_with(cases, Manual);
        check_with(cases, Zeros);
    }

    /// Words with fields that the manual draws as ones: a word, its home word as drawn, and the one
    /// with zeros.
    fn check_drawn(cases: &[(u32, u32, u32)]) {
        for &(word, manual, zeros) in cases {
            check_with(&[(word, manual), (zeros, manual)], Manual);
            check_with(&[(word, zeros), (manual, zeros)], Zeros);
        }
    }

    /// 01, "Proved cases", 13.
    #[test]
    fn case_13() {
        check(&[(0xe511_0000, 0xe591_0000), (0xe411_0000, 0xe411_0000)]);
    }

    #[test]
    fn moves_ignore_rn() {
        check(&[
            (0xe1af_0001, 0xe1a0_0001), // mov
            (0xe1bf_0061, 0xe1b0_0061), // rrxs
            (0xe1af_0211, 0xe1a0_0211), // lsl by a register
            (0xe1ef_0001, 0xe1e0_0001), // mvn
            (0xe3af_0001, 0xe3a0_0001), // mov of a count
            (0xe1cf_0001, 0xe1cf_0001), // bic, which has an Rn
            (0xe34f_0001, 0xe34f_0001), // movt, where 19:16 is part of the number
            (0xe1cf_00b1, 0xe1cf_00b1), // strh, which is no register data processing
        ]);
    }

    /// 01, "Easy errors": Rd 15 in a register compare is not cleared.
    #[test]
    fn compares_ignore_rd() {
        check(&[
            (0xe150_e001, 0xe150_0001),
            (0xe150_f001, 0xe150_f001),
            (0xe150_e211, 0xe150_0211), // shifted by a register
            (0xe150_f211, 0xe150_f211),
            (0xe350_e001, 0xe350_0001),
            (0xe350_f001, 0xe350_0001),
        ]);
    }

    #[test]
    fn status_registers() {
        check_drawn(&[
            (0xe14a_1d0f, 0xe14f_1000, 0xe140_1000), // mrs
            (0xe16f_ad0f, 0xe16f_f00f, 0xe16f_000f), // msr register
            (0xe160_ad0f, 0xe160_f00f, 0xe160_000f), // msr register, mask 0
            (0xe32f_a0ff, 0xe32f_f0ff, 0xe32f_00ff), // msr immediate
            (0xe360_a000, 0xe360_f000, 0xe360_0000), // msr immediate, mask 0 of the other register
        ]);
        check(&[
            (0xe320_a0ff, 0xe320_00ff), // msr immediate, mask 0: with ones it would be a hint
            (0xe320_ff01, 0xe320_f001), // a hint
        ]);
    }

    #[test]
    fn other_control_rows() {
        check_drawn(&[
            (0xe12a_aa1e, 0xe12f_ff1e, 0xe120_001e), // bx
            (0xe12a_aa2e, 0xe12f_ff2e, 0xe120_002e), // bxj
            (0xe12a_aa3e, 0xe12f_ff3e, 0xe120_003e), // blx
            (0xe16a_1a1e, 0xe16f_1f1e, 0xe160_101e), // clz
        ]);
        check(&[
            (0xe14f_1f5e, 0xe14f_105e), // qdadd
            (0xe12f_ff7e, 0xe12f_ff7e), // bkpt
        ]);
    }

    #[test]
    fn multiplies_and_exclusives() {
        check(&[
            (0xe001_f293, 0xe001_0293), // mul
            (0xe011_f293, 0xe011_0293), // muls
            (0xe021_f293, 0xe021_f293), // mla
            (0xe161_f2e3, 0xe161_02e3), // smultt
            (0xe121_f2e3, 0xe121_02e3), // smulwt
            (0xe121_f2c3, 0xe121_f2c3), // smlawt
            (0xe101_f283, 0xe101_f283), // smlabb
            (0xe141_f283, 0xe141_f283), // smlalbb
        ]);
        check_drawn(&[
            (0xe181_2a93, 0xe181_2f93, 0xe181_2093), // strex
            (0xe191_2a9a, 0xe191_2f9f, 0xe191_2090), // ldrex
            (0xe711_a213, 0xe711_f213, 0xe711_0213), // sdiv
            (0xe731_a213, 0xe731_f213, 0xe731_0213), // udiv
        ]);
    }

    #[test]
    fn loads_and_stores() {
        check(&[
            (0xe181_2fb3, 0xe181_20b3), // strh, index form
            (0xe181_2fd4, 0xe181_20d4), // ldrd, index form
            (0xe1c1_2fb3, 0xe1c1_2fb3), // strh, immediate form
            (0xe151_20b0, 0xe151_20b0), // ldrh, minus zero
            (0xe541_2000, 0xe5c1_2000), // strb, offset mode, minus zero
            (0xe511_0001, 0xe511_0001), // ldr, offset mode, minus 1
            (0xe531_0000, 0xe531_0000), // ldr, pre, minus zero
        ]);
    }

    #[test]
    fn saturates() {
        check(&[
            (0xe6bf_1fdf, 0xe6bf_1fdf), // ssat
            (0xe6ff_1fdf, 0xe6ff_1fdf), // usat
            (0xe6bf_1f31, 0xe6bf_1f31), // rev, beside them
        ]);
    }

    #[test]
    fn coprocessors() {
        check(&[
            (0xed11_5e00, 0xed91_5e00), // ldc, offset mode, minus zero
            (0xed21_5e00, 0xeda1_5e00), // stc, pre, minus zero
            (0xec71_5e00, 0xecf1_5e00), // ldcl, post, minus zero
            (0xec71_5e01, 0xec71_5e01), // ldcl, post, minus 4
            (0xec91_5e01, 0xecb1_5e01), // ldc, post, W clear
            (0xecc1_5e00, 0xece1_5e00), // stcl, post, W clear
            (0xed11_5e01, 0xed11_5e01), // ldc, offset mode, minus 4
            (0xec41_5e00, 0xec41_5e00), // mcrr
            (0xec51_5e00, 0xec51_5e00), // mrrc
            (0xee01_5e00, 0xee01_5e00), // cdp
            (0xee11_5e10, 0xee11_5e10), // mrc
        ]);
    }

    #[test]
    fn condition_15() {
        check_drawn(&[(0xf57f_f01a, 0xf57f_f01f, 0xf57f_f010)]); // clrex
        check(&[
            (0xf57f_f04f, 0xf57f_f04f), // dsb
            (0xf550_f000, 0xf5d0_f000), // pld, minus zero
            (0xf51f_f000, 0xf59f_f000), // pldw, minus zero
            (0xf550_f010, 0xf550_f010), // pld, minus 16
            (0xfa00_0000, 0xfa00_0000), // blx
        ]);
    }
}
