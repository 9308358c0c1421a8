//! The constants of rows, and how each reads: made from the definitions by `bindings/names`.

use crate::{Condition, Name, Refusal, Register};

/// How many names there are.
pub const NAMES: usize = 158;

/// How many operands an instruction has places for.
pub const PLACES: usize = 6;

/// How many numbers a row has for each.
pub const PARTS: usize = 11;

impl Refusal {
    /// Fewer than 4 bytes.
    pub const SHORT: Refusal = Refusal(1);

    /// Out of scope: condition below 15, bits 27:26 = 11, coprocessor 10 or 11.
    pub const COPROCESSOR: Refusal = Refusal(2);

    /// No instruction that is known here.
    pub const NO_ROW: Refusal = Refusal(3);

    /// No word has this answer.
    pub const NO_WORD: Refusal = Refusal(4);

    /// Mark not RSX.
    pub const BAD_MARK: Refusal = Refusal(5);

    /// Version neither 1 nor 2.
    pub const BAD_VERSION: Refusal = Refusal(6);

    /// Shorter than 9 bytes, the count of ranges or a range cut short, or not whole words.
    pub const BAD_LENGTH: Refusal = Refusal(7);

    /// More than 4,096 words.
    pub const TOO_MANY_WORDS: Refusal = Refusal(8);

    /// Base not a multiple of 4, or words beyond the last address.
    pub const BAD_BASE: Refusal = Refusal(9);

    /// Longer than the lent buffer.
    pub const NO_ROOM: Refusal = Refusal(10);

    /// More than 64 ranges of data, or one that is empty, not in the section, or not after the one before it.
    pub const BAD_RANGES: Refusal = Refusal(11);

    /// Ranges of data, which version 1 does not have.
    pub const HAS_RANGES: Refusal = Refusal(12);

    /// Not a place in the section.
    pub const NO_PLACE: Refusal = Refusal(13);

    /// Run that is empty, or not held by section or patch alone.
    pub const NO_RUN: Refusal = Refusal(14);

    /// More than 1,024 calls for an index.
    pub const TOO_MANY_CALLS: Refusal = Refusal(15);

    /// 65,536 sections in the tally already.
    pub const TOO_MANY_SECTIONS: Refusal = Refusal(16);
}

impl Name {
    /// `and`
    pub const AND: Name = Name(0);

    /// `eor`
    pub const EOR: Name = Name(1);

    /// `sub`
    pub const SUB: Name = Name(2);

    /// `rsb`
    pub const RSB: Name = Name(3);

    /// `add`
    pub const ADD: Name = Name(4);

    /// `adc`
    pub const ADC: Name = Name(5);

    /// `sbc`
    pub const SBC: Name = Name(6);

    /// `rsc`
    pub const RSC: Name = Name(7);

    /// `tst`
    pub const TST: Name = Name(8);

    /// `teq`
    pub const TEQ: Name = Name(9);

    /// `cmp`
    pub const CMP: Name = Name(10);

    /// `cmn`
    pub const CMN: Name = Name(11);

    /// `orr`
    pub const ORR: Name = Name(12);

    /// `mov`
    pub const MOV: Name = Name(13);

    /// `bic`
    pub const BIC: Name = Name(14);

    /// `mvn`
    pub const MVN: Name = Name(15);

    /// `ands`
    pub const ANDS: Name = Name(16);

    /// `eors`
    pub const EORS: Name = Name(17);

    /// `subs`
    pub const SUBS: Name = Name(18);

    /// `rsbs`
    pub const RSBS: Name = Name(19);

    /// `adds`
    pub const ADDS: Name = Name(20);

    /// `adcs`
    pub const ADCS: Name = Name(21);

    /// `sbcs`
    pub const SBCS: Name = Name(22);

    /// `rscs`
    pub const RSCS: Name = Name(23);

    /// `orrs`
    pub const ORRS: Name = Name(24);

    /// `movs`
    pub const MOVS: Name = Name(25);

    /// `bics`
    pub const BICS: Name = Name(26);

    /// `mvns`
    pub const MVNS: Name = Name(27);

    /// `lsl`
    pub const LSL: Name = Name(28);

    /// `lsr`
    pub const LSR: Name = Name(29);

    /// `asr`
    pub const ASR: Name = Name(30);

    /// `ror`
    pub const ROR: Name = Name(31);

    /// `lsls`
    pub const LSLS: Name = Name(32);

    /// `lsrs`
    pub const LSRS: Name = Name(33);

    /// `asrs`
    pub const ASRS: Name = Name(34);

    /// `rors`
    pub const RORS: Name = Name(35);

    /// `rrxs`
    pub const RRXS: Name = Name(36);

    /// `rrx`
    pub const RRX: Name = Name(37);

    /// `mrs`
    pub const MRS: Name = Name(38);

    /// `msr`
    pub const MSR: Name = Name(39);

    /// `bx`
    pub const BX: Name = Name(40);

    /// `clz`
    pub const CLZ: Name = Name(41);

    /// `bxj`
    pub const BXJ: Name = Name(42);

    /// `blx`
    pub const BLX: Name = Name(43);

    /// `qadd`
    pub const QADD: Name = Name(44);

    /// `qsub`
    pub const QSUB: Name = Name(45);

    /// `qdadd`
    pub const QDADD: Name = Name(46);

    /// `qdsub`
    pub const QDSUB: Name = Name(47);

    /// `bkpt`
    pub const BKPT: Name = Name(48);

    /// `muls`
    pub const MULS: Name = Name(49);

    /// `mul`
    pub const MUL: Name = Name(50);

    /// `mlas`
    pub const MLAS: Name = Name(51);

    /// `mla`
    pub const MLA: Name = Name(52);

    /// `umaal`
    pub const UMAAL: Name = Name(53);

    /// `mls`
    pub const MLS: Name = Name(54);

    /// `umull`
    pub const UMULL: Name = Name(55);

    /// `umulls`
    pub const UMULLS: Name = Name(56);

    /// `umlal`
    pub const UMLAL: Name = Name(57);

    /// `umlals`
    pub const UMLALS: Name = Name(58);

    /// `smull`
    pub const SMULL: Name = Name(59);

    /// `smulls`
    pub const SMULLS: Name = Name(60);

    /// `smlal`
    pub const SMLAL: Name = Name(61);

    /// `smlals`
    pub const SMLALS: Name = Name(62);

    /// `strex`
    pub const STREX: Name = Name(63);

    /// `ldrex`
    pub const LDREX: Name = Name(64);

    /// `strexb`
    pub const STREXB: Name = Name(65);

    /// `ldrexb`
    pub const LDREXB: Name = Name(66);

    /// `strexh`
    pub const STREXH: Name = Name(67);

    /// `ldrexh`
    pub const LDREXH: Name = Name(68);

    /// `strh`
    pub const STRH: Name = Name(69);

    /// `ldrh`
    pub const LDRH: Name = Name(70);

    /// `ldrd`
    pub const LDRD: Name = Name(71);

    /// `ldrsb`
    pub const LDRSB: Name = Name(72);

    /// `strd`
    pub const STRD: Name = Name(73);

    /// `ldrsh`
    pub const LDRSH: Name = Name(74);

    /// `movt`
    pub const MOVT: Name = Name(75);

    /// `movw`
    pub const MOVW: Name = Name(76);

    /// `nop`
    pub const NOP: Name = Name(77);

    /// `yield`
    pub const YIELD: Name = Name(78);

    /// `wfe`
    pub const WFE: Name = Name(79);

    /// `wfi`
    pub const WFI: Name = Name(80);

    /// `sev`
    pub const SEV: Name = Name(81);

    /// `ldr`
    pub const LDR: Name = Name(82);

    /// `ldrb`
    pub const LDRB: Name = Name(83);

    /// `str`
    pub const STR: Name = Name(84);

    /// `strb`
    pub const STRB: Name = Name(85);

    /// `ldrt`
    pub const LDRT: Name = Name(86);

    /// `ldrbt`
    pub const LDRBT: Name = Name(87);

    /// `strt`
    pub const STRT: Name = Name(88);

    /// `strbt`
    pub const STRBT: Name = Name(89);

    /// `udf`
    pub const UDF: Name = Name(90);

    /// `sbfx`
    pub const SBFX: Name = Name(91);

    /// `ubfx`
    pub const UBFX: Name = Name(92);

    /// `bfc`
    pub const BFC: Name = Name(93);

    /// `bfi`
    pub const BFI: Name = Name(94);

    /// `sdiv`
    pub const SDIV: Name = Name(95);

    /// `udiv`
    pub const UDIV: Name = Name(96);

    /// `ssat`
    pub const SSAT: Name = Name(97);

    /// `usat`
    pub const USAT: Name = Name(98);

    /// `rev`
    pub const REV: Name = Name(99);

    /// `rev16`
    pub const REV16: Name = Name(100);

    /// `rbit`
    pub const RBIT: Name = Name(101);

    /// `revsh`
    pub const REVSH: Name = Name(102);

    /// `sxtb16`
    pub const SXTB16: Name = Name(103);

    /// `sxtab16`
    pub const SXTAB16: Name = Name(104);

    /// `sxtb`
    pub const SXTB: Name = Name(105);

    /// `sxtab`
    pub const SXTAB: Name = Name(106);

    /// `sxth`
    pub const SXTH: Name = Name(107);

    /// `sxtah`
    pub const SXTAH: Name = Name(108);

    /// `uxtb16`
    pub const UXTB16: Name = Name(109);

    /// `uxtab16`
    pub const UXTAB16: Name = Name(110);

    /// `uxtb`
    pub const UXTB: Name = Name(111);

    /// `uxtab`
    pub const UXTAB: Name = Name(112);

    /// `uxth`
    pub const UXTH: Name = Name(113);

    /// `uxtah`
    pub const UXTAH: Name = Name(114);

    /// `ldmda`
    pub const LDMDA: Name = Name(115);

    /// `ldm`
    pub const LDM: Name = Name(116);

    /// `ldmdb`
    pub const LDMDB: Name = Name(117);

    /// `ldmib`
    pub const LDMIB: Name = Name(118);

    /// `stmda`
    pub const STMDA: Name = Name(119);

    /// `stm`
    pub const STM: Name = Name(120);

    /// `stmdb`
    pub const STMDB: Name = Name(121);

    /// `stmib`
    pub const STMIB: Name = Name(122);

    /// `pop`
    pub const POP: Name = Name(123);

    /// `push`
    pub const PUSH: Name = Name(124);

    /// `bl`
    pub const BL: Name = Name(125);

    /// `b`
    pub const B: Name = Name(126);

    /// `pld`
    pub const PLD: Name = Name(127);

    /// `pldw`
    pub const PLDW: Name = Name(128);

    /// `clrex`
    pub const CLREX: Name = Name(129);

    /// `dsb`
    pub const DSB: Name = Name(130);

    /// `dmb`
    pub const DMB: Name = Name(131);

    /// `isb`
    pub const ISB: Name = Name(132);

    /// `smlabb`
    pub const SMLABB: Name = Name(133);

    /// `smlabt`
    pub const SMLABT: Name = Name(134);

    /// `smlatb`
    pub const SMLATB: Name = Name(135);

    /// `smlatt`
    pub const SMLATT: Name = Name(136);

    /// `smlawb`
    pub const SMLAWB: Name = Name(137);

    /// `smlawt`
    pub const SMLAWT: Name = Name(138);

    /// `smulwb`
    pub const SMULWB: Name = Name(139);

    /// `smulwt`
    pub const SMULWT: Name = Name(140);

    /// `smlalbb`
    pub const SMLALBB: Name = Name(141);

    /// `smlalbt`
    pub const SMLALBT: Name = Name(142);

    /// `smlaltb`
    pub const SMLALTB: Name = Name(143);

    /// `smlaltt`
    pub const SMLALTT: Name = Name(144);

    /// `smulbb`
    pub const SMULBB: Name = Name(145);

    /// `smulbt`
    pub const SMULBT: Name = Name(146);

    /// `smultb`
    pub const SMULTB: Name = Name(147);

    /// `smultt`
    pub const SMULTT: Name = Name(148);

    /// `mrc`
    pub const MRC: Name = Name(149);

    /// `mcr`
    pub const MCR: Name = Name(150);

    /// `cdp`
    pub const CDP: Name = Name(151);

    /// `mrrc`
    pub const MRRC: Name = Name(152);

    /// `mcrr`
    pub const MCRR: Name = Name(153);

    /// `ldc`
    pub const LDC: Name = Name(154);

    /// `ldcl`
    pub const LDCL: Name = Name(155);

    /// `stc`
    pub const STC: Name = Name(156);

    /// `stcl`
    pub const STCL: Name = Name(157);
}

impl Condition {
    /// `eq`
    pub const EQ: Condition = Condition(0);

    /// `ne`
    pub const NE: Condition = Condition(1);

    /// `hs`
    pub const HS: Condition = Condition(2);

    /// `lo`
    pub const LO: Condition = Condition(3);

    /// `mi`
    pub const MI: Condition = Condition(4);

    /// `pl`
    pub const PL: Condition = Condition(5);

    /// `vs`
    pub const VS: Condition = Condition(6);

    /// `vc`
    pub const VC: Condition = Condition(7);

    /// `hi`
    pub const HI: Condition = Condition(8);

    /// `ls`
    pub const LS: Condition = Condition(9);

    /// `ge`
    pub const GE: Condition = Condition(10);

    /// `lt`
    pub const LT: Condition = Condition(11);

    /// `gt`
    pub const GT: Condition = Condition(12);

    /// `le`
    pub const LE: Condition = Condition(13);

    /// Always.
    pub const AL: Condition = Condition(14);

    /// Of words that have no condition.
    pub const UNCONDITIONAL: Condition = Condition(15);
}

impl Register {
    /// `r0`
    pub const R0: Register = Register(0);

    /// `r1`
    pub const R1: Register = Register(1);

    /// `r2`
    pub const R2: Register = Register(2);

    /// `r3`
    pub const R3: Register = Register(3);

    /// `r4`
    pub const R4: Register = Register(4);

    /// `r5`
    pub const R5: Register = Register(5);

    /// `r6`
    pub const R6: Register = Register(6);

    /// `r7`
    pub const R7: Register = Register(7);

    /// `r8`
    pub const R8: Register = Register(8);

    /// `r9`
    pub const R9: Register = Register(9);

    /// `r10`
    pub const R10: Register = Register(10);

    /// `r11`
    pub const R11: Register = Register(11);

    /// `r12`
    pub const R12: Register = Register(12);

    /// `sp`
    pub const SP: Register = Register(13);

    /// `lr`
    pub const LR: Register = Register(14);

    /// `pc`
    pub const PC: Register = Register(15);
}

/// The numbers of a row: where each stands, and where the operands begin.
#[allow(missing_docs)]
pub mod row {
    pub const ADDRESS: usize = 0;
    pub const NAME: usize = 1;
    pub const CONDITION: usize = 2;
    pub const FLOW: usize = 3;
    pub const TARGET: usize = 4;
    pub const OPERANDS: usize = 5;
}

/// The numbers of an operand: how far each stands after the first.
#[allow(missing_docs)]
pub mod part {
    pub const KIND: usize = 0;
    pub const REG: usize = 1;
    pub const HOW: usize = 2;
    pub const AMOUNT: usize = 3;
    pub const NEGATIVE: usize = 4;
    pub const VALUE: usize = 5;
    pub const INDEX: usize = 6;
    pub const MODE: usize = 7;
    pub const SIZE: usize = 8;
    pub const DECIMAL: usize = 9;
    pub const MINUS: usize = 10;
}

/// The kinds of operands.
#[allow(missing_docs)]
pub mod operand {
    pub const EMPTY: u64 = 0;
    pub const REGISTER: u64 = 1;
    pub const SHIFTED: u64 = 2;
    pub const SHIFT_BY: u64 = 3;
    pub const SATURATE_SHIFT: u64 = 4;
    pub const ROTATE: u64 = 5;
    pub const COUNT: u64 = 6;
    pub const NUMBER: u64 = 7;
    pub const STATUS_MASK: u64 = 8;
    pub const STATUS_SOURCE: u64 = 9;
    pub const WRITE_BACK: u64 = 10;
    pub const LIST: u64 = 11;
    pub const ADDRESS: u64 = 12;
    pub const MEMORY: u64 = 13;
    pub const OPTION: u64 = 14;
    pub const COPROCESSOR: u64 = 15;
    pub const COPROCESSOR_REGISTER: u64 = 16;
}

/// The flows.
#[allow(missing_docs)]
pub mod flow {
    pub const NEXT: u64 = 0;
    pub const BRANCH: u64 = 1;
    pub const COND_BRANCH: u64 = 2;
    pub const INDIRECT_BRANCH: u64 = 3;
    pub const CALL: u64 = 4;
    pub const INDIRECT_CALL: u64 = 5;
    pub const RETURN: u64 = 6;
    pub const TRAP: u64 = 7;
}

/// The root of a name, by its number.
#[rustfmt::skip]
pub const ROOTS: [&str; 158] = [
    "and",     "eor",     "sub",     "rsb",     "add",     "adc",     "sbc",     "rsc",
    "tst",     "teq",     "cmp",     "cmn",     "orr",     "mov",     "bic",     "mvn",
    "ands",    "eors",    "subs",    "rsbs",    "adds",    "adcs",    "sbcs",    "rscs",
    "orrs",    "movs",    "bics",    "mvns",    "lsl",     "lsr",     "asr",     "ror",
    "lsls",    "lsrs",    "asrs",    "rors",    "rrxs",    "rrx",     "mrs",     "msr",
    "bx",      "clz",     "bxj",     "blx",     "qadd",    "qsub",    "qdadd",   "qdsub",
    "bkpt",    "muls",    "mul",     "mlas",    "mla",     "umaal",   "mls",     "umull",
    "umulls",  "umlal",   "umlals",  "smull",   "smulls",  "smlal",   "smlals",  "strex",
    "ldrex",   "strexb",  "ldrexb",  "strexh",  "ldrexh",  "strh",    "ldrh",    "ldrd",
    "ldrsb",   "strd",    "ldrsh",   "movt",    "movw",    "nop",     "yield",   "wfe",
    "wfi",     "sev",     "ldr",     "ldrb",    "str",     "strb",    "ldrt",    "ldrbt",
    "strt",    "strbt",   "udf",     "sbfx",    "ubfx",    "bfc",     "bfi",     "sdiv",
    "udiv",    "ssat",    "usat",    "rev",     "rev16",   "rbit",    "revsh",   "sxtb16",
    "sxtab16", "sxtb",    "sxtab",   "sxth",    "sxtah",   "uxtb16",  "uxtab16", "uxtb",
    "uxtab",   "uxth",    "uxtah",   "ldmda",   "ldm",     "ldmdb",   "ldmib",   "stmda",
    "stm",     "stmdb",   "stmib",   "pop",     "push",    "bl",      "b",       "pld",
    "pldw",    "clrex",   "dsb",     "dmb",     "isb",     "smlabb",  "smlabt",  "smlatb",
    "smlatt",  "smlawb",  "smlawt",  "smulwb",  "smulwt",  "smlalbb", "smlalbt", "smlaltb",
    "smlaltt", "smulbb",  "smulbt",  "smultb",  "smultt",  "mrc",     "mcr",     "cdp",
    "mrrc",    "mcrr",    "ldc",     "ldcl",    "stc",     "stcl"
];

/// What a condition adds to a name, in ldcl and stcl before the l: nothing for 14 and 15.
#[rustfmt::skip]
pub const SUFFIXES: [&str; 16] = [
    "eq", "ne", "hs", "lo", "mi", "pl", "vs", "vc", "hi", "ls", "ge", "lt", "gt", "le", "",   ""
];

/// A flow, as a line ends with it.
#[rustfmt::skip]
pub const FLOWS: [&str; 8] = [
    "next",  "jump",  "jump?", "ijump", "call",  "icall", "ret",   "trap"
];

/// A register.
#[rustfmt::skip]
pub const REGISTERS: [&str; 16] = [
    "r0",  "r1",  "r2",  "r3",  "r4",  "r5",  "r6",  "r7",
    "r8",  "r9",  "r10", "r11", "r12", "sp",  "lr",  "pc"
];

/// The kind of a shift.
#[rustfmt::skip]
pub const SHIFTS: [&str; 4] = [
    "lsl", "lsr", "asr", "ror"
];

/// The fields of a status register that `msr` writes.
#[rustfmt::skip]
pub const MASKS: [&str; 32] = [
    "CPSR",        "CPSR_c",      "CPSR_x",      "CPSR_xc",
    "APSR_g",      "CPSR_sc",     "CPSR_sx",     "CPSR_sxc",
    "APSR_nzcvq",  "CPSR_fc",     "CPSR_fx",     "CPSR_fxc",
    "APSR_nzcvqg", "CPSR_fsc",    "CPSR_fsx",    "CPSR_fsxc",
    "SPSR",        "SPSR_c",      "SPSR_x",      "SPSR_xc",
    "SPSR_s",      "SPSR_sc",     "SPSR_sx",     "SPSR_sxc",
    "SPSR_f",      "SPSR_fc",     "SPSR_fx",     "SPSR_fxc",
    "SPSR_fs",     "SPSR_fsc",    "SPSR_fsx",    "SPSR_fsxc"
];

/// The status register that `mrs` reads.
#[rustfmt::skip]
pub const SOURCES: [&str; 2] = [
    "apsr", "spsr"
];

/// The option of a barrier.
#[rustfmt::skip]
pub const BARRIERS: [&str; 16] = [
    "#0x0",  "oshld", "oshst", "osh",   "#0x4",  "nshld", "nshst", "nsh",
    "#0x8",  "ishld", "ishst", "ish",   "#0xc",  "ld",    "st",    "sy"
];

/// A coprocessor.
#[rustfmt::skip]
pub const COPROCESSORS: [&str; 16] = [
    "p0",  "p1",  "p2",  "p3",  "p4",  "p5",  "p6",  "p7",
    "p8",  "p9",  "p10", "p11", "p12", "p13", "p14", "p15"
];

/// A register of a coprocessor.
#[rustfmt::skip]
pub const CO_REGISTERS: [&str; 16] = [
    "c0",  "c1",  "c2",  "c3",  "c4",  "c5",  "c6",  "c7",
    "c8",  "c9",  "c10", "c11", "c12", "c13", "c14", "c15"
];

/// The reason of a refusal, as `./list` says it; 0 is none.
#[rustfmt::skip]
pub const REASONS: [&str; 17] = [
    "",
    "fewer than 4 bytes",
    "out of scope: condition below 15, bits 27:26 = 11, coprocessor 10 or 11",
    "no instruction that is known here",
    "no word has this answer",
    "mark not RSX",
    "version neither 1 nor 2",
    "shorter than 9 bytes, the count of ranges or a range cut short, or not whole words",
    "more than 4,096 words",
    "base not a multiple of 4, or words beyond the last address",
    "longer than the lent buffer",
    "more than 64 ranges of data, or one that is empty, not in the section, or not after the one before it",
    "ranges of data, which version 1 does not have",
    "not a place in the section",
    "run that is empty, or not held by section or patch alone",
    "more than 1,024 calls for an index",
    "65,536 sections in the tally already"
];
