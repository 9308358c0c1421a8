//! The fixed tables of names: roots, conditions, registers, shifts, status masks and sources, the
//! options of a barrier, and coprocessors with their registers.

pub(crate) use crate::arm::BARRIERS as BARRIER_OPTIONS;
pub(crate) use crate::arm::MSR_MASKS as STATUS_MASKS;

/// The roots by name number, in the order in which a32.rs first spells them; but after them `clrex`
/// and the barriers, which no word of the Rust's reaches, the halfword multiplies, which it does not
/// spell, and the roots of mod.rs, in its order.
#[rustfmt::skip]
pub const ROOTS: [&str; 158] = [
    "and", "eor", "sub", "rsb", "add", "adc", "sbc", "rsc",
    "tst", "teq", "cmp", "cmn", "orr", "mov", "bic", "mvn",
    "ands", "eors", "subs", "rsbs", "adds", "adcs", "sbcs", "rscs",
    "orrs", "movs", "bics", "mvns",
    "lsl", "lsr", "asr", "ror",
    "lsls", "lsrs", "asrs", "rors",
    "rrxs", "rrx",
    "mrs", "msr", "bx", "clz", "bxj", "blx",
    "qadd", "qsub", "qdadd", "qdsub", "bkpt",
    "muls", "mul", "mlas", "mla", "umaal", "mls",
    "umull", "umulls", "umlal", "umlals", "smull", "smulls", "smlal", "smlals",
    "strex", "ldrex", "strexb", "ldrexb", "strexh", "ldrexh",
    "strh", "ldrh", "ldrd", "ldrsb", "strd", "ldrsh",
    "movt", "movw", "nop", "yield", "wfe", "wfi", "sev",
    "ldr", "ldrb", "str", "strb", "ldrt", "ldrbt", "strt", "strbt",
    "udf", "sbfx", "ubfx", "bfc", "bfi", "sdiv", "udiv", "ssat", "usat",
    "rev", "rev16", "rbit", "revsh",
    "sxtb16", "sxtab16", "sxtb", "sxtab", "sxth", "sxtah",
    "uxtb16", "uxtab16", "uxtb", "uxtab", "uxth", "uxtah",
    "ldmda", "ldm", "ldmdb", "ldmib", "stmda", "stm", "stmdb", "stmib", "pop", "push",
    "bl", "b",
    "pld", "pldw",
    "clrex", "dsb", "dmb", "isb",
    "smlabb", "smlabt", "smlatb", "smlatt", "smlawb", "smlawt", "smulwb", "smulwt",
    "smlalbb", "smlalbt", "smlaltb", "smlaltt", "smulbb", "smulbt", "smultb", "smultt",
    "mrc", "mcr", "cdp", "mrrc", "mcrr", "ldc", "ldcl", "stc", "stcl",
];

/// What of a root stands before the condition, and what after it: the `l` of a long transfer.
pub fn around_condition(root: &str) -> (&str, &str) {
    root.split_at(match root {
        "ldcl" | "stcl" => 3,
        _ => root.len(),
    })
}

/// What each condition adds to a root.
pub const SUFFIXES: [&str; 16] = [
    "eq", "ne", "hs", "lo", "mi", "pl", "vs", "vc", "hi", "ls", "ge", "lt", "gt", "le", "", "",
];

pub const REGISTERS: [&str; 16] = [
    "r0", "r1", "r2", "r3", "r4", "r5", "r6", "r7", "r8", "r9", "r10", "r11", "r12", "sp", "lr",
    "pc",
];

pub const SHIFTS: [&str; 4] = ["lsl", "lsr", "asr", "ror"];

/// Places in `SHIFTS`.
pub const LSL: u8 = 0;
pub const ASR: u8 = 2;

pub const STATUS_SOURCES: [&str; 2] = ["apsr", "spsr"];

pub const COPROCESSORS: [&str; 16] = [
    "p0", "p1", "p2", "p3", "p4", "p5", "p6", "p7", "p8", "p9", "p10", "p11", "p12", "p13", "p14",
    "p15",
];

pub const COPROCESSOR_REGISTERS: [&str; 16] = [
    "c0", "c1", "c2", "c3", "c4", "c5", "c6", "c7", "c8", "c9", "c10", "c11", "c12", "c13", "c14",
    "c15",
];
