/* The constants of brassdozen.h, and how each reads: made from the definitions by bindings/names. */
#ifndef BRASSDOZEN_NAMES_H
#define BRASSDOZEN_NAMES_H

#include <stdint.h>

#ifdef __cplusplus
extern "C" {
#endif

/* A refusal's number, or 0. */
enum {
    /* fewer than 4 bytes */
    BRASSDOZEN_SHORT = 1,
    /* out of scope: condition below 15, bits 27:26 = 11, coprocessor 10 or 11 */
    BRASSDOZEN_COPROCESSOR = 2,
    /* no instruction that is known here */
    BRASSDOZEN_NO_ROW = 3,
    /* no word has this answer */
    BRASSDOZEN_NO_WORD = 4,
    /* mark not RSX */
    BRASSDOZEN_BAD_MARK = 5,
    /* version neither 1 nor 2 */
    BRASSDOZEN_BAD_VERSION = 6,
    /* shorter than 9 bytes, the count of ranges or a range cut short, or not whole words */
    BRASSDOZEN_BAD_LENGTH = 7,
    /* more than 4,096 words */
    BRASSDOZEN_TOO_MANY_WORDS = 8,
    /* base not a multiple of 4, or words beyond the last address */
    BRASSDOZEN_BAD_BASE = 9,
    /* longer than the lent buffer */
    BRASSDOZEN_NO_ROOM = 10,
    /* more than 64 ranges of data, or one that is empty, not in the section, or not after the one before it */
    BRASSDOZEN_BAD_RANGES = 11,
    /* ranges of data, which version 1 does not have */
    BRASSDOZEN_HAS_RANGES = 12,
    /* not a place in the section */
    BRASSDOZEN_NO_PLACE = 13,
    /* run that is empty, or not held by section or patch alone */
    BRASSDOZEN_NO_RUN = 14,
    /* more than 1,024 calls for an index */
    BRASSDOZEN_TOO_MANY_CALLS = 15,
    /* 65,536 sections in the tally already */
    BRASSDOZEN_TOO_MANY_SECTIONS = 16
};

/* How many names there are, places for operands in an instruction, and numbers for each. */
enum {
    BRASSDOZEN_NAMES = 158, BRASSDOZEN_PLACES = 6,  BRASSDOZEN_PARTS = 11
};

/* The numbers of a row: where each stands, and where the operands begin. */
enum {
    BRASSDOZEN_ROW_ADDRESS = 0,   BRASSDOZEN_ROW_NAME = 1,      BRASSDOZEN_ROW_CONDITION = 2, BRASSDOZEN_ROW_FLOW = 3,
    BRASSDOZEN_ROW_TARGET = 4,    BRASSDOZEN_ROW_OPERANDS = 5
};

/* The numbers of an operand: how far each stands after the first. */
enum {
    BRASSDOZEN_PART_KIND = 0,     BRASSDOZEN_PART_REG = 1,      BRASSDOZEN_PART_HOW = 2,      BRASSDOZEN_PART_AMOUNT = 3,
    BRASSDOZEN_PART_NEGATIVE = 4, BRASSDOZEN_PART_VALUE = 5,    BRASSDOZEN_PART_INDEX = 6,    BRASSDOZEN_PART_MODE = 7,
    BRASSDOZEN_PART_SIZE = 8,     BRASSDOZEN_PART_DECIMAL = 9,  BRASSDOZEN_PART_MINUS = 10
};

/* Names, by their roots. */
enum {
    BRASSDOZEN_NAME_AND = 0,       BRASSDOZEN_NAME_EOR = 1,       BRASSDOZEN_NAME_SUB = 2,       BRASSDOZEN_NAME_RSB = 3,
    BRASSDOZEN_NAME_ADD = 4,       BRASSDOZEN_NAME_ADC = 5,       BRASSDOZEN_NAME_SBC = 6,       BRASSDOZEN_NAME_RSC = 7,
    BRASSDOZEN_NAME_TST = 8,       BRASSDOZEN_NAME_TEQ = 9,       BRASSDOZEN_NAME_CMP = 10,      BRASSDOZEN_NAME_CMN = 11,
    BRASSDOZEN_NAME_ORR = 12,      BRASSDOZEN_NAME_MOV = 13,      BRASSDOZEN_NAME_BIC = 14,      BRASSDOZEN_NAME_MVN = 15,
    BRASSDOZEN_NAME_ANDS = 16,     BRASSDOZEN_NAME_EORS = 17,     BRASSDOZEN_NAME_SUBS = 18,     BRASSDOZEN_NAME_RSBS = 19,
    BRASSDOZEN_NAME_ADDS = 20,     BRASSDOZEN_NAME_ADCS = 21,     BRASSDOZEN_NAME_SBCS = 22,     BRASSDOZEN_NAME_RSCS = 23,
    BRASSDOZEN_NAME_ORRS = 24,     BRASSDOZEN_NAME_MOVS = 25,     BRASSDOZEN_NAME_BICS = 26,     BRASSDOZEN_NAME_MVNS = 27,
    BRASSDOZEN_NAME_LSL = 28,      BRASSDOZEN_NAME_LSR = 29,      BRASSDOZEN_NAME_ASR = 30,      BRASSDOZEN_NAME_ROR = 31,
    BRASSDOZEN_NAME_LSLS = 32,     BRASSDOZEN_NAME_LSRS = 33,     BRASSDOZEN_NAME_ASRS = 34,     BRASSDOZEN_NAME_RORS = 35,
    BRASSDOZEN_NAME_RRXS = 36,     BRASSDOZEN_NAME_RRX = 37,      BRASSDOZEN_NAME_MRS = 38,      BRASSDOZEN_NAME_MSR = 39,
    BRASSDOZEN_NAME_BX = 40,       BRASSDOZEN_NAME_CLZ = 41,      BRASSDOZEN_NAME_BXJ = 42,      BRASSDOZEN_NAME_BLX = 43,
    BRASSDOZEN_NAME_QADD = 44,     BRASSDOZEN_NAME_QSUB = 45,     BRASSDOZEN_NAME_QDADD = 46,    BRASSDOZEN_NAME_QDSUB = 47,
    BRASSDOZEN_NAME_BKPT = 48,     BRASSDOZEN_NAME_MULS = 49,     BRASSDOZEN_NAME_MUL = 50,      BRASSDOZEN_NAME_MLAS = 51,
    BRASSDOZEN_NAME_MLA = 52,      BRASSDOZEN_NAME_UMAAL = 53,    BRASSDOZEN_NAME_MLS = 54,      BRASSDOZEN_NAME_UMULL = 55,
    BRASSDOZEN_NAME_UMULLS = 56,   BRASSDOZEN_NAME_UMLAL = 57,    BRASSDOZEN_NAME_UMLALS = 58,   BRASSDOZEN_NAME_SMULL = 59,
    BRASSDOZEN_NAME_SMULLS = 60,   BRASSDOZEN_NAME_SMLAL = 61,    BRASSDOZEN_NAME_SMLALS = 62,   BRASSDOZEN_NAME_STREX = 63,
    BRASSDOZEN_NAME_LDREX = 64,    BRASSDOZEN_NAME_STREXB = 65,   BRASSDOZEN_NAME_LDREXB = 66,   BRASSDOZEN_NAME_STREXH = 67,
    BRASSDOZEN_NAME_LDREXH = 68,   BRASSDOZEN_NAME_STRH = 69,     BRASSDOZEN_NAME_LDRH = 70,     BRASSDOZEN_NAME_LDRD = 71,
    BRASSDOZEN_NAME_LDRSB = 72,    BRASSDOZEN_NAME_STRD = 73,     BRASSDOZEN_NAME_LDRSH = 74,    BRASSDOZEN_NAME_MOVT = 75,
    BRASSDOZEN_NAME_MOVW = 76,     BRASSDOZEN_NAME_NOP = 77,      BRASSDOZEN_NAME_YIELD = 78,    BRASSDOZEN_NAME_WFE = 79,
    BRASSDOZEN_NAME_WFI = 80,      BRASSDOZEN_NAME_SEV = 81,      BRASSDOZEN_NAME_LDR = 82,      BRASSDOZEN_NAME_LDRB = 83,
    BRASSDOZEN_NAME_STR = 84,      BRASSDOZEN_NAME_STRB = 85,     BRASSDOZEN_NAME_LDRT = 86,     BRASSDOZEN_NAME_LDRBT = 87,
    BRASSDOZEN_NAME_STRT = 88,     BRASSDOZEN_NAME_STRBT = 89,    BRASSDOZEN_NAME_UDF = 90,      BRASSDOZEN_NAME_SBFX = 91,
    BRASSDOZEN_NAME_UBFX = 92,     BRASSDOZEN_NAME_BFC = 93,      BRASSDOZEN_NAME_BFI = 94,      BRASSDOZEN_NAME_SDIV = 95,
    BRASSDOZEN_NAME_UDIV = 96,     BRASSDOZEN_NAME_SSAT = 97,     BRASSDOZEN_NAME_USAT = 98,     BRASSDOZEN_NAME_REV = 99,
    BRASSDOZEN_NAME_REV16 = 100,   BRASSDOZEN_NAME_RBIT = 101,    BRASSDOZEN_NAME_REVSH = 102,   BRASSDOZEN_NAME_SXTB16 = 103,
    BRASSDOZEN_NAME_SXTAB16 = 104, BRASSDOZEN_NAME_SXTB = 105,    BRASSDOZEN_NAME_SXTAB = 106,   BRASSDOZEN_NAME_SXTH = 107,
    BRASSDOZEN_NAME_SXTAH = 108,   BRASSDOZEN_NAME_UXTB16 = 109,  BRASSDOZEN_NAME_UXTAB16 = 110, BRASSDOZEN_NAME_UXTB = 111,
    BRASSDOZEN_NAME_UXTAB = 112,   BRASSDOZEN_NAME_UXTH = 113,    BRASSDOZEN_NAME_UXTAH = 114,   BRASSDOZEN_NAME_LDMDA = 115,
    BRASSDOZEN_NAME_LDM = 116,     BRASSDOZEN_NAME_LDMDB = 117,   BRASSDOZEN_NAME_LDMIB = 118,   BRASSDOZEN_NAME_STMDA = 119,
    BRASSDOZEN_NAME_STM = 120,     BRASSDOZEN_NAME_STMDB = 121,   BRASSDOZEN_NAME_STMIB = 122,   BRASSDOZEN_NAME_POP = 123,
    BRASSDOZEN_NAME_PUSH = 124,    BRASSDOZEN_NAME_BL = 125,      BRASSDOZEN_NAME_B = 126,       BRASSDOZEN_NAME_PLD = 127,
    BRASSDOZEN_NAME_PLDW = 128,    BRASSDOZEN_NAME_CLREX = 129,   BRASSDOZEN_NAME_DSB = 130,     BRASSDOZEN_NAME_DMB = 131,
    BRASSDOZEN_NAME_ISB = 132,     BRASSDOZEN_NAME_SMLABB = 133,  BRASSDOZEN_NAME_SMLABT = 134,  BRASSDOZEN_NAME_SMLATB = 135,
    BRASSDOZEN_NAME_SMLATT = 136,  BRASSDOZEN_NAME_SMLAWB = 137,  BRASSDOZEN_NAME_SMLAWT = 138,  BRASSDOZEN_NAME_SMULWB = 139,
    BRASSDOZEN_NAME_SMULWT = 140,  BRASSDOZEN_NAME_SMLALBB = 141, BRASSDOZEN_NAME_SMLALBT = 142, BRASSDOZEN_NAME_SMLALTB = 143,
    BRASSDOZEN_NAME_SMLALTT = 144, BRASSDOZEN_NAME_SMULBB = 145,  BRASSDOZEN_NAME_SMULBT = 146,  BRASSDOZEN_NAME_SMULTB = 147,
    BRASSDOZEN_NAME_SMULTT = 148,  BRASSDOZEN_NAME_MRC = 149,     BRASSDOZEN_NAME_MCR = 150,     BRASSDOZEN_NAME_CDP = 151,
    BRASSDOZEN_NAME_MRRC = 152,    BRASSDOZEN_NAME_MCRR = 153,    BRASSDOZEN_NAME_LDC = 154,     BRASSDOZEN_NAME_LDCL = 155,
    BRASSDOZEN_NAME_STC = 156,     BRASSDOZEN_NAME_STCL = 157
};

/* Conditions; the last is that of words which have none. */
enum {
    BRASSDOZEN_CONDITION_EQ = 0,             BRASSDOZEN_CONDITION_NE = 1,
    BRASSDOZEN_CONDITION_HS = 2,             BRASSDOZEN_CONDITION_LO = 3,
    BRASSDOZEN_CONDITION_MI = 4,             BRASSDOZEN_CONDITION_PL = 5,
    BRASSDOZEN_CONDITION_VS = 6,             BRASSDOZEN_CONDITION_VC = 7,
    BRASSDOZEN_CONDITION_HI = 8,             BRASSDOZEN_CONDITION_LS = 9,
    BRASSDOZEN_CONDITION_GE = 10,            BRASSDOZEN_CONDITION_LT = 11,
    BRASSDOZEN_CONDITION_GT = 12,            BRASSDOZEN_CONDITION_LE = 13,
    BRASSDOZEN_CONDITION_AL = 14,            BRASSDOZEN_CONDITION_UNCONDITIONAL = 15
};

/* Flows. */
enum {
    BRASSDOZEN_FLOW_NEXT = 0,            BRASSDOZEN_FLOW_BRANCH = 1,
    BRASSDOZEN_FLOW_COND_BRANCH = 2,     BRASSDOZEN_FLOW_INDIRECT_BRANCH = 3,
    BRASSDOZEN_FLOW_CALL = 4,            BRASSDOZEN_FLOW_INDIRECT_CALL = 5,
    BRASSDOZEN_FLOW_RETURN = 6,          BRASSDOZEN_FLOW_TRAP = 7
};

/* Kinds of operands. */
enum {
    BRASSDOZEN_OPERAND_EMPTY = 0,                 BRASSDOZEN_OPERAND_REGISTER = 1,
    BRASSDOZEN_OPERAND_SHIFTED = 2,               BRASSDOZEN_OPERAND_SHIFT_BY = 3,
    BRASSDOZEN_OPERAND_SATURATE_SHIFT = 4,        BRASSDOZEN_OPERAND_ROTATE = 5,
    BRASSDOZEN_OPERAND_COUNT = 6,                 BRASSDOZEN_OPERAND_NUMBER = 7,
    BRASSDOZEN_OPERAND_STATUS_MASK = 8,           BRASSDOZEN_OPERAND_STATUS_SOURCE = 9,
    BRASSDOZEN_OPERAND_WRITE_BACK = 10,           BRASSDOZEN_OPERAND_LIST = 11,
    BRASSDOZEN_OPERAND_ADDRESS = 12,              BRASSDOZEN_OPERAND_MEMORY = 13,
    BRASSDOZEN_OPERAND_OPTION = 14,               BRASSDOZEN_OPERAND_COPROCESSOR = 15,
    BRASSDOZEN_OPERAND_COPROCESSOR_REGISTER = 16
};

/* Kinds of shifts. */
enum {
    BRASSDOZEN_SHIFT_LSL = 0, BRASSDOZEN_SHIFT_LSR = 1, BRASSDOZEN_SHIFT_ASR = 2, BRASSDOZEN_SHIFT_ROR = 3
};

/* Status registers. */
enum {
    BRASSDOZEN_STATUS_APSR = 0, BRASSDOZEN_STATUS_SPSR = 1
};

/* Modes of memory: offset, base updated before the access, and after it. */
enum {
    BRASSDOZEN_MODE_OFFSET = 0,     BRASSDOZEN_MODE_PRE_INDEX = 1,  BRASSDOZEN_MODE_POST_INDEX = 2
};

/* The registers that have names. */
enum {
    BRASSDOZEN_REGISTER_SP = 13, BRASSDOZEN_REGISTER_LR = 14, BRASSDOZEN_REGISTER_PC = 15
};

/* How each reads in a line, by its number; a number beyond the last reads as nothing. */

/* The root of a name, by its number. */
static inline const char *brassdozen_name_text(uint64_t number)
{
    static const char *const texts[] = {
        "and",     "eor",     "sub",     "rsb",     "add",     "adc",     "sbc",     "rsc",
        "tst",     "teq",     "cmp",     "cmn",     "orr",     "mov",     "bic",     "mvn",
        "ands",    "eors",    "subs",    "rsbs",    "adds",    "adcs",    "sbcs",    "rscs",
        "orrs",    "movs",    "bics",    "mvns",    "lsl",     "lsr",     "asr",     "ror",
        "lsls",    "lsrs",    "asrs",    "rors",    "rrxs",    "rrx",     "mrs",     "msr",
        "bx",      "clz",     "bxj",     "blx",     "qadd",    "qsub",    "qdadd",   "qdsub",
        "bkpt",    "muls",    "mul",     "mlas",    "mla",     "umaal",   "mls",     "umull",
        "umulls",  "umlal",   "umlals",  "smull",   "smulls",  "smlal",   "smlals",  "strex",
        "ldrex",   "strexb",  "ldrexb",  "strexh",  "ldrexh",  "strh",    "ldrh",    "ldrd",
        "ldrsb",   "strd",    "ldrsh",   "movt",    "movw",    "nop",     "yield",   "wfe",
        "wfi",     "sev",     "ldr",     "ldrb",    "str",     "strb",    "ldrt",    "ldrbt",
        "strt",    "strbt",   "udf",     "sbfx",    "ubfx",    "bfc",     "bfi",     "sdiv",
        "udiv",    "ssat",    "usat",    "rev",     "rev16",   "rbit",    "revsh",   "sxtb16",
        "sxtab16", "sxtb",    "sxtab",   "sxth",    "sxtah",   "uxtb16",  "uxtab16", "uxtb",
        "uxtab",   "uxth",    "uxtah",   "ldmda",   "ldm",     "ldmdb",   "ldmib",   "stmda",
        "stm",     "stmdb",   "stmib",   "pop",     "push",    "bl",      "b",       "pld",
        "pldw",    "clrex",   "dsb",     "dmb",     "isb",     "smlabb",  "smlabt",  "smlatb",
        "smlatt",  "smlawb",  "smlawt",  "smulwb",  "smulwt",  "smlalbb", "smlalbt", "smlaltb",
        "smlaltt", "smulbb",  "smulbt",  "smultb",  "smultt",  "mrc",     "mcr",     "cdp",
        "mrrc",    "mcrr",    "ldc",     "ldcl",    "stc",     "stcl"
    };
    return number < sizeof texts / sizeof *texts ? texts[number] : "";
}

/* What a condition adds to a name, in ldcl and stcl before the l: nothing for 14 and 15. */
static inline const char *brassdozen_condition_text(uint64_t number)
{
    static const char *const texts[] = {
        "eq", "ne", "hs", "lo", "mi", "pl", "vs", "vc", "hi", "ls", "ge", "lt", "gt", "le", "",   ""
    };
    return number < sizeof texts / sizeof *texts ? texts[number] : "";
}

/* A flow, as a line ends with it. */
static inline const char *brassdozen_flow_text(uint64_t number)
{
    static const char *const texts[] = {
        "next",  "jump",  "jump?", "ijump", "call",  "icall", "ret",   "trap"
    };
    return number < sizeof texts / sizeof *texts ? texts[number] : "";
}

/* A register. */
static inline const char *brassdozen_register_text(uint64_t number)
{
    static const char *const texts[] = {
        "r0",  "r1",  "r2",  "r3",  "r4",  "r5",  "r6",  "r7",  "r8",  "r9",  "r10", "r11", "r12", "sp",  "lr",  "pc"
    };
    return number < sizeof texts / sizeof *texts ? texts[number] : "";
}

/* The kind of a shift. */
static inline const char *brassdozen_shift_text(uint64_t number)
{
    static const char *const texts[] = {
        "lsl", "lsr", "asr", "ror"
    };
    return number < sizeof texts / sizeof *texts ? texts[number] : "";
}

/* The fields of a status register that `msr` writes. */
static inline const char *brassdozen_status_mask_text(uint64_t number)
{
    static const char *const texts[] = {
        "CPSR",        "CPSR_c",      "CPSR_x",      "CPSR_xc",     "APSR_g",      "CPSR_sc",     "CPSR_sx",     "CPSR_sxc",
        "APSR_nzcvq",  "CPSR_fc",     "CPSR_fx",     "CPSR_fxc",    "APSR_nzcvqg", "CPSR_fsc",    "CPSR_fsx",    "CPSR_fsxc",
        "SPSR",        "SPSR_c",      "SPSR_x",      "SPSR_xc",     "SPSR_s",      "SPSR_sc",     "SPSR_sx",     "SPSR_sxc",
        "SPSR_f",      "SPSR_fc",     "SPSR_fx",     "SPSR_fxc",    "SPSR_fs",     "SPSR_fsc",    "SPSR_fsx",    "SPSR_fsxc"
    };
    return number < sizeof texts / sizeof *texts ? texts[number] : "";
}

/* The status register that `mrs` reads. */
static inline const char *brassdozen_status_text(uint64_t number)
{
    static const char *const texts[] = {
        "apsr", "spsr"
    };
    return number < sizeof texts / sizeof *texts ? texts[number] : "";
}

/* The option of a barrier. */
static inline const char *brassdozen_option_text(uint64_t number)
{
    static const char *const texts[] = {
        "#0x0",  "oshld", "oshst", "osh",   "#0x4",  "nshld", "nshst", "nsh",
        "#0x8",  "ishld", "ishst", "ish",   "#0xc",  "ld",    "st",    "sy"
    };
    return number < sizeof texts / sizeof *texts ? texts[number] : "";
}

/* A coprocessor. */
static inline const char *brassdozen_coprocessor_text(uint64_t number)
{
    static const char *const texts[] = {
        "p0",  "p1",  "p2",  "p3",  "p4",  "p5",  "p6",  "p7",  "p8",  "p9",  "p10", "p11", "p12", "p13", "p14", "p15"
    };
    return number < sizeof texts / sizeof *texts ? texts[number] : "";
}

/* A register of a coprocessor. */
static inline const char *brassdozen_coprocessor_register_text(uint64_t number)
{
    static const char *const texts[] = {
        "c0",  "c1",  "c2",  "c3",  "c4",  "c5",  "c6",  "c7",  "c8",  "c9",  "c10", "c11", "c12", "c13", "c14", "c15"
    };
    return number < sizeof texts / sizeof *texts ? texts[number] : "";
}

/* The reason of a refusal, as `./list` says it; 0 is none. */
static inline const char *brassdozen_refusal_text(uint64_t number)
{
    static const char *const texts[] = {
        "",
        "fewer than 4 bytes",
        "out of scope: condition below 15, bits 27:26 = 11, coprocessor 10 or 11",
        "no instruction that is known here",
        "no word has this answer",
        "mark not RSX",
        "version neither 1 nor 2",
        "shorter than 9 bytes, the count of ranges or a range cut short, or not whole words",
        "more than 4,096 words",
        "base not a multiple of 4, or words beyond the last address",
        "longer than the lent buffer",
        "more than 64 ranges of data, or one that is empty, not in the section, or not after the one before it",
        "ranges of data, which version 1 does not have",
        "not a place in the section",
        "run that is empty, or not held by section or patch alone",
        "more than 1,024 calls for an index",
        "65,536 sections in the tally already"
    };
    return number < sizeof texts / sizeof *texts ? texts[number] : "";
}

#ifdef __cplusplus
}
#endif

#endif
