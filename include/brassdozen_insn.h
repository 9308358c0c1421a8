/* Brassdozen for C, with types: an instruction value as a struct, which is read from a row and made into one, and what stands at a place of a
   section. All of it is over brassdozen.h, in functions that are inline. No number is the reader's to put together: a displacement of -4 is -4.

   Any struct may be put together; brassdozen_insn_encode refuses those that no word has, with BRASSDOZEN_NO_WORD. */
#ifndef BRASSDOZEN_INSN_H
#define BRASSDOZEN_INSN_H

#include <stdbool.h>
#include <string.h>

#include "brassdozen.h"

#ifdef __cplusplus
extern "C" {
#endif

/* A memory reference. */
typedef struct {
    uint8_t base;         /* register */
    bool has_index;       /* without one, the next two are 0 */
    uint8_t index;        /* register */
    uint8_t shift;        /* how far the index is shifted left */
    int64_t displacement; /* what is added to the base */
    uint8_t mode;         /* BRASSDOZEN_MODE_.. */
    uint8_t size;         /* bytes */
    bool decimal;         /* the displacement reads in base ten */
    bool minus_zero;      /* a displacement of zero is subtracted */
} brassdozen_memory;

/* An operand: its kind says which of the others it has. */
typedef struct {
    uint8_t kind; /* BRASSDOZEN_OPERAND_.. */
    union {
        uint8_t reg; /* register, and register that is written back */
        struct {
            uint8_t reg;    /* not of the shift of a saturate */
            uint8_t shift;  /* BRASSDOZEN_SHIFT_.. */
            uint8_t amount; /* not of a shift by a register */
        } shifted;                    /* shifted register, shift by a register, shift of a saturate */
        uint8_t rotation;             /* to the right */
        int64_t count;                /* signed count */
        uint32_t number;              /* unsigned number */
        uint8_t status_mask;          /* bit 22, then 19:16 */
        uint8_t status;               /* BRASSDOZEN_STATUS_.. */
        uint16_t list;                /* register n is bit n */
        uint32_t address;             /* of a branch */
        brassdozen_memory memory;
        uint8_t option;               /* of a barrier */
        uint8_t coprocessor;
        uint8_t coprocessor_register;
    } as;
} brassdozen_operand;

/* An instruction. */
typedef struct {
    uint64_t address;
    uint16_t name;                                  /* BRASSDOZEN_NAME_.. */
    uint8_t condition;                              /* BRASSDOZEN_CONDITION_.. */
    uint8_t flow;                                   /* BRASSDOZEN_FLOW_.. */
    uint32_t target;                                /* where a direct branch or call goes, or 0 */
    brassdozen_operand operands[BRASSDOZEN_PLACES]; /* those that are not used are of kind BRASSDOZEN_OPERAND_EMPTY */
} brassdozen_insn;

/* Whether a flow has a target. */
static inline bool brassdozen_flow_is_direct(uint8_t flow)
{
    return flow == BRASSDOZEN_FLOW_BRANCH || flow == BRASSDOZEN_FLOW_COND_BRANCH || flow == BRASSDOZEN_FLOW_CALL;
}

/* A signed number as a row has it, and back: -1 is 1 and 0. */
static inline void brassdozen_put_signed(int64_t number, uint64_t *parts)
{
    parts[BRASSDOZEN_PART_NEGATIVE] = number < 0;
    parts[BRASSDOZEN_PART_VALUE] = (uint64_t)(number < 0 ? ~number : number);
}

static inline int64_t brassdozen_signed_of(const uint64_t *parts)
{
    int64_t value = (int64_t)(parts[BRASSDOZEN_PART_VALUE] & INT64_MAX);
    return parts[BRASSDOZEN_PART_NEGATIVE] ? ~value : value;
}

/* The number of a case; one that is too large stands for the last. */
static inline uint8_t brassdozen_case_of(uint64_t number, uint8_t last) { return number < last ? (uint8_t)number : last; }

/* The eleven numbers of an operand. */
static inline void brassdozen_operand_to_parts(const brassdozen_operand *operand, uint64_t *parts)
{
    memset(parts, 0, BRASSDOZEN_PARTS * sizeof *parts);
    parts[BRASSDOZEN_PART_KIND] = operand->kind;
    switch (operand->kind) {
    case BRASSDOZEN_OPERAND_REGISTER:
    case BRASSDOZEN_OPERAND_WRITE_BACK:
        parts[BRASSDOZEN_PART_REG] = operand->as.reg;
        break;
    case BRASSDOZEN_OPERAND_SHIFTED:
        parts[BRASSDOZEN_PART_REG] = operand->as.shifted.reg;
        parts[BRASSDOZEN_PART_HOW] = operand->as.shifted.shift;
        parts[BRASSDOZEN_PART_AMOUNT] = operand->as.shifted.amount;
        break;
    case BRASSDOZEN_OPERAND_SHIFT_BY:
        parts[BRASSDOZEN_PART_REG] = operand->as.shifted.reg;
        parts[BRASSDOZEN_PART_HOW] = operand->as.shifted.shift;
        break;
    case BRASSDOZEN_OPERAND_SATURATE_SHIFT:
        parts[BRASSDOZEN_PART_HOW] = operand->as.shifted.shift;
        parts[BRASSDOZEN_PART_AMOUNT] = operand->as.shifted.amount;
        break;
    case BRASSDOZEN_OPERAND_ROTATE:
        parts[BRASSDOZEN_PART_AMOUNT] = operand->as.rotation;
        break;
    case BRASSDOZEN_OPERAND_COUNT:
        brassdozen_put_signed(operand->as.count, parts);
        break;
    case BRASSDOZEN_OPERAND_NUMBER:
        parts[BRASSDOZEN_PART_VALUE] = operand->as.number;
        break;
    case BRASSDOZEN_OPERAND_STATUS_MASK:
        parts[BRASSDOZEN_PART_AMOUNT] = operand->as.status_mask;
        break;
    case BRASSDOZEN_OPERAND_STATUS_SOURCE:
        parts[BRASSDOZEN_PART_HOW] = operand->as.status;
        break;
    case BRASSDOZEN_OPERAND_LIST:
        parts[BRASSDOZEN_PART_VALUE] = operand->as.list;
        break;
    case BRASSDOZEN_OPERAND_ADDRESS:
        parts[BRASSDOZEN_PART_VALUE] = operand->as.address;
        break;
    case BRASSDOZEN_OPERAND_MEMORY:
        parts[BRASSDOZEN_PART_REG] = operand->as.memory.base;
        parts[BRASSDOZEN_PART_HOW] = operand->as.memory.has_index;
        parts[BRASSDOZEN_PART_AMOUNT] = operand->as.memory.shift;
        brassdozen_put_signed(operand->as.memory.displacement, parts);
        parts[BRASSDOZEN_PART_INDEX] = operand->as.memory.index;
        parts[BRASSDOZEN_PART_MODE] = operand->as.memory.mode;
        parts[BRASSDOZEN_PART_SIZE] = operand->as.memory.size;
        parts[BRASSDOZEN_PART_DECIMAL] = operand->as.memory.decimal;
        parts[BRASSDOZEN_PART_MINUS] = operand->as.memory.minus_zero;
        break;
    case BRASSDOZEN_OPERAND_OPTION:
        parts[BRASSDOZEN_PART_AMOUNT] = operand->as.option;
        break;
    case BRASSDOZEN_OPERAND_COPROCESSOR:
        parts[BRASSDOZEN_PART_AMOUNT] = operand->as.coprocessor;
        break;
    case BRASSDOZEN_OPERAND_COPROCESSOR_REGISTER:
        parts[BRASSDOZEN_PART_AMOUNT] = operand->as.coprocessor_register;
        break;
    default:
        break;
    }
}

/* The operand that these numbers read as: those that are too large count by their low bits, and a kind beyond the last is the empty one. */
static inline void brassdozen_operand_of_parts(const uint64_t *parts, brassdozen_operand *operand)
{
    const uint8_t reg = (uint8_t)parts[BRASSDOZEN_PART_REG], amount = (uint8_t)parts[BRASSDOZEN_PART_AMOUNT];
    const uint8_t shift = brassdozen_case_of(parts[BRASSDOZEN_PART_HOW], BRASSDOZEN_SHIFT_ROR);
    const uint64_t value = parts[BRASSDOZEN_PART_VALUE];
    memset(operand, 0, sizeof *operand);
    if (parts[BRASSDOZEN_PART_KIND] > BRASSDOZEN_OPERAND_COPROCESSOR_REGISTER)
        return;
    operand->kind = (uint8_t)parts[BRASSDOZEN_PART_KIND];
    switch (operand->kind) {
    case BRASSDOZEN_OPERAND_REGISTER:
    case BRASSDOZEN_OPERAND_WRITE_BACK:
        operand->as.reg = reg;
        break;
    case BRASSDOZEN_OPERAND_SHIFTED:
        operand->as.shifted.reg = reg;
        operand->as.shifted.shift = shift;
        operand->as.shifted.amount = amount;
        break;
    case BRASSDOZEN_OPERAND_SHIFT_BY:
        operand->as.shifted.reg = reg;
        operand->as.shifted.shift = shift;
        break;
    case BRASSDOZEN_OPERAND_SATURATE_SHIFT:
        operand->as.shifted.shift = shift;
        operand->as.shifted.amount = amount;
        break;
    case BRASSDOZEN_OPERAND_ROTATE:
        operand->as.rotation = amount;
        break;
    case BRASSDOZEN_OPERAND_COUNT:
        operand->as.count = brassdozen_signed_of(parts);
        break;
    case BRASSDOZEN_OPERAND_NUMBER:
        operand->as.number = (uint32_t)value;
        break;
    case BRASSDOZEN_OPERAND_STATUS_MASK:
        operand->as.status_mask = amount;
        break;
    case BRASSDOZEN_OPERAND_STATUS_SOURCE:
        operand->as.status = brassdozen_case_of(parts[BRASSDOZEN_PART_HOW], BRASSDOZEN_STATUS_SPSR);
        break;
    case BRASSDOZEN_OPERAND_LIST:
        operand->as.list = (uint16_t)value;
        break;
    case BRASSDOZEN_OPERAND_ADDRESS:
        operand->as.address = (uint32_t)value;
        break;
    case BRASSDOZEN_OPERAND_MEMORY:
        operand->as.memory.base = reg;
        operand->as.memory.has_index = parts[BRASSDOZEN_PART_HOW] != 0;
        operand->as.memory.index = operand->as.memory.has_index ? (uint8_t)parts[BRASSDOZEN_PART_INDEX] : 0;
        operand->as.memory.shift = operand->as.memory.has_index ? amount : 0;
        operand->as.memory.displacement = brassdozen_signed_of(parts);
        operand->as.memory.mode = brassdozen_case_of(parts[BRASSDOZEN_PART_MODE], BRASSDOZEN_MODE_POST_INDEX);
        operand->as.memory.size = (uint8_t)parts[BRASSDOZEN_PART_SIZE];
        operand->as.memory.decimal = parts[BRASSDOZEN_PART_DECIMAL] != 0;
        operand->as.memory.minus_zero = parts[BRASSDOZEN_PART_MINUS] != 0;
        break;
    case BRASSDOZEN_OPERAND_OPTION:
        operand->as.option = amount;
        break;
    case BRASSDOZEN_OPERAND_COPROCESSOR:
        operand->as.coprocessor = amount;
        break;
    case BRASSDOZEN_OPERAND_COPROCESSOR_REGISTER:
        operand->as.coprocessor_register = amount;
        break;
    default:
        break;
    }
}

/* Writes the row of an instruction, BRASSDOZEN_ROW numbers. */
static inline void brassdozen_insn_to_row(const brassdozen_insn *insn, uint64_t *row)
{
    row[BRASSDOZEN_ROW_ADDRESS] = insn->address;
    row[BRASSDOZEN_ROW_NAME] = insn->name;
    row[BRASSDOZEN_ROW_CONDITION] = insn->condition;
    row[BRASSDOZEN_ROW_FLOW] = insn->flow;
    row[BRASSDOZEN_ROW_TARGET] = insn->target;
    for (size_t place = 0; place < BRASSDOZEN_PLACES; place++)
        brassdozen_operand_to_parts(&insn->operands[place], row + BRASSDOZEN_ROW_OPERANDS + BRASSDOZEN_PARTS * place);
}

/* Reads the instruction of a row of BRASSDOZEN_ROW numbers, and gives whether it has this row. It has not where a number is out of its range, or
   is not 0 where its operand has none; what is read of such a row is no word's. */
static inline bool brassdozen_insn_from_row(const uint64_t *row, brassdozen_insn *insn)
{
    uint64_t own[BRASSDOZEN_ROW];
    insn->address = row[BRASSDOZEN_ROW_ADDRESS];
    insn->name = (uint16_t)row[BRASSDOZEN_ROW_NAME];
    insn->condition = (uint8_t)row[BRASSDOZEN_ROW_CONDITION];
    insn->flow = brassdozen_case_of(row[BRASSDOZEN_ROW_FLOW], BRASSDOZEN_FLOW_TRAP);
    insn->target = brassdozen_flow_is_direct(insn->flow) ? (uint32_t)row[BRASSDOZEN_ROW_TARGET] : 0;
    for (size_t place = 0; place < BRASSDOZEN_PLACES; place++)
        brassdozen_operand_of_parts(row + BRASSDOZEN_ROW_OPERANDS + BRASSDOZEN_PARTS * place, &insn->operands[place]);
    brassdozen_insn_to_row(insn, own);
    return memcmp(own, row, sizeof own) == 0;
}

/* Decodes `word` at `address`, as brassdozen_decode does: 0, or a refusal, which leaves `insn` as it is. */
static inline uint8_t brassdozen_insn_decode(uint32_t word, uint64_t address, brassdozen_insn *insn)
{
    uint64_t row[BRASSDOZEN_ROW];
    uint8_t refusal = brassdozen_decode(word, address, row, BRASSDOZEN_ROW);
    if (refusal == 0)
        brassdozen_insn_from_row(row, insn);
    return refusal;
}

/* The home word of the words that have this instruction for their answer, as brassdozen_encode gives it: the refusal stands above 32 bits. */
static inline uint64_t brassdozen_insn_encode(const brassdozen_insn *insn)
{
    uint64_t row[BRASSDOZEN_ROW];
    brassdozen_insn_to_row(insn, row);
    return brassdozen_encode(row, BRASSDOZEN_ROW);
}

/* What stands at a place of a section. */
typedef struct {
    uint32_t address;
    uint32_t word;
    bool is_data;         /* by the section's ranges */
    uint8_t refusal;      /* of a word that is no data and no instruction that is known, or 0 */
    brassdozen_insn insn; /* if it is no data and is not refused */
} brassdozen_placed;

/* Reads the place of a section with this number, from 0 on, and gives 0; or, as brassdozen_place does, the section's refusal, or
   BRASSDOZEN_NO_PLACE behind its last. A refusal leaves `placed` as it is. So a section is gone through by

    brassdozen_placed at;
    for (uint32_t place = 0; brassdozen_insn_place(section, bytes, place, &at) == 0; place++) .. */
static inline uint8_t brassdozen_insn_place(const uint8_t *section, size_t bytes, uint32_t place, brassdozen_placed *placed)
{
    uint32_t numbers[3];
    uint8_t refusal = brassdozen_place(section, bytes, place, numbers, 3);
    if (refusal != 0)
        return refusal;
    placed->address = numbers[0];
    placed->word = numbers[1];
    placed->is_data = numbers[2] != 0;
    placed->refusal = placed->is_data ? 0 : brassdozen_insn_decode(placed->word, placed->address, &placed->insn);
    return 0;
}

#ifdef __cplusplus
}
#endif

#endif
