/* Brassdozen for C: a decoder, an encoder and a lister of A32, a walk through it, counts and patches over it, an index of its calls and its home
   form, each function proved to meet the contract that stands here in words. docs/LIBRARY.md says how to build the library, and where its proof
   ends. brassdozen_names.h, which is included here, has a constant for each name, flow, condition, kind of operand, refusal and number of a row,
   and their texts; brassdozen_insn.h has an instruction as a struct, and goes through a section.

   Every function returns, for every word, address and content of what it is lent, and does nothing but write to what it is lent without const.
   It keeps nothing, takes nothing but a little stack and may be called by several threads at once.

   What the caller owes: a pointer is aligned for its type and not null, even where its length is 0; so many elements behind it are readable,
   and behind a pointer that is not const writable; and nothing else touches those, the other argument of the same call neither, until the
   function returns. */
#ifndef BRASSDOZEN_H
#define BRASSDOZEN_H

#include <stddef.h>
#include <stdint.h>

#include "brassdozen_names.h"

#ifdef __cplusplus
extern "C" {
#endif

/* The version of this header: 10,000 for each major one, 100 for each minor one, and one for each patch. The major one changes where what is
   here changes, a row or a function, and the minor one where something is added. */
enum { BRASSDOZEN_VERSION = 30500 };

/* The version of a row, for those who store rows: another one where a number of a row, or what it says, is another. It is the major version of
   the library that brought the row. */
enum { BRASSDOZEN_ROW_VERSION = 3 };

/* The version of the library that is linked. */
uint32_t brassdozen_version(void);

/* A refusal's number, or 0, is what some functions give. Where one gives a number of 64 bits, the refusal stands above 32 bits of result, which
   are 0 beside a refusal. brassdozen_refusal_text says why in words. */
static inline unsigned brassdozen_refusal(uint64_t given) { return (unsigned)(given >> 32); }
static inline uint32_t brassdozen_result(uint64_t given) { return (uint32_t)given; }

enum {
    BRASSDOZEN_LINE = 96,        /* no line has more bytes */
    BRASSDOZEN_LISTING = 393280, /* no listing has more bytes */
    BRASSDOZEN_SECTION = 16907,  /* no section that is accepted has more bytes */
    BRASSDOZEN_REPORT = 49152,   /* no report of a walk has more numbers */
    BRASSDOZEN_INDEX = 2048,     /* so many numbers are lent for an index of calls */
    BRASSDOZEN_CHANGES = 12288,  /* no list of a home form's changes has more numbers */
    /* the numbers of a row, and of a tally */
    BRASSDOZEN_ROW = BRASSDOZEN_ROW_OPERANDS + BRASSDOZEN_PLACES * BRASSDOZEN_PARTS,
    BRASSDOZEN_TALLY = 13 + BRASSDOZEN_NAMES
};

/* A row: an instruction value as numbers. The constants BRASSDOZEN_ROW_.. and, within an operand, BRASSDOZEN_PART_.. are the places.

    0  address, 64 bits, as given
    1  name: BRASSDOZEN_NAME_..
    2  condition, bits 31:28 of the word: BRASSDOZEN_CONDITION_..
    3  flow, BRASSDOZEN_FLOW_..: next, jump, jump under a condition, jump through a register, call, call through a register, return, trap
    4  where a jump or a call goes, or 0
    5  six operands, of eleven numbers each, 0 where the kind has none:

    +0  kind, BRASSDOZEN_OPERAND_..: none, register, shifted register, shift by a register, shift of a saturate, rotation, signed count,
        unsigned number, status mask, status register, register that is written back, list of registers, address, memory, option of a
        barrier, coprocessor, register of a coprocessor
    +1  register, or base
    +2  kind of a shift, BRASSDOZEN_SHIFT_..; or status register, BRASSDOZEN_STATUS_..; or 1 if memory has an index
    +3  amount of a shift, of a rotation or of the index; or status mask; or option; or number of a coprocessor or of its register
    +4  1 if the count or displacement is negative
    +5  count or displacement, of a negative one its complement: -1 is 1 and 0; or number, list or address
    +6  index register
    +7  mode of memory, BRASSDOZEN_MODE_..
    +8  bytes of memory
    +9  1 if the displacement reads in base ten
    +10 1 if a displacement of zero is subtracted */

/* Decodes `word` at `address`. An accepted word's row is written to the first 71 numbers of `row`, and the result is 0. A word that is not
   accepted is refused with 2 or 3, and else a row of `length` below 71 with 10. A refusal changes no number of `row`, and nothing changes one
   after the 71. At one address, two accepted words have equal rows exactly if they have one home word. */
uint8_t brassdozen_decode(uint32_t word, uint64_t address, uint64_t *row, size_t length);

/* Decodes the first four of `bytes`, low byte first, as brassdozen_decode does the word that they are; what is after them is not read. Fewer
   are refused with 1, whatever the row. */
uint8_t brassdozen_decode_bytes(const uint8_t *bytes, size_t count, uint64_t address, uint64_t *row, size_t length);

/* The home word of the words whose answer, at the address in the row, has this row; or 4, exactly if no word's has. Every number counts whole.
   Of a row of another length the first 71 numbers are read: beyond its end there are zeros, and what is after the 71st is not read. A row
   that brassdozen_decode has written gives the home word of its word. */
uint64_t brassdozen_encode(const uint64_t *row, size_t length);

/* The home word of `word`: of all words with its answer, the one in which the bits that are ignored are filled as the manual draws them; or 2
   or 3, as for decoding. Ones fill 19:8 of bx, bxj and blx to a register, 19:16 and 11:8 of clz, 15:12 of sdiv, udiv and msr, 19:16 of mrs,
   11:8 of the exclusives and 3:0 of their loads, and 3:0 of clrex; zeros fill all others, and 15:12 of an immediate msr with mask 0 and bit 22
   clear. Bit 23 is one where it is ignored: in a load or store in immediate offset mode, but for the extra ones, and in a preload, if 11:0
   is 0, and in ldc and stc if 7:0 is 0. So is bit 21 in ldc and stc if bit 24 is clear. */
uint64_t brassdozen_home(uint32_t word);

/* The same two for tools that stored words with zeros in all of these bits but bits 23 and 21, which are ones as above. They refuse what the others
   refuse, and a word's two home words have the same answer. */
uint64_t brassdozen_encode_zeros(const uint64_t *row, size_t length);
uint64_t brassdozen_home_zeros(uint32_t word);

/* Writes the line of `word` at `address`, as the listing has it, newline included, to the start of `out`, and gives its length, at most 96;
   or 10, exactly if it is longer than `length`. A refusal changes no byte of `out`, and nothing changes one after the line. */
uint64_t brassdozen_line(uint64_t address, uint32_t word, uint8_t *out, size_t length);

/* Writes the listing of a section to the start of `out`, and gives its length, at most 393,280; or 10, exactly if it is longer than `length`.
   A section that is not accepted has a listing of one line, "refused N". A refusal changes no byte of `out`, and nothing changes one after
   the listing. Where `length` is below 64 and 96 for each word, the section is gone through twice, for the listing's length and to write it. */
uint64_t brassdozen_listing(const uint8_t *section, size_t bytes, uint8_t *out, size_t length);

/* Says what stands at a place of a section, which is the number of a word in it, from 0: writes to the first three numbers of `out` the address of
   the word at `place`, the word, and 1 if it is data and 0 if not, and the result is 0. A section that is not accepted is refused with 5, 6, 7, 8,
   9 or 11, as its listing says; else a `place` that is none of its places with 13; and else a `length` below 3 with 10. A refusal changes no number
   of `out`, and nothing changes one after the third. So a loop from place 0 on until 13 goes through the section's words and data, in order. Each
   call checks the section, of which it reads the header, the ranges and that one word. */
uint8_t brassdozen_place(const uint8_t *section, size_t bytes, uint32_t place, uint32_t *out, size_t length);

/* Writes a section as one of version 1 to the start of `out`, and gives its length: one of version 1 as it is, one of version 2 without its
   count of ranges. A section that is not accepted is refused with 5, 6, 7, 8, 9 or 11, as its listing says; else one with ranges with 12; and
   else, with 10, exactly if what would be written is longer than `length`. A refusal changes no byte of `out`, and nothing changes one after
   the section. */
uint64_t brassdozen_to_v1(const uint8_t *section, size_t bytes, uint8_t *out, size_t length);

/* The same for version 2: one of version 2 as it is, one of version 1 with a count of no ranges, which brassdozen_to_v1 makes the same bytes
   of again. No section is refused with 12. */
uint64_t brassdozen_to_v2(const uint8_t *section, size_t bytes, uint8_t *out, size_t length);

/* A record of a walk: three numbers, a place, a kind and a value. A place is the number of a word in its section, from 0. */
enum {
    BRASSDOZEN_REACHED = 0, /* the walk comes to the place; the value is the word there */
    BRASSDOZEN_OUT = 1,     /* a jump or a call to an address that is not in the section; the value is that address */
    BRASSDOZEN_THUMB = 2,   /* a blx to an address, in the section or not, where Thumb is entered; the value is that address */
    BRASSDOZEN_UNKNOWN = 3, /* a jump or a call through a register or from memory, under a condition too, but no return; the value is 0 */
    BRASSDOZEN_END = 4,     /* going on from the last word; the value is 0 */
    BRASSDOZEN_STOPPED = 5  /* no instruction: the value is the number that the word is refused with, 2 or 3, or 0 of data */
};

/* Walks through a section from the place `entry`, and writes the report to the start of `records`: a record of each word that is reached, and
   of each way out at it, in order of place and then of kind. A word is reached if it is the entry or a step leads to it from one that is. A
   word whose flow is next leads to the word after it; a jump to its target; a jump under a condition and a call to both; a call through a
   register, and a blx to an address, to the word after it; a return, a trap and a jump through a register to none, or under a condition below
   14 to the word after it; a word that is refused, and data, to none. No step leads out of the section: from the last word, at the last
   address too, none goes on to address 0. An address is in the section if it is in one of its words. A blx to an address that is not has two
   records for it, BRASSDOZEN_OUT and BRASSDOZEN_THUMB.

   The low 16 bits of the result are the number of records, at most four for each word reached; those above are the number of words reached. A
   section that is not accepted is refused with 5, 6, 7, 8, 9 or 11, as its listing says; else an entry that is no place of it with 13; and
   else, with 10, exactly if the report has more numbers than `length`, three for each record. A refusal changes no number of `records`, and
   nothing changes one after the report. A call takes about 2.5 KB of stack. */
uint64_t brassdozen_walk(const uint8_t *section, size_t bytes, uint32_t entry, uint32_t *records, size_t length);

static inline uint32_t brassdozen_walk_records(uint64_t given) { return (uint32_t)(given & 0xffff); }
static inline uint32_t brassdozen_walk_words(uint64_t given) { return (uint32_t)given >> 16; }

/* The numbers of a tally, by their places. */
enum {
    BRASSDOZEN_SECTIONS = 0, /* sections */
    BRASSDOZEN_WORDS = 1,    /* words, data among them */
    BRASSDOZEN_DATA = 2,     /* words that are data */
    BRASSDOZEN_REFUSED = 1,  /* words that are refused: with number n, 2 or 3, at place 1 + n */
    BRASSDOZEN_FLOWS = 5,    /* accepted words by their flow: with flow n, as a row has it, at place 5 + n */
    BRASSDOZEN_ROOTS = 13    /* accepted words by their name: with name n, as a row has it, at place 13 + n */
};

/* Adds a section to the tally in the first BRASSDOZEN_TALLY numbers of `counts`, and the result is 0. A tally of no sections is zeros. A section
   that is not accepted is refused with 5, 6, 7, 8, 9 or 11, as its listing says; else, with 10, a `length` below BRASSDOZEN_TALLY, of which
   nothing is read; and else, with 16, exactly if 65,536 sections or more are in the tally. A refusal changes no number of `counts`, and nothing
   changes one after the tally.

   So from zeros on, whatever was refused on the way, each number is how many of what it counts the sections that were added have, in any order;
   flows and names each sum to the accepted words, and words are those, the refused ones and data. Other numbers are taken for a tally too, and
   grow modulo 2^64. */
uint8_t brassdozen_tally(const uint8_t *section, size_t bytes, uint64_t *counts, size_t length);

/* Says which slice holds the `length` bytes at `address` of an image: of a section's words, from address `base` on, with a patch's words, from
   `patch_base` on, laid over them. These are the words alone, without a section's header. Where both have an address, the patch's byte hides the
   section's; the patch need not lie in the section, and either may be empty. Addresses and lengths are whole numbers: nothing wraps.

   The low 16 bits of the result are the place of the first byte in its slice, and those above say which: 1 for the patch, 0 for the section. So
   the bytes are there, and are the image's. The section's words are refused with 7 if they are not whole, 8 if there are more than 4,096, and 9 if
   their base is no multiple of 4 or they go beyond the last address; else the patch's, with the same numbers; and else a run with 14, exactly if
   it is empty or no single one of the patch and what it leaves of the section holds all of it. */
uint64_t brassdozen_run(const uint8_t *words, size_t bytes, uint32_t base, const uint8_t *patch, size_t patch_bytes, uint32_t patch_base,
                        uint64_t address, uint64_t length);

static inline int brassdozen_run_in_patch(uint64_t given) { return (uint32_t)given >> 16 != 0; }
static inline size_t brassdozen_run_place(uint64_t given) { return (size_t)(given & 0xffff); }

/* Writes a section with a patch, which is a section of its own, laid over its words to the start of `out`, and gives its length, which is the
   section's. Header and ranges of data are the section's, and each word is the image's: what the patch has beyond the section is not written, and
   its ranges are checked and not used. A section that is not accepted is refused with 5, 6, 7, 8, 9 or 11, as its listing says; else a patch with
   the same numbers; and else, with 10, exactly if the section is longer than `length`. A refusal changes no byte of `out`, and nothing changes one
   after the section. */
uint64_t brassdozen_patched(const uint8_t *section, size_t bytes, const uint8_t *patch, size_t patch_bytes, uint8_t *out, size_t length);

/* An index of calls: two numbers for each, the address that it goes to and its own, from the first number of the array on. The array has at least
   2,048 numbers, and what is behind the entries is not read. The calls of a section are its words whose flow is call, bl under any condition and
   blx to an address; data is none. In an index that brassdozen_index writes they stand in order of target and then of caller, as unsigned
   numbers, each once.

   Writes the index of a section to the start of `index`, and gives the number of its calls, at most 1,024. A section that is not accepted is
   refused with 5, 6, 7, 8, 9 or 11, as its listing says; else a `length` below 2,048 with 10; and else more than 1,024 calls with 15. A refusal
   changes no number of `index`, and nothing changes one behind the last entry. */
uint64_t brassdozen_index(const uint8_t *section, size_t bytes, uint32_t *index, size_t length);

/* Replaces the word at `place` of a section, of which there are `count` calls in `index`, and gives the number of calls after that: the entries with
   the caller's address go, whatever their target, and if the word is now a call, it goes in before the first entry that is greater, else last. So
   of an index as brassdozen_index writes it, it makes the one that brassdozen_index writes of the new words; any other list gets the same steps.
   A word stays a word, and data stays data.

   A section that is not accepted is refused as above; else a `place` that is none of its places with 13; else a `length` below 2,048 with 10; else
   a `count` above 1,024 with 15; and else, with 15, exactly if there would be more than 1,024 entries. A refusal changes nothing. Without one,
   the four bytes of the word change, low byte first, and the entries; nothing behind the last entry changes. One word is decoded. */
uint64_t brassdozen_replace(uint8_t *section, size_t bytes, uint32_t place, uint32_t word, uint32_t *index, size_t length, uint32_t count);

/* Writes the callers of `target`, in the order of the index, to the start of `out`, and gives how many there are. A `length` below 2,048 is refused
   with 10; else a `count` above 1,024 with 15; and else, with 10, exactly if there are more callers than `room`. A refusal changes no number of
   `out`, and nothing changes one behind the callers. */
uint64_t brassdozen_callers(const uint32_t *index, size_t length, uint32_t count, uint32_t target, uint32_t *out, size_t room);

/* Puts a section in its home form: each word that is accepted becomes its home word, as brassdozen_home gives it, in place. Words that are refused,
   data, the header and the ranges keep their bytes, and every line reads as before from the name on. Each word that changed is listed at the start
   of `changes`, in order, in three numbers: its place, from 0, the word as it was and its home word. What is in its home form already stays as it
   is, and nothing is listed.

   The low 16 bits of the result are the number of changes, at most 4,096; those above say how many of the old words are of the unindexed form of
   ldc and stc, P clear, U set and W clear. By Arm's manual the home word of such a word does other work: it writes the base back. All others do
   what they did. A section that is not accepted is refused with 5, 6, 7, 8, 9 or 11, as its listing says; and else, with 10, exactly if there are
   more changes than `length` has room for, three numbers each. A refusal changes no byte and no number, and nothing changes a number behind the
   last change. */
uint64_t brassdozen_home_form(uint8_t *section, size_t bytes, uint32_t *changes, size_t length);

static inline uint32_t brassdozen_home_form_changes(uint64_t given) { return (uint32_t)(given & 0xffff); }
static inline uint32_t brassdozen_home_form_unindexed(uint64_t given) { return (uint32_t)given >> 16; }

/* A program in numbers, for the rule "a barrier before every commit": what each place does, by these flags. A state is clean or dirty. */
enum {
    BRASSDOZEN_CLEAN_CLEAN = 1, /* found clean, it may leave clean */
    BRASSDOZEN_CLEAN_DIRTY = 2, /* found clean, it may leave dirty */
    BRASSDOZEN_DIRTY_CLEAN = 4,
    BRASSDOZEN_DIRTY_DIRTY = 8,
    BRASSDOZEN_GOES_ON = 16,      /* it goes on to the next place */
    BRASSDOZEN_AIMS = 32,         /* it goes to its target, or calls it */
    BRASSDOZEN_AIMS_FURTHER = 64, /* it goes to the targets that pairs give it, or calls them */
    BRASSDOZEN_CALLS = 128,       /* it calls its targets; what is called comes back to the next place */
    BRASSDOZEN_RETURNS = 256,
    BRASSDOZEN_COMMITS = 512,
    BRASSDOZEN_OPENS = 1024 /* behind it nothing is known */
};

/* The verdicts. */
enum { BRASSDOZEN_HOLDS = 0, BRASSDOZEN_VIOLATED = 1, BRASSDOZEN_UNDECIDED = 2 };

/* Judges the rule for a program of `places` places, at most 4,096: `flags` has what each does, `targets` a target for each, `further` pairs of
   places, from and to, of any number, and `entries` the places where a run may start, dirty and with an empty stack. A run is at a place, in a state,
   with a stack of places to come back to; at each place it takes on a state that the place may leave, and goes on by one of its flags: a call puts the
   next place on the stack, and a return goes where the stack says, or ends the run. The rule is violated if some run is at a commit and dirty;
   undecided if none is, but some run reaches a place that is open; else it holds. That is exact: no run is missed, and there is no alarm without one.

   The low 16 bits of the result are, of a violation, how many places the way has that is written to the start of `way`: from an entry to the commit,
   each place a step from the one before, a call that came back being one step, and no way is shorter; and else, if the rule is undecided, the first
   open place that is reached. The bits above say the verdict. More than 4,096 places are refused with 8; else an entry, a target that counts or a place
   of a pair that is outside with 13; and else too little room with 10: `known` takes a number for each eight places, `dist`, `prior` and `way` two for
   each and two more. A refusal changes nothing, and nothing is changed behind that room, or behind the way. */
uint64_t brassdozen_judge(const uint32_t *flags, size_t places, const uint32_t *targets, size_t targets_length, const uint32_t *further,
                          size_t further_length, const uint32_t *entries, size_t entries_length, uint32_t *known, size_t known_length, uint16_t *dist,
                          size_t dist_length, uint16_t *prior, size_t prior_length, uint32_t *way, size_t way_length);

static inline uint32_t brassdozen_judge_number(uint64_t given) { return (uint32_t)(given & 0xffff); }
static inline uint32_t brassdozen_judge_verdict(uint64_t given) { return (uint32_t)given >> 16; }

#ifdef __cplusplus
}
#endif

#endif
