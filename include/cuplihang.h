/* Cuplihang: plans for two memories. The functions of libexports.a.

   A slice is a pointer and a length, in elements. What the proofs take for granted of a caller:
   - A pointer with a length above 0 points to that many elements, aligned for their type (8 bytes for uint64_t), which nobody else writes during the
     call. With length 0 nothing is read or written through the pointer, which may then be null.
   - `tally` points to three numbers and `figures` to five, of plan_sheet to 25; neither may be null.
   - What a function may write overlaps nothing else that is lent in the same call: `out` and `plan`; `host`, `card`, `latest`, `tally`, `figures` among
     each other and with `plan` and `choices`. What is only read may overlap.
   Beyond that no function asks anything: any bytes may be lent as a plan, memories of any lengths, choices of any number. Memories of 4,096 cells suffice
   for every plan.

   To link: cc -I include program.c target/staticlib/libexports.a. tests/c/exports.c calls every function once. docs/FORMAT.md has the plan file and what each
   number says. */
#ifndef CUPLIHANG_H
#define CUPLIHANG_H

#include <stddef.h>
#include <stdint.h>

#ifdef __cplusplus
extern "C" {
#endif

/* The numbers of answers. */
enum {
    PLAN_ACCEPTED = 0,
    PLAN_UNDER_4_BYTES = 1,
    PLAN_HEADER = 2,
    PLAN_CONTENTS_CUT = 3,
    PLAN_ARRAY_LENGTH = 4,
    PLAN_BODY_ENTRY = 5,
    PLAN_FILE_LENGTH = 6,
    PLAN_CHECK_BYTES = 7,
    PLAN_FIELD = 8,
    PLAN_KIND_THERE = 9,
    PLAN_ARM = 10,
    PLAN_FILE_KIND = 11,
    PLAN_DECLARED_TWICE = 12,
    PLAN_UNDECLARED = 13,
    PLAN_KIND_IN_PASS = 14,
    PLAN_W_UNMET = 15,
    PLAN_EXPANSION_RECORDS = 16,
    PLAN_OUTPUT_SHORT = 17,
    PLAN_MAY_STOP = 18,
    PLAN_MEMORY_SHORT = 19,
    PLAN_TOO_MANY_CHOICES = 20,
    PLAN_STOPPED = 21,
    PLAN_CHOICES_SPENT = 22,
    PLAN_VIEW_RANGE = 23,
    PLAN_VIEW_STALE = 24,
    PLAN_NO_BODY = 25,
    PLAN_TURNS = 26,
    PLAN_LOG_ODD = 29,
    PLAN_LOG_OFF = 30,
    PLAN_LOG_STUCK = 31,
    PLAN_SHEET_LENGTH = 38
};

/* The fields of an answer. Of every function but those of sums: the number, 0 accepted. */
static inline unsigned plan_number(uint64_t answer) { return (unsigned)(answer & 0xFFFF); }

/* Of an answer packed as by plan_open: the place or record, the cell, and the file's kind. */
static inline unsigned plan_place(uint64_t answer) { return (unsigned)(answer >> 16 & 0xFFFF); }
static inline unsigned plan_cell(uint64_t answer) { return (unsigned)(answer >> 32 & 0xFFFF); }
static inline unsigned plan_kind(uint64_t answer) { return (unsigned)(answer >> 48 & 0xFF); }

/* Of plan_body_view: where the body's bytes begin in the plan, and how many there are. */
static inline size_t plan_part_begin(uint64_t answer) { return (size_t)(answer >> 16 & 0xFFFF); }
static inline size_t plan_part_length(uint64_t answer) { return (size_t)(answer >> 32 & 0xFFFF); }

/* Of plan_expansion_length, where it accepts: how many bytes the expansion's file has. */
static inline size_t plan_file_length(uint64_t answer) { return (size_t)(answer >> 16 & 0xFFFFFFFF); }

/* Of plan_memory_view, where it accepts: the side, 0 host, 1 card. */
static inline unsigned plan_side(uint64_t answer) { return (unsigned)(answer >> 16 & 0xFFFF); }

/* Of plan_back_sums and plan_joined_sums: the two sums. */
static inline unsigned plan_plain_sum(uint64_t sums) { return (unsigned)(sums & 0xFFFF); }
static inline unsigned plan_weighted_sum(uint64_t sums) { return (unsigned)(sums >> 16 & 0xFFFF); }

/* Opens a plan of any bytes. The answer, packed: number (0 accepted) in bits 0 to 15, place or record in 16 to 31,
   cell in 32 to 47, the file's kind (0 if it does not open) in 48 to 55. All other bits are 0. The numbers of a file that is no plan are 1 to 10, and 26
   where fixed loops, one in another, would turn more than 4,096 times in all. */
uint64_t plan_open(const uint8_t *plan, size_t plan_length);

/* Where the records of a body stand in the plan: number (0 accepted; 1 to 10, 25, 26) in bits 0 to 15, the place of the body's first byte in 16 to 31,
   the number of its bytes in 32 to 47. At a refusal bits 16 to 47 are 0, whatever the number's place is: a refused view is empty. */
uint64_t plan_body_view(const uint8_t *plan, size_t plan_length, uint64_t body);

/* Checks a plain plan over all its runs: 0 accepted; 18 with the record and the cell where a run may stop; 1 to 11, 26. Packed as by plan_open. */
uint64_t plan_check(const uint8_t *plan, size_t plan_length);

/* Judges a declared plan: 0 accepted; 1 to 15 and 26 with the place. A pass that reads scratch before anything is written there is accepted: plan_check of
   the plan's expansion finds it. Packed as by plan_open. */
uint64_t plan_judge(const uint8_t *plan, size_t plan_length);

/* Expands a declared plan into the file of a plain one: 0 accepted, the file stands at the front of the output; 1 to 17 and 26 with the place (26 of the
   expansion, tested after 16: the call), and the output is as it was. Bytes past the file are not touched. Packed as by plan_open. */
uint64_t plan_expand(const uint8_t *plan, size_t plan_length, uint8_t *out, size_t out_length);

/* How long an output plan_expand needs for this plan: number (0 accepted; 1 to 16 and 26, as by plan_expand with an output that is long enough) in bits 0 to 15,
   at 0 the length of the expansion's file in 16 to 47 (at most 8,266), at a refusal its place there, the file's kind in 48 to 55. */
uint64_t plan_expansion_length(const uint8_t *plan, size_t plan_length);

/* Runs a plain plan on lent memories and choices: 0 done; 21 with the record and its lowest unmet cell; 22 with the record whose test finds no choice;
   1 to 11, 19, 20, 26, and then nothing is changed. `tally` points to three numbers: read records, write records, cells moved. `figures` points to five numbers,
   written at done only: choices used, host flags, card flags (bit i is array i), arrays current on the host, on the card. Cells past the plan's are not
   touched. At the start the host holds 0 and the card 2^64 - 1, and the host's flags are set; of an array whose length has its highest bit set, which marks scratch, both hold
   2^64 - 1 and no flag is set. Packed as by plan_open. */
uint64_t plan_run(const uint8_t *plan, size_t plan_length, uint64_t *host, size_t host_length, uint64_t *card, size_t card_length, uint64_t *latest,
                  size_t latest_length, const uint8_t *choices, size_t choices_length, uint64_t tally[3], uint64_t figures[5]);

/* Which memory the cells `first` up to `end` are viewed in: number (0 accepted, 23, 24) in bits 0 to 15, the side (0 host, 1 card) in 16 to 31, which
   is 0 at a refusal. All other bits are 0. */
uint64_t plan_memory_view(const uint64_t *host, size_t host_length, const uint64_t *card, size_t card_length, const uint64_t *latest,
                          size_t latest_length, uint64_t first, uint64_t end);

/* The two check sums of any bytes: the plain sum in bits 0 to 15, the weighted sum in 16 to 31, both below 251. All other bits are 0. Of a plan up to its
   check bytes they are what the check bytes hold. Of the back of one they are what plan_joined_sums needs to know of it. */
uint64_t plan_back_sums(const uint8_t *back, size_t back_length);

/* The two check sums of a front and a back that follows it, from the front and the sums of the back, in the same form. `back_sums` is what plan_back_sums gave
   for the back, or this function for what it was joined from. It may be of any value: each of its two fields counts modulo 251, and bits from 32 on for nothing. */
uint64_t plan_joined_sums(const uint8_t *front, size_t front_length, uint64_t back_sums);

/* Of the 6^n sequences of n operations over one cell (read, write and copy, each on either side), run from the start: how many stop at place 1, and so on
   to place n, and how many pass. 0 accepted, these n + 1 numbers are the first of the 25 that `figures` points to, and the others are as they were; 38 for n
   above 24, and all are as they were. The number stands in bits 0 to 15; all other bits are 0. */
uint64_t plan_sheet(uint64_t n, uint64_t figures[25]);

/* Holds a router's log against a plain plan. The log has an entry of two bytes, low byte first, for each executed record, each test of a branch or loop, and each
   turn of a fixed loop at its start: the record's number. 0 accepted, it is the beginning of a run and no entry of it is stuck; 30 no run, stops aside, goes on
   with an entry; 31 the record at an entry is stuck; 29 odd length; 1 to 11, 26. The log may be of any length. Packed as by plan_open, with the place of 1 to
   11 and 26, and 0 there at 29 to 31: which entry it is plan_log_entry says. */
uint64_t plan_log(const uint8_t *plan, size_t plan_length, const uint8_t *log, size_t log_length);

/* The entry, from 0, that 30 or 31 of plan_log is about; 0 at every other answer. It is a whole number of 64 bits. */
uint64_t plan_log_entry(const uint8_t *plan, size_t plan_length, const uint8_t *log, size_t log_length);

#ifdef __cplusplus
}
#endif

#endif
