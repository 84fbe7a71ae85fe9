/* Each function of include/cuplihang.h once, from C and from C++: it compiles without a warning, links, and answers as the header says. */
#include <cuplihang.h>
#include <stdio.h>
#include <string.h>

/* Prints what differs, and counts. */
static int differs(const char *what, uint64_t answer, uint64_t expected) {
    if (answer == expected) return 0;
    fprintf(stderr, "%s: %llx, and %llx was expected\n", what, (unsigned long long)answer, (unsigned long long)expected);
    return 1;
}

/* An answer as plan_open packs it. */
static uint64_t answer(uint64_t kind, uint64_t number, uint64_t place, uint64_t cell) {
    return number | place << 16 | cell << 32 | kind << 48;
}

/* Case 3 of document 01: one array of one cell, read on the card. */
static const uint8_t case_3[20] = {2, 1, 1, 0, 1, 0, 1, 0, 0, 0, 1, 1, 0, 0, 0, 0, 1, 0, 9, 0x3B};

/* A declared plan of one array of one cell: body 0 calls body 1, which declares R on the card and reads it there. */
static uint8_t declared[40] = {1, 1, 2, 0, 1, 0, 1, 0, 0, 0, 2, 0, 1, 0, 8, 0, 0, 0, 1, 0, 0, 0, 16, 1, 0, 0, 0, 0, 0, 0, 1, 1, 0, 0, 0, 0, 1, 0, 0, 0};

/* "the sum of all bytes modulo 251, then the sum of number × byte modulo 251" */
static void put_checks(uint8_t *file, size_t length) {
    uint64_t plain = 0, weighted = 0;
    for (size_t i = 0; i < length - 2; i++) {
        plain += file[i];
        weighted += (i + 1) * file[i];
    }
    file[length - 2] = (uint8_t)(plain % 251);
    file[length - 1] = (uint8_t)(weighted % 251);
}

int main(void) {
    int wrong = 0;
    put_checks(declared, sizeof declared);

    wrong += differs("plan_open", plan_open(case_3, sizeof case_3), answer(2, 0, 0, 0));
    wrong += differs("plan_open of nothing", plan_open(NULL, 0), answer(0, 1, 0, 0));
    wrong += differs("plan_body_view", plan_body_view(case_3, sizeof case_3, 0), answer(0, 0, 10, 8));
    wrong += differs("plan_body_view of no body", plan_body_view(case_3, sizeof case_3, 1), answer(0, 25, 0, 0));
    wrong += differs("plan_check", plan_check(case_3, sizeof case_3), answer(2, 18, 0, 0));
    wrong += differs("plan_judge", plan_judge(declared, sizeof declared), answer(1, 0, 0, 0));
    wrong += differs("plan_judge of a plain plan", plan_judge(case_3, sizeof case_3), answer(2, 11, 0, 0));

    /* The fields of an answer, each by its name. */
    const uint64_t fields = answer(2, PLAN_MAY_STOP, 1023, 4095);
    wrong += differs("plan_number", plan_number(fields), 18);
    wrong += differs("plan_place", plan_place(fields), 1023);
    wrong += differs("plan_cell", plan_cell(fields), 4095);
    wrong += differs("plan_kind", plan_kind(fields), 2);
    const uint64_t part = plan_body_view(case_3, sizeof case_3, 0);
    wrong += differs("plan_part_begin", plan_part_begin(part), 10);
    wrong += differs("plan_part_length", plan_part_length(part), 8);

    /* The expansion has a need and a read: 10 + 16 + 2 bytes. */
    uint64_t length = plan_expansion_length(declared, sizeof declared);
    wrong += differs("plan_expansion_length", length, answer(1, 0, 28, 0));
    wrong += differs("plan_file_length", plan_file_length(length), 28);
    wrong += differs("plan_expansion_length of a plain plan", plan_expansion_length(case_3, sizeof case_3), answer(2, 11, 0, 0));
    uint8_t out[32];
    memset(out, 7, sizeof out);
    wrong += differs("plan_expand, too short", plan_expand(declared, sizeof declared, out, 27), answer(1, 17, 0, 0));
    wrong += differs("plan_expand, no output", plan_expand(declared, sizeof declared, NULL, 0), answer(1, 17, 0, 0));
    wrong += differs("its output", out[0], 7);
    wrong += differs("plan_expand", plan_expand(declared, sizeof declared, out, sizeof out), answer(1, 0, 0, 0));
    wrong += differs("its first byte", out[0], 2);
    wrong += differs("the byte past its file", out[28], 7);
    wrong += differs("plan_check of the expansion", plan_check(out, 28), answer(2, 0, 0, 0));

    uint64_t host[2] = {5, 5}, card[2] = {5, 5}, latest[2] = {5, 5}, tally[3] = {9, 9, 9}, figures[5] = {9, 9, 9, 9, 9};
    wrong += differs("plan_run, stopped", plan_run(case_3, sizeof case_3, host, 2, card, 2, latest, 2, NULL, 0, tally, figures), answer(2, 21, 0, 0));
    wrong += differs("its figures", figures[0], 9);
    wrong += differs("the card", card[0], UINT64_MAX);
    wrong += differs("plan_run", plan_run(out, 28, host, 2, card, 2, latest, 2, NULL, 0, tally, figures), answer(2, 0, 0, 0));
    wrong += differs("reads", tally[0], 1);
    wrong += differs("writes", tally[1], 0);
    wrong += differs("moved", tally[2], 1);
    wrong += differs("choices used", figures[0], 0);
    wrong += differs("host flags", figures[1], 1);
    wrong += differs("card flags", figures[2], 1);
    wrong += differs("arrays current on the host", figures[3], 1);
    wrong += differs("arrays current on the card", figures[4], 1);
    wrong += differs("a cell past the plan's", host[1], 5);
    wrong += differs("plan_run, short memory", plan_run(out, 28, NULL, 0, card, 2, latest, 2, NULL, 0, tally, figures), answer(2, 19, 0, 0));
    card[0] = 4;
    host[0] = 3;
    latest[0] = 4;
    wrong += differs("plan_memory_view", plan_memory_view(host, 2, card, 2, latest, 2, 0, 1), answer(0, 0, 1, 0));
    wrong += differs("plan_side", plan_side(plan_memory_view(host, 2, card, 2, latest, 2, 0, 1)), 1);
    wrong += differs("plan_memory_view of no cell", plan_memory_view(host, 2, card, 2, latest, 2, 1, 1), answer(0, 23, 0, 0));
    latest[0] = 6;
    wrong += differs("plan_memory_view of stale cells", plan_memory_view(host, 2, card, 2, latest, 2, 0, 1), answer(0, 24, 0, 0));

    /* The sums of case 3 up to its check bytes are its check bytes. */
    wrong += differs("plan_back_sums", plan_back_sums(case_3, 18), 9 | 0x3B << 16);
    wrong += differs("plan_plain_sum", plan_plain_sum(plan_back_sums(case_3, 18)), 9);
    wrong += differs("plan_weighted_sum", plan_weighted_sum(plan_back_sums(case_3, 18)), 0x3B);
    wrong += differs("plan_back_sums of nothing", plan_back_sums(NULL, 0), 0);
    wrong += differs("plan_joined_sums", plan_joined_sums(case_3, 10, plan_back_sums(case_3 + 10, 8)), 9 | 0x3B << 16);
    wrong += differs("plan_joined_sums of no front", plan_joined_sums(NULL, 0, (uint64_t)7 << 32 | 252 << 16 | 250), 250 | 1 << 16);

    uint64_t sheet[25];
    for (size_t i = 0; i < 25; i++) sheet[i] = 7;
    wrong += differs("plan_sheet, too long", plan_sheet(25, sheet), answer(0, 38, 0, 0));
    wrong += differs("its figures", sheet[0], 7);
    wrong += differs("plan_sheet", plan_sheet(2, sheet), answer(0, 0, 0, 0));
    wrong += differs("the stops at place 1", sheet[0], 12);
    wrong += differs("the stops at place 2", sheet[1], 6);
    wrong += differs("the sequences that pass", sheet[2], 18);
    wrong += differs("the figure past the sheet's", sheet[3], 7);

    /* Of the expansion, a need and a read: its whole log, one past its end, one of odd length; record 0 of case 3 is stuck. */
    const uint8_t log[6] = {0, 0, 1, 0, 2, 0};
    wrong += differs("plan_log", plan_log(out, 28, log, 4), answer(2, 0, 0, 0));
    wrong += differs("its entry", plan_log_entry(out, 28, log, 4), 0);
    wrong += differs("plan_log past the end", plan_log(out, 28, log, 6), answer(2, 30, 0, 0));
    wrong += differs("its entry", plan_log_entry(out, 28, log, 6), 2);
    wrong += differs("plan_log of odd length", plan_log(out, 28, log, 3), answer(2, 29, 0, 0));
    wrong += differs("plan_log of nothing", plan_log(out, 28, NULL, 0), answer(2, 0, 0, 0));
    wrong += differs("plan_log, stuck", plan_log(case_3, sizeof case_3, log, 2), answer(2, 31, 0, 0));
    wrong += differs("plan_log of a declared plan", plan_log(declared, sizeof declared, log, 3), answer(1, 11, 0, 0));
    return wrong != 0;
}
