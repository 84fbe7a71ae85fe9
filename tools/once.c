/* Runs a plan once, for counts of instructions:
       gcc -O2 -Iinclude tools/once.c -o target/once target/staticlib/libexports.a
       valgrind --tool=callgrind --dump-instr=yes --callgrind-out-file=target/callgrind.out target/once PLAN CHOICES
       objdump -d target/once > target/once.s
       python3 tools/hot.py target/callgrind.out target/once.s LEAST
   CHOICES choices are taken, all for the first arm or one more turn but the last. */
#include "cuplihang.h"
#include <inttypes.h>
#include <stdio.h>
#include <stdlib.h>
#include <string.h>

static uint64_t host[4096], card[4096], latest[4096];
static uint8_t plan[8391], choices[65536];

int main(int words, char **word) {
    if (words != 3 || strtoul(word[2], NULL, 10) > sizeof choices) {
        fputs("usage: once PLAN CHOICES (at most 65536)\n", stderr);
        return 2;
    }
    FILE *file = fopen(word[1], "rb");
    if (!file) {
        perror(word[1]);
        return 2;
    }
    size_t length = fread(plan, 1, sizeof plan, file), count = strtoul(word[2], NULL, 10);
    fclose(file);
    if (count > 0) memset(choices, 1, count - 1);
    uint64_t tally[3] = {0}, figures[5] = {0};
    printf("%" PRIx64 "\n", plan_run(plan, length, host, 4096, card, 4096, latest, 4096, choices, count, tally, figures));
    return 0;
}
