// Compiles `$[?@==L]` for each line L of standard input, and writes what the literal became: `int` or `float` with the eight bytes of its plan item as a number in
// hexadecimal digits, or `refused` and the number. differential/literals.py makes the lines and holds the answers against exact fractions.
//
//   literals time L N    compiles the query N times and writes the nanoseconds of one
#define _POSIX_C_SOURCE 199309L
#include <inttypes.h>
#include <stdint.h>
#include <stdio.h>
#include <stdlib.h>
#include <string.h>
#include <time.h>
#include "../include/stewpebble.h"

static uint8_t plan[65535], pool[4096];

static uint32_t compile(const char *literal, size_t n, uint64_t *size) {
    static char query[4096];
    uint64_t used;
    memcpy(query, "$[?@==", 6);
    memcpy(query + 6, literal, n);
    query[6 + n] = ']';
    return stewpebble_compile((const uint8_t *)query, n + 7, plan, sizeof plan, pool, sizeof pool, size, &used);
}

static double nanoseconds(const char *literal, long times) {
    struct timespec a, b;
    uint64_t size;
    clock_gettime(CLOCK_MONOTONIC, &a);
    for (long i = 0; i < times; i++) compile(literal, strlen(literal), &size);
    clock_gettime(CLOCK_MONOTONIC, &b);
    return ((double)(b.tv_sec - a.tv_sec) * 1e9 + (double)(b.tv_nsec - a.tv_nsec)) / (double)times;
}

int main(int count, char **words) {
    if (count == 4 && !strcmp(words[1], "time")) {
        double least = 1e30;
        for (int i = 0; i < 9; i++) {
            double t = nanoseconds(words[2], atol(words[3]));
            if (t < least) least = t;
        }
        printf("%.1f\n", least);
        return 0;
    }
    static char line[4096];
    while (fgets(line, sizeof line, stdin)) {
        size_t n = strcspn(line, "\n");
        uint64_t size, bits = 0;
        uint32_t refusal = compile(line, n, &size);
        if (refusal) { printf("refused %" PRIu32 "\n", refusal); continue; }
        // 01 03 01 00 09 LL LL 02 0A and then the literal's item
        for (int i = 7; i >= 0; i--) bits = bits << 8 | plan[10 + i];
        printf("%s %016" PRIx64 "\n", plan[9] == STEWPEBBLE_ITEM_INTEGER ? "int" : "float", bits);
    }
    return 0;
}
