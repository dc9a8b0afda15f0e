// Compiles `$[?@ > 10]` once, edits a number of the list [4,12,30] in place, and runs the same plan again: 24 bytes change, and nothing is compiled anew.
//
//   bin/archive && cc -Iinclude -o edit examples/edit.c target/native/$(uname -m)/libstewpebble.a && ./edit
#include <inttypes.h>
#include <stdio.h>
#include "stewpebble.h"

static struct stewpebble_record table[] = {
    {.kind = STEWPEBBLE_LIST, .value.children = {.first = 1, .count = 3}},
    {.kind = STEWPEBBLE_INTEGER, .depth = 1, .value.integer = 4},
    {.kind = STEWPEBBLE_INTEGER, .depth = 1, .value.integer = 12},
    {.kind = STEWPEBBLE_INTEGER, .depth = 1, .value.integer = 30},
};
static const uint8_t text[1]; // no key and no text, but a pointer is never null
static const uint8_t query[] = "$[?@ > 10]";
enum { LENGTH = sizeof query - 1 };
static uint8_t plan[STEWPEBBLE_PLAN_ROOM(LENGTH)], pool[STEWPEBBLE_POOL_ROOM(LENGTH)];
static uint64_t plan_length, pool_length;

static int run(const char *when) {
    uint32_t list[4];
    uint64_t count, node;
    uint32_t refusal = stewpebble_run(plan, plan_length, pool, pool_length, stewpebble_records(table), sizeof table, text, 0, list, 4, 0, &count, &node);
    if (refusal) {
        printf("%s: refused %" PRIu32 ": %s (node %" PRIu64 ")\n", when, refusal, stewpebble_refusal_words(refusal), node);
        return 1;
    }
    printf("%s:", when);
    for (uint64_t i = 0; i < count; i++) printf(" node %" PRIu32, list[i]);
    printf("\n");
    return 0;
}

int main(void) {
    uint32_t refusal = stewpebble_compile(query, LENGTH, plan, sizeof plan, pool, sizeof pool, &plan_length, &pool_length);
    if (refusal) {
        printf("not compiled: %s\n", stewpebble_refusal_words(refusal));
        return 1;
    }
    int failed = run("as it was");
    table[1].value.integer = 11; // the number
    failed |= run("4 is now 11");
    table[3].kind = STEWPEBBLE_NULL; // the kind, and with it the value
    table[3].value.none = 0;
    failed |= run("30 is now null");
    return failed;
}
