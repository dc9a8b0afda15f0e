// Asks one query, `$.a[*]`, of {"a":[1,2]}, whose table is built by hand, and prints the nodes with their integers.
//
//   bin/archive && cc -Iinclude -o select examples/select.c target/native/$(uname -m)/libstewpebble.a && ./select
#include <inttypes.h>
#include <stdio.h>
#include "stewpebble.h"

static const struct stewpebble_record table[] = {
    {.kind = STEWPEBBLE_MAP, .depth = 0, .value.children = {.first = 1, .count = 1}},
    {.kind = STEWPEBBLE_LIST, .depth = 1, .key_start = 0, .key_length = 1, .value.children = {.first = 2, .count = 2}}, // its key is the text's byte 0
    {.kind = STEWPEBBLE_INTEGER, .depth = 2, .parent = 1, .value.integer = 1},
    {.kind = STEWPEBBLE_INTEGER, .depth = 2, .parent = 1, .value.integer = 2},
};
static const uint8_t text[] = "a", query[] = "$.a[*]";

int main(void) {
    uint32_t list[8];
    uint64_t count, node;
    uint32_t refusal = stewpebble_select(query, sizeof query - 1, stewpebble_records(table), sizeof table, text, sizeof text - 1, list, 8, 0, &count, &node);
    if (refusal) {
        printf("refused %" PRIu32 ": %s\n", refusal, stewpebble_refusal_words(refusal));
        return 1;
    }
    for (uint64_t i = 0; i < count; i++) printf("node %" PRIu32 ": %" PRId64 "\n", list[i], table[list[i]].value.integer);
    return 0;
}
