// A small sheet: ten formulas are compiled once, run, and run again after two cells were edited in place, one of them to another kind.
//
//   bin/archive && cc -Iinclude -o sheet examples/sheet.c target/native/$(uname -m)/libstewpebble.a && ./sheet
#include <inttypes.h>
#include <stdio.h>
#include <string.h>
#include "stewpebble.h"

// {"rows":[{"name":"bolt","qty":4,"price":2.5},{"name":"nut","qty":10,"price":0.5}],"limit":8}
static const char text[] = "rowslimitnameqtypriceboltnut";
#define MEMBER(of, start, length) .kind = STEWPEBBLE_##of, .key_start = start, .key_length = length
static struct stewpebble_record table[] = {
    {.kind = STEWPEBBLE_MAP, .value.children = {1, 2}},
    {MEMBER(LIST, 0, 4), .depth = 1, .value.children = {3, 2}},
    {MEMBER(INTEGER, 4, 5), .depth = 1, .value.integer = 8},
    {.kind = STEWPEBBLE_MAP, .depth = 2, .parent = 1, .value.children = {5, 3}},
    {.kind = STEWPEBBLE_MAP, .depth = 2, .parent = 1, .value.children = {8, 3}},
    {MEMBER(TEXT, 9, 4), .depth = 3, .parent = 3, .value.part = {21, 4}},
    {MEMBER(INTEGER, 13, 3), .depth = 3, .parent = 3, .value.integer = 4},
    {MEMBER(FLOAT, 16, 5), .depth = 3, .parent = 3, .value.number = 2.5},
    {MEMBER(TEXT, 9, 4), .depth = 3, .parent = 4, .value.part = {25, 3}},
    {MEMBER(INTEGER, 13, 3), .depth = 3, .parent = 4, .value.integer = 10},
    {MEMBER(FLOAT, 16, 5), .depth = 3, .parent = 4, .value.number = 0.5},
};

static const char *const queries[] = {"$.rows[*].name", "$.rows[?@.qty < $.limit].name", "$..price", "$.rows[-1].qty", "$.rows[::-1].name", "$.rows[?@.price == null].name",
                                      "$.rows[?count(@.*) == 3].qty", "$.rows[?@.price >= 1 && @.qty].price", "$.rows[?match(@.name, 'b.*')].name", "$.rows[*"};
enum { FORMULAS = sizeof queries / sizeof *queries, LONGEST = 64 };
static struct { uint32_t refusal; uint64_t plan_length, pool_length; uint8_t plan[STEWPEBBLE_PLAN_ROOM(LONGEST)], pool[STEWPEBBLE_POOL_ROOM(LONGEST)]; } formulas[FORMULAS];

static void show(const struct stewpebble_record *cell) {
    if (cell->kind == STEWPEBBLE_INTEGER) printf(" %" PRId64, cell->value.integer);
    else if (cell->kind == STEWPEBBLE_FLOAT) printf(" %g", cell->value.number);
    else if (cell->kind == STEWPEBBLE_TEXT) printf(" %.*s", (int)cell->value.part.length, text + cell->value.part.start);
    else printf(" %s", cell->kind == STEWPEBBLE_NULL ? "null" : "...");
}

static void recalculate(void) {
    for (int f = 0; f < FORMULAS; f++) {
        uint32_t list[16], refusal = formulas[f].refusal;
        uint64_t count = 0, node = 0;
        if (!refusal) refusal = stewpebble_run(formulas[f].plan, formulas[f].plan_length, formulas[f].pool, formulas[f].pool_length, stewpebble_records(table), sizeof table, (const uint8_t *)text, sizeof text - 1, list, 16, 0, &count, &node);
        printf("  %-38s", queries[f]);
        if (refusal) printf(" refused %" PRIu32 ": %s", refusal, stewpebble_refusal_words(refusal));
        for (uint64_t i = 0; i < count; i++) show(&table[list[i]]);
        printf(refusal || count ? "\n" : " nothing\n");
    }
}

int main(void) {
    for (int f = 0; f < FORMULAS; f++)
        formulas[f].refusal = stewpebble_compile((const uint8_t *)queries[f], strlen(queries[f]), formulas[f].plan, sizeof formulas[f].plan, formulas[f].pool, sizeof formulas[f].pool, &formulas[f].plan_length, &formulas[f].pool_length);
    printf("As it was:\n");
    recalculate();
    table[9].value.integer = 3;      // ten nuts are now three
    table[7].kind = STEWPEBBLE_NULL; // and the price of a bolt is not known
    table[7].value.none = 0;
    printf("After the edits:\n");
    recalculate();
    return 0;
}
