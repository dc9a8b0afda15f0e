// Calls every function of include/stewpebble.h on document 01's sample table, {"a":[10,20.0,30],"b":"é"}, and compares the answers with that document.
#include "../include/stewpebble.h"
#include <stdio.h>
#include <string.h>

static struct stewpebble_record nodes[] = {
    {.kind = STEWPEBBLE_MAP, .value.children = {1, 2}},
    {.kind = STEWPEBBLE_LIST, .depth = 1, .key_start = 0, .key_length = 1, .value.children = {3, 3}},
    {.kind = STEWPEBBLE_TEXT, .depth = 1, .key_start = 1, .key_length = 1, .value.part = {2, 2}},
    {.kind = STEWPEBBLE_INTEGER, .depth = 2, .parent = 1, .value.integer = 10},
    {.kind = STEWPEBBLE_FLOAT, .depth = 2, .parent = 1, .value.number = 20.0},
    {.kind = STEWPEBBLE_INTEGER, .depth = 2, .parent = 1, .value.integer = 30},
};
static const uint8_t text[] = "ab\xc3\xa9";
enum { TEXT = 4 };

static int calls, wrong;

static void expect(const char *what, uint64_t got, uint64_t want) {
    calls++;
    if (got != want) {
        wrong++;
        printf("%s: %llu and not %llu\n", what, (unsigned long long)got, (unsigned long long)want);
    }
}

#define BYTES(s) (const uint8_t *)(s), sizeof(s) - 1

int main(void) {
    const uint8_t *table = stewpebble_records(nodes);
    uint8_t plan[256], pool[64];
    uint32_t list[4] = {99, 99, 99, 99};
    uint64_t a = 7, b = 7;

    expect("table check", stewpebble_check_table(table, sizeof nodes, text, TEXT, &a), 0);
    expect("its node", a, 0);
    nodes[1].kind = 9;
    expect("table check of a wrong kind", stewpebble_check_table(table, sizeof nodes, text, TEXT, &a), 10);
    expect("its node", a, 1);
    expect("the records of a wrong kind", stewpebble_check_records(table, sizeof nodes, text, TEXT, &a), 10);
    expect("their node", a, 1);
    expect("the texts beside a wrong kind", stewpebble_check_texts(table, sizeof nodes, text, TEXT, &a), 0);
    expect("their node", a, 0);
    nodes[1].kind = STEWPEBBLE_LIST;
    nodes[2].value.part.length = 9;
    expect("table check of a text past the end", stewpebble_check_table(table, sizeof nodes, text, TEXT, &a), 17);
    expect("its node", a, 2);
    expect("the records beside a text past the end", stewpebble_check_records(table, sizeof nodes, text, TEXT, &a), 0);
    expect("the texts", stewpebble_check_texts(table, sizeof nodes, text, TEXT, &a), 17);
    expect("their node", a, 2);
    nodes[2].value.part.length = 2;

    static const uint8_t sample[] = {1, 3, 1, 0, 5, 0, 0, 1, 0, 3, 1, 0, 6, 1, 0, 0, 0, 0, 0, 0, 0, 10};
    expect("compile", stewpebble_compile(BYTES("$.a[1]"), plan, sizeof plan, pool, sizeof pool, &a, &b), 0);
    expect("its plan's length", a, sizeof sample);
    expect("its pool's length", b, 1);
    expect("its plan", memcmp(plan, sample, sizeof sample), 0);
    expect("its pool", pool[0], 'a');
    expect("plan check", stewpebble_check_plan(plan, a, pool, b), 0);
    expect("plan check of a part", stewpebble_check_plan(plan, a - 1, pool, b), 11);
    static uint64_t kinds[256];
    uint64_t taken = 0;
    expect("tally", stewpebble_tally(plan, a, pool, b, kinds, &taken), 0);
    expect("plans taken", taken, 1);
    uint64_t items = 0;
    for (int k = 0; k < 256; k++) items += kinds[k];
    expect("first item", kinds[1], 1);
    expect("last item", kinds[10] > 0, 1);
    expect("tally of a part", stewpebble_tally(plan, a - 1, pool, b, kinds, &taken), 11);
    taken = 9007199254740991;
    expect("one plan too many", stewpebble_tally(plan, a, pool, b, kinds, &taken), 21);
    expect("number of plans as it was", taken, 9007199254740991);
    for (int k = 0; k < 256; k++) items -= kinds[k];
    expect("counts as they were", items, 0);
    expect("run", stewpebble_run(plan, sizeof sample, pool, 1, table, sizeof nodes, text, TEXT, list, 4, 2, &a, &b), 0);
    expect("its count", a, 1);
    expect("its node", b, 0);
    expect("its list", list[2], 4);
    expect("the places around", list[0] + list[1] + list[3], 297);
    expect("run of no plan", stewpebble_run(plan, 0, pool, 1, table, sizeof nodes, text, TEXT, list, 4, 0, &a, &b), 11);
    expect("compile in small rooms", stewpebble_compile(BYTES("$.a[1]"), plan, 21, pool, sizeof pool, &a, &b), 12);
    expect("its plan's length", a, sizeof sample);
    expect("its pool's length", b, 1);
    expect("compile of no query", stewpebble_compile(BYTES("$.a["), plan, sizeof plan, pool, sizeof pool, &a, &b), 4);
    expect("its plan's length", a, 0);

    expect("select", stewpebble_select(BYTES("$.a[::-1]"), table, sizeof nodes, text, TEXT, list, 4, 0, &a, &b), 0);
    expect("its count", a, 3);
    expect("its list", list[0] * 100 + list[1] * 10 + list[2], 543);
    expect("select with too few places", stewpebble_select(BYTES("$..*"), table, sizeof nodes, text, TEXT, list, 4, 1, &a, &b), 13);
    expect("its count", a, 0);
    expect("its list", list[1] * 100 + list[2] * 10 + list[3], 123);
    expect("select from beyond the list", stewpebble_select(BYTES("$"), table, sizeof nodes, text, TEXT, list, 4, 5, &a, &b), 14);
    expect("select by an unknown function", stewpebble_select(BYTES("$[?foo()]"), table, sizeof nodes, text, TEXT, list, 4, 0, &a, &b), 6);

    static const uint8_t matching[] = {1, 3, 1, 0, 9, 11, 0, 0x12, 0, 0, 1, 0, 0x12, 1, 0, 1, 0, 0x1C, 10};
    expect("compile of match", stewpebble_compile(BYTES("$[?match('a','b')]"), plan, sizeof plan, pool, sizeof pool, &a, &b), 0);
    expect("its plan's length", a, sizeof matching);
    expect("its plan", memcmp(plan, matching, sizeof matching), 0);
    expect("its pool", memcmp(pool, "ab", 2), 0);
    expect("select by match", stewpebble_select(BYTES("$[?match(@,'[^a-z]')]"), table, sizeof nodes, text, TEXT, list, 4, 0, &a, &b), 0);
    expect("its count", a, 1);
    expect("its list", list[0], 2);
    expect("select by search", stewpebble_select(BYTES("$[?!search(@,'e')]"), table, sizeof nodes, text, TEXT, list, 4, 0, &a, &b), 0);
    expect("its count", a, 2);
    expect("select by match compared", stewpebble_select(BYTES("$[?match('a','b')==true]"), table, sizeof nodes, text, TEXT, list, 4, 0, &a, &b), 5);

    expect("text of a node", stewpebble_text_of_node(table, sizeof nodes, text, TEXT, 2, &a, &b), 0);
    expect("its start", a, 2);
    expect("its length", b, 2);
    expect("text of a list", stewpebble_text_of_node(table, sizeof nodes, text, TEXT, 1, &a, &b), 15);
    expect("its start", a, 0);
    expect("its length", b, 0);
    expect("key of a node", stewpebble_key_of_node(table, sizeof nodes, text, TEXT, 2, &a, &b), 0);
    expect("its start", a, 1);
    expect("its length", b, 1);
    expect("key of the root", stewpebble_key_of_node(table, sizeof nodes, text, TEXT, 0, &a, &b), 15);
    expect("its length", b, 0);
    uint8_t path[10] = "----------";
    expect("path of a node", stewpebble_path_of_node(table, sizeof nodes, text, TEXT, 5, path, 10, &a, &b), 0);
    expect("its length", a, 9);
    expect("its bytes, and the one behind", memcmp(path, "$['a'][2]-", 10), 0);
    expect("path in too small a room", stewpebble_path_of_node(table, sizeof nodes, text, TEXT, 1, path, 5, &a, &b), 16);
    expect("the length needed", a, 6);
    expect("the room", memcmp(path, "$['a'][2]-", 10), 0);
    expect("path of no node", stewpebble_path_of_node(table, sizeof nodes, text, TEXT, 6, path, 10, &a, &b), 15);
    expect("its length", a, 0);
    nodes[5].parent = 2;
    expect("path with a wrong parent", stewpebble_path_of_node(table, sizeof nodes, text, TEXT, 1, path, 10, &a, &b), 10);
    expect("its node", b, 5);
    printf("%d answers of the C boundary, %d wrong\n", calls, wrong);
    return wrong != 0;
}
