// Random tables, and for each node of each: its path by stewpebble_path_of_node, held against a path that is written here by ranges of children; and the path
// compiled and run on the table, which must give that node alone.
//
//   paths COUNT SEED     until so many pairs of a table and a node are compared
#include "../include/stewpebble.h"
#include <stdio.h>
#include <stdlib.h>
#include <string.h>

enum { NODES = 400, TEXT = 32 * NODES, ROOM = 1 << 16, DEPTH = 63 };

static uint64_t state;
static uint64_t next(void) {
    state ^= state << 13, state ^= state >> 7, state ^= state << 17;
    return state * 2685821657736338717u;
}
static size_t below(size_t n) { return (size_t)((next() >> 20) % n); }

static struct stewpebble_record table[NODES];
static uint8_t text[TEXT];
static size_t nodes, text_length;

// A character: mostly a control character, a sign that is escaped, or an ASCII letter; else one of two, three or four bytes.
static size_t character(uint8_t *to) {
    static const char *const signs[] = {"'", "\"", "\\", "/", "\x7f", "[", "]", "$", " ", "\b", "\t", "\n", "\f", "\r", "\x0b"};
    switch (below(6)) {
    case 0: to[0] = (uint8_t)below(32); return 1;
    case 1: to[0] = (uint8_t)signs[below(sizeof signs / sizeof *signs)][0]; return 1;
    case 2: to[0] = (uint8_t)(0xC3), to[1] = (uint8_t)(0x80 + below(64)); return 2;
    case 3: memcpy(to, below(2) ? "\xe2\x82\xac" : "\xf0\x9f\x98\x80", 4); return to[0] == 0xe2 ? 3 : 4;
    default: to[0] = (uint8_t)('a' + below(26)); return 1;
    }
}

// The key of the member at a place: some characters, and then the place, so that no two of a map are alike. The first may be empty.
static void key(struct stewpebble_record *r, size_t place) {
    size_t start = text_length;
    for (size_t n = below(5); n && place; n--) text_length += character(text + text_length);
    if (place || below(2)) text_length += (size_t)sprintf((char *)text + text_length, "%zu", place);
    r->key_start = (uint32_t)start, r->key_length = (uint32_t)(text_length - start);
}

static void make_table(size_t most) {
    memset(table, 0, sizeof table);
    nodes = 1, text_length = 0;
    int deep = below(3) == 0;
    for (size_t i = 0; i < nodes; i++) {
        size_t left = most - nodes, count = 0;
        struct stewpebble_record *r = table + i;
        r->kind = (uint8_t)(i + 1 == nodes || below(3) == 0 ? 6 + below(2) : below(3));
        if (r->kind < 6 || !left || r->depth == DEPTH) continue;
        count = deep ? 1 + (size_t)(left > 1 && below(4) == 0) : below(left < 14 ? left + 1 : 14);
        if (!count) continue;
        r->value.children.first = (uint32_t)nodes, r->value.children.count = (uint32_t)count;
        for (size_t k = 0; k < count; k++, nodes++) {
            table[nodes].depth = (uint8_t)(r->depth + 1), table[nodes].parent = (uint32_t)i;
            if (r->kind == STEWPEBBLE_MAP) key(table + nodes, k);
        }
    }
}

// The path by ranges of children; the parents in the records are not read.
static uint8_t *spell(uint8_t *to, size_t node) {
    if (!node) { *to++ = '$'; return to; }
    size_t p = node;
    do p--; while (table[p].kind < 6 || node - table[p].value.children.first >= table[p].value.children.count);
    to = spell(to, p);
    if (table[p].kind == STEWPEBBLE_LIST) return to + sprintf((char *)to, "[%zu]", node - table[p].value.children.first);
    *to++ = '[', *to++ = '\'';
    for (size_t i = 0; i < table[node].key_length; i++) {
        uint8_t b = text[table[node].key_start + i];
        const char *letters = "\bb\tt\nn\ff\rr''\\\\", *at = b ? strchr(letters, b) : 0;
        while (at && (at - letters) % 2) at = strchr(at + 1, b);
        if (at) *to++ = '\\', *to++ = (uint8_t)at[1];
        else if (b < 32) to += sprintf((char *)to, "\\u%04x", b);
        else *to++ = b;
    }
    *to++ = '\'', *to++ = ']';
    return to;
}

static void stop(const char *what, size_t node) {
    printf("%s: node %zu of %zu, seed state %llu\n", what, node, nodes, (unsigned long long)state);
    exit(1);
}

int main(int arguments, char **words) {
    unsigned long long count = arguments > 1 ? strtoull(words[1], 0, 10) : 1000000, done = 0, tables = 0, long_paths = 0, bytes = 0;
    state = arguments > 2 ? strtoull(words[2], 0, 10) * 88172645463325252u + 1 : 88172645463325253u;
    static uint8_t want[ROOM], got[ROOM], plan[65535], pool[65535];
    while (done < count) {
        make_table(2 + below(NODES - 2));
        tables++;
        uint64_t wrong, length, planned, pooled, selected;
        if (stewpebble_check_table(stewpebble_records(table), nodes * sizeof *table, text, TEXT, &wrong)) stop("table check", wrong);
        for (size_t node = 0; node < nodes && done < count; node++, done++) {
            size_t size = (size_t)(spell(want, node) - want), room = below(3) ? size : size + below(9);
            if (size && stewpebble_path_of_node(stewpebble_records(table), nodes * sizeof *table, text, TEXT, node, got, below(size), &length, &wrong) != 16) stop("a small room", node);
            if (length != size) stop("the length needed", node);
            memset(got, '-', room + 1);
            if (stewpebble_path_of_node(stewpebble_records(table), nodes * sizeof *table, text, TEXT, node, got, room, &length, &wrong)) stop("path", node);
            if (length != size || memcmp(got, want, size) || got[size] != '-' || got[room] != '-') stop("its bytes", node);
            bytes += size;
            if (size > STEWPEBBLE_MAX_QUERY) { long_paths++; continue; }
            uint32_t list[2] = {99999, 99999};
            if (stewpebble_compile(got, size, plan, sizeof plan, pool, sizeof pool, &planned, &pooled)) stop("compile", node);
            if (stewpebble_run(plan, planned, pool, pooled, stewpebble_records(table), nodes * sizeof *table, text, TEXT, list, 2, 0, &selected, &wrong)) stop("run", node);
            if (selected != 1 || list[0] != node || list[1] != 99999) stop("its node", node);
        }
    }
    printf("%llu nodes of %llu tables, %llu bytes of paths, %llu of them too long to compile: each path is the one of its node, and selects it alone\n", done, tables, bytes, long_paths);
    return 0;
}
