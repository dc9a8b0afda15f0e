// Asks match and search through the C boundary. Each line of standard input is an expression and a text in hexadecimal, a dash for an empty one; for each line two
// digits are written, whether match and whether search holds. differential/regexps.py makes the lines and holds the answers against plain Python.
//
// Each is asked in three ways, which must agree: text and expression in the table, by a plan that is compiled once; the expression as a literal, compiled and run; and
// both as literals under `!`, by select. The second and the third are left out where the query would have more than 4,096 bytes. No answer may be a refusal.
#include "../include/stewpebble.h"
#include <inttypes.h>
#include <stdio.h>
#include <stdlib.h>
#include <string.h>

enum { ROOM = 1 << 20, QUERY = 8 * ROOM, LITERAL = 4096 };
static uint8_t expression[ROOM], text[ROOM], both[2 * ROOM], query[QUERY], plans[2][64], pools[2][64], plan[65535], pool[65535];
static char line[4 * ROOM + 4];
static uint64_t plan_lengths[2], pool_lengths[2];
static const char *const names[] = {"match", "search"};
static struct stewpebble_record table[3];
static unsigned long long lines, literal_queries;

static void stop(const char *what, uint64_t number) {
    printf("line %llu: %s %" PRIu64 "\n", lines, what, number);
    exit(1);
}

static size_t read_hex(const char *s, size_t n, uint8_t *out) {
    if (n == 1 && *s == '-') return 0;
    for (size_t i = 0; i < n / 2; i++) {
        unsigned b;
        sscanf(s + 2 * i, "%2x", &b);
        out[i] = (uint8_t)b;
    }
    return n / 2;
}

// The texts stand as `[TEXT, EXPRESSION]`.
static void lay_out(size_t n, size_t m) {
    memcpy(both, text, n), memcpy(both + n, expression, m);
    table[0] = (struct stewpebble_record){.kind = STEWPEBBLE_LIST, .value.children = {1, 2}};
    table[1] = (struct stewpebble_record){.kind = STEWPEBBLE_TEXT, .depth = 1, .value.part = {0, (uint32_t)n}};
    table[2] = (struct stewpebble_record){.kind = STEWPEBBLE_TEXT, .depth = 1, .value.part = {(uint32_t)n, (uint32_t)m}};
}

// The bytes as a literal in single quotes.
static uint8_t *quoted(uint8_t *to, const uint8_t *s, size_t n) {
    *to++ = '\'';
    for (size_t i = 0; i < n; i++) {
        if (s[i] < 32) { to += sprintf((char *)to, "\\u%04x", s[i]); continue; }
        if (s[i] == '\'' || s[i] == '\\') *to++ = '\\';
        *to++ = s[i];
    }
    *to++ = '\'';
    return to;
}

// Both elements are selected or none.
static int holds(uint32_t refusal, uint64_t count) {
    if (refusal) stop("refused", refusal);
    if (count != 0 && count != 2) stop("so many nodes are selected:", count);
    return count == 2;
}

static int by_plan(const uint8_t *p, uint64_t pn, const uint8_t *o, uint64_t on, size_t size) {
    uint32_t list[2];
    uint64_t count, node;
    uint32_t refusal = stewpebble_run(p, pn, o, on, stewpebble_records(table), sizeof table, both, size, list, 2, 0, &count, &node);
    return holds(refusal, count);
}

static int by_literal(int which, size_t m, size_t size, int otherwise) {
    uint64_t pn, on;
    uint8_t *end = quoted(query + sprintf((char *)query, "$[?%s($[0],", names[which]), expression, m);
    end += sprintf((char *)end, ")]");
    if (end - query > LITERAL) return otherwise;
    literal_queries++;
    uint32_t refusal = stewpebble_compile(query, (size_t)(end - query), plan, sizeof plan, pool, sizeof pool, &pn, &on);
    if (refusal) stop("compile refuses", refusal);
    return by_plan(plan, pn, pool, on, size);
}

static int by_select(int which, size_t n, size_t m, size_t size, int otherwise) {
    uint32_t list[2];
    uint64_t count, node;
    if (n > LITERAL) return otherwise;
    uint8_t *end = quoted(query + sprintf((char *)query, "$[?!%s(", names[which]), text, n);
    *end++ = ',';
    end = quoted(end, expression, m);
    end += sprintf((char *)end, ")]");
    if (end - query > LITERAL) return otherwise;
    literal_queries++;
    uint32_t refusal = stewpebble_select(query, (size_t)(end - query), stewpebble_records(table), sizeof table, both, size, list, 2, 0, &count, &node);
    return !holds(refusal, count);
}

static int ask(int which, size_t n, size_t m) {
    int found = by_plan(plans[which], plan_lengths[which], pools[which], pool_lengths[which], n + m);
    if (by_literal(which, m, n + m, found) != found) stop("a literal expression tells another", (uint64_t)which);
    if (by_select(which, n, m, n + m, found) != found) stop("two literals tell another", (uint64_t)which);
    return found;
}

int main(void) {
    for (int i = 0; i < 2; i++) {
        int n = sprintf((char *)query, "$[?%s($[0],$[1])]", names[i]);
        uint32_t refusal = stewpebble_compile(query, (size_t)n, plans[i], sizeof plans[i], pools[i], sizeof pools[i], &plan_lengths[i], &pool_lengths[i]);
        if (refusal) stop("compile refuses", refusal);
    }
    while (fgets(line, sizeof line, stdin)) {
        lines++;
        size_t blank = strcspn(line, " "), end = strcspn(line, "\n");
        size_t m = read_hex(line, blank, expression), n = read_hex(line + blank + 1, end - blank - 1, text);
        lay_out(n, m);
        int whole = ask(0, n, m), part = ask(1, n, m);
        printf("%d%d\n", whole, part);
    }
    fprintf(stderr, "%llu lines, %llu queries with literals\n", lines, literal_queries);
    return 0;
}
