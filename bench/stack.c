// Measures the stack that the deepest runs take: the least stack, to 16 KiB, on which each of them ends.
//   plans    up to 128 filters inside each other, each behind 62 segments from `$` that select all of a level, on a table of depth 63: the deepest that plan check takes
//   queries  32 queries from `$` inside each other: descendants and a comparison in front of each, or 38 descendant wildcards
//            each compiled and run, and by select
//   expressions  the same, with match or search at the bottom: expressions of 1,024 bytes that nest groups or repeats, or are long rows or many alternatives
//   long expressions  stars, or counts, around more copies than marks are kept for, on the longest text; these do not end, and are watched for a second
// Each try runs in a process of its own, on a thread with a stack of the given size. A run that needs more than the header says is enough fails.
#define _GNU_SOURCE
#include <pthread.h>
#include <signal.h>
#include <stdint.h>
#include <stdio.h>
#include <stdlib.h>
#include <string.h>
#include <sys/mman.h>
#include <sys/wait.h>
#include <unistd.h>
#include "../include/stewpebble.h"

#define DEPTH STEWPEBBLE_MAX_DEPTH
#define WILD 62
static struct stewpebble_record table[DEPTH + 2];
static uint8_t text[1024], plan[65535], pool[65535], query[4096];
static size_t plan_length, pool_length, query_length, text_length, nodes = DEPTH + 1;
static uint32_t list[16];

static struct stewpebble_record list_of(uint32_t depth, uint32_t parent, uint32_t first, uint32_t count) {
    return (struct stewpebble_record){.kind = STEWPEBBLE_LIST, .depth = (uint8_t)depth, .parent = parent, .value.children = {first, count}};
}

static struct stewpebble_record one_below(uint32_t parent) { return (struct stewpebble_record){.kind = STEWPEBBLE_INTEGER, .depth = DEPTH, .parent = parent, .value.integer = 1}; }

// A list in a list, 63 times, and the number 1 inside.
static void make_table(void) {
    for (uint32_t i = 0; i < DEPTH; i++) table[i] = list_of(i, i ? i - 1 : 0, i + 1, 1);
    table[DEPTH] = one_below(DEPTH - 1);
}

// The same with a text inside: the expression that is made of what begins it so often, a middle, and what ends it so often.
static void make_expression(const char *begins, const char *middle, const char *ends, int often) {
    char made[4096], *p = made;
    for (int i = 0; i < often; i++) p = stpcpy(p, begins);
    p = stpcpy(p, middle);
    for (int i = 0; i < often; i++) p = stpcpy(p, ends);
    text_length = (size_t)(p - made);
    if (text_length > sizeof text) { printf("too long an expression\n"); exit(1); }
    memcpy(text, made, text_length);
    make_table();
    table[DEPTH].kind = STEWPEBBLE_TEXT;
    table[DEPTH].value.part.start = 0, table[DEPTH].value.part.length = (uint32_t)text_length;
}

// What stands at the bottom of a plan: a filter that searches the first text of the pool, 1,024 times `a`, for the second. It must be found: a walk that finds nothing
// goes on to the end of all ways.
static int searching;
static uint8_t *bottom(uint8_t *p) {
    uint16_t start = 1024, length = (uint16_t)text_length;
    memcpy(p, "\3\1\0\11\13\0\22\0\0\0\4\22", 12);
    memcpy(p + 12, &start, 2);
    memcpy(p + 14, &length, 2);
    p[16] = 0x1D;
    memset(pool, 'a', start);
    memcpy(pool + start, text, text_length);
    pool_length = start + text_length;
    return p + 17;
}

// In front of a filter's code, where told: `!match(@,'a')&&` with a text of the pool, whose nodes then go by cells. Where it ends, and the place for the length of what
// follows.
static enum { NO_CALL, IN_FRONT, BEHIND } calling;
static uint8_t *call(uint8_t *p) {
    memcpy(p, "\2\12\22\0\0\1\0\34\25\26\0\0", 12);
    memcpy(p + 3, &(uint16_t){(uint16_t)pool_length}, 2);
    pool[pool_length++] = 'a';
    return p + 12;
}

// Behind a filter's code: `&&!match(@,'a')`.
static uint8_t *call_behind(uint8_t *p) {
    memcpy(p, "\26\11\0\2\12\22\0\0\1\0\34\25", 12);
    memcpy(p + 6, &(uint16_t){(uint16_t)pool_length}, 2);
    pool[pool_length++] = 'a';
    return p + 12;
}

static void put_length(uint8_t *at, const uint8_t *begins, const uint8_t *ends) { memcpy(at, &(uint16_t){(uint16_t)(ends - begins)}, 2); }

// The code of a query from `$` that nests n filters, each behind many segments, written at p; where it ends.
static uint8_t *code(uint8_t *p, int n, const uint8_t *segment, size_t size, int many) {
    *p++ = 1;
    for (int i = 0; i < many; i++) { memcpy(p, segment, size); p += size; }
    if (n > 0) {
        memcpy(p, "\3\1\0\11", 4);
        uint8_t *length = p + 4, *inner = calling == IN_FRONT ? call(p + 6) : p + 6, *q = code(inner, n - 1, segment, size, many);
        *q++ = 0x18;
        if (calling == IN_FRONT) put_length(inner - 2, inner, q);
        if (calling == BEHIND) q = call_behind(q);
        put_length(length, length + 2, q);
        p = q;
    } else if (searching) p = bottom(p);
    *p++ = 10;
    return p;
}

static void make_plan(int n, const char *segment, size_t size) {
    pool_length = 0;
    plan_length = (size_t)(code(plan, n, (const uint8_t *)segment, size, WILD) - plan);
}

// `$` and 31 times, or as often as told, a segment's text so often and a filter that begins as told, then the last of them and the brackets that are open.
static int levels = 31;
static void make_query(const char *segment, int often, const char *opens, const char *last) {
    char *p = (char *)query;
    *p++ = '$';
    for (int i = 0; i < levels; i++) {
        for (int j = 0; j < often; j++) p = stpcpy(p, segment);
        p = stpcpy(p, opens);
    }
    for (int j = 0; j < often; j++) p = stpcpy(p, segment);
    p = stpcpy(p, last);
    for (int i = 0; i < levels; i++) *p++ = ']';
    query_length = (size_t)(p - (char *)query);
}

static uint32_t answer;
static int compiling, selecting;
static const struct stewpebble_record *long_table; // a table of two nodes and its text, in place of the other
static const uint8_t *long_text;
static size_t long_length;
static void *work(void *unused) {
    (void)unused;
    uint64_t a = 0, b = 0;
    if (long_table) {
        answer = stewpebble_select(query, query_length, stewpebble_records(long_table), 2 * sizeof *long_table, long_text, long_length, list, 16, 0, &a, &b);
        return 0;
    }
    if (selecting) {
        answer = stewpebble_select(query, query_length, stewpebble_records(table), nodes * sizeof *table, text, text_length, list, 16, 0, &a, &b);
        return 0;
    }
    if (compiling) {
        answer = stewpebble_compile(query, query_length, plan, sizeof plan, pool, sizeof pool, &a, &b);
        if (answer) return 0;
        plan_length = a, pool_length = b;
    }
    answer = stewpebble_run(plan, plan_length, pool, pool_length, stewpebble_records(table), nodes * sizeof *table, text, text_length, list, 16, 0, &a, &b);
    return 0;
}

static unsigned patience; // after so many seconds a run is taken to have ended, where it is not 0

static int ends_on(size_t size) {
    pid_t child = fork();
    if (child == 0) {
        alarm(patience);
        pthread_attr_t attr;
        pthread_t thread;
        pthread_attr_init(&attr);
        pthread_attr_setstacksize(&attr, size);
        if (pthread_create(&thread, &attr, work, 0)) _exit(2);
        pthread_join(thread, 0);
        _exit(answer == 0 || answer == 13 ? 0 : 3);
    }
    int status;
    waitpid(child, &status, 0);
    if (WIFEXITED(status) && WEXITSTATUS(status) != 0) { printf("refused or no thread\n"); exit(1); }
    return WIFEXITED(status) || WTERMSIG(status) == SIGALRM;
}

static int over; // how many runs need more than is promised

static void measure(const char *name, size_t promised) {
    size_t low = 0, high = 32 << 20;
    while (high - low > 16384) {
        size_t mid = (low + high) / 2 & ~(size_t)16383;
        if (mid == low) break;
        if (mid >= 65536 && ends_on(mid)) high = mid; else low = mid;
    }
    over += high > promised;
    printf("%-8s ends on a stack of %zu KiB, and %zu KiB are promised to be enough\n", name, high >> 10, promised >> 10);
}

static void measure_plan(const char *name, int n, const char *segment, size_t size) {
    compiling = selecting = 0;
    make_plan(n, segment, size);
    printf("plan of %zu bytes: ", plan_length);
    measure(name, STEWPEBBLE_PLAN_STACK);
}

static void measure_query(const char *name, const char *segment, int often, const char *opens, const char *last) {
    make_query(segment, often, opens, last);
    printf("query of %zu bytes: ", query_length);
    compiling = 1, selecting = 0;
    measure(name, STEWPEBBLE_QUERY_STACK);
    selecting = 1;
    printf("the same by select: ");
    measure(name, STEWPEBBLE_QUERY_STACK);
}

// An expression, as a text of the table, at the bottom of the deepest query, and at that of the deepest plan.
static void measure_expression(const char *name, const char *begins, const char *middle, const char *ends, int often, const char *test) {
    printf("%s, %d times\n", name, often);
    levels = 30; // the call has a bracket of its own
    make_expression(begins, middle, ends, often);
    measure_query("..[?@>''", "", 0, "..[?@>''&&$", test);
    searching = 1, patience = 1; // such a plan asks the expression at every node, and need not end
    measure_plan("..[?@,?@]", 67, "\4\2\0\11\3\0\2\12\30\11\3\0\2\12\30", 15);
    measure_plan("..[*,*]", 126, "\4\2\0\10\10", 5);
    searching = 0, patience = 0;
}

// The same expression as a literal of the query, which is read once for all nodes of a range, asked of itself as a text of the table.
static void measure_literal(const char *name, const char *begins, const char *middle, const char *ends, int often) {
    static char last[1200];
    printf("%s, %d times, as a literal\n", name, often);
    levels = 30;
    make_expression(begins, middle, ends, often);
    char *p = stpcpy(last, "..[?search(@,'");
    memcpy(p, text, text_length);
    strcpy(p + text_length, "')]");
    measure_query("..[?@>''", "", 0, "..[?@>''&&$", last);
}

// 1,023 alternatives as a second element of the root, at the bottom of a query that takes the most stack by itself.
static void measure_beside(void) {
    make_expression("|", "a", "", 1023);
    table[0] = list_of(0, 0, 1, 2);
    table[1] = list_of(1, 0, 3, 1);
    table[2] = (struct stewpebble_record){.kind = STEWPEBBLE_TEXT, .depth = 1, .value.part = {0, (uint32_t)text_length}};
    for (uint32_t i = 3; i <= DEPTH; i++) table[i] = list_of(i - 1, i == 3 ? 1 : i - 1, i + 1, 1);
    table[DEPTH + 1] = one_below(DEPTH);
    nodes = DEPTH + 2, levels = 29;
    printf("alternatives beside the lists, at the bottom of the deepest query\n");
    measure_query("..*", "..*", 39, "[?$", "[?search('a',$[1])]");
    measure_query("..* match", "..*", 34, "[?!match(@,'a')&&$", "[?search('a',$[1])]");
}

// A list of one text, the longest that a table may have, and an expression of 1,024 bytes around `((a{64}){64}){64}`, by select.
static void measure_long(const char *name, const char *begins, const char *ends, int often) {
    static const struct stewpebble_record two[2] = {
        {.kind = STEWPEBBLE_LIST, .value.children = {1, 1}},
        {.kind = STEWPEBBLE_TEXT, .depth = 1, .value.part = {0, STEWPEBBLE_MAX_TEXT}},
    };
    static uint8_t as[STEWPEBBLE_MAX_TEXT];
    memset(as, 'a', sizeof as);
    char *p = stpcpy((char *)query, "$[?match(@,'");
    for (int i = 0; i < often; i++) p = stpcpy(p, begins);
    p = stpcpy(p, "((a{64}){64}){64}");
    for (int i = 0; i < often; i++) p = stpcpy(p, ends);
    p = stpcpy(p, "b')]");
    query_length = (size_t)(p - (char *)query);
    long_table = two, long_text = as, long_length = sizeof as;
    selecting = 1, patience = 1;
    printf("%s, %d times, around more copies than are marked: ", name, often);
    measure("", STEWPEBBLE_QUERY_STACK + STEWPEBBLE_EXPRESSION_STACK);
    long_table = 0, patience = 0;
}

int main(void) {
    make_table();
    measure_plan("[*]", 128, "\3\1\0\10", 4);
    measure_plan("[?@]", 113, "\3\1\0\11\3\0\2\12\30", 9);
    measure_plan("..[?@,?@]", 68, "\4\2\0\11\3\0\2\12\30\11\3\0\2\12\30", 15);
    measure_plan("..[*,*]", 128, "\4\2\0\10\10", 5);
    measure_query("..[?@==1", "", 0, "..[?@==1&&$", "..[?@==1&&$==$]");
    measure_query("..*", "..*", 38, "[?$", "[?$]");
    calling = IN_FRONT; // each filter has a call of match, so that its nodes go by cells; the call has a bracket of its own in a query
    measure_plan("[?@] calls", 63, "\3\1\0\11\3\0\2\12\30", 9);
    measure_plan("..[*,*] calls", 63, "\4\2\0\10\10", 5);
    calling = BEHIND; // and behind a query that is evaluated for each of them
    measure_plan("[?@] calls behind", 63, "\3\1\0\11\3\0\2\12\30", 9);
    measure_plan("..[*,*] calls behind", 63, "\4\2\0\10\10", 5);
    calling = NO_CALL, levels = 30;
    measure_query("..[?match", "", 0, "..[?!match(@,'a')&&$", "..[?!match(@,'a')&&$==$]");
    measure_query("..* match", "..*", 34, "[?!match(@,'a')&&$", "[?!match(@,'a')&&$==$]");
    levels = 31;
    static char many[1200] = "..[?@>''&&match('";
    memset(many + 17, 'a', 1024), strcpy(many + 17 + 1024, "',@)]");
    measure_expression("a row of characters", ".", "", "", 1024, many);
    measure_expression("alternatives", "|", "a", "", 1023, "..[?@>''&&search('aaaaaa',@)]");
    measure_expression("groups", "(", "a", ")", 511, "..[?@>''&&search('aaaaaa',@)]");
    measure_expression("groups that are repeated", "(", "a", ")*", 340, "..[?@>''&&match('aaaaaa',@)]");
    measure_expression("groups behind a character", "(a", "", ")*", 255, "..[?@>''&&search('aaaaaa',@)]");
    measure_expression("groups behind an alternative", "(a|", "", ")", 255, "..[?@>''&&match('aaaaaa',@)]");
    measure_expression("groups with a count", "(", "a", "){2}", 200, "..[?@>''&&match('aaaaaa',@)]");
    measure_literal("alternatives", "|", "a", "", 1023);
    measure_literal("groups", "(", "a", ")", 511);
    measure_literal("groups that are repeated", "(", "a", ")*", 340);
    measure_literal("groups behind a character", "(a", "", ")*", 255);
    measure_literal("groups with a count", "(", "a", "){2}", 200);
    measure_beside();
    measure_long("stars", "(", ")*", 335);
    measure_long("counts", "(", "){64}", 167);
    return over != 0;
}
