// This engine on the peers' documents and queries, in the line format of their programs (bench/peers.sh builds and runs it).
//   peers QUERIES DIR ROWS...    QUERIES: a line for each query behind a first one, its name and its text first, with tabs between;
//                                DIR: ROWS.table and ROWS.text for each number of rows
// A line of output: ours, nodes of the table, name of the query, nodes selected, what was timed, ns, rounds. What is timed:
//   table     the table check, under the name `check`
//   compile   compile
//   plan      the plan check
//   run       a whole run with both checks
//   select    compile and run
//   walk      the walk of a run alone, which the crate `eval_measured` hands out; the plan and the table were checked before, as it asks
//   less      a run less both checks: a batch of runs and a batch of table checks are timed in turn, and the median of their differences is taken,
//             less the plan check. Where the walk is short beside the table check, as for a path into a large table, this says nothing.
#include "../include/stewpebble.h"
#include <stdio.h>
#include <stdlib.h>
#include <string.h>
#include <time.h>

// Asks for a plan and a pool that compile wrote, for a table that the check accepts, and for at most cap + 1 places; the number of nodes, or cap + 1.
size_t stewpebble_walk(const uint8_t *plan, size_t plan_length, const uint8_t *pool, size_t pool_length, const uint8_t *table, size_t table_length,
                       const uint8_t *text, size_t text_length, uint32_t *list, size_t list_length, size_t cap);

enum { ROUNDS = 201, LINE = 4096 };

static uint8_t *table, *text, plan[65535], pool[65535];
static size_t table_length, text_length, plan_length, pool_length, query_length, places;
static uint32_t *list;
static const char *query;
static uint64_t first, second;

static uint32_t compile(void) { return stewpebble_compile((const uint8_t *)query, query_length, plan, sizeof plan, pool, sizeof pool, &first, &second); }
static uint32_t check_plan(void) { return stewpebble_check_plan(plan, plan_length, pool, pool_length); }
static uint32_t check_table(void) { return stewpebble_check_table(table, table_length, text, text_length, &first); }
static uint32_t run(void) { return stewpebble_run(plan, plan_length, pool, pool_length, table, table_length, text, text_length, list, places, 0, &first, &second); }
static uint32_t walk(void) { return stewpebble_walk(plan, plan_length, pool, pool_length, table, table_length, text, text_length, list, places, places); }
static uint32_t select_nodes(void) {
    return stewpebble_select((const uint8_t *)query, query_length, table, table_length, text, text_length, list, places, 0, &first, &second);
}

typedef uint32_t (*volatile call)(void);

static double now(void) {
    struct timespec t;
    clock_gettime(CLOCK_MONOTONIC, &t);
    return t.tv_sec * 1e9 + t.tv_nsec;
}

// Warms for 0.1 s; how long a call takes, about.
static double warm(call f) {
    long calls = 0;
    double start = now();
    while (now() - start < 1e8) f(), calls++;
    return (now() - start) / calls;
}

static double batch(call f, long calls) {
    double start = now();
    for (long i = 0; i < calls; i++) f();
    return (now() - start) / calls;
}

static int order(const void *a, const void *b) {
    double x = *(const double *)a, y = *(const double *)b;
    return (x > y) - (x < y);
}

// The median of batches of 2 ms or more, as many as 0.4 s holds, but 5 to 201. Where `less` is given, of the differences to as many calls of it in turn.
static double median(call f, call less, int *rounds) {
    double values[ROUNDS], about = warm(f);
    long calls = (long)(2e6 / about) + 1;
    double fit = 0.4e9 / (about * calls);
    *rounds = fit < 5 ? 5 : fit > ROUNDS ? ROUNDS : (int)fit;
    for (int k = 0; k < *rounds; k++) {
        values[k] = batch(f, calls);
        if (less) values[k] -= batch(less, calls);
    }
    qsort(values, *rounds, sizeof *values, order);
    return values[*rounds / 2];
}

static void say(const char *id, unsigned long selected, const char *what, double ns, int rounds) {
    printf("ours\t%zu\t%s\t%lu\t%s\t%.1f\t%d\n", places, id, selected, what, ns, rounds);
    fflush(stdout);
}

static void measure(const char *id, unsigned long selected, const char *what, call f) {
    int rounds;
    double ns = median(f, NULL, &rounds);
    say(id, selected, what, ns, rounds);
}

static void fail(const char *what) {
    fprintf(stderr, "%s: refused\n", what);
    exit(1);
}

static void one_query(const char *id) {
    query_length = strlen(query);
    if (compile()) fail(query);
    plan_length = first, pool_length = second;
    if (run()) fail(query);
    unsigned long selected = first;
    if (walk() != selected) {
        fprintf(stderr, "%s: the walk selects another number of nodes\n", query);
        exit(1);
    }
    measure(id, selected, "compile", compile);
    measure(id, selected, "run", run);
    measure(id, selected, "select", select_nodes);
    int rounds;
    double checked = median(check_plan, NULL, &rounds);
    say(id, selected, "plan", checked, rounds);
    measure(id, selected, "walk", walk);
    double less = median(run, check_table, &rounds) - checked;
    say(id, selected, "less", less, rounds);
}

static void queries(const char *name) {
    FILE *f = fopen(name, "r");
    char line[LINE];
    if (!f || !fgets(line, sizeof line, f)) {
        perror(name);
        exit(1);
    }
    while (fgets(line, sizeof line, f)) {
        const char *id = strtok(line, "\t");
        query = strtok(NULL, "\t\n");
        one_query(id);
    }
    fclose(f);
}

static uint8_t *load(const char *folder, const char *rows, const char *suffix, size_t *length) {
    char name[LINE];
    snprintf(name, sizeof name, "%s/%s.%s", folder, rows, suffix);
    FILE *f = fopen(name, "rb");
    if (!f) {
        perror(name);
        exit(1);
    }
    fseek(f, 0, SEEK_END);
    *length = ftell(f);
    rewind(f);
    uint8_t *bytes = aligned_alloc(64, (*length + 64) / 64 * 64);
    if (fread(bytes, 1, *length, f) != *length) exit(1);
    fclose(f);
    return bytes;
}

// The peers' tables are those of document 01, with 0 for the parent in each record: here each node gets its parent's number there.
static void put_parents(void) {
    struct stewpebble_record *nodes = (struct stewpebble_record *)table;
    for (uint32_t i = 0; i < places; i++) {
        uint32_t count = nodes[i].kind >= STEWPEBBLE_LIST ? nodes[i].value.children.count : 0;
        for (uint32_t k = 0; k < count; k++) nodes[nodes[i].value.children.first + k].parent = i;
    }
}

int main(int argc, char **argv) {
    for (int k = 3; k < argc; k++) {
        table = load(argv[2], argv[k], "table", &table_length);
        text = load(argv[2], argv[k], "text", &text_length);
        places = table_length / sizeof(struct stewpebble_record);
        list = malloc(places * sizeof *list);
        put_parents();
        if (check_table()) fail("the table");
        measure("check", 0, "table", check_table);
        queries(argv[1]);
        free(list), free(table), free(text);
    }
    return 0;
}
