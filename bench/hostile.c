// How the time of a run grows with a part of the query that is repeated k times: chains whose walk visits the same nodes over and over.
// A line for each case: the query with k as large as a twentieth of a second or so holds, the outcome, the time, and the factor by which the last
// repetition made it longer. Tables: `deep`, 63 lists inside each other and a number in the last; `equal`, the same with k lists; `wide`, a list of 50 numbers.
#include "../include/stewpebble.h"
#include <stdio.h>
#include <stdlib.h>
#include <string.h>
#include <time.h>

enum { DEPTH = STEWPEBBLE_MAX_DEPTH, WIDTH = 50, FEW = 16, MANY = 1 << 24, QUERY = 4096 };

static struct stewpebble_record table[DEPTH + 1];
static uint8_t text[1], plan[65535], pool[65535];
static size_t nodes;
static uint32_t *list;

static void make_deep(int depth) {
    for (int i = 0; i < depth; i++) table[i] = (struct stewpebble_record){.kind = STEWPEBBLE_LIST, .depth = i, .parent = i ? i - 1 : 0, .value.children = {i + 1, 1}};
    table[depth] = (struct stewpebble_record){.kind = STEWPEBBLE_INTEGER, .depth = depth, .parent = depth - 1, .value.integer = 1};
    nodes = depth + 1;
}

static void make_wide(void) {
    table[0] = (struct stewpebble_record){.kind = STEWPEBBLE_LIST, .value.children = {1, WIDTH}};
    for (int i = 1; i <= WIDTH; i++) table[i] = (struct stewpebble_record){.kind = STEWPEBBLE_INTEGER, .depth = 1, .value.integer = i};
    nodes = WIDTH + 1;
}

// What is repeated in a query, and what stands around it.
struct shape {
    const char *table, *before, *part, *after, *close;
    size_t places;
    // The number of repetitions to begin with, and the most.
    int least, most;
};

static size_t write_query(char *query, const struct shape *s, int k) {
    char *p = stpcpy(query, s->before);
    for (int i = 0; i < k; i++) p = stpcpy(p, s->part);
    p = stpcpy(p, s->after);
    for (int i = 0; i < k; i++) p = stpcpy(p, s->close);
    return p - query;
}

static double now(void) {
    struct timespec t;
    clock_gettime(CLOCK_PROCESS_CPUTIME_ID, &t);
    return t.tv_sec * 1e9 + t.tv_nsec;
}

// The time of a run of the compiled plan, the mean of as many runs as 10 ms hold, and what it came to.
static double timed(size_t plan_length, size_t pool_length, size_t places, uint32_t *refusal, uint64_t *count) {
    uint64_t node;
    long runs = 0;
    double start = now();
    do {
        *refusal = stewpebble_run(plan, plan_length, pool, pool_length, stewpebble_records(table), nodes * sizeof *table, text, 0, list, places, 0, count, &node);
        runs++;
    } while (now() - start < 1e7);
    return (now() - start) / runs;
}

// The least of three such times with k repetitions.
static double least(const struct shape *s, int k, uint32_t *refusal, uint64_t *count) {
    static char query[QUERY];
    uint64_t plan_length, pool_length;
    size_t length = write_query(query, s, k);
    if (stewpebble_compile((uint8_t *)query, length, plan, sizeof plan, pool, sizeof pool, &plan_length, &pool_length)) {
        printf("%s: refused\n", query);
        exit(1);
    }
    if (!strcmp(s->table, "wide")) make_wide();
    else make_deep(strcmp(s->table, "deep") ? k : DEPTH);
    double found = 1e30;
    for (int round = 0; round < 3; round++) {
        double ns = timed(plan_length, pool_length, s->places, refusal, count);
        if (ns < found) found = ns;
    }
    return found;
}

static void measure(const struct shape *s) {
    uint32_t refusal;
    uint64_t count;
    int k = s->least;
    double before, ns = least(s, k, &refusal, &count);
    do {
        before = ns;
        ns = least(s, ++k, &refusal, &count);
    } while (ns < 5e7 && k < s->most);
    char shown[160];
    snprintf(shown, sizeof shown, "%s (%s)^%d %s%s", s->before, s->part, k, s->after, *s->close ? " and the brackets" : "");
    printf("%-42s %-5s %8zu places  refusal %2u, %8llu nodes  %12.1f us  factor %6.2f\n", shown, s->table, s->places, refusal, (unsigned long long)count, ns / 1e3,
           ns / before);
    fflush(stdout);
}

int main(void) {
    static const struct shape shapes[] = {
        // a list that holds every node, and one that does not
        {"deep", "$", "[*,*]", "", "", MANY, 2, 24},
        {"deep", "$", "[*,*]", "", "", FEW, 10, 62},
        {"deep", "$", "..*", "", "", MANY, 2, 6},
        {"deep", "$", "..*", "", "", FEW, 10, 58},
        // as many segments as the table is deep, so that one node is selected
        {"equal", "$", "..*", "", "", FEW, 10, 62},
        // nothing is found at the end
        {"deep", "$", "[*,*]", ".a", "", FEW, 2, 62},
        {"deep", "$", "[*,*,*,*]", ".a", "", FEW, 2, 62},
        {"deep", "$", "..*", ".a", "", FEW, 2, 62},
        {"deep", "$", "..[*,*]", ".a", "", FEW, 1, 62},
        {"deep", "$", "..*", "[?@ == 'a']", "", FEW, 2, 62},
        // the same in a filter: a count, a test that finds nothing, a test that finds something
        {"deep", "$[?count(@", "..*", ") > 0]", "", FEW, 2, 62},
        {"deep", "$[?@", "..*", ".a]", "", FEW, 2, 62},
        {"deep", "$[?@", "..*", "]", "", FEW, 10, 62},
        // filters in filters
        {"deep", "$", "..[?@", ".a", "]", FEW, 2, 32},
        {"wide", "$", "[?$", ".a", "]", FEW, 1, 32},
    };
    list = malloc(MANY * sizeof *list);
    memset(list, 0, MANY * sizeof *list);
    for (size_t i = 0; i < sizeof shapes / sizeof *shapes; i++) measure(&shapes[i]);
    return 0;
}
