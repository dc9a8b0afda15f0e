// Faults that the fuzzer must find: the engine's functions, each wrapped with one fault that FAULT names. fuzz/run.sh builds one fuzzer for each.
#include "../include/stewpebble.h"

#define REAL(f) __real_stewpebble_##f
#define WRAP(f) __wrap_stewpebble_##f
uint32_t REAL(compile)(const uint8_t *, size_t, uint8_t *, size_t, uint8_t *, size_t, uint64_t *, uint64_t *);
uint32_t REAL(check_table)(const uint8_t *, size_t, const uint8_t *, size_t, uint64_t *);
uint32_t REAL(select)(const uint8_t *, size_t, const uint8_t *, size_t, const uint8_t *, size_t, uint32_t *, size_t, size_t, uint64_t *, uint64_t *);
uint32_t REAL(path_of_node)(const uint8_t *, size_t, const uint8_t *, size_t, size_t, uint8_t *, size_t, uint64_t *, uint64_t *);
volatile uint8_t sink;

uint32_t WRAP(compile)(const uint8_t *q, size_t n, uint8_t *plan, size_t plan_room, uint8_t *pool, size_t pool_room, uint64_t *a, uint64_t *b) {
    uint32_t r = REAL(compile)(q, n, plan, plan_room, pool, pool_room, a, b);
    static unsigned calls;
    calls++;
    switch (FAULT) {
    case 1: if (n == 7) sink = q[n]; break;                          // reads behind the query
    case 2: if (n == 7) sink = q[-1]; break;                         // reads before the query
    case 3: if (n == 6) *(volatile uint8_t *)q = q[0]; break;        // writes to the query, what it holds
    case 4: if (r == 12 && plan_room > 3) plan[2] = 7; break;        // a refusal that changes the room
    case 5: if (r == 0 && plan_room > *a) plan[*a] = 0; break;       // writes more than it reports
    case 6: if (r == 12) *a += 1; break;                             // a length that is not the one needed
    case 7: if (r == 5) *b = 1; break;                               // a number with a refusal that names none
    case 8: if (r == 6) r = 7; break;                                // a refusal that no input has
    case 9: if (r == 0 && calls % 999 == 0) plan[1] ^= 1; break;     // another answer to the same input, now and then
    }
    return r;
}

uint32_t WRAP(check_table)(const uint8_t *table, size_t n, const uint8_t *text, size_t m, uint64_t *node) {
    uint32_t r = REAL(check_table)(table, n, text, m, node);
    switch (FAULT) {
    case 10: if (r == 0) *node = 1; break;                           // a node with no refusal
    case 11: if (m == 5) sink = text[m + 100]; break;                // reads far behind the text
    case 12: node[1] = 3; break;                                     // writes behind a lent number
    case 22: if (r == 10) r = 17; break;                             // 17 for a wrong record
    }
    return r;
}

uint32_t WRAP(select)(const uint8_t *q, size_t qn, const uint8_t *table, size_t n, const uint8_t *text, size_t m, uint32_t *list, size_t length,
                      size_t start, uint64_t *count, uint64_t *node) {
    uint32_t r = REAL(select)(q, qn, table, n, text, m, list, length, start, count, node);
    switch (FAULT) {
    case 13: if (r == 13 && start > 0) list[start - 1] = 0; break;   // changes a place before the start position
    case 14: if (r == 13 && length > start + 2) list[length - 1] = 0; break; // fills a place with another node
    case 15: if (r == 14 && length > 0) list[length - 1] = 1; break; // refusal 14 that changes a place
    case 16: if (r == 0 && *count > 2) list[start] = list[start + 1]; break; // selects another node than run
    case 17: if (r == 9 && start > length) r = 14; break;            // 14 before 9
    case 18: if (r == 13) *count = length - start; break;            // a count with refusal 13
    }
    return r;
}

uint32_t WRAP(path_of_node)(const uint8_t *table, size_t n, const uint8_t *text, size_t m, size_t node, uint8_t *room, size_t length, uint64_t *a, uint64_t *b) {
    uint32_t r = REAL(path_of_node)(table, n, text, m, node, room, length, a, b);
    switch (FAULT) {
    case 19: if (r == 16 && length > 0) room[0] = '$'; break;        // refusal 16 that begins to write
    case 20: if (r == 0 && length > *a) room[*a] = 0; break;         // ends a path with a 0
    case 21: if (r == 0 && *a > 4) room[*a - 2] ^= 1; break;         // the path of another node
    }
    return r;
}
