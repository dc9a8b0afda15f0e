// The C by hand of the peers, so that bench/broad.rs can call it: one function for each of the published eight queries (bench/broad.sh compiles this).
#define main flat_main
#include "flat.c"
#undef main

static const struct {
    const char *query;
    uint64_t (*select)(void);
} by_hand[] = {
    {"$..price", q_price},
    {"$..*", q_all},
    {"$.rows[7].price", q_one},
    {"$.rows[?@.qty > 10].price", q_qty},
    {"$.rows[::2]", q_slice},
    {"$.rows[?@.name == 'x' && @.qty <= 5]", q_and},
    {"$..[?@.price]", q_exists},
    {"$.rows[?count(@.*) == 5]", q_count},
};

// Lends a table that was checked, its text and a list to every function.
void flat_lend(const uint8_t *table, uint32_t nodes, const uint8_t *text, uint32_t text_length, uint32_t *list) {
    T = (const record *)table, N = nodes, X = text, textlen = text_length, out = list;
}

// The function for a query, or null. It gives the number of nodes selected.
uint64_t (*flat_find(const char *query))(void) {
    for (size_t k = 0; k < sizeof by_hand / sizeof *by_hand; k++)
        if (!strcmp(by_hand[k].query, query)) return by_hand[k].select;
    return NULL;
}
