// Calls every function of include/stewpebble.h with arbitrary bytes, and checks what can be checked without a second engine.
//
//   fuzz random ROUNDS SEED     random, structured and damaged queries, plans, pools, tables and texts
//   fuzz edges                  inputs at the limits of document 01, on both sides of each
//   fuzz queries LENGTH         all queries of at most that length over the 12 bytes $ @ . [ ] * ? : , 0 a '
//   fuzz plans                  all short plans, and every one-byte change of 200 compiled plans
//   fuzz list-queries LENGTH    those queries with refusal, plan and pool, for fuzz/compare.py
//   fuzz list-rounds ROUNDS SEED   the calls of run, select, text, key and path in those rounds with answers, for fuzz/compare.py
//   fuzz list-plans COUNT       the one-byte changes of COUNT compiled plans with refusals, for fuzz/compare.py
//
// Memory: every input and every lent room or number lies right before an inaccessible page, and in a second call with the same input right behind one.
// Inputs are handed over through a mapping that can only be read. A lent room is filled with one byte, in the second call with its complement, and
// looked at byte for byte afterwards. The calls are made on a thread with STEWPEBBLE_QUERY_STACK bytes of stack.
#define _GNU_SOURCE
#include "../include/stewpebble.h"
#include <pthread.h>
#include <signal.h>
#include <stdio.h>
#include <stdlib.h>
#include <string.h>
#include <sys/mman.h>
#include <unistd.h>

typedef const uint8_t *Bytes;
enum { GUARD = 1 << 20, SLACK = 64, STACK = STEWPEBBLE_QUERY_STACK, RECORD = 24, MOST_NODES = 65535, MOST_TEXT = 16777216, PLACES = 4096 };
enum { COMPILE, PLAN, TALLY, RECORDS, TEXTS, TABLE, RUN, SELECT, TEXT, KEY, PATH, OPERATIONS };
static const char *names[] = {"compile", "plan check", "tally", "record check", "text check", "table check", "run", "select", "text of a node", "key of a node", "path of a node"};
static unsigned long long counts[OPERATIONS][22], round_number, wrongs;
static uint64_t seed = 1;

// ---- numbers by chance

static uint64_t state;
static uint64_t next(void) {
    state ^= state << 13, state ^= state >> 7, state ^= state << 17;
    return state * 2685821657736338717u;
}
static size_t below(size_t n) { return n ? (size_t)((next() >> 20) % n) : 0; }
static int one_in(size_t n) { return below(n) == 0; }

// ---- memory between inaccessible pages

typedef struct { uint8_t *write, *read; size_t size; } Region;
static Region query_in, plan_in, pool_in, table_in, text_in, plan_out, pool_out, list_out, counts_out, first_out, second_out;

static uint8_t *fenced(int file, size_t size, int rights) {
    uint8_t *at = mmap(0, size + 2 * GUARD, PROT_NONE, MAP_PRIVATE | MAP_ANONYMOUS | MAP_NORESERVE, -1, 0);
    if (at == MAP_FAILED || mmap(at + GUARD, size, rights, MAP_SHARED | MAP_FIXED, file, 0) == MAP_FAILED) { perror("mmap"); exit(2); }
    return at + GUARD;
}

static void region(Region *r, size_t size) {
    r->size = (size + 65535) / 65536 * 65536;
    int file = memfd_create("fuzz", 0);
    if (file < 0 || ftruncate(file, (off_t)r->size)) { perror("memfd"); exit(2); }
    r->write = fenced(file, r->size, PROT_READ | PROT_WRITE);
    r->read = fenced(file, r->size, PROT_READ);
    close(file);
}

// ---- the call that is being made, for reports

static struct { int operation; struct { const char *name; Bytes at; size_t length; } input[5]; int inputs; size_t more[3]; } call;

static void report(const char *what) {
    printf("WRONG: %s; %s, round %llu of seed %llu\n", what, names[call.operation], round_number, (unsigned long long)seed);
    for (int i = 0; i < call.inputs; i++) {
        printf("  %s, %zu bytes:", call.input[i].name, call.input[i].length);
        for (size_t k = 0; k < call.input[i].length && k < 2400; k++) printf(" %02x", call.input[i].at[k]);
        printf("\n");
    }
    printf("  rooms, start or node: %zu %zu %zu\n", call.more[0], call.more[1], call.more[2]);
    fflush(stdout);
    if (++wrongs > 9) exit(1);
}
#define CHECK(holds) do { if (!(holds)) report(#holds); } while (0)

static void fault(int number) {
    report(number == SIGSEGV || number == SIGBUS ? "an access outside the memory lent" : "a trap");
    _exit(1);
}

// An input, copied beside an inaccessible page.
static Bytes lend(Region *r, const char *name, Bytes bytes, size_t length, int behind) {
    size_t offset = behind ? 0 : r->size - length;
    if (length > r->size) { printf("input too long for the driver\n"); exit(2); }
    if (length) memcpy(r->write + offset, bytes, length);
    call.input[call.inputs].name = name;
    call.input[call.inputs].at = r->read + offset;
    call.input[call.inputs++].length = length;
    return r->read + offset;
}

static uint8_t fill;
static uint8_t *room(Region *r, size_t length, int behind) {
    size_t slack = r->size - length < SLACK ? r->size - length : SLACK, offset = behind ? 0 : r->size - length;
    memset(r->write + (behind ? 0 : offset - slack), fill, length + slack);
    return r->write + offset;
}

static int all_fill(Bytes at, size_t length) { return !length || (at[0] == fill && !memcmp(at, at + 1, length - 1)); }

// Nothing but the part [from, to) of a room has changed, and nothing outside the room.
static int kept(Region *r, size_t length, size_t from, size_t to, int behind) {
    size_t slack = r->size - length < SLACK ? r->size - length : SLACK;
    Bytes at = r->write + (behind ? 0 : r->size - length);
    return all_fill(at, from) && all_fill(at + to, length - to) && all_fill(behind ? at + length : at - slack, slack);
}

// ---- what document 01 says of sizes and bytes, said here once more

static int is_utf8(Bytes s, size_t n) {
    for (size_t i = 0; i < n;) {
        int more = s[i] < 0x80 ? 0 : s[i] < 0xC2 ? -1 : s[i] < 0xE0 ? 1 : s[i] < 0xF0 ? 2 : s[i] < 0xF5 ? 3 : -1;
        if (more < 0 || n - i <= (size_t)more) return 0;
        uint32_t c = more ? s[i] & (0x3F >> more) : s[i];
        for (int k = 1; k <= more; k++) {
            if ((s[i + k] & 0xC0) != 0x80) return 0;
            c = c << 6 | (s[i + k] & 0x3F);
        }
        if ((more == 2 && c < 0x800) || (more == 3 && (c < 0x10000 || c > 0x10FFFF)) || (c >= 0xD800 && c < 0xE000)) return 0;
        i += (size_t)more + 1;
    }
    return 1;
}

static int brackets_pass(Bytes s, size_t n) {
    int depth = 0, quote = 0;
    for (size_t i = 0; i < n; i++) {
        if (quote) { if (s[i] == '\\') i++; else if (s[i] == quote) quote = 0; }
        else if (s[i] == '\'' || s[i] == '"') quote = s[i];
        else if (s[i] == '[' || s[i] == '(') { if (++depth > 32) return 1; }
        else if ((s[i] == ']' || s[i] == ')') && depth) depth--;
    }
    return 0;
}

static uint32_t word(Bytes at) { return at[0] | at[1] << 8 | at[2] << 16 | (uint32_t)at[3] << 24; }
static int sizes_wrong(size_t table, size_t text) { return !table || table % RECORD || table / RECORD > MOST_NODES || text > MOST_TEXT; }

// ---- each operation, called twice

static int printing, tallying;
static void hex(Bytes bytes, size_t n) {
    printf(" ");
    for (size_t i = 0; i < n; i++) printf("%02x", bytes[i]);
    if (!n) printf("-");
}

typedef struct { uint32_t refusal; uint64_t first, second; } Answer;
static int same(Answer x, Answer y) { return x.refusal == y.refusal && x.first == y.first && x.second == y.second; }

static void begin(int operation, int pass, size_t a, size_t b, size_t c) {
    call.operation = operation, call.inputs = 0, call.more[0] = a, call.more[1] = b, call.more[2] = c;
    fill = pass ? (uint8_t)~fill : (uint8_t)next();
}
static uint64_t *number(Region *r, int behind) { return (uint64_t *)room(r, 8, behind); }
static Answer answered(uint32_t refusal, uint64_t *first, uint64_t *second, int behind) {
    counts[call.operation][refusal < 22 ? refusal : 21]++;
    CHECK(kept(&first_out, 8, 0, 8, behind) && kept(&second_out, 8, 0, 8, behind));
    return (Answer){refusal, first ? *first : 0, second ? *second : 0};
}

// Compile. What is written goes to `plan_kept` and `pool_kept`.
static uint8_t plan_kept[65536], pool_kept[65536];
static Answer compile(Bytes q, size_t n, size_t plan_room, size_t pool_room) {
    Answer was = {0, 0, 0};
    for (int pass = 0; pass < 2; pass++) {
        begin(COMPILE, pass, plan_room, pool_room, 0);
        Bytes in = lend(&query_in, "query", q, n, pass);
        uint8_t *plan = room(&plan_out, plan_room, pass), *pool = room(&pool_out, pool_room, pass);
        uint64_t *a = number(&first_out, pass), *b = number(&second_out, pass);
        Answer r = answered(stewpebble_compile(in, n, plan, plan_room, pool, pool_room, a, b), a, b, pass);
        if (!r.refusal && (r.first > plan_room || r.second > pool_room)) { report("a length beyond its room"); return r; }
        size_t wrote = r.refusal ? 0 : r.first, pooled = r.refusal ? 0 : r.second;
        CHECK(kept(&plan_out, plan_room, 0, wrote, pass) && kept(&pool_out, pool_room, 0, pooled, pass));
        if (pass) CHECK(same(r, was) && !memcmp(plan, plan_kept, wrote) && !memcmp(pool, pool_kept, pooled));
        else memcpy(plan_kept, plan, wrote), memcpy(pool_kept, pool, pooled);
        was = r;
    }
    uint32_t early = n > 4096 ? 1 : !is_utf8(q, n) ? 2 : brackets_pass(q, n) ? 3 : 0;
    if (early) CHECK(was.refusal == early);
    else CHECK(was.refusal == 0 || (was.refusal >= 4 && was.refusal <= 8 && was.refusal != 7) || was.refusal == 12);
    if (was.refusal == 12) CHECK(was.first > plan_room || was.second > pool_room);
    else if (was.refusal) CHECK(was.first == 0 && was.second == 0);
    if (!was.refusal) CHECK(was.first >= 2);
    CHECK(was.first <= STEWPEBBLE_PLAN_ROOM(n) && was.second <= n);
    return was;
}

// Tally, of a plan of which plan check says what is given. The items are walked over here once more. Counts begin at 0, at chance, or at the limit.
static const uint64_t MOST_COUNT = 9007199254740991;
static size_t body_length(uint8_t kind) {
    switch (kind) {
    case 0x03: case 0x04: case 0x09: case 0x16: case 0x17: return 2;
    case 0x05: case 0x12: return 4;
    case 0x06: case 0x10: case 0x11: return 8;
    case 0x07: return 25;
    case 0x13: case 0x14: return 1;
    default: return 0;
    }
}
static void tally(Bytes p, size_t n, Bytes o, size_t m, uint32_t checked) {
    uint64_t before[256], after[256], plans = one_in(9) ? MOST_COUNT - below(2) : below(5);
    int limit = one_in(5);
    for (int k = 0; k < 256; k++) before[k] = after[k] = limit ? MOST_COUNT - below(4) : one_in(3) ? below(1000) : 0;
    if (limit && one_in(2)) before[below(256)] = after[below(256)] = next();
    if (limit) memcpy(after, before, sizeof after);
    uint32_t want = checked;
    if (!checked) {
        int passes = plans >= MOST_COUNT;
        for (size_t at = 0; at < n; at += 1 + body_length(p[at])) after[p[at]]++;
        for (int k = 0; k < 256; k++) passes |= after[k] > MOST_COUNT || after[k] < before[k];
        if (passes) want = 21;
    }
    for (int pass = 0; pass < 2; pass++) {
        begin(TALLY, pass, plans, limit, 0);
        Bytes plan = lend(&plan_in, "plan", p, n, pass), pool = lend(&pool_in, "pool", o, m, pass);
        uint64_t *kinds = (uint64_t *)room(&counts_out, 2048, pass), *taken = number(&first_out, pass);
        memcpy(kinds, before, 2048), *taken = plans;
        uint32_t r = stewpebble_tally(plan, n, pool, m, kinds, taken);
        counts[TALLY][r < 22 ? r : 16]++;
        CHECK(r == want && *taken == plans + !r && !memcmp(kinds, r ? before : after, 2048));
        CHECK(kept(&counts_out, 2048, 0, 2048, pass) && kept(&first_out, 8, 0, 8, pass));
    }
}

static uint32_t check_plan(Bytes p, size_t n, Bytes o, size_t m) {
    uint32_t was = 0;
    for (int pass = 0; pass < 2; pass++) {
        begin(PLAN, pass, 0, 0, 0);
        Bytes plan = lend(&plan_in, "plan", p, n, pass), pool = lend(&pool_in, "pool", o, m, pass);
        uint32_t r = stewpebble_check_plan(plan, n, pool, m);
        counts[PLAN][r < 16 ? r : 16]++;
        if (pass) CHECK(r == was);
        was = r;
    }
    CHECK(was == 0 || was == 11);
    if (n > 65535 || m > 65535) CHECK(was == 11);
    if (tallying) tally(p, n, o, m, was);
    return was;
}

// A check of a table: its records alone, its texts and keys alone, or both.
static Answer check_by(int operation, Bytes t, size_t n, Bytes x, size_t m) {
    Answer was = {0, 0, 0};
    for (int pass = 0; pass < 2; pass++) {
        begin(operation, pass, 0, 0, 0);
        Bytes table = lend(&table_in, "table", t, n, pass), text = lend(&text_in, "text", x, m, pass);
        uint64_t *a = number(&first_out, pass);
        room(&second_out, 8, pass);
        uint32_t refusal = operation == RECORDS ? stewpebble_check_records(table, n, text, m, a)
                           : operation == TEXTS ? stewpebble_check_texts(table, n, text, m, a) : stewpebble_check_table(table, n, text, m, a);
        Answer r = answered(refusal, a, 0, pass);
        if (pass) CHECK(same(r, was));
        was = r;
    }
    uint32_t r = was.refusal;
    CHECK((r == 9) == sizes_wrong(n, m) && (r == 0 || r == 9 || (r == 10 && operation != TEXTS) || (r == 17 && operation != RECORDS)));
    CHECK(r == 10 || r == 17 ? was.first < n / RECORD : was.first == 0);
    if (printing) {
        printf(operation == RECORDS ? "records" : operation == TEXTS ? "texts" : "table");
        hex(t, n), hex(x, m), printf(" %u %llu\n", r, (unsigned long long)was.first);
    }
    return was;
}

// The pair, beside both checks alone: it is the first, and where that accepts the second.
static Answer check_table(Bytes t, size_t n, Bytes x, size_t m) {
    Answer both = check_by(TABLE, t, n, x, m), records = check_by(RECORDS, t, n, x, m), texts = check_by(TEXTS, t, n, x, m);
    CHECK(same(both, records.refusal ? records : texts));
    return both;
}

// Run of a plan, or select where `q` is given. The places written go to `listed`, and their number to `places`.
static uint32_t listed[MOST_NODES + 64];
static size_t places;
static Answer run(Bytes q, size_t qn, Bytes p, size_t pn, Bytes o, size_t on, Bytes t, size_t n, Bytes x, size_t m, size_t length, size_t start) {
    Answer was = {0, 0, 0};
    for (int pass = 0; pass < 2; pass++) {
        begin(q ? SELECT : RUN, pass, length, start, 0);
        Bytes query = 0, plan = 0, pool = 0;
        if (q) query = lend(&query_in, "query", q, qn, pass);
        else plan = lend(&plan_in, "plan", p, pn, pass), pool = lend(&pool_in, "pool", o, on, pass);
        Bytes table = lend(&table_in, "table", t, n, pass), text = lend(&text_in, "text", x, m, pass);
        uint8_t *list = room(&list_out, 4 * length, pass);
        uint64_t *a = number(&first_out, pass), *b = number(&second_out, pass);
        uint32_t number = q ? stewpebble_select(query, qn, table, n, text, m, (uint32_t *)list, length, start, a, b)
                            : stewpebble_run(plan, pn, pool, on, table, n, text, m, (uint32_t *)list, length, start, a, b);
        Answer r = answered(number, a, b, pass);
        size_t left = start <= length ? length - start : 0;
        if (r.refusal == 0 && r.first > left) { report("a count beyond the places"); return r; }
        places = r.refusal == 0 ? r.first : r.refusal == 13 ? left : 0;
        size_t from = places ? start : 0;
        CHECK(kept(&list_out, 4 * length, 4 * from, 4 * (from + places), pass));
        if (pass) CHECK(same(r, was) && !memcmp(list + 4 * from, listed, 4 * places));
        else if (places) memcpy(listed, list + 4 * from, 4 * places);
        was = r;
    }
    uint32_t r = was.refusal;
    CHECK(r == 0 || r == 9 || r == 10 || r == 17 || r == 13 || r == 14 || (q ? r <= 8 && r != 7 : r == 11));
    if (r) CHECK(was.first == 0);
    if (r != 10 && r != 17) CHECK(was.second == 0);
    for (size_t i = 0; i < places; i++) CHECK(listed[i] < n / RECORD);
    if (printing) {
        printf(q ? "select" : "run");
        for (int i = 0; i < call.inputs; i++) hex(call.input[i].at, call.input[i].length);
        printf(" %zu %zu %u %llu %llu", length, start, r, (unsigned long long)was.first, (unsigned long long)was.second);
        for (size_t i = 0; i < places; i++) printf(" %u", listed[i]);
        printf("\n");
    }
    return was;
}

// Text or key of a node, beside what the record says.
static void part_of_node(int operation, Bytes t, size_t n, Bytes x, size_t m, size_t node, Answer table_answer) {
    Answer was = {0, 0, 0};
    for (int pass = 0; pass < 2; pass++) {
        begin(operation, pass, node, 0, 0);
        Bytes table = lend(&table_in, "table", t, n, pass), text = lend(&text_in, "text", x, m, pass);
        uint64_t *a = number(&first_out, pass), *b = number(&second_out, pass);
        Answer r = answered((operation == TEXT ? stewpebble_text_of_node : stewpebble_key_of_node)(table, n, text, m, node, a, b), a, b, pass);
        if (pass) CHECK(same(r, was));
        was = r;
    }
    if (printing) {
        printf(operation == TEXT ? "text" : "key");
        hex(t, n), hex(x, m), printf(" %zu %u %llu %llu\n", node, was.refusal, (unsigned long long)was.first, (unsigned long long)was.second);
    }
    if (table_answer.refusal) {
        CHECK(was.refusal == table_answer.refusal && was.first == 0 && was.second == 0);
        return;
    }
    int has = 0;
    if (node < n / RECORD && operation == TEXT) has = t[RECORD * node] == 5;
    if (node < n / RECORD && operation == KEY)
        for (size_t i = 0; i < node; i++)
            has |= t[RECORD * i] == 7 && word(t + RECORD * i + 16) <= node && node - word(t + RECORD * i + 16) < word(t + RECORD * i + 20);
    if (!has) {
        CHECK(was.refusal == 15 && was.first == 0 && was.second == 0);
        return;
    }
    Bytes record = t + RECORD * node + (operation == TEXT ? 16 : 4);
    CHECK(was.refusal == 0 && was.first == word(record) && was.second == word(record + 4));
    CHECK(was.first <= m && was.second <= m - was.first);
    if (was.first <= m && was.second <= m - was.first) CHECK(is_utf8(x + was.first, was.second));
}

// Path of a node, in a room of a length. A path that compiles is asked as a query, and selects that node alone. The answer has the length needed.
static uint8_t path_kept[65536];
static size_t path_of_node(Bytes t, size_t n, Bytes x, size_t m, size_t node, size_t length, Answer table_answer) {
    Answer was = {0, 0, 0};
    for (int pass = 0; pass < 2; pass++) {
        begin(PATH, pass, node, length, 0);
        Bytes table = lend(&table_in, "table", t, n, pass), text = lend(&text_in, "text", x, m, pass);
        uint8_t *path = room(&plan_out, length, pass);
        uint64_t *a = number(&first_out, pass), *b = number(&second_out, pass);
        Answer r = answered(stewpebble_path_of_node(table, n, text, m, node, path, length, a, b), a, b, pass);
        if (!r.refusal && r.first > length) { report("a length beyond its room"); return 0; }
        size_t wrote = r.refusal ? 0 : r.first;
        CHECK(kept(&plan_out, length, 0, wrote, pass));
        if (pass) CHECK(same(r, was) && !memcmp(path, path_kept, wrote));
        else memcpy(path_kept, path, wrote);
        was = r;
    }
    if (printing) {
        printf("path");
        hex(t, n), hex(x, m), printf(" %zu %zu %u %llu %llu", node, length, was.refusal, (unsigned long long)was.first, (unsigned long long)was.second);
        hex(path_kept, was.refusal ? 0 : was.first), printf("\n");
    }
    if (table_answer.refusal) {
        CHECK(was.refusal == table_answer.refusal && was.first == 0 && was.second == table_answer.first);
        return 0;
    }
    CHECK(was.second == 0);
    if (node >= n / RECORD) {
        CHECK(was.refusal == 15 && was.first == 0);
        return 0;
    }
    CHECK(was.first > 0 && was.refusal == (was.first > length ? 16 : 0));
    if (!was.refusal && was.first <= 4096) {
        Answer r = run(path_kept, was.first, 0, 0, 0, 0, t, n, x, m, 2, 0);
        CHECK(r.refusal == 0 && r.first == 1 && listed[0] == node);
    }
    return was.first;
}

// ---- structured queries

typedef struct { size_t n; uint8_t at[70000]; } Buffer;
static Buffer query, table, text, plan, pool;

static void put(Buffer *b, const char *s) { while (*s && b->n < 60000) b->at[b->n++] = (uint8_t)*s++; }
static void say(const char *s) { put(&query, s); }
static void blank(void) { if (one_in(14)) say((const char *[]){" ", "\t", "\n", "\r", "  "}[below(5)]); }
#define ANY(...) ((const char *[]){__VA_ARGS__}[below(sizeof((const char *[]){__VA_ARGS__}) / sizeof(char *))])

// ---- expressions of match and search

static Buffer expression;
static void tell(const char *s) { put(&expression, s); }
static void alternatives(int depth);
static void piece(int depth) {
    switch (below(depth > 0 ? 9 : 7)) {
    case 0: tell("."); break;
    case 1: tell(ANY("[ab]", "[^a]", "[a-c]", "[^a-z]", "[-a]", "[a-]", "[^-]", "[é-ü]", "[\\n\\]]", "[b-a]", one_in(3) ? ANY("[+--]", "[]", "[^]", "[a-b-c]", "[[]") : "[b-d]")); break;
    case 2: tell(one_in(5) ? ANY("\\d", "\\$", "\\p{L}", "\\") : ANY("\\.", "\\n", "\\\\", "\\(", "\\^", "\\|", "\\-")); break;
    case 7: case 8: tell("("), alternatives(depth - 1), tell(")"); break;
    default: tell(ANY("a", "b", "c", "d", "a", "b", "é", "\xf0\x9f\x98\x80", "ab", "^", "$", "-", " "));
    }
    if (one_in(3)) tell(one_in(12) ? ANY("{65}", "{1", "**", "+?", "{,2}", "{64}", "{0,64}", "{63,}") : ANY("*", "+", "?", "*", "{2}", "{1,}", "{0,3}", "{2,1}", "{0}", "{3,5}"));
}
static void alternatives(int depth) {
    for (size_t k = below(4); k; k--) piece(depth);
    while (one_in(4)) {
        tell("|");
        for (size_t k = below(3); k; k--) piece(depth);
    }
}
static void damage(Buffer *b);
static void make_expression(void) {
    expression.n = 0;
    // one that is about as long as an expression may be
    if (one_in(80)) for (size_t most = 1000 + below(50); expression.n < most;) piece(0);
    else alternatives((int)below(4));
    if (one_in(8)) damage(&expression);
    if (expression.n > 1500) expression.n = 1500;
}
// The bytes as a literal of the query.
static void literal_of(const Buffer *b) {
    const char *quote = ANY("'", "\"");
    say(quote);
    for (size_t i = 0; i < b->n; i++) {
        char shown[8] = {(char)b->at[i], 0};
        if (b->at[i] < 32) snprintf(shown, sizeof shown, "\\u%04x", b->at[i]);
        else if (b->at[i] == '\\' || b->at[i] == (uint8_t)quote[0]) shown[0] = '\\', shown[1] = (char)b->at[i], shown[2] = 0;
        say(shown);
    }
    say(quote);
}

static void name(void) { say(ANY("a", "b", "c", "d", "a", "b", "é", "ab", "_1", "true", "in")); }
static void quoted(void) {
    const char *quote = ANY("'", "\"");
    say(quote);
    for (size_t k = one_in(12) ? 0 : one_in(8) ? 3 : 1; k; k--)
        say(one_in(6) ? ANY("\\n", "\\\\", "\\/", "\\u0061", "\\u00E9", "\\uD83D\\uDE00", "\\b", " ", "[", "\\u0000", quote[0] == '"' ? "\\\"" : "\\'")
            : one_in(60) ? ANY("\\uD800", "\\x", "\\'", "\\\"", "\n", "\\uDC00\\uD800")
                         : ANY("a", "b", "c", "d", "é", "ab", "\xf0\x9f\x98\x80"));
    say(quote);
}
static void integer(void) {
    say(one_in(60) ? ANY("9007199254740991", "-9007199254740991", "9007199254740992", "-9007199254740992", "-0", "01", "99999999999999999999999")
                   : ANY("0", "1", "2", "3", "-1", "-2", "-3", "7", "-9"));
}
static void logical(int depth);
static void selector(int depth) {
    switch (below(depth > 0 ? 9 : 5)) {
    case 0: case 1: quoted(); break;
    case 2: say("*"); break;
    case 3: integer(); break;
    case 4:
        if (one_in(2)) integer();
        blank(), say(":"), blank();
        if (one_in(2)) integer();
        if (one_in(2)) { blank(), say(":"), blank(); if (!one_in(3)) integer(); }
        break;
    default: say("?"), blank(), logical(depth - 1);
    }
}
static void segments(int depth, int singular) {
    for (size_t k = one_in(5) ? 0 : 1 + below(depth > 1 ? 3 : 2); k; k--) {
        blank();
        if (singular) {
            if (one_in(2)) say("."), name();
            else say("["), one_in(2) ? quoted() : integer(), say("]");
            continue;
        }
        switch (below(8)) {
        case 0: case 1: say("."), name(); break;
        case 2: say(".*"); break;
        case 3: say(".."), one_in(2) ? name() : say("*"); break;
        case 4: if (one_in(2)) say(".."); /* fall through */
        default:
            say("["), blank(), selector(depth), blank();
            while (one_in(4)) say(","), blank(), selector(depth), blank();
            say("]");
        }
    }
}
static void path(int depth, int singular) { say(one_in(3) ? "$" : "@"), segments(depth, singular); }
static void function(int depth);
static void literal(void) {
    switch (below(5)) {
    case 0: quoted(); break;
    case 1: say(ANY("true", "false", "null")); break;
    case 2: say(ANY("1.5", "1e22", "-0.0", "20.0", "1E-3", "0.1", "9007199254740993", "-9223372036854775808", "9223372036854775808", "1e23", "3e-324", "9007199254740993.0", "12345678901234567e-300")); break;
    case 3: if (one_in(12)) { say(ANY("1e309", "10000000000000000000", "0e309", "1e-343", "1797693134862315808e290", "01", "1.")); break; } /* fall through */
    default: say(ANY("0", "1", "2", "3", "10", "-1", "-0"));
    }
}
static void comparable(int depth) {
    size_t k = below(8);
    if (k < 3) literal();
    else if (k < 7 || depth < 1) path(0, !one_in(40));
    else function(depth - 1);
}
static void function(int depth) {
    int odd = one_in(25);
    const char *f = odd ? ANY("foo", "match", "search", "in", "count", "length", "value") : ANY("count", "length", "value");
    say(f), say("("), blank();
    if (odd && (f[0] == 'm' || f[0] == 's') && one_in(2)) comparable(0), say(","), comparable(0);
    else if (odd) for (size_t k = below(3) + !one_in(5); k; k--) one_in(2) ? comparable(depth) : logical(depth - 1), say(k > 1 ? "," : "");
    else if (f[0] == 'l') comparable(depth);
    else if (one_in(10)) say("("), path(depth, 0), say(")");
    else path(depth, 0);
    blank(), say(")");
}
// match or search, with an expression that is a literal, or whatever may be compared
static void expression_test(int depth) {
    if (one_in(3)) say("!"), blank();
    say(ANY("match", "search")), say("("), blank();
    if (one_in(5)) comparable(depth);
    else say(ANY("@", "@", "@", "@.a", "$[0]", "value(@.*)", "value($..b)"));
    blank(), say(","), blank();
    if (one_in(5)) comparable(depth);
    else if (one_in(4)) say(ANY("@", "@.a", "$[1]", "$.b", "value(@..*)"));
    else make_expression(), literal_of(&expression);
    blank(), say(")");
}
static void basic(int depth) {
    size_t k = below(10);
    if (one_in(6)) { expression_test(depth); return; }
    if (k == 0 && depth > 0) {
        if (one_in(2)) say("!"), blank();
        say("("), blank(), logical(depth - 1), blank(), say(")");
    } else if (k < 6) {
        comparable(depth), blank(), say(ANY("==", "!=", "<", "<=", ">", ">=")), blank(), comparable(depth);
    } else if (k == 6 && depth > 0) {
        if (one_in(8)) { say(ANY("match(@)", "!search(@.*, \"a\")", "match(@,'a')==true", "search(match(@,@),'a')", "foo()", "count()==1", "length(@.*)==0")); return; }
        // a function alone is refused 5, with `!` before it or without
        if (one_in(20)) { if (one_in(2)) say("!"), blank(); function(depth - 1); return; }
        function(depth - 1), blank(), say(ANY("==", "!=", "<", "<=", ">", ">=")), blank(), comparable(depth);
    } else {
        if (one_in(4)) say("!"), blank();
        path(depth, 0);
    }
}
static void logical(int depth) {
    basic(depth);
    while (one_in(4)) blank(), say(ANY("&&", "||")), blank(), basic(depth);
}
static void make_query(void) {
    query.n = 0, say("$");
    // about as long as a query may be
    if (one_in(100)) { for (size_t most = 3000 + below(1300); query.n < most;) segments(1, 0); return; }
    if (one_in(10)) { say(ANY("[?", "..[?", ".*[?", "[?@.a&&", "[?$.b||")), expression_test(1), say("]"); return; }
    if (!one_in(60)) { segments((int)below(5), 0); return; }
    // brackets about as deep as they may be
    size_t deep = 29 + below(6);
    const char *opened = ANY("[?@", "[?$", "[?(@", "[?!(@", "[?@||@&&!@", "[?count(@", "[?length(@", "['a']");
    for (size_t i = 0; i < deep; i++) {
        say(opened);
        if (strchr(opened, '(')) i++;
    }
    for (size_t i = 0; i < deep; i++) {
        say(opened[2] == 'c' || opened[2] == 'l' ? ")==0]" : strchr(opened, '(') ? ")]" : opened[1] == '?' ? "]" : ".a");
        if (strchr(opened, '(')) i++;
    }
}

// ---- damage

static Buffer stock[8];
static void damage(Buffer *b) {
    static Buffer other;
    for (size_t k = 1 + below(3); k; k--) {
        size_t from = below(b->n), length = one_in(3) ? below(b->n - from + 1) : below(b->n - from < 6 ? b->n - from + 1 : 6);
        switch (below(6)) {
        case 0: if (b->n) b->at[from] ^= (uint8_t)(1 << below(8)); break;
        case 1: if (b->n) b->at[from] = one_in(3) ? (uint8_t)next() : b->at[below(b->n)]; break;
        case 2: memmove(b->at + from, b->at + from + length, b->n - from - length), b->n -= length; break;
        case 3: b->n = one_in(4) ? from : b->n - (b->n > 0); break;
        default: {
            Buffer *source = one_in(2) ? b : &stock[below(8)];
            size_t start = below(source->n), size = below(source->n - start + 1), times = one_in(4) ? 1 + below(8) : 1;
            if (size > 300) size = 300;
            memcpy(other.at, source->at + start, size);
            for (; times && b->n + size < 6000; times--)
                memmove(b->at + from + size, b->at + from, b->n - from), memcpy(b->at + from, other.at, size), b->n += size;
        }
        }
    }
}
static void keep_some(Buffer *b) {
    if (!one_in(5) || b->n > 2000) return;
    Buffer *kept_one = &stock[below(8)];
    memcpy(kept_one->at, b->at, b->n), kept_one->n = b->n;
}
static void random_bytes(Buffer *b, size_t most) {
    b->n = below(most + 1);
    for (size_t i = 0; i < b->n; i++) b->at[i] = (uint8_t)next();
}

// ---- structured tables

// A record is written as the published header lays it out; what is read of it above is said apart.
typedef struct stewpebble_record Node;
static void record(uint8_t *base, size_t i, Node r) { memcpy(base + RECORD * i, &r, RECORD); }
static void list_node(uint8_t *base, size_t i, uint32_t depth, uint32_t parent, uint32_t first, size_t count) {
    record(base, i, (Node){.kind = STEWPEBBLE_LIST, .depth = (uint8_t)depth, .parent = parent, .value.children = {first, (uint32_t)count}});
}
static void text_node(uint8_t *base, size_t i, int depth, size_t start, size_t length) {
    record(base, i, (Node){.kind = STEWPEBBLE_TEXT, .depth = (uint8_t)depth, .value.part = {(uint32_t)start, (uint32_t)length}});
}

static size_t widest;
static void make_table(size_t nodes) {
    static const char letters[] = "abcdefghijklmnopqrstuvwxyzé\xf0\x9f\x98\x80\xff";
    static uint8_t depth[256];
    static uint8_t member[256], parent[256];
    text.n = 0, put(&text, letters), widest = 0;
    // some texts are expressions
    static uint32_t starts[4], sizes[4];
    size_t expressions = 0;
    for (size_t k = below(5); k; k--) {
        make_expression();
        if (!is_utf8(expression.at, expression.n) || expression.n > 60) continue;
        memcpy(text.at + text.n, expression.at, expression.n);
        starts[expressions] = (uint32_t)text.n, sizes[expressions++] = (uint32_t)expression.n, text.n += expression.n;
    }
    size_t used = 1, deep = one_in(4);
    depth[0] = member[0] = parent[0] = 0;
    for (size_t i = 0; i < used; i++) {
        size_t left = nodes - used, kind = below(8), children = 0;
        if (left && i + 1 == used) kind = 6 + below(2);
        if (kind >= 6 && left && depth[i] < 63) children = deep ? 1 + (size_t)(left > 1 && one_in(6)) : below(left < 9 ? left + 1 : 9);
        if (kind >= 6 && left && !children && i + 1 == used && depth[i] < 63) children = 1;
        if (children > widest) widest = children;
        uint32_t low = 0, high = 0, key = 0, key_length = 0;
        switch (kind) {
        case 3: low = (uint32_t)below(4); if (one_in(6)) low = (uint32_t)-1, high = low; else if (one_in(8)) low = 1, high = 1 << 21; break;
        case 4: high = one_in(2) ? 0x3FF00000 : one_in(2) ? 0x80000000 : (uint32_t)next() & 0xBFFFFFFF; low = one_in(3) ? (uint32_t)next() : 0; break;
        case 5:
            low = (uint32_t)(one_in(6) ? 26 : below(26));
            high = (uint32_t)(low == 26 ? 2 : low == 25 ? 1 : one_in(6) ? 0 : one_in(4) && low < 20 ? 3 + below(5) : 1 + below(2));
            if (expressions && one_in(4)) { size_t k = below(expressions); low = starts[k], high = sizes[k]; }
            break;
        case 6: case 7: low = children ? (uint32_t)used : 0, high = (uint32_t)children;
        }
        // A member's key starts at one of the first 27 letters, each at another.
        if (member[i]) key = member[i] % 27u, key_length = key == 26 || one_in(3) ? 2 : 1;
        record(table.at, i, (Node){.kind = (uint8_t)kind, .depth = depth[i], .key_start = key, .key_length = key_length, .parent = parent[i], .value.part = {low, high}});
        for (size_t k = 0; k < children; k++) {
            depth[used + k] = (uint8_t)(depth[i] + 1);
            parent[used + k] = (uint8_t)i;
            member[used + k] = (uint8_t)(kind != 7 ? 0 : k == 4 && one_in(3) ? 53 : 27 + k + (one_in(9) ? 17 - 2 * k : 0));
        }
        used += children;
    }
    table.n = RECORD * used;
}

// How many steps a run of an accepted plan may take on a table of n nodes, at most w of them siblings.
static size_t at;
static double steps(Bytes p, double n, double w, double *reached) {
    double reach = 1, work = 1;
    for (at++; p[at] != 0x0A;) {
        int descendant = p[at] == 4, selectors = p[at + 1] | p[at + 2] << 8;
        double found = 0, tried = 0, inner;
        for (at += 3; selectors; selectors--)
            switch (p[at]) {
            case 5: at += 5, found++, tried += w; break;
            case 6: at += 9, found++, tried++; break;
            case 7: at += 26, found += w, tried += w; break;
            case 8: at += 1, found += w, tried += w; break;
            default: {
                size_t end = at + 3 + (p[at + 1] | p[at + 2] << 8);
                double code = 1;
                static const uint8_t bodies[32] = {[0x10] = 8, 8, 4, 1, 1, 0, 2, 2};
                for (at += 3; at < end;)
                    if (p[at] <= 2) code += steps(p, n, w, &inner) + inner; else code += p[at] == 0x1C || p[at] == 0x1D ? n + 100 : n, at += 1 + bodies[p[at] & 31];
                found += w, tried += w * code;
            }
            }
        if (descendant) reach *= n;
        work += reach * tried + reach, reach *= found;
    }
    at++;
    *reached = reach;
    return work;
}

// ---- a round

static size_t query_kinds[3], with_expressions;
static int calls_expression(Bytes p, size_t n) {
    for (size_t i = 0; i < n; i += 1 + body_length(p[i])) if (p[i] == 0x1C || p[i] == 0x1D) return 1;
    return 0;
}
static void lists(Bytes q, size_t qn, Bytes p, size_t pn, Bytes o, size_t on, uint32_t refused, Answer checked) {
    Bytes t = table.at, x = text.at;
    size_t n = table.n, m = text.n, start = one_in(3) ? below(9) : 0;
    static uint32_t all[PLACES + 64];
    Answer r = run(q, qn, p, pn, o, on, t, n, x, m, PLACES + start, start);
    size_t many = places;
    memcpy(all, listed, 4 * many);
    uint32_t first = refused ? refused : checked.refusal;
    if (first) {
        CHECK(r.refusal == first && r.second == (first == 10 || first == 17 ? checked.first : 0));
        Answer s = run(q, qn, p, pn, o, on, t, n, x, m, 2, 3);
        CHECK(same(r, s));
        return;
    }
    CHECK(r.refusal == 0 || r.refusal == 13);
    CHECK(run(q, qn, p, pn, o, on, t, n, x, m, start, start + 1 + (one_in(2) ? below(9) : (size_t)-2 - start)).refusal == 14);
    if (r.refusal == 0) {
        Answer s = run(q, qn, p, pn, o, on, t, n, x, m, start + many, start);
        CHECK(same(r, s) && places == many && !memcmp(listed, all, 4 * many));
    }
    size_t fewer = r.refusal == 0 && one_in(2) ? many - 1 : below(many);
    if (many) {
        Answer s = run(q, qn, p, pn, o, on, t, n, x, m, start + fewer, start);
        CHECK(s.refusal == 13 && places == fewer && !memcmp(listed, all, 4 * fewer));
    }
}

static void tables(Bytes q, size_t qn, Bytes p, size_t pn, Bytes o, size_t on, uint32_t plan_refused, uint32_t query_refused, int both) {
    static const size_t sizes[] = {200, 60, 30, 20, 12, 8, 5, 3, 2, 1};
    size_t choice = below(9);
    double reach = 0;
    for (make_table(sizes[choice]); !plan_refused && choice < 9; make_table(sizes[++choice])) {
        at = 0;
        double work = steps(p, (double)table.n / RECORD, (double)widest, &reach);
        if (work + reach <= 3e4) break;
    }
    size_t kind = below(10);
    if (kind == 0) { random_bytes(&table, 100); if (one_in(2)) table.n = RECORD * (table.n / RECORD); }
    else if (kind <= 2) damage(one_in(4) ? &text : &table);
    else if (kind == 3) table.at[RECORD * below(table.n / RECORD) + below(RECORD)] = (uint8_t)(one_in(2) ? below(9) : next());
    Answer checked = check_table(table.at, table.n, text.at, text.n);
    // A damaged table that is still accepted has no more nodes than its bytes say, but perhaps more siblings.
    if (!plan_refused && !checked.refusal && kind <= 3) {
        at = 0;
        double work = steps(p, (double)table.n / RECORD, (double)table.n / RECORD, &reach);
        if (work + reach > 3e6) return;
    }
    static const size_t odd[] = {(size_t)-1, (size_t)1 << 32, ((size_t)1 << 32) + 1, (size_t)-1 / RECORD + 1};
    for (int k = 0; k < 2; k++) {
        size_t node = one_in(8) ? odd[below(4)] : below(table.n / RECORD + 2);
        part_of_node(TEXT, table.at, table.n, text.at, text.n, node, checked);
        part_of_node(KEY, table.at, table.n, text.at, text.n, node, checked);
        size_t needed = path_of_node(table.at, table.n, text.at, text.n, node, 0, checked);
        path_of_node(table.at, table.n, text.at, text.n, node, needed, checked);
        path_of_node(table.at, table.n, text.at, text.n, node, below(needed + 4), checked);
    }
    if (!both) { lists(0, 0, p, pn, o, on, plan_refused, checked); return; }
    lists(q, qn, 0, 0, 0, 0, query_refused, checked);
    if (query_refused) return;
    // The run of what compile wrote answers as select does.
    static uint32_t selected[PLACES + 64];
    size_t length = one_in(4) ? below(6) : PLACES, start = one_in(4) ? below(6) : 0;
    Answer s = run(q, qn, 0, 0, 0, 0, table.at, table.n, text.at, text.n, length, start);
    size_t many = places;
    memcpy(selected, listed, 4 * many);
    Answer r = run(0, 0, p, pn, o, on, table.at, table.n, text.at, text.n, length, start);
    CHECK(same(r, s) && places == many && !memcmp(selected, listed, 4 * many) && r.refusal != 11);
}

static void set(Buffer *b, Bytes bytes, size_t n) { memcpy(b->at, bytes, b->n = n); }

static void one_round(void) {
    size_t kind = below(10);
    if (kind == 0) {
        random_bytes(&query, one_in(50) ? 5000 : 40), query_kinds[0]++;
        if (one_in(2)) for (size_t i = 0; i < query.n; i++) query.at[i] = (uint8_t)"$@.[]*?:,0a'\"()=!<>&|1-\\ eé"[query.at[i] % 29];
    } else {
        make_query(), keep_some(&query), query_kinds[1]++;
        if (kind < 5) damage(&query), query_kinds[2]++, query_kinds[1]--;
    }
    Bytes q = query.at;
    size_t n = query.n, spare = below(3);
    Answer c = compile(q, n, n <= 4096 ? STEWPEBBLE_PLAN_ROOM(n) + spare : 50, n + spare);
    CHECK(c.refusal != 12);
    if (c.refusal) {
        Answer again = compile(q, n, below(3), below(3));
        CHECK(same(c, again));
        tables(q, n, 0, 0, 0, 0, 11, c.refusal, 1);
        random_bytes(&plan, 40), random_bytes(&pool, 4);
        if (one_in(2)) plan.at[0] = 1, plan.n += !plan.n, plan.at[plan.n - 1] = 10;
    } else {
        set(&plan, plan_kept, c.first), set(&pool, pool_kept, c.second);
        with_expressions += (size_t)calls_expression(plan.at, plan.n);
        size_t a = c.first, b = c.second;
        Answer exact = compile(q, n, a, b);
        CHECK(exact.refusal == 0 && same(c, exact) && !memcmp(plan.at, plan_kept, a) && !memcmp(pool.at, pool_kept, b));
        Answer less = compile(q, n, a - 1, b + spare);
        CHECK(less.refusal == 12 && less.first == a && less.second == b);
        less = compile(q, n, below(a), below(b + 1));
        CHECK(less.refusal == 12 && less.first == a && less.second == b);
        if (b) {
            less = compile(q, n, a + spare, b - 1);
            CHECK(less.refusal == 12 && less.first == a && less.second == b);
        }
        CHECK(check_plan(plan.at, a, pool.at, b) == 0);
        tables(q, n, plan.at, a, pool.at, b, 0, 0, 1);
        keep_some(&plan);
        if (one_in(4)) damage(&pool); else damage(&plan);
    }
    uint32_t r = check_plan(plan.at, plan.n, pool.at, pool.n);
    tables(0, 0, plan.at, plan.n, pool.at, pool.n, r, 0, 0);
}

// ---- the limits of document 01

static Buffer deep_plan, deep_pool;
static void *deepest(void *unused) {
    (void)unused;
    CHECK(check_plan(deep_plan.at, deep_plan.n, deep_pool.at, 0) == 0);
    Answer r = run(0, 0, deep_plan.at, deep_plan.n, deep_pool.at, 0, table.at, table.n, text.at, 0, 4, 0);
    CHECK(r.refusal == 0);
    return 0;
}

// The code of a query from `$` with 62 wildcards and n filters nested in it (bench/stack.c measures its stack).
static void nested(Buffer *b, int n) {
    uint8_t *p = b->at;
    static uint8_t *opened[256];
    for (int i = 0; i <= n; i++) {
        *p++ = 1;
        for (int k = 0; k < 62; k++) memcpy(p, "\3\1\0\10", 4), p += 4;
        if (i < n) memcpy(p, "\3\1\0\11", 4), opened[i] = p + 4, p += 6;
    }
    for (int i = n; i >= 0; i--) {
        *p++ = 10;
        if (i) *p++ = 0x18, opened[i - 1][0] = (uint8_t)(p - opened[i - 1] - 2), opened[i - 1][1] = (uint8_t)((p - opened[i - 1] - 2) >> 8);
    }
    b->n = (size_t)(p - b->at);
}

static void edges(void) {
    // lengths of a query
    query.n = 0, say("$.");
    while (query.n < 4097) say("a");
    CHECK(compile(query.at, 4096, STEWPEBBLE_PLAN_ROOM(4096), 4096).refusal == 0);
    CHECK(compile(query.at, 4097, STEWPEBBLE_PLAN_ROOM(4096), 4096).refusal == 1);
    // the longest plans that compile
    query.n = 0, say("$[:");
    while (query.n < 4095) say(",:");
    query.n = 4095, say("]");
    Answer c = compile(query.at, query.n, STEWPEBBLE_PLAN_ROOM(query.n), query.n);
    if (c.refusal) query.at[4094] = ' ', c = compile(query.at, query.n, STEWPEBBLE_PLAN_ROOM(query.n), query.n);
    CHECK(c.refusal == 0 && check_plan(plan_kept, c.first, pool_kept, c.second) == 0);
    // brackets, and the deepest form that compiles
    for (int n = 32; n <= 33; n++) {
        query.n = 0, say("$");
        for (int i = 0; i < n; i++) say("[?@||@&&!@");
        for (int i = 0; i < n; i++) say("]");
        c = compile(query.at, query.n, STEWPEBBLE_PLAN_ROOM(query.n), query.n);
        CHECK(c.refusal == (n == 32 ? 0 : 3));
        if (n == 32) CHECK(check_plan(plan_kept, c.first, pool_kept, c.second) == 0);
    }
    // depths of a table
    for (uint32_t i = 0; i < 64; i++) list_node(table.at, i, i, i ? i - 1 : 0, i + 1, 1);
    record(table.at, 64, (Node){.kind = STEWPEBBLE_INTEGER, .depth = 64, .parent = 63});
    Answer r = check_table(table.at, 65 * RECORD, text.at, 0);
    CHECK(r.refusal == 10 && r.first == 64);
    record(table.at, 63, (Node){.kind = STEWPEBBLE_INTEGER, .depth = 63, .parent = 62}), table.n = 64 * RECORD;
    CHECK(check_table(table.at, table.n, text.at, 0).refusal == 0);
    // the deepest queries, on this stack: 32 queries inside each other, each down to the last node by wildcards or by a descent
    for (int descents = 0; descents < 2; descents++) {
        query.n = 0;
        for (int i = 0; i < 32; i++) {
            say("$");
            for (int k = 0; k < 62 && !descents; k++) say(".*");
            if (descents) say(i < 31 ? "..[?@==0&&" : "..[?@==0&&$==$]");
            else if (i < 31) say("[?");
        }
        for (int i = 0; i < 31; i++) say("]");
        c = compile(query.at, query.n, STEWPEBBLE_PLAN_ROOM(query.n), query.n);
        CHECK(c.refusal == 0);
        set(&plan, plan_kept, c.first);
        r = run(0, 0, plan.at, plan.n, pool.at, 0, table.at, table.n, text.at, 0, 4, 0);
        CHECK(r.refusal == 0 && r.first == 1);
        r = run(query.at, query.n, 0, 0, 0, 0, table.at, table.n, text.at, 0, 4, 0);
        CHECK(r.refusal == 0 && r.first == 1);
    }
    // the deepest plan, on a thread with STEWPEBBLE_PLAN_STACK bytes of stack, and one that is too deep
    nested(&deep_plan, 128);
    pthread_attr_t attributes;
    pthread_t thread;
    pthread_attr_init(&attributes), pthread_attr_setstacksize(&attributes, STEWPEBBLE_PLAN_STACK);
    if (pthread_create(&thread, &attributes, deepest, 0) == 0) pthread_join(thread, 0);
    nested(&deep_plan, 129);
    CHECK(check_plan(deep_plan.at, deep_plan.n, pool.at, 0) == 11);
    // expressions about as long and as deep as they may be, as literals and in the table: 1,024 and 1,025 characters; 511 groups; 340 repeats inside each other
    for (int sort = 0; sort < 4; sort++) {
        expression.n = 0;
        for (int i = 0; i < (sort == 0 ? 1024 : sort == 1 ? 1025 : sort == 2 ? 511 : 340); i++) tell(sort < 2 ? "a" : "(");
        if (sort >= 2) tell("a");
        for (int i = 0; i < (sort == 2 ? 511 : sort == 3 ? 340 : 0); i++) tell(sort == 2 ? ")" : ")*");
        text.n = 0;
        while (text.n < (sort == 0 ? 1024u : sort == 1 ? 1025u : sort == 2 ? 1u : 6u)) text.at[text.n++] = 'a';
        list_node(table.at, 0, 0, 0, 1, 2), text_node(table.at, 1, 1, 0, text.n), text_node(table.at, 2, 1, text.n, expression.n);
        memcpy(text.at + text.n, expression.at, expression.n), text.n += expression.n, table.n = 3 * RECORD;
        for (int way = 0; way < 4; way++) {
            query.n = 0, say(way % 2 ? "$[?search($[0]," : "$[?match($[0],");
            if (way < 2) say("$[1]"); else literal_of(&expression);
            say(")]");
            r = run(query.at, query.n, 0, 0, 0, 0, table.at, table.n, text.at, text.n, 4, 0);
            CHECK(r.refusal == 0 && r.first == (sort == 1 ? 0 : 2));
        }
    }
    // lengths of plan and pool
    for (size_t n = 65535; n <= 65536; n++) {
        memset(plan.at, 8, n), memcpy(plan.at, "\1\3", 2), plan.at[2] = (uint8_t)(n - 5), plan.at[3] = (uint8_t)((n - 5) >> 8), plan.at[n - 1] = 10;
        CHECK(check_plan(plan.at, n, pool.at, 0) == (n == 65535 ? 0 : 11));
        memset(pool.at, 'a', n), memcpy(plan.at, "\1\3\1\0\5\0\0\xff\xff\12", 10);
        CHECK(check_plan(plan.at, 10, pool.at, n) == (n == 65535 ? 0 : 11));
    }
    // sizes of table and text
    uint8_t *big = calloc(MOST_NODES + 1, RECORD), *long_text = calloc(MOST_TEXT + 1, 1);
    for (size_t n = MOST_NODES; n <= MOST_NODES + 1; n++) {
        for (size_t i = 1; i < n; i++) record(big, i, (Node){.kind = STEWPEBBLE_INTEGER, .depth = 1, .value.integer = (int64_t)i});
        list_node(big, 0, 0, 0, 1, n - 1);
        r = check_table(big, RECORD * n, text.at, 0);
        CHECK(r.refusal == (n == MOST_NODES ? 0 : 9));
        static const uint8_t wild[] = "$[*]";
        r = run(wild, 4, 0, 0, 0, 0, big, RECORD * n, text.at, 0, MOST_NODES - 1, 0);
        CHECK(r.refusal == (n == MOST_NODES ? 0 : 9));
        if (!r.refusal) CHECK(r.first == MOST_NODES - 1 && listed[0] == 1 && listed[MOST_NODES - 2] == MOST_NODES - 1);
        r = run(wild, 4, 0, 0, 0, 0, big, RECORD * n, text.at, 0, MOST_NODES - 1, 1);
        CHECK(r.refusal == (n == MOST_NODES ? 13 : 9));
    }
    for (size_t n = 1024; n <= 1025; n++) {
        for (size_t i = 0; i < n; i++) {
            record(big, 1 + i, (Node){.kind = STEWPEBBLE_NULL, .depth = 1, .key_start = (uint32_t)(4 * i), .key_length = 4});
            snprintf((char *)text.at + 4 * i, 8, "%04zu", i);
        }
        record(big, 0, (Node){.kind = STEWPEBBLE_MAP, .value.children = {1, (uint32_t)n}}), text.n = 4 * n;
        r = check_table(big, RECORD * (n + 1), text.at, text.n);
        CHECK(r.refusal == (n == 1024 ? 0 : 10) && r.first == 0);
        for (size_t i = 0; i < 20; i++) part_of_node(KEY, big, RECORD * (n + 1), text.at, text.n, 53 * i, r);
        for (size_t length = 0; length < 12; length++) path_of_node(big, RECORD * (n + 1), text.at, text.n, n, length, r);
    }
    for (size_t n = MOST_TEXT; n <= MOST_TEXT + 1; n++) {
        text_node(big, 0, 0, 0, n);
        r = check_table(big, RECORD, long_text, n);
        CHECK(r.refusal == (n == MOST_TEXT ? 0 : 9));
        part_of_node(TEXT, big, RECORD, long_text, n, 0, r);
    }
    free(big), free(long_text);
}

// ---- all short queries, short plans, and changes of one byte

static void short_queries(size_t longest, int print) {
    static const char letters[] = "$@.[]*?:,0a'";
    for (size_t n = 0, all = 1; n <= longest; n++, all *= 12) {
        size_t accepted = 0;
        for (size_t code = 0; code < all; code++) {
            size_t rest = code;
            for (size_t i = 0; i < n; i++, rest /= 12) query.at[i] = (uint8_t)letters[rest % 12];
            Answer r = compile(query.at, n, STEWPEBBLE_PLAN_ROOM(n), n);
            CHECK(r.refusal == 0 || r.refusal == 4);
            accepted += !r.refusal;
            if (!print) { if (!r.refusal) CHECK(check_plan(plan_kept, r.first, pool_kept, r.second) == 0); continue; }
            printf("compile"), hex(query.at, n), printf(" %u", r.refusal);
            hex(plan_kept, r.first), hex(pool_kept, r.second), printf("\n");
        }
        if (!print) printf("queries of %zu bytes: %zu, accepted %zu\n", n, all, accepted);
    }
}

static void all_plans(const uint8_t *letters, size_t many, size_t from, size_t to) {
    size_t all = 1;
    for (size_t n = 0; n <= to; n++, all *= many) {
        if (n < from) continue;
        size_t accepted = 0;
        for (size_t code = 0; code < all; code++) {
            size_t rest = code;
            for (size_t i = 0; i < n; i++, rest /= many) plan.at[i] = letters ? letters[rest % many] : (uint8_t)(rest % many);
            accepted += !check_plan(plan.at, n, pool.at, 0);
        }
        printf("plans of %zu bytes over %zu bytes: %zu, accepted %zu\n", n, many, all, accepted);
    }
}

static void changed_plans(size_t many, int print) {
    size_t tried = 0, accepted = 0;
    for (size_t k = 0; k < many;) {
        make_query();
        Answer r = compile(query.at, query.n, STEWPEBBLE_PLAN_ROOM(query.n), query.n);
        if (r.refusal || r.first < 6 || r.first > 90) continue;
        k++, set(&plan, plan_kept, r.first), set(&pool, pool_kept, r.second);
        for (size_t i = 0; i < plan.n + pool.n; i++) {
            uint8_t *byte = i < plan.n ? plan.at + i : pool.at + (i - plan.n), was = *byte;
            for (int value = 0; value < 256; value++) {
                if (value == was) continue;
                *byte = (uint8_t)value;
                uint32_t refused = check_plan(plan.at, plan.n, pool.at, pool.n);
                tried++, accepted += !refused;
                if (print) printf("plan"), hex(plan.at, plan.n), hex(pool.at, pool.n), printf(" %u\n", refused);
                else if (!refused && one_in(8)) tables(0, 0, plan.at, plan.n, pool.at, pool.n, 0, 0, 0);
            }
            *byte = was;
        }
    }
    if (!print) printf("one-byte changes of %zu compiled plans: %zu, accepted %zu\n", many, tried, accepted);
}

// ---- the program

static int words;
static char **arguments;
static void *work(void *unused) {
    (void)unused;
    static uint8_t spare[65536];
    stack_t handler_stack = {.ss_sp = spare, .ss_size = sizeof spare}, stack_before;
    sigaltstack(&handler_stack, &stack_before);
    const char *what = words > 1 ? arguments[1] : "";
    size_t much = words > 2 ? strtoull(arguments[2], 0, 10) : 0;
    if (words > 3) seed = strtoull(arguments[3], 0, 10);
    state = seed * 0x9E3779B97F4A7C15u + 88172645463325252u;
    for (int i = 0; i < 8; i++) next();
    tallying = !strcmp(what, "random") || !strcmp(what, "edges");
    if (!strcmp(what, "list-rounds")) {
        printing = 1;
        for (round_number = 0; round_number < much; round_number++) one_round();
    } else if (!strcmp(what, "random")) {
        for (round_number = 0; round_number < much; round_number++) one_round();
        printf("%zu rounds, seed %llu; queries of random bytes %zu, structured %zu, damaged %zu; %zu compiled with match or search\n", much, (unsigned long long)seed,
               query_kinds[0], query_kinds[1], query_kinds[2], with_expressions);
    } else if (!strcmp(what, "edges")) edges();
    else if (!strcmp(what, "queries")) short_queries(much, 0);
    else if (!strcmp(what, "plans")) {
        static const uint8_t kinds[] = {0, 1, 2, 3, 4, 5, 6, 7, 8, 9, 10, 11, 15, 16, 17, 18, 19, 20, 21, 22, 23, 24, 25, 26, 27, 28, 29, 32, 128, 255};
        static const uint8_t few[] = {0, 1, 2, 3, 4, 5, 8, 9, 10, 24};
        all_plans(0, 256, 0, 3), all_plans(kinds, sizeof kinds, 4, 4), all_plans(few, sizeof few, 5, 7), changed_plans(200, 0);
    } else if (!strcmp(what, "list-queries")) short_queries(much, 1);
    else if (!strcmp(what, "list-plans")) changed_plans(much, 1);
    else { fprintf(stderr, "see the head of fuzz/fuzz.c\n"); exit(2); }
    sigaltstack(&stack_before, 0);
    return 0;
}

int main(int count, char **given) {
    words = count, arguments = given;
    region(&query_in, 70000), region(&plan_in, 70000), region(&pool_in, 70000), region(&table_in, RECORD * (MOST_NODES + 1)), region(&text_in, MOST_TEXT + 1);
    region(&plan_out, 70000), region(&pool_out, 70000), region(&list_out, 4 * MOST_NODES), region(&counts_out, 2048), region(&first_out, 8), region(&second_out, 8);
    struct sigaction act;
    memset(&act, 0, sizeof act);
    act.sa_handler = fault, act.sa_flags = SA_ONSTACK;
    int signals[] = {SIGSEGV, SIGBUS, SIGILL, SIGFPE, SIGTRAP, SIGABRT};
    for (int i = 0; i < 6; i++) sigaction(signals[i], &act, 0);
    pthread_attr_t attributes;
    pthread_t thread;
    pthread_attr_init(&attributes), pthread_attr_setstacksize(&attributes, STACK);
    if (pthread_create(&thread, &attributes, work, 0)) return 2;
    pthread_join(thread, 0);
    if (count > 1 && !strncmp(given[1], "list-", 5)) return wrongs != 0;
    for (int i = 0; i < OPERATIONS; i++) {
        unsigned long long all = 0;
        for (int k = 0; k < 22; k++) all += counts[i][k];
        if (!all) continue;
        printf("%-15s %10llu calls; 0: %llu", names[i], all, counts[i][0]);
        for (int k = 1; k < 22; k++) if (counts[i][k]) printf(", %d: %llu", k, counts[i][k]);
        printf("\n");
    }
    printf("%llu wrong\n", wrongs);
    return wrongs != 0;
}
