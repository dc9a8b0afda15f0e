// Nanoseconds per node of the table check, beside a bare pass that adds up the same bytes, those of the table and those of the text, in one run.
// The bare pass is made twice and timed the second time, so that each is timed with the table in the caches.
// Tables: many small maps; 63 maps of 1,024 members, with any keys, with keys of one bucket and with keys of one hash; one list of numbers; lists in lists,
// 60 levels deep; one list of texts, of 20 bytes each and of 2,000, in ASCII, in characters of two to four bytes, in Hangul, whose first bytes have bounds for the
// next one, and in mixed lengths; the texts of 20 bytes also in one list below the root and in lists of four; small maps with keys beyond ASCII.
// With -DBEFORE_W2 the tables are those of the library before W2: a record names no parent, and each byte behind the words of a key is hashed by itself.
#include "../include/stewpebble.h"
#include <stdio.h>
#include <stdlib.h>
#include <string.h>
#include <time.h>

enum { TEXT_ROOM = 1 << 20 };

static struct stewpebble_record table[STEWPEBBLE_MAX_NODES];
static uint8_t text[TEXT_ROOM];
static size_t nodes, text_length;

// A list or a map at a depth, with so many children from the first one on.
static struct stewpebble_record container(enum stewpebble_kind kind, size_t depth, size_t parent, size_t first, size_t count) {
    return (struct stewpebble_record){.kind = kind, .depth = depth, .parent = parent, .value.children = {first, count}};
}

static void list_at_root(size_t count) { table[0] = container(STEWPEBBLE_LIST, 0, 0, 1, count); }

enum { KEY = 6, LONG_KEY = 8 };

static size_t key_size = KEY;

static uint64_t mix(uint64_t hash, uint64_t word) { return (hash + word) * 1640531527 / 65536 % 4294967296; }

// The bucket of a key, as crates/table chooses it.
static uint64_t bucket(const char *key) {
    uint32_t word;
    memcpy(&word, key, 4);
    uint64_t hash = mix(0, word);
#ifndef BEFORE_W2
    memcpy(&word, key + KEY - 4, 4);
    hash = mix(hash, word);
#else
    for (int i = 4; i < KEY; i++) hash = mix(hash, key[i]);
#endif
    return (hash + hash / 65536) % 1024;
}

// Keys of six hexadecimal digits, end to end: the key of member k starts at 6 k. They are the first numbers, or the first of one bucket.
static void keys(size_t count, int one_bucket) {
    size_t k = 0;
    for (unsigned n = 0; k < count; n++) {
        char digits[16];
        snprintf(digits, sizeof digits, "%06x", n);
        if (one_bucket && bucket(digits)) continue;
        memcpy(text + KEY * k++, digits, KEY);
    }
    text_length = KEY * count;
    key_size = KEY;
}

// Keys of eight ASCII bytes that have one hash, and so share a bucket however many there are: the second word undoes what the first one did.
static void keys_of_one_hash(size_t count) {
    size_t k = 0;
    for (uint32_t n = 0; k < count; n++) {
        uint32_t first = (n & 127) | (n >> 7 & 127) << 8 | (n >> 14 & 127) << 16 | 0x20000000;
        uint32_t second = 0x50505050 - (uint32_t)mix(0, first);
        if (second & 0x80808080 || mix(0, first) + second != 0x50505050) continue;
        memcpy(text + LONG_KEY * k, &first, 4);
        memcpy(text + LONG_KEY * k++ + 4, &second, 4);
    }
    text_length = LONG_KEY * count;
    key_size = LONG_KEY;
}

// Keys of two characters of three bytes each.
static void keys_beyond_ascii(size_t count) {
    for (size_t k = 0; k < count; k++) {
        const uint8_t key[KEY] = {0xE4, 0xB8 + k / 64 / 64, 0x80 + k / 64 % 64, 0xE5, 0x80, 0x80 + k % 64};
        memcpy(text + KEY * k, key, KEY);
    }
    text_length = KEY * count;
    key_size = KEY;
}

// A list of `maps` maps with `members` integers each, whose keys are in `text`.
static void list_of_maps(size_t maps, size_t members) {
    list_at_root(maps);
    size_t next = 1 + maps;
    for (size_t m = 0; m < maps; m++) {
        table[1 + m] = container(STEWPEBBLE_MAP, 1, 0, next, members);
        for (size_t k = 0; k < members; k++)
            table[next + k] = (struct stewpebble_record){.kind = STEWPEBBLE_INTEGER, .depth = 2, .key_start = key_size * k, .key_length = key_size, .parent = 1 + m, .value.integer = k};
        next += members;
    }
    nodes = next;
}

static void list_of_numbers(size_t count) {
    text_length = 0;
    list_at_root(count);
    for (size_t k = 0; k < count; k++) table[1 + k] = (struct stewpebble_record){.kind = STEWPEBBLE_INTEGER, .depth = 1, .value.integer = k};
    nodes = 1 + count;
}

// A list of `width` lists, each of which holds one list, and so on for `levels` levels.
static void lists_in_lists(size_t width, size_t levels) {
    text_length = 0;
    list_at_root(width);
    for (size_t d = 0; d < levels; d++)
        for (size_t k = 0; k < width; k++) {
            size_t at = 1 + d * width + k;
            table[at] = container(STEWPEBBLE_LIST, 1 + d, d ? at - width : 0, d + 1 < levels ? at + width : 0, d + 1 < levels);
        }
    nodes = 1 + width * levels;
}

// What texts are filled with; behind whole characters, ASCII letters.
static const char *const fillings[] = {"a", "\xC3\xA9", "\xE6\xBC\xA2", "\xF0\x9F\x98\x80", "\xED\x95\x9C\xEA\xB8\x80 ", "a\xC3\xA9\xE6\xBC\xA2", "\xE6\xBC\xA2\xE5\xAD\x97\xF0\x9F\x98\x80"};

// Parts of `length` bytes, end to end, each of which holds so many of these characters, and else ASCII letters.
static void fill(size_t count, size_t length, const char *character, size_t times) {
    size_t size = strlen(character);
    memset(text, 'a', count * length);
    text_length = count * length;
    for (size_t k = 0; k < count; k++)
        for (size_t n = 0; n < times && (n + 1) * size <= length; n++) memcpy(text + k * length + n * size, character, size);
}

// A list of `count` texts of `length` bytes each.
static void list_of_texts(size_t count, size_t length, const char *character, size_t times) {
    fill(count, length, character, times);
    list_at_root(count);
    for (size_t k = 0; k < count; k++) table[1 + k] = (struct stewpebble_record){.kind = STEWPEBBLE_TEXT, .depth = 1, .value.part = {length * k, length}};
    nodes = 1 + count;
}

// A list of `lists` lists with `width` texts of `length` bytes each.
static void lists_of_texts(size_t lists, size_t width, size_t length, const char *character, size_t times) {
    size_t count = lists * width;
    fill(count, length, character, times);
    list_at_root(lists);
    for (size_t m = 0; m < lists; m++) table[1 + m] = container(STEWPEBBLE_LIST, 1, 0, 1 + lists + width * m, width);
    for (size_t k = 0; k < count; k++) table[1 + lists + k] = (struct stewpebble_record){.kind = STEWPEBBLE_TEXT, .depth = 2, .parent = 1 + k / width, .value.part = {length * k, length}};
    nodes = 1 + lists + count;
}

static double now(void) {
    struct timespec t;
    clock_gettime(CLOCK_PROCESS_CPUTIME_ID, &t);
    return t.tv_sec * 1e9 + t.tv_nsec;
}

static uint64_t bare(void) {
    uint64_t sum = 0, word;
    for (size_t i = 0; i < nodes * sizeof *table; i += 8) {
        memcpy(&word, stewpebble_records(table) + i, 8);
        sum += word;
    }
    for (size_t i = 0; i + 8 <= text_length; i += 8) {
        memcpy(&word, text + i, 8);
        sum += word;
    }
    return sum;
}

static void measure(const char *name) {
#ifdef BEFORE_W2
    for (size_t i = 0; i < nodes; i++) table[i].parent = 0;
#endif
    uint64_t node = 0;
    uint32_t refusal = stewpebble_check_table(stewpebble_records(table), nodes * sizeof *table, text, text_length, &node);
    if (refusal) {
        printf("%s: refused %u at %llu\n", name, refusal, (unsigned long long)node);
        exit(1);
    }
    double checked = 1e30, summed = 1e30;
    volatile uint64_t kept;
    for (int round = 0; round < 15; round++) {
        double a = now();
        kept = stewpebble_check_table(stewpebble_records(table), nodes * sizeof *table, text, text_length, &node);
        double b = now();
        kept = bare();
        double c = now();
        kept = bare();
        double d = now();
        if (b - a < checked) checked = b - a;
        if (d - c < summed) summed = d - c;
    }
    (void)kept;
    printf("%-36s %6zu nodes  check %8.2f ns/node  bare pass %6.2f ns/node  ratio %7.1f\n", name, nodes, checked / nodes, summed / nodes, checked / summed);
}

static const char *const names[] = {"ASCII", "two bytes", "three bytes", "four bytes", "Hangul", "one to three", "three and four"};

enum { FILLINGS = sizeof fillings / sizeof *fillings };

static const char *indented(size_t k) {
    static char name[40];
    snprintf(name, sizeof name, "  %s", names[k]);
    return name;
}

int main(void) {
    keys(1024, 0);
    list_of_maps(1999, 4);
    measure("maps of 4 members");
    list_of_maps(13106, 4);
    measure("maps of 4 members");
    list_of_maps(63, 1024);
    measure("63 maps of 1,024 members");
    keys(1024, 1);
    list_of_maps(63, 1024);
    measure("63 maps, keys of one bucket");
    keys_of_one_hash(1024);
    list_of_maps(63, 1024);
    measure("63 maps, keys of one hash");
    list_of_numbers(9999);
    measure("one list of numbers");
    list_of_numbers(65534);
    measure("one list of numbers");
    lists_in_lists(1000, 60);
    measure("lists in lists, 60 levels");
    for (size_t length = 20; length <= 2000; length *= 100) {
        size_t count = 1000000 / length;
        printf("texts of %zu bytes\n", length);
        list_of_texts(count, length, fillings[0], 0);
        measure(indented(0));
        list_of_texts(count, length, fillings[1], 1);
        measure("  one accent each");
        for (size_t k = 1; k < FILLINGS; k++) {
            list_of_texts(count, length, fillings[k], length);
            measure(indented(k));
        }
    }
    for (size_t width = 4; width <= 50000; width += 49996) {
        printf("texts of 20 bytes, %zu in each list below the root\n", width);
        for (size_t k = 0; k < FILLINGS; k++) {
            lists_of_texts(50000 / width, width, 20, fillings[k], 20);
            measure(indented(k));
        }
    }
    keys_beyond_ascii(1024);
    list_of_maps(13106, 4);
    measure("maps of 4 members, keys of three");
    return 0;
}
