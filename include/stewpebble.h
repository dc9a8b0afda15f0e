// Stewpebble for C: JSONPath queries over flat tables of JSON values. docs/REFERENCE.md has the exact rules, docs/C.md says how to build and link, and
// examples/ has programs. Each function is proved to answer what the rules say: the refusal, the lent numbers and every lent byte (crates/exports/src/lib.rt).
//
// A query is compiled once into a plan and a pool, which may be stored, and run as often as the values change. Every function returns a refusal, or 0.
//
//   memory    The caller lends all memory, as a pointer and a length; nothing is allocated or kept. A pointer is never null, also where its length is 0.
//             Memory that is lent to be written is lent nowhere else in that call. A refusal changes no lent byte, but for the numbers named below, and
//             STEWPEBBLE_REFUSED_LIST_FULL fills every place of the list from the start position.
//   threads   The library has no state: any function may be called on any number of threads at once, as long as none writes what another reads.
//   stack     STEWPEBBLE_QUERY_STACK is enough for every call with a query, or with a plan that was compiled from one, and STEWPEBBLE_PLAN_STACK for every
//             call with any plan that plan check takes, where no expression of match or search has more than 65,535 characters when its counts are written
//             out. Where one has more, as ((a{64}){64}){64}, STEWPEBBLE_EXPRESSION_STACK is needed besides. docs/PERFORMANCE.md, "Stack", has the deepest found.
//   time      docs/EMBEDDING.md has what each operation costs, expressions of match and search among them. A run has no limit to its time: where strangers write the queries, run them where they can be ended.
#ifndef STEWPEBBLE_H
#define STEWPEBBLE_H

#include <stddef.h>
#include <stdint.h>

#if defined(__BYTE_ORDER__) && __BYTE_ORDER__ != __ORDER_LITTLE_ENDIAN__
#error "tables and plans are little-endian, and the library is for x86-64 and little-endian Arm"
#endif

#ifdef __cplusplus
extern "C" {
#endif

// Bytes of stack that are enough for a call, beside what the caller has taken: tested, not proved.
#define STEWPEBBLE_QUERY_STACK (512 * 1024)
#define STEWPEBBLE_PLAN_STACK (2048 * 1024)
#define STEWPEBBLE_EXPRESSION_STACK (2048 * 1024)

// Limits.
#define STEWPEBBLE_MAX_QUERY 4096     // bytes of a query
#define STEWPEBBLE_MAX_PLAN 65535     // bytes of a plan, and of a pool
#define STEWPEBBLE_MAX_NODES 65535    // nodes of a table
#define STEWPEBBLE_MAX_TEXT 16777216  // bytes of a table's text
#define STEWPEBBLE_MAX_DEPTH 63       // depth of a node, 0 for the root
#define STEWPEBBLE_MAX_MEMBERS 1024   // members of a map
#define STEWPEBBLE_MAX_EXPRESSION 1024 // bytes of an expression of match or search; with a longer one they are false

// Rooms that are enough for the plan and the pool of every query of n bytes. No query needs more, so compile never answers STEWPEBBLE_REFUSED_ROOM_TOO_SMALL.
#define STEWPEBBLE_PLAN_ROOM(n) (13 * (n))
#define STEWPEBBLE_POOL_ROOM(n) (n)

// Why an operation refused. Each is given exactly on its condition, and of several the first in the order that the operation names.
enum stewpebble_refusal {
    STEWPEBBLE_OK = 0,
    STEWPEBBLE_REFUSED_QUERY_TOO_LONG = 1,   // over 4,096 bytes
    STEWPEBBLE_REFUSED_QUERY_NOT_UTF8 = 2,
    STEWPEBBLE_REFUSED_QUERY_TOO_DEEP = 3,   // more than 32 brackets are open at once
    STEWPEBBLE_REFUSED_SYNTAX = 4,           // not in the grammar, or an index or a slice number is outside -(2^53-1)..2^53-1
    STEWPEBBLE_REFUSED_TYPE = 5,             // a function, a comparison or a test has operands of the wrong type or number; or ! stands before a value function
    STEWPEBBLE_REFUSED_UNKNOWN_FUNCTION = 6,
    STEWPEBBLE_REFUSED_REGEX = 7,            // given to no input, and its number to no other refusal
    STEWPEBBLE_REFUSED_NUMBER_BEYOND = 8,    // a number literal has N of ten to the 19 or more, E outside -342..308, or is past the largest float
    STEWPEBBLE_REFUSED_TABLE_SIZE = 9,       // no whole number of records, none, or over 65,535; or over 16,777,216 bytes of text
    STEWPEBBLE_REFUSED_TABLE_RULE = 10,      // a rule on records fails; the least such node is set
    STEWPEBBLE_REFUSED_PLAN = 11,            // the plan and the pool are those of no query
    STEWPEBBLE_REFUSED_ROOM_TOO_SMALL = 12,  // of the plan or the pool; both lengths that are needed are set
    STEWPEBBLE_REFUSED_LIST_FULL = 13,       // more nodes are selected than there are places from the start position
    STEWPEBBLE_REFUSED_START_BEYOND = 14,    // the start position is beyond the list's end
    STEWPEBBLE_REFUSED_NO_SUCH_TEXT = 15,    // no such node, or it has no text or no key
    STEWPEBBLE_REFUSED_PATH_ROOM = 16,       // the room for a path is too small; the length that is needed is set
    STEWPEBBLE_REFUSED_TEXT_RULE = 17,       // a text or a key is outside the text or not UTF-8, or a key is there twice; the least such node is set
    STEWPEBBLE_REFUSED_COUNT_FULL = 21       // a count, or the number of plans, would pass 2^53-1
};

// A refusal in words, for people.
static inline const char *stewpebble_refusal_words(uint32_t refusal) {
    switch (refusal) {
    case STEWPEBBLE_OK: return "no refusal";
    case STEWPEBBLE_REFUSED_QUERY_TOO_LONG: return "the query is longer than 4,096 bytes";
    case STEWPEBBLE_REFUSED_QUERY_NOT_UTF8: return "the query is not UTF-8";
    case STEWPEBBLE_REFUSED_QUERY_TOO_DEEP: return "the query has more than 32 brackets open at once";
    case STEWPEBBLE_REFUSED_SYNTAX: return "this is not a JSONPath query, or a number in it is out of range";
    case STEWPEBBLE_REFUSED_TYPE: return "a function, a comparison or a test in the query has operands of the wrong type or number; in place of !count(@.*) write !@.* or count(@.*) == 0";
    case STEWPEBBLE_REFUSED_UNKNOWN_FUNCTION: return "the query calls a function that does not exist";
    case STEWPEBBLE_REFUSED_REGEX: return "this library is of an earlier version, without the functions match and search";
    case STEWPEBBLE_REFUSED_NUMBER_BEYOND: return "a number in the query has more than 19 digits, too large or small an exponent, or is too large for a float";
    case STEWPEBBLE_REFUSED_TABLE_SIZE: return "the table is empty, too large or cut off, or its texts are too large";
    case STEWPEBBLE_REFUSED_TABLE_RULE: return "a record of the table breaks a rule";
    case STEWPEBBLE_REFUSED_PLAN: return "the plan is damaged";
    case STEWPEBBLE_REFUSED_ROOM_TOO_SMALL: return "the room for the plan or for its texts is too small";
    case STEWPEBBLE_REFUSED_LIST_FULL: return "more nodes are selected than the list has places for";
    case STEWPEBBLE_REFUSED_START_BEYOND: return "the start position is beyond the end of the list";
    case STEWPEBBLE_REFUSED_NO_SUCH_TEXT: return "there is no such node, or it has no such text";
    case STEWPEBBLE_REFUSED_PATH_ROOM: return "the room for the path is too small";
    case STEWPEBBLE_REFUSED_TEXT_RULE: return "a text or a key of the table breaks a rule";
    case STEWPEBBLE_REFUSED_COUNT_FULL: return "a count would pass 9,007,199,254,740,991";
    default: return "there is no such refusal";
    }
}

// The table of values: records of 24 bytes, little-endian, and the text that holds all keys and texts. A record's place in the table is its node number.
//
//   byte 0      1       2        4             8             12            16                            24
//        +------+-------+--------+-------------+-------------+-------------+-----------------------------+
//        | kind | depth | 0    0 |  key start  | key length  |   parent    |            value            |
//        +------+-------+--------+-------------+-------------+-------------+-----------------------------+
//
// Node 0 is the root. Children follow each other, and so do the children of all containers, in the containers' order: the first child of a node is 1 plus the
// number of children of all nodes before it. An empty list or map has 0 and 0. The parent is the number of the node whose child it is, and
// 0 at the root. Depth is 0 at the root and one more at each level. The key of a map's member
// is a part of the text; that of any other node has start 0 and length 0. Texts and keys are UTF-8, and the keys of a map differ.
enum stewpebble_kind {
    STEWPEBBLE_NULL = 0,
    STEWPEBBLE_FALSE = 1,
    STEWPEBBLE_TRUE = 2,
    STEWPEBBLE_INTEGER = 3,  // value.integer
    STEWPEBBLE_FLOAT = 4,    // value.number, which is finite
    STEWPEBBLE_TEXT = 5,     // value.part: where the text starts and its length in bytes
    STEWPEBBLE_LIST = 6,     // value.children
    STEWPEBBLE_MAP = 7       // value.children
};

struct stewpebble_record {
    uint8_t kind, depth;
    uint16_t zero;
    uint32_t key_start, key_length, parent;
    union {
        uint64_t none;  // 0, for null, false and true
        int64_t integer;
        double number;
        struct { uint32_t start, length; } part;
        struct { uint32_t first, count; } children;
    } value;
};

typedef char stewpebble_record_has_24_bytes[sizeof(struct stewpebble_record) == 24 ? 1 : -1];

// The bytes of records, as the functions take them.
static inline const uint8_t *stewpebble_records(const struct stewpebble_record *records) { return (const uint8_t *)records; }

// A plan is a series of items: one byte of kind, then a body of fixed length, little-endian. The pool has the names and texts, unescaped, end to end. An engine
// stores both and need not read them. stewpebble_tally counts items by their kind.
enum stewpebble_item {
    STEWPEBBLE_ITEM_ROOT_QUERY = 0x01,     // a query from $, no body
    STEWPEBBLE_ITEM_CURRENT_QUERY = 0x02,  // a query from @, no body
    STEWPEBBLE_ITEM_CHILD = 0x03,          // a child segment: number of selectors, 2
    STEWPEBBLE_ITEM_DESCENDANT = 0x04,     // a descendant segment: number of selectors, 2
    STEWPEBBLE_ITEM_NAME = 0x05,           // pool start 2, length 2
    STEWPEBBLE_ITEM_INDEX = 0x06,          // 8
    STEWPEBBLE_ITEM_SLICE = 0x07,          // 1 (bits 0, 1, 2: start, stop, step given), then the three, 8 each, those not given 0
    STEWPEBBLE_ITEM_WILDCARD = 0x08,       // no body
    STEWPEBBLE_ITEM_FILTER = 0x09,         // bytes of its code, 2
    STEWPEBBLE_ITEM_END = 0x0A,            // the end of a query, no body
    STEWPEBBLE_ITEM_INTEGER = 0x10,        // 8
    STEWPEBBLE_ITEM_FLOAT = 0x11,          // bits, 8
    STEWPEBBLE_ITEM_TEXT = 0x12,           // pool start 2, length 2
    STEWPEBBLE_ITEM_CONSTANT = 0x13,       // 1: 0 false, 1 true, 2 null
    STEWPEBBLE_ITEM_COMPARE = 0x14,        // 1: 0 to 5 for == != < <= > >=
    STEWPEBBLE_ITEM_NOT = 0x15,            // no body
    STEWPEBBLE_ITEM_AND = 0x16,            // bytes of the right operand, 2
    STEWPEBBLE_ITEM_OR = 0x17,             // bytes of the right operand, 2
    STEWPEBBLE_ITEM_TEST = 0x18,           // no body
    STEWPEBBLE_ITEM_COUNT = 0x19,          // the function count, no body
    STEWPEBBLE_ITEM_LENGTH = 0x1A,         // the function length, no body: of a text in Unicode scalar values
    STEWPEBBLE_ITEM_VALUE = 0x1B,          // the function value, no body
    STEWPEBBLE_ITEM_MATCH = 0x1C,          // the function match, no body: whether an expression describes the whole of a text
    STEWPEBBLE_ITEM_SEARCH = 0x1D          // the function search, no body: whether it describes a part of the text
};

// Compile: 1 to 6, 8, 12. The lengths of plan and pool are set, also with 12, and to 0 with every other refusal.
uint32_t stewpebble_compile(const uint8_t *query, size_t query_length, uint8_t *plan, size_t plan_room, uint8_t *pool, size_t pool_room, uint64_t *plan_length, uint64_t *pool_length);

// Plan check: 11.
uint32_t stewpebble_check_plan(const uint8_t *plan, size_t plan_length, const uint8_t *pool, size_t pool_length);

// What plans consist of: 11, 21. The items of the plan are added to the counts, one for each byte that a kind may be, and 1 to the number of plans.
// With a refusal nothing is counted. The counts are 256 numbers, which begin as 0.
uint32_t stewpebble_tally(const uint8_t *plan, size_t plan_length, const uint8_t *pool, size_t pool_length, uint64_t counts[256], uint64_t *plans);

// The check of the records: 9, 10. It reads no byte of the text. The least wrong node is set with 10, and 0 otherwise. A wrong first child, a range past the end
// and too many members count against the container, all else against the node itself. Lengths are in bytes, 24 for each record.
uint32_t stewpebble_check_records(const uint8_t *table, size_t table_length, const uint8_t *text, size_t text_length, uint64_t *node);

// The check of the texts and keys: 9, 17. Texts and the keys of members lie inside the text and are UTF-8, and the keys of a map are pairwise different; an equal
// key counts against the later member. The least wrong node is set with 17, and 0 otherwise. The records may be wrong: the members of a map are the nodes of the
// range that its record writes, as far as the table reaches. Its time is that of both checks where the records are right, and else up to n * n for n nodes.
uint32_t stewpebble_check_texts(const uint8_t *table, size_t table_length, const uint8_t *text, size_t text_length, uint64_t *node);

// Both, in one pass: 9, 10, 17. The first over all nodes, then the second; this is what run, select, text, key and path ask of a table. The least wrong node is set
// with 10 and with 17, and 0 otherwise.
uint32_t stewpebble_check_table(const uint8_t *table, size_t table_length, const uint8_t *text, size_t text_length, uint64_t *node);

// Run: 11, 9, 10, 17, 14, 13. The nodes selected are written into the list from the start position on, in the order of the query, repeats kept. Their number is
// set, and 0 with every refusal; the least wrong node is set with 10 and 17, and 0 otherwise. The list's length is in places. Since repeats are kept, no length is
// enough for every query; a table's number of nodes is enough for those that select no node twice.
uint32_t stewpebble_run(const uint8_t *plan, size_t plan_length, const uint8_t *pool, size_t pool_length, const uint8_t *table, size_t table_length, const uint8_t *text, size_t text_length, uint32_t *list, size_t list_length, size_t start, uint64_t *count, uint64_t *node);

// Select: compile and run in one, for a query that is asked once. 1 to 6 and 8 as for compile, then 9, 10, 17, 14, 13, with the same numbers as run.
uint32_t stewpebble_select(const uint8_t *query, size_t query_length, const uint8_t *table, size_t table_length, const uint8_t *text, size_t text_length, uint32_t *list, size_t list_length, size_t start, uint64_t *count, uint64_t *node);

// Text of a node and key of a node: 9, 10, 17, 15. Where the part of the text that holds it starts and its length are set, and 0 and 0 with every refusal. Each
// call checks the whole table; of a table that was accepted and has not changed, the record tells the same.
uint32_t stewpebble_text_of_node(const uint8_t *table, size_t table_length, const uint8_t *text, size_t text_length, size_t node, uint64_t *start, uint64_t *length);
uint32_t stewpebble_key_of_node(const uint8_t *table, size_t table_length, const uint8_t *text, size_t text_length, size_t node, uint64_t *start, uint64_t *length);

// Path of a node: 9, 10, 17, 15, 16. The Normalized Path of the node (RFC 9535, section 2.7), as $['a'][0], is written into the first bytes of the room, without a 0
// behind it. Its length is set, also with 16, and 0 with every other refusal; the least wrong node is set with 10 and 17, and 0 otherwise. A path of at most 4,096
// bytes, compiled and run on the same table, selects that node alone. A length may pass 32 bits, since keys may share their bytes of the text.
uint32_t stewpebble_path_of_node(const uint8_t *table, size_t table_length, const uint8_t *text, size_t text_length, size_t node, uint8_t *room, size_t room_length, uint64_t *length, uint64_t *wrong);

#ifdef __cplusplus
}
#endif

#endif
