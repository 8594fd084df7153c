/* Chamrolak: a proved, table-driven LR(1) parser driver with error recovery, for C and C++.
 *
 * The host lends all memory, the library keeps none: no call allocates, no call touches a global,
 * and calls with different rooms may run on different threads at once. Every call returns, on any
 * bytes whatever; running out of something is an answer, not a crash.
 *
 * A host does three things:
 *
 *   1. It checks its tables once, at start-up: chamrolak_check_tables.
 *   2. For each text it makes a token list and drives it: chamrolak_drive_with. A host that parses
 *      once, or is not sure of its tables, calls chamrolak_parse_with, which checks and drives.
 *   3. It reads the answer from the result and the report, the tree from the nodes and their
 *      children, and what to underline from the records.
 *
 *   static uint8_t stack[256 * CHAMROLAK_STACK_BYTES], scratch[256 * CHAMROLAK_SCRATCH_BYTES];
 *   static uint8_t nodes[4096 * CHAMROLAK_NODE_BYTES], children[4096 * CHAMROLAK_CHILD_BYTES];
 *   static uint8_t records[64 * CHAMROLAK_RECORD_BYTES], report[CHAMROLAK_REPORT_BYTES];
 *   const chamrolak_rooms rooms = {stack,    sizeof stack,    scratch, sizeof scratch,
 *                                  nodes,    sizeof nodes,    children, sizeof children,
 *                                  records,  sizeof records,  report};
 *   uint8_t tokens[2 * CHAMROLAK_TOKEN_BYTES];
 *   chamrolak_put_token(tokens, 0, KIND_LINEN, 0, 5);
 *   chamrolak_put_token(tokens, 1, KIND_NEWLINE, 5, 6);
 *
 *   if (chamrolak_check_tables(&my_tables).number != CHAMROLAK_PASSES)
 *     return report_bad_tables();
 *   chamrolak_result result =
 *       chamrolak_drive_with(&my_tables, tokens, sizeof tokens, 0, 100000, &rooms);
 *   if (result.number == CHAMROLAK_ACCEPTED)
 *     show(result.value);
 *
 * examples/underline.c is such a host, whole. Numbers quoted as "01" are of the customer's document
 * 01, whose words stand in quotation marks below.
 */
#ifndef CHAMROLAK_H
#define CHAMROLAK_H

#include <stddef.h>
#include <stdint.h>

#ifdef __cplusplus
extern "C" {
#endif

/* ---- What a call returns ---- */

/* The numbers of 01: answers 1 to 6 and 19 to 23, refusals 10 to 18. */
enum {
  /* chamrolak_check only: the tables are good. */
  CHAMROLAK_PASSES = 0,

  /* The run ended by itself. */
  CHAMROLAK_ACCEPTED = 1,           /* value: the root node. Errors that were mended are records */
  CHAMROLAK_ACCEPTED_EARLY = 2,     /* value: the root; the rest of the tokens was not wanted */
  CHAMROLAK_UNRECOGNIZED_TOKEN = 3, /* value: the token; the report has the expected kinds */
  CHAMROLAK_UNRECOGNIZED_END = 4,   /* value: the last location; likewise */
  CHAMROLAK_EXTRA_TOKEN = 5,        /* value: the first token behind a whole text */
  CHAMROLAK_TOKENIZER_ERROR = 6,    /* value: the token of kind CHAMROLAK_TOKENIZER_ERROR_KIND */

  /* The call was refused, and no room was written, the report neither. value: the place. */
  CHAMROLAK_BAD_SIZES = 10, /* "a size, flag or set bit is out of range, or a list's length
                               disagrees with the sizes"; place 0 */
  CHAMROLAK_BAD_CELL = 11,  /* a cell "names no state or production, enters state 0, is positive
                               at end of input, or is a negative goto"; place: the cell, "gotos
                               counted after all actions" */
  CHAMROLAK_BAD_PRODUCTION = 12,  /* a symbol or left side out of range, nonterminal 0 where it may
                                     not stand, or production 0 misshapen; place: the production */
  CHAMROLAK_SETS_NOT_CLOSED = 13, /* nullable flags or first sets are too small; the production */
  CHAMROLAK_BAD_ITEM = 14,        /* an item out of range or out of order; place: the item */
  CHAMROLAK_WRONG_PAST = 15,      /* an item that its state cannot have come to; the item */
  CHAMROLAK_REDUCE_WITHOUT_ITEM = 16, /* a reduction that no item of its state asks for; the cell */
  CHAMROLAK_NO_FOLLOW_UP = 17,        /* "an item lacks its follow-up"; the item, or the item count
                                         where the first item is missing */
  CHAMROLAK_BAD_TOKENS = 18, /* "token list not triples of 32-bit words, a kind over 65,535, or
                                over 4,096 tokens"; place 0 */

  /* Something that the host lent was used up. value: 0. What the steps before wrote is there. */
  CHAMROLAK_OUT_OF_UNITS = 19,    /* the budget */
  CHAMROLAK_OUT_OF_DEPTH = 20,    /* the shorter of stack and scratch */
  CHAMROLAK_OUT_OF_CHILDREN = 21, /* child entries */
  CHAMROLAK_OUT_OF_NODES = 22,    /* nodes */
  CHAMROLAK_OUT_OF_RECORDS = 23   /* records */
};

typedef struct {
  uint32_t number; /* one of the numbers above */
  uint32_t value;  /* what that number's line says; 0 where it says nothing */
} chamrolak_result;

/* ---- What the host lends ----
 *
 * Rooms are bytes, of any alignment; a room counts in whole entries, and bytes left over stay
 * unused. No two rooms may overlap, nor a room and a list that is read.
 *
 * How many entries are enough? One look at an action cell is one unit, and a look makes at most one
 * node and one state. So for a budget of n units, n nodes, n child entries, n records and a depth
 * of n + 1 always are. Less will do in practice: a room that is too small is answered with its
 * number, 20 to 23, and can be lent again, larger; and of records no more are needed than the
 * errors that a person should see at once.
 */
#define CHAMROLAK_TOKEN_BYTES 12  /* three words: kind, start, end */
#define CHAMROLAK_STACK_BYTES 32  /* for each state of depth */
#define CHAMROLAK_SCRATCH_BYTES 4 /* for each state of depth */
#define CHAMROLAK_NODE_BYTES 32   /* 8 words */
#define CHAMROLAK_CHILD_BYTES 4   /* 1 word: the child's node number */
#define CHAMROLAK_RECORD_BYTES 64 /* 16 words */
#define CHAMROLAK_REPORT_BYTES 64 /* 16 words */

#define CHAMROLAK_MOST_TOKENS 4096           /* one more is refusal 18 */
#define CHAMROLAK_TOKENIZER_ERROR_KIND 65535 /* a token of this kind ends the run with answer 6 */

/* ---- What comes back: the words of nodes, records and the report ---- */

/* A node, 8 words. Children stand before their parents; popped nodes stay and count. */
enum {
  CHAMROLAK_NODE_KIND = 0,   /* CHAMROLAK_IS_TOKEN, CHAMROLAK_IS_MARK, CHAMROLAK_IS_PRODUCTION */
  CHAMROLAK_NODE_NUMBER = 1, /* of that token, record or production */
  CHAMROLAK_NODE_FIRST_CHILD = 2, /* its first child entry; 0 where it has none */
  CHAMROLAK_NODE_CHILD_COUNT = 3,
  CHAMROLAK_NODE_START = 4, /* locations, as the tokens gave them */
  CHAMROLAK_NODE_END = 5,
  CHAMROLAK_NODE_FIRST_TOKEN = 6, /* the tokens under it: from here .. */
  CHAMROLAK_NODE_AFTER_LAST = 7   /* .. to the one before this */
};

/* What a node stands for. A mark stands where recovery put the error token. */
enum { CHAMROLAK_IS_TOKEN = 0, CHAMROLAK_IS_MARK = 1, CHAMROLAK_IS_PRODUCTION = 2 };

/* A record, 16 words: one error that recovery mended, and what its mark covers. */
enum {
  CHAMROLAK_RECORD_ERROR = 0,         /* 3 at a token, 4 at the end of input */
  CHAMROLAK_RECORD_AT = 1,            /* that token; the last location for 4 */
  CHAMROLAK_RECORD_FIRST_TOKEN = 2,   /* the stretch: from here .. */
  CHAMROLAK_RECORD_AFTER_LAST = 3,    /* .. to the one before this */
  CHAMROLAK_RECORD_DROPPED_FIRST = 4, /* "dropped first (after-last if none)" */
  CHAMROLAK_RECORD_START = 5,         /* locations */
  CHAMROLAK_RECORD_END = 6,
  CHAMROLAK_RECORD_EXPECTED_COUNT = 7,
  CHAMROLAK_RECORD_EXPECTED = 8 /* 8 words: "kind k at bit k mod 32 of word k/32" */
};

/* The report, 16 words, written by every answer and by no refusal. */
enum {
  CHAMROLAK_REPORT_NUMBER = 0,         /* the result's number */
  CHAMROLAK_REPORT_ROOT = 1,           /* answers 1 and 2 */
  CHAMROLAK_REPORT_AT = 2,             /* the token of 2, 3, 5, 6; the location of 4 */
  CHAMROLAK_REPORT_EXPECTED_COUNT = 3, /* answers 3 and 4 */
  CHAMROLAK_REPORT_UNITS = 4,          /* looks at action cells */
  CHAMROLAK_REPORT_NODE_COUNT = 5,
  CHAMROLAK_REPORT_CHILD_COUNT = 6,
  CHAMROLAK_REPORT_RECORD_COUNT = 7,
  CHAMROLAK_REPORT_EXPECTED = 8 /* 8 words, as in a record; answers 3 and 4 */
};

/* ---- The calls ----
 *
 * A list or room is a pointer and a length in bytes. A pointer may not be NULL, not even where its
 * length is 0. The seven table lists are the payloads of record kinds 1 to 7 of 01's file, all of
 * little-endian 16-bit numbers but the sets:
 *
 *   sizes        states, t (the user kinds), nonterminals, productions, items, recovery flag
 *   actions      by state, columns 0..t-1 the kinds, t the error token, t+1 the end of input:
 *                i > 0 shifts to state i-1, i < 0 reduces production -(i+1), 0 is an error
 *   gotos        by state and nonterminal: g > 0 goes to state g-1, 0 is none
 *   productions  left side and length, each
 *   rights       the right sides' symbols, one after the other: 0..t terminals, t+1+j nonterminal j
 *   items        state, production, dot, lookahead column, each; ascending
 *   sets         33 bytes for each nonterminal: a nullable flag, then a bit for each kind that can
 *                begin it, kind k at bit k mod 8 of byte k/8
 *
 * The struct forms further down take the same things in two structs.
 */

/* Judges tables by 01's tests 10 to 17. number is CHAMROLAK_PASSES, or the first test that fails
 * with its lowest place in value. Nothing is written. */
chamrolak_result chamrolak_check(const uint8_t *sizes, size_t sizes_length, const uint8_t *actions,
                                 size_t actions_length, const uint8_t *gotos, size_t gotos_length,
                                 const uint8_t *productions, size_t productions_length,
                                 const uint8_t *rights, size_t rights_length, const uint8_t *items,
                                 size_t items_length, const uint8_t *sets, size_t sets_length);

/* The whole of 01 in one call: the check, refusal 18, and the run over the tokens.
 *
 * tokens: 12 bytes each, little-endian words kind, start, end (chamrolak_put_token).
 * start_location: where the text begins, used where no token says it. budget: the most looks at
 * action cells. stack, scratch: working room; what is in it afterwards means nothing. nodes,
 * children, records, report: what comes back. Bytes past the counts in the report are as they were.
 */
chamrolak_result chamrolak_parse(const uint8_t *sizes, size_t sizes_length, const uint8_t *actions,
                                 size_t actions_length, const uint8_t *gotos, size_t gotos_length,
                                 const uint8_t *productions, size_t productions_length,
                                 const uint8_t *rights, size_t rights_length, const uint8_t *items,
                                 size_t items_length, const uint8_t *sets, size_t sets_length,
                                 const uint8_t *tokens, size_t tokens_length,
                                 uint32_t start_location, uint32_t budget, uint8_t *stack,
                                 size_t stack_length, uint8_t *scratch, size_t scratch_length,
                                 uint8_t *nodes, size_t nodes_length, uint8_t *children,
                                 size_t children_length, uint8_t *records, size_t records_length,
                                 uint8_t *report);

/* The run without the check, for a host that has checked these tables before; 18 is still judged.
 * On tables that pass it gives what chamrolak_parse gives. On any others it is as safe, and its
 * answer means little. */
chamrolak_result chamrolak_drive(const uint8_t *sizes, size_t sizes_length, const uint8_t *actions,
                                 size_t actions_length, const uint8_t *gotos, size_t gotos_length,
                                 const uint8_t *productions, size_t productions_length,
                                 const uint8_t *tokens, size_t tokens_length,
                                 uint32_t start_location, uint32_t budget, uint8_t *stack,
                                 size_t stack_length, uint8_t *scratch, size_t scratch_length,
                                 uint8_t *nodes, size_t nodes_length, uint8_t *children,
                                 size_t children_length, uint8_t *records, size_t records_length,
                                 uint8_t *report);

/* ---- The same calls by structs ---- */

typedef struct {
  const uint8_t *sizes;
  size_t sizes_length;
  const uint8_t *actions;
  size_t actions_length;
  const uint8_t *gotos;
  size_t gotos_length;
  const uint8_t *productions;
  size_t productions_length;
  const uint8_t *rights;
  size_t rights_length;
  const uint8_t *items;
  size_t items_length;
  const uint8_t *sets;
  size_t sets_length;
} chamrolak_tables;

typedef struct {
  uint8_t *stack;
  size_t stack_length;
  uint8_t *scratch;
  size_t scratch_length;
  uint8_t *nodes;
  size_t nodes_length;
  uint8_t *children;
  size_t children_length;
  uint8_t *records;
  size_t records_length;
  uint8_t *report; /* CHAMROLAK_REPORT_BYTES */
} chamrolak_rooms;

/* chamrolak_check on a struct. */
static inline chamrolak_result chamrolak_check_tables(const chamrolak_tables *tables) {
  return chamrolak_check(tables->sizes, tables->sizes_length, tables->actions,
                         tables->actions_length, tables->gotos, tables->gotos_length,
                         tables->productions, tables->productions_length, tables->rights,
                         tables->rights_length, tables->items, tables->items_length, tables->sets,
                         tables->sets_length);
}

/* chamrolak_parse on structs. */
static inline chamrolak_result chamrolak_parse_with(const chamrolak_tables *tables,
                                                    const uint8_t *tokens, size_t tokens_length,
                                                    uint32_t start_location, uint32_t budget,
                                                    const chamrolak_rooms *rooms) {
  return chamrolak_parse(
      tables->sizes, tables->sizes_length, tables->actions, tables->actions_length, tables->gotos,
      tables->gotos_length, tables->productions, tables->productions_length, tables->rights,
      tables->rights_length, tables->items, tables->items_length, tables->sets, tables->sets_length,
      tokens, tokens_length, start_location, budget, rooms->stack, rooms->stack_length,
      rooms->scratch, rooms->scratch_length, rooms->nodes, rooms->nodes_length, rooms->children,
      rooms->children_length, rooms->records, rooms->records_length, rooms->report);
}

/* chamrolak_drive on structs; the rights, items and sets are not read. */
static inline chamrolak_result chamrolak_drive_with(const chamrolak_tables *tables,
                                                    const uint8_t *tokens, size_t tokens_length,
                                                    uint32_t start_location, uint32_t budget,
                                                    const chamrolak_rooms *rooms) {
  return chamrolak_drive(
      tables->sizes, tables->sizes_length, tables->actions, tables->actions_length, tables->gotos,
      tables->gotos_length, tables->productions, tables->productions_length, tokens, tokens_length,
      start_location, budget, rooms->stack, rooms->stack_length, rooms->scratch,
      rooms->scratch_length, rooms->nodes, rooms->nodes_length, rooms->children,
      rooms->children_length, rooms->records, rooms->records_length, rooms->report);
}

/* ---- Reading and writing words ---- */

/* The little-endian word number `word` of these bytes. */
static inline uint32_t chamrolak_word(const uint8_t *bytes, size_t word) {
  const uint8_t *at = bytes + 4 * word;
  return (uint32_t)at[0] | (uint32_t)at[1] << 8 | (uint32_t)at[2] << 16 | (uint32_t)at[3] << 24;
}

static inline void chamrolak_put_word(uint8_t *bytes, size_t word, uint32_t number) {
  uint8_t *at = bytes + 4 * word;
  at[0] = (uint8_t)(number & 255);
  at[1] = (uint8_t)(number >> 8 & 255);
  at[2] = (uint8_t)(number >> 16 & 255);
  at[3] = (uint8_t)(number >> 24 & 255);
}

/* Writes token number `index` of a list that has room for it. */
static inline void chamrolak_put_token(uint8_t *tokens, size_t index, uint32_t kind, uint32_t start,
                                       uint32_t end) {
  uint8_t *token = tokens + index * CHAMROLAK_TOKEN_BYTES;
  chamrolak_put_word(token, 0, kind);
  chamrolak_put_word(token, 1, start);
  chamrolak_put_word(token, 2, end);
}

/* A word of a node, by CHAMROLAK_NODE_... The node's number must be below the node count. */
static inline uint32_t chamrolak_node_word(const uint8_t *nodes, uint32_t node, size_t word) {
  return chamrolak_word(nodes + (size_t)node * CHAMROLAK_NODE_BYTES, word);
}

/* The node of a node's child number `child`, counted from 0, below its child count. */
static inline uint32_t chamrolak_child(const uint8_t *nodes, const uint8_t *children, uint32_t node,
                                       uint32_t child) {
  size_t first = chamrolak_node_word(nodes, node, CHAMROLAK_NODE_FIRST_CHILD);
  return chamrolak_word(children, first + child);
}

/* A word of a record, by CHAMROLAK_RECORD_... Its number must be below the record count. */
static inline uint32_t chamrolak_record_word(const uint8_t *records, uint32_t record, size_t word) {
  return chamrolak_word(records + (size_t)record * CHAMROLAK_RECORD_BYTES, word);
}

/* 1 if a kind below 256 is among the expected kinds of a record or of the report, else 0. `entry`
 * is where that record or the report begins: in both the kinds' bits begin at word 8. */
static inline int chamrolak_expects(const uint8_t *entry, uint32_t kind) {
  return (int)(chamrolak_word(entry, CHAMROLAK_REPORT_EXPECTED + kind / 32) >> kind % 32 & 1);
}

#ifdef __cplusplus
}
#endif

#endif
