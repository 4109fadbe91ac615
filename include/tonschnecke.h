/* Tonschnecke: reads a PHP-serialized value (a plan) into a table of nodes, writes its canonical text, and puts a pair into
 * one of its arrays. docs/GUIDE.md shows how it is used, docs/FORMAT.md what is a plan, with an example of each refusal. Since
 * request L1 a length, a count and the number of a reference may have one leading +, which canonical text never has.
 *
 * Link with libtonschnecke.a. What is said here of the result, the table and the output of ton_read, ton_canonicalize and
 * ton_insert is proved of the Rattle code, for every source, every table and every output;
 * crates/tonschnecke/specs/Promise.antt says it exactly. ton_message and ton_find are C code (c/): tested, and not proved.
 *
 * The caller of each function owes: source is readable for source_len bytes (key and value for key_len and value_len), table
 * is writable for table_len words (not bytes, not nodes; for ton_find it is readable), out for out_len bytes; what is writable
 * overlaps nothing else, and nothing else writes to any of them during the call. A pointer may be null only if its length is 0.
 * What table and out hold before a call has no part in its answer, but for ton_find's.
 *
 * How large: a table of TON_NODE_WORDS * (source_len / 2 + 2) words always has room enough, since no text of a node is shorter
 * than two bytes and inserting adds two nodes. (This sentence alone is no theorem: it follows from the grammar, and is tested.)
 * An out of 65,536 bytes is always long enough.
 *
 * A refusal leaves every word of the table 0 and every byte of out as it was. A call keeps no pointer, uses no other memory
 * but the stack, and ends for every input. There is no global state: threads may call at the same time, each with a table and
 * an out of its own.
 *
 * Of the stack a call takes at most so much, measured on the deepest plans and rounded up (by the first three nearly half of it
 * whatever the plan):
 *   ton_read 70,000 bytes, ton_canonicalize 70,000 bytes, ton_insert 71,000 bytes, ton_find 500 bytes, ton_message 100 bytes */
#ifndef TONSCHNECKE_H
#define TONSCHNECKE_H

#include <stddef.h>
#include <stdint.h>

#ifdef __cplusplus
extern "C" {
#endif

/* The words of a node: a table of n * TON_NODE_WORDS words has room for n nodes. */
#define TON_NODE_WORDS 6

/* The codes of an answer: 0, or why the call refused and at which position of the source.
 * (*) The tag of the innermost value or key; the source's length if a tag was due there. */
enum {
    TON_ACCEPTED = 0,

    TON_SOURCE_TOO_LONG = 1,    /* the source is longer than 65,536 bytes; at 0 */
    TON_MALFORMED = 2,          /* a text is not of its kind's form, or the source ends too soon; at the tag (*) */
    TON_VALUE_TAG = 3,          /* a value's tag is none of N b i d s a O r R; at that byte */
    TON_KEY_TAG = 4,            /* a key's tag is not allowed, i or s in an array, s in an object; at that byte */
    TON_NUMBER_RANGE = 5,       /* an integer outside -2^63 to 2^63-1, or another number above 65,536; at the tag */
    TON_UNKNOWN_ORDINAL = 6,    /* a reference names a number that no earlier value carries; at the tag */
    TON_TABLE_FULL = 7,         /* the table has no room for the node; at the tag */
    TON_TOO_DEEP = 8,           /* a value stands deeper than 64; at the tag */
    TON_EQUAL_KEY = 9,          /* a key equals an earlier key of its container; at the later key's tag */
    TON_TRAILING_BYTES = 10,    /* bytes follow the value; at the first of them */

    /* of a function that writes alone, where ton_writing says; at 0 */
    TON_NO_ARRAY = 11,          /* the node is no array */
    TON_PLACE_ABOVE_COUNT = 12, /* the place is above the array's count */
    TON_UNFIT_TEXT = 13,        /* the key is not exactly one i or s, or the value not exactly one N, b, i, d or s */
    TON_OUTPUT_FULL = 14        /* the bytes to write exceed out_len, or 65,536 */
};

/* The sentence for a code, in English and without a full stop, as "the node is no array"; for a number that is no code
 * "unknown code". Never null; it stays, and is not to be freed. */
const char *ton_message(uint64_t code);

/* What reading answers.
 * Accepted: code is 0 and at is 0; nodes are those written to the table, ordinals the numbers that values took.
 * Refused: code is 1 to 10 and at a position in the source; nodes and ordinals are 0.
 *
 * 1 is tested first; then the source is read from left to right: at a tag 3 or 4, then 8, then 7, then the text; in it a run
 * of digits is taken whole and 5 tested before what follows; 6 and 9 behind the text; 10 last. */
typedef struct {
    uint64_t code, at, nodes, ordinals;
} ton_reading;

/* Reads the source into the table.
 *
 * The nodes stand in the order of their tags, keys included, six words each:
 *   0  the tag's byte
 *   1  the ordinal: values take 1, 2, 3 ... in order of their tags; keys and every R take none and have 0
 *   2  b: 0 or 1. i: the integer, two's complement. d, s: offset of the text. O: offset of the class name.
 *      r, R: the ordinal named. Else 0
 *   3  d, s, O: length of that text, else 0
 *   4  a, O: count of pairs. r, R: index of the node named. Else 0
 *   5  index of the first node after this one and all that it holds
 *
 * So of the a or O at node n, the first key is node n + 1, each value is the node behind its key, and the next key, if the
 * count says that there is one, is the node that the value's word 5 names.
 *
 * An acceptance leaves the words behind the last node as they were. A refusal leaves every word of the table 0.
 *
 * examples/read.c is a whole program that calls it. */
ton_reading ton_read(const uint8_t *source, size_t source_len, uint64_t *table, size_t table_len);

/* What a function that writes a plan answers.
 * Written: code is 0 and at is 0; length is that of the bytes written.
 * Refused: code is 1 to 10 with its position, as ton_read refuses the source; or, where reading accepts it, one of these
 * with at 0, the first that holds in this order; and length is 0.
 *
 *   TON_NO_ARRAY, TON_PLACE_ABOVE_COUNT, TON_UNFIT_TEXT                   ton_insert
 *   TON_EQUAL_KEY, if the key equals a key of the array                   ton_insert
 *   TON_TOO_DEEP, if the array is at depth 64                             ton_insert
 *   TON_TABLE_FULL, if the table has no room for two nodes more           ton_insert
 *   TON_OUTPUT_FULL                                                       each function that writes */
typedef struct {
    uint64_t code, at, length;
} ton_writing;

/* Writes the canonical text of the source: every integer, count, length and reference in shortest decimal form (no +, no
 * leading zero, 0 and never -0), all other bytes as they are. Sources of the same meaning get the same bytes.
 *
 * Written: out holds the text, and behind it what it held before; the table is what reading the source and then the text
 * leaves, so the offsets in it (word 2 of d, s and O) are those in the text. The text is never longer than the source: an
 * out of source_len bytes is always enough.
 * Refused: every byte of out is as it was, and every word of the table 0.
 *
 * examples/canonicalize.c is a whole program that calls it. */
ton_writing ton_canonicalize(const uint8_t *source, size_t source_len, uint64_t *table, size_t table_len, uint8_t *out,
                             size_t out_len);

/* Puts one pair into one array of the source: before the pair at place pair_index (0 is the first), or behind the last one if
 * pair_index is the array's count. array_node is the index of the array's node in the table that ton_read leaves;
 * the source is read again, so the table may be another one. key and value are serialized texts, as i:59; and d:2; and go in
 * as they stand.
 *
 * The bytes written are the old ones with three changes: the array's count, in shortest form; the pair; and the number of each
 * reference to a value behind the new one, which is one higher now, in shortest form. So every reference still names the
 * value that it named.
 *
 * Written: out holds the new plan, and behind it what it held before; the table is what reading the source and then the new
 * plan leaves: two nodes more. A table with room for them and an out of 65,536 bytes are always enough, since a longer plan
 * would be refused anyway.
 * Refused: every byte of out is as it was, and every word of the table 0.
 *
 * examples/insert.c is a whole program that calls it; examples/day.c also finds the array, with ton_find. */
ton_writing ton_insert(const uint8_t *source, size_t source_len, size_t array_node, size_t pair_index, const uint8_t *key,
                       size_t key_len, const uint8_t *value, size_t value_len, uint64_t *table, size_t table_len,
                       uint8_t *out, size_t out_len);

/* No node. */
#define TON_NOWHERE SIZE_MAX

/* The index of the node of the value that a path of keys leads to; TON_NOWHERE if it leads nowhere or is no path. The table is
 * the one that a function above left: by ton_read for this source; by one that writes for the bytes written, which are then the
 * source here. Neither is changed. After a refusal every path leads nowhere.
 *
 * The path may not be null. It ends with a NUL and is written as for the command:
 *   /             the plan itself, node 0
 *   /months/2     the value with key 2 in the value with key months, an array or an object each; references are not followed
 *   2  -7         a component that is an integer of 64 bits in shortest decimal form is an integer key
 *   months  02    any other is a string key
 *   "2"  ""       in double quotes it is always a string key; a component without a character is none
 *   %2F  %00      % and two hexadecimal digits, of either case, are any byte: so a slash, a quote (%22), a percent sign (%25)
 *                 is written, in quotes too; a path is split at each / before quotes are looked at
 * A path with a component that is not so written leads nowhere, whatever stands before it.
 *
 * Whatever the words of the table are (those of another source, or of none), the call ends, reads nothing outside of what is
 * lent, and answers TON_NOWHERE or an index below table_len / TON_NODE_WORDS.
 *
 * examples/day.c is a whole program that calls it. */
size_t ton_find(const uint8_t *source, size_t source_len, const uint64_t *table, size_t table_len, const char *path);

#ifdef __cplusplus
}
#endif

#endif
