/* Dewmycel: the pattern-match compiler of a line that programs metering devices.
 *
 * Four calls, in libdewmycel.a. Each is a proved function: what a comment here promises of a call is a
 * theorem about its code (crates/dewmycel), against the format's definitions (crates/spec_rules/specs).
 *
 * What a caller owes, which C cannot check:
 *   - each pointer is to as many elements as the length behind it says, readable, and writable where it is
 *     not const; it is not NULL, even where the length is 0;
 *   - the writable buffers of one call overlap neither each other nor what the call reads;
 *   - nothing else writes to any of them during the call.
 * Nothing is owed about the contents: every byte string has an answer, and every call ends.
 *
 * No call allocates, keeps a pointer, or has a state: calls on different buffers may run at once.
 *
 * An answer is one uint64_t. Its bits 0 to 15 are the refusal number, 0 for none. Of a refusal bits 16 to 31 are
 * its place and the rest is 0; of 32 alone the place is two numbers, a node in bits 16 to 31 and a step in bits
 * 32 to 47 (see dewmycel_walk), and the rest is 0. A refusal leaves every writable buffer of the call all zero.
 *
 * Ask for a refusal by dewmycel_refusal(answer), never by the whole answer: 32 had place 0 before it had a node
 * and a step, and code that compares a whole answer with 32 now misses every one whose node or step is not 0.
 */
#ifndef DEWMYCEL_H
#define DEWMYCEL_H

#include <stddef.h>
#include <stdint.h>

#ifdef __cplusplus
extern "C" {
#endif

/* The least sizes of the writable buffers. */
#define DEWMYCEL_TREE_BYTES 65536 /* uint8_t of the tree */
#define DEWMYCEL_WORK_BYTES 65536 /* uint8_t of the work space */
#define DEWMYCEL_BOUND_WORDS 576  /* uint16_t of the bindings */

/* The largest files. */
#define DEWMYCEL_SHEET_MOST 8192
#define DEWMYCEL_PANEL_MOST 16384

/* Refusal numbers, in the order in which they are tried. */
#define DEWMYCEL_ROOM 1          /* a writable buffer is smaller than its least size */
#define DEWMYCEL_LENGTH 2        /* the sheet is under 18 or over 8,192 bytes, or says another length */
#define DEWMYCEL_LAYOUT 3        /* the sheet's sections do not rise, pass the trailer, or cut a record */
#define DEWMYCEL_NO_CLAUSE 4     /* the sheet has no clause */
#define DEWMYCEL_COUNT 5         /* over 64 types, 128 constructors, 256 type entries, 192 patterns or children, 32 clauses */
#define DEWMYCEL_TYPES 6         /* a type, constructor, type entry or the subject breaks the format */
#define DEWMYCEL_TRANSPARENT 7   /* a type is opaque, not list-decorated, with one constructor of one field; place: the lowest such type */
#define DEWMYCEL_SHAPE 8         /* a pattern, child or root breaks the format, or patterns nest deeper than 12 */
#define DEWMYCEL_TEXT 9          /* an integer is not canonical, or a text is over 64 bytes; place: the lowest pattern */
#define DEWMYCEL_MISFIT 10       /* a pattern does not fit its type; place: the lowest clause */
#define DEWMYCEL_NAME_TWICE 11   /* a clause binds a name twice; place: the lowest clause */
#define DEWMYCEL_NODES 12        /* the tree would have over 1,024 nodes */
#define DEWMYCEL_BINDINGS 13     /* the tree would have over 4,096 bindings */
#define DEWMYCEL_IDLE 14         /* a clause has no leaf in the tree; place: the lowest clause */
#define DEWMYCEL_PANEL_LENGTH 21 /* the panel is under 8 or over 16,384 bytes, or says another length */
#define DEWMYCEL_PANEL_LAYOUT 22 /* the panel's sections are wrong, or it has no record or over 512 */
#define DEWMYCEL_PANEL_SHAPE 23  /* a record of the panel breaks the format, or records nest deeper than 32 */
#define DEWMYCEL_PANEL_TEXT 24   /* an integer of the panel is not canonical, or a text is over 64 bytes */
#define DEWMYCEL_PANEL_MISFIT 25 /* the panel does not fit the sheet's subject type */
#define DEWMYCEL_TREE 31         /* the bytes are not a tree file */
#define DEWMYCEL_STUCK 32        /* a part that the tree asks for is of another kind, or is not there; place: the node and the step */
#define DEWMYCEL_NO_TEXT 33      /* the position is not an integer or a byte string of the panel with 0 dropped */

/* Builds the decision tree of a sheet.
 *
 * Refusals 1, 2 to 11, 12 to 14. Else bits 16 to 31 are the length of the tree file, 32 to 47 its nodes, 48 to
 * 63 its bindings; `tree` holds the file and zeros after it, `work` is all zero.
 * The tree is the one that document 01's rules give; on every panel that fits the sheet's subject type its walk
 * ends at a leaf of the first clause whose pattern matches, with each name bound to the part that the pattern
 * gives it, and without a leaf if none matches. Both buffers are at least 65,536 bytes, else refusal 1. */
uint64_t dewmycel_build(const uint8_t *sheet, size_t sheet_length, uint8_t *tree, size_t tree_length,
                        uint8_t *work, size_t work_length);

/* Does the panel fit the sheet's subject type?
 *
 * Refusals 2 to 11 of the sheet, 21 to 24 of the panel, then 25. Else 0: it fits. */
uint64_t dewmycel_fit(const uint8_t *sheet, size_t sheet_length, const uint8_t *panel, size_t panel_length);

/* Walks a tree on a panel. Neither is trusted.
 *
 * Refusals 1, 31, 21 to 24, 32. At a leaf bit 48 is 1, bits 16 to 31 are its clause and 32 to 47 how many
 * bindings it has (at most 192); `bound` holds three words for each, in the leaf's order: name, record,
 * elements dropped; then zeros. Without a leaf the answer is 0 and `bound` is all zero.
 * Of 32, bits 16 to 31 are the node at which the walk is stuck: the number of its record in the tree file, as
 * the lister prints it, which is a switch, a list switch or a leaf and never a hoist. Bits 32 to 47 are the step
 * of its path that could not be taken, from 0; where all could and the part there is of a kind that the node
 * does not test, they are the path's length. At a leaf the path is that of its first binding that cannot be
 * followed. A part of another kind is 32 at a node with a default too. `bound` is all zero.
 * `bound_length` counts uint16_t, at least 576, else refusal 1.
 * The tree is checked on each call, so a caller may hand over a file as it was read. */
uint64_t dewmycel_walk(const uint8_t *tree, size_t tree_length, const uint8_t *panel, size_t panel_length,
                       uint16_t *bound, size_t bound_length);

/* Where the text of a position stands in the panel.
 *
 * Refusals 21 to 24, 33. Else bits 16 to 31 are where the text starts in the panel, 32 to 47 its length. */
uint64_t dewmycel_text(const uint8_t *panel, size_t panel_length, uint16_t record, uint16_t dropped);

/* The parts of an answer. */
static inline uint16_t dewmycel_refusal(uint64_t answer) { return (uint16_t)answer; }
static inline uint16_t dewmycel_place(uint64_t answer) { return (uint16_t)(answer >> 16); } /* of 32 the node alone */
static inline uint16_t dewmycel_stuck_node(uint64_t answer) { return (uint16_t)(answer >> 16); }
static inline uint16_t dewmycel_stuck_step(uint64_t answer) { return (uint16_t)(answer >> 32); }
static inline uint16_t dewmycel_tree_length(uint64_t answer) { return (uint16_t)(answer >> 16); }
static inline uint16_t dewmycel_nodes(uint64_t answer) { return (uint16_t)(answer >> 32); }
static inline uint16_t dewmycel_bindings(uint64_t answer) { return (uint16_t)(answer >> 48); }
static inline int dewmycel_is_leaf(uint64_t answer) { return dewmycel_refusal(answer) == 0 && (answer >> 48) == 1; }
static inline uint16_t dewmycel_clause(uint64_t answer) { return (uint16_t)(answer >> 16); }
static inline uint16_t dewmycel_bound(uint64_t answer) { return (uint16_t)(answer >> 32); }
static inline uint16_t dewmycel_text_start(uint64_t answer) { return (uint16_t)(answer >> 16); }
static inline uint16_t dewmycel_text_length(uint64_t answer) { return (uint16_t)(answer >> 32); }

#ifdef __cplusplus
}
#endif

#endif
