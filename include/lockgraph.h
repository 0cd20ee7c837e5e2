/* The public library for C and Rust: judges a sheet's bytes, two functions for each operation, without limits and within given ones. The functions are those of crates/lockgraph_c, whose contracts say
 * for every argument what is returned and written; `rt lib` in crates/lockgraph_c proves them and writes crates/lockgraph_c/out/liblockgraph_c.a, for x86-64 Linux, which needs memcpy and
 * memset of the C library alone. Rust declares the same prototypes in an `extern "C"` block, with `usize` for size_t.
 *
 * What a caller owes, which nothing tests:
 * - a pointer and the length after it are one lent store of so many elements (bytes for uint8_t, words for uint64_t, numbers for uint16_t). A pointer is never NULL and
 *   is aligned for its type, also where the length is 0;
 * - `out` has as many words as its prototype says;
 * - a store that is written, and `out`, overlaps no other argument. Two that are only read may overlap;
 * - a stack with 256 KiB left; the most that has been seen in use is 176.
 *
 * What a caller gets:
 * - the caller owns every store. No function keeps a pointer, allocates, or has a state: calls from several threads are free where they write to different stores;
 * - the result is 0, or the number of the refusal below, the first that applies: they are asked in the order below. After a refusal every store is as it was, `out` too;
 * - otherwise `out` and the stores are as described, and the elements that are not described are as they were. Nothing is left open: the arguments and what the stores
 *   held before decide every element.
 *
 * Within limits: 19 limits (below)
 * Every sheet:   1 length (empty, over 1,024 bytes, or a line over 200)   2 byte   3 layout   4 names   5 kinds   6 grammar   7 symbol   8 braces   9 closure   10 lean
 * table, list:   11 naming (not below the number of namings)
 * table, book, list:   12 store (too short)
 * clean:   18 (below, at lockgraph_clean)
 * snapshot:   13 snapshot   14 entry   15 twice   17 held   16 row (below, at lockgraph_snapshot; 17 is asked before 16)
 *
 * A symbol is 1 to 8 lower-case letters, and is a mark, a name, a field or a value. Where line 2 has values, each node of a drawing has exactly one of them.
 * 4: line 1 is anything but 1 to 8 different symbols with single spaces between.
 * 5: line 2 is anything but one of `mark`, `name`, `field` and `value` for each symbol, or has more than 2 names.
 * 6: also a run of more than 8 letters in a formula, or in braces a capital that is not a mode's first letter.
 * 7: a symbol that line 1 does not have (two that are typed together are read as one), or of the wrong kind for its place.
 * 9: more formulas, with all their parts and expansions, than the closure limit, 64 without limits.
 * 10: more basic formulas than the lean limit, 8 without limits; every value is one, whether a formula has it or not.
 *
 * Limits. A function whose name ends in _within takes two limits before what the one without takes, in the same order: `lean`, 1 to 12, and `closure`, 16 to 128.
 * 19: one of them is out of its range. It is asked before 1, so also where the sheet is empty.
 * Without limits they are 8 and 64: lockgraph_X(..) does what lockgraph_X_within(8, 64, ..) does. Limits decide the refusals 19, 9 and 10 and how long the stores of table have to be, and nothing else: a
 * sheet that is accepted within some limits has the same answers within all larger ones, given stores that are long enough there.
 *
 * docs/SHEETS.md says how a sheet is written and what a verdict means; crates/ctl/specs/Tableau what types and namings are. A set of types is W words: type j is bit j mod 64 of word j div 64.
 * W is the sheet's own: 1 for up to 6 basic formulas, then 2, 4, 8, 16, 32, and 64 for 12. A sheet with n basic formulas has one naming if no name occurs in it, 2^(n - 1) if one does, and 2^(2n - 2) if
 * two do. Book goes through all of them, and so does an unsatisfiable verdict.
 *
 * What table has to be lent, and what is always enough for book and list, by the lean limit (1,024 bytes for clean and 16 for snapshot are enough within all limits):
 *
 *   lean limit                 1 to 6        7         8          9          10           11            12
 *   table, words of a store         1        2         4          8          16           32            64
 *   book, words                 1,024    8,192    65,536    524,288   4,194,304   33,554,432   268,435,456
 *   list, numbers                  64      128       256        512       1,024        2,048         4,096 */
#ifndef LOCKGRAPH_H
#define LOCKGRAPH_H

#include <stddef.h>
#include <stdint.h>

#ifdef __cplusplus
extern "C" {
#endif

/* The surviving types under a naming. Each store has at least 4 words, and both begin with the W words afterwards.
 * out, 5 words: W; how many types there are at the start; how many survive; after how many rounds; the store that was written last, 1 for first, 2 for second. */
uint8_t lockgraph_table(const uint8_t *sheet, size_t sheet_len, uint64_t naming, uint64_t *first, size_t first_len, uint64_t *second, size_t second_len,
                        uint64_t out[5]);

/* The same within limits. Each store has at least the words that the lean limit asks for: 1 up to 6, else 2^(lean - 6), 64 for 12. So also where the sheet's W is less; else it is refused with 12. */
uint8_t lockgraph_table_within(size_t lean, size_t closure, const uint8_t *sheet, size_t sheet_len, uint64_t naming, uint64_t *first, size_t first_len, uint64_t *second,
                               size_t second_len, uint64_t out[5]);

/* The surviving types under every naming: those under naming r are the W words from word r * W of the store, which has W words or more for each naming.
 * 65,536 words are always enough (at most 16,384 namings).
 * out, 2 words: how many namings there are; W. */
uint8_t lockgraph_book(const uint8_t *sheet, size_t sheet_len, uint64_t *store, size_t store_len, uint64_t out[2]);

/* The same within limits. The store has W words or more for each naming, by the sheet, not by the limits. 268,435,456 words are enough within 12 and 128 (at most 4,194,304 namings). */
uint8_t lockgraph_book_within(size_t lean, size_t closure, const uint8_t *sheet, size_t sheet_len, uint64_t *store, size_t store_len, uint64_t out[2]);

/* The surviving types under a naming as numbers at the beginning of the store, each once: those with the fewest true lean places (bits) first, among equals the smaller
 * number. 256 numbers are always enough.
 * out, 1 word: how many they are. */
uint8_t lockgraph_list(const uint8_t *sheet, size_t sheet_len, uint64_t naming, uint16_t *store, size_t store_len, uint64_t out[1]);

/* The same within limits. The store has a number or more for each type that survives. 4,096 numbers are enough within 12 and 128. */
uint8_t lockgraph_list_within(size_t lean, size_t closure, const uint8_t *sheet, size_t sheet_len, uint64_t naming, uint16_t *store, size_t store_len, uint64_t out[1]);

/* Whether the goal is open, or unsatisfiable: then no snapshot of any size that obeys the sheet has it at any node.
 * out, 3 words: 1, the least naming under which a surviving type has the goal, and the least such type, where it is open; 2, 0, 0 where it is unsatisfiable. So whoever
 * begins with out[0] == 0 and asks for out[0] == 2 never takes a refusal for `unsatisfiable`. */
uint8_t lockgraph_verdict(const uint8_t *sheet, size_t sheet_len, uint64_t out[3]);

/* The same within limits. */
uint8_t lockgraph_verdict_within(size_t lean, size_t closure, const uint8_t *sheet, size_t sheet_len, uint64_t out[3]);

/* Where the goal's text lies in the sheet, without the newline after it.
 * out, 2 words: the place of its first byte, from 0; how many bytes it has. */
uint8_t lockgraph_goal(const uint8_t *sheet, size_t sheet_len, uint64_t out[2]);

/* The same within limits. */
uint8_t lockgraph_goal_within(size_t lean, size_t closure, const uint8_t *sheet, size_t sheet_len, uint64_t out[2]);

/* The sheet written back in one way of typing, at the beginning of the store: lines 1 and 2 as they are, then each formula in canonical print behind `all ` or `goal `, each line with its newline. In a print there are
 * no spaces, brackets stand around each `&` and `|`, modes in the order of line 1, forward before backward, `!` before symbols alone, and `>`, EF, AF, EG, AG are written out: `!EF{f}k` is `A{f}(0R!k)`.
 * The clean sheet is accepted, every function here but lockgraph_goal tells of it what it tells of the sheet, and cleaning it gives the same bytes. 1,024 bytes are always enough.
 * out, 1 word: how many bytes it has; the bytes behind them are as they were.
 *
 * Refused after 1 to 10:
 * 18  a line of it would be over 200 bytes (without its newline), or all of it over 1,024, or over the length of the store. A store that is exactly as long is enough. */
uint8_t lockgraph_clean(const uint8_t *sheet, size_t sheet_len, uint8_t *store, size_t store_len, uint64_t out[1]);

/* The same within limits. The clean sheet is accepted within the limits within which the sheet is; 18 goes by the same lengths. */
uint8_t lockgraph_clean_within(size_t lean, size_t closure, const uint8_t *sheet, size_t sheet_len, uint8_t *store, size_t store_len, uint64_t out[1]);

/* At which nodes of a snapshot, given as text, the goal and the globals hold: byte i of the row becomes 1 if the goal holds at node i + 1, plus 2 if all globals do
 * (it is added where the sheet has none). 16 bytes are always enough.
 * out, 1 word: how many nodes the snapshot has.
 *
 * The text: a copy of the sheet's line 1, then a line for each of 1 to 16 nodes, from node 1. Every line ends with a newline, the last one too. A node's line has an entry for
 * each symbol of line 1, in that order, with single spaces between and none at its ends:
 * - for a mark, a name or a value, 1 if it is on the node, else 0;
 * - for a field, the number of the node it leads to, from 1, or 0 if it leads nowhere.
 * Numbers are decimal, of 1 or 2 digits, without a leading 0. Under a sheet whose mark is lock and whose field is waits, the text "lock waits\n0 2\n1 0\n" has two nodes: lock is on node 2
 * alone, and waits leads from node 1 to node 2 and from there nowhere.
 *
 * Refused, each asked of the whole text before the next one is asked:
 * 13  the text is over 1,024 bytes, or has another shape than that: another first line, no node or over 16, no newline at the end, an empty line, an entry too few or too many,
 *     spaces elsewhere, another byte, three digits, or a leading 0 (`00`, `01`);
 * 14  an entry of a mark, a name or a value is above 1, or an entry of a field is above the number of nodes;
 * 15  a name, also one that no formula has, is on two nodes;
 * 17  line 2 has values, and a node has none of them or several, whether formulas have them or not;
 * 16  the row has fewer bytes than the snapshot has nodes. */
uint8_t lockgraph_snapshot(const uint8_t *sheet, size_t sheet_len, const uint8_t *text, size_t text_len, uint8_t *row, size_t row_len, uint64_t out[1]);

/* The same within limits. */
uint8_t lockgraph_snapshot_within(size_t lean, size_t closure, const uint8_t *sheet, size_t sheet_len, const uint8_t *text, size_t text_len, uint8_t *row, size_t row_len,
                                  uint64_t out[1]);

#ifdef __cplusplus
}
#endif

#endif
