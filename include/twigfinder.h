/* The twig finder as a library: it lists every place where a tree pattern occurs in a tagged braille textbook.
 *
 * The way of a book: its text is indexed to a sheet once, and patterns are then found in the sheet as often as wanted. All buffers are the
 * caller's. A call keeps nothing after it returns, so calls on different threads may run at once, also over one sheet.
 *
 * docs/BOOK.md, docs/SHEET.md and docs/PATTERN.md have the rules of book texts, sheets and patterns; docs/REFUSALS.md has all refusals;
 * docs/LIBRARY.md says what is proved of these calls.
 *
 * Linking: crates/twigfinder/out/libtwigfinder.a (`rt lib` in crates/twigfinder), and behind it the kit's liblibc_c.a, which passes on the
 * program's malloc, realloc and free. examples/c/run and examples/python/run do it.
 *
 * A pointer to an empty buffer must not be NULL. A buffer that a call writes may not overlap another buffer of that call.
 */
#ifndef TWIGFINDER_H
#define TWIGFINDER_H

#include <stddef.h>
#include <stdint.h>

#ifdef __cplusplus
extern "C" {
#endif

/* The most of everything. */
#define TWIGFINDER_TEXT_BYTES 16777216u   /* bytes of a book text */
#define TWIGFINDER_SHEET_BYTES 1093648u   /* bytes of a sheet */
#define TWIGFINDER_PATTERN_BYTES 1024u    /* bytes of a pattern */
#define TWIGFINDER_SPELLING_BYTES 589u    /* bytes of a standard spelling */
#define TWIGFINDER_NODES 16u              /* nodes of a pattern */
#define TWIGFINDER_ROWS 1048560u          /* with so many rows no search is refused for few rows */

/* The number of an answer for want of memory. No refusal has it. */
#define TWIGFINDER_MEMORY 255u

/* A start past the last node of a pattern. No element starts there. */
#define TWIGFINDER_NONE UINT32_MAX

/* What a call answers.
 * Granted: number and place are 0, and count says how many bytes or embeddings.
 * Refused: number is 1 to 24 (docs/REFUSALS.md), place is where, and count is 0.
 * Want of memory: number is TWIGFINDER_MEMORY, and place and count are 0. */
struct twigfinder_answer {
    uint32_t number;
    size_t place;
    size_t count;
};

/* An embedding: for each node of the pattern, in the order of the names in the pattern, the start of its element, which is the byte offset
 * of the `<` of the element's tag in the book text; and TWIGFINDER_NONE past the last node. */
struct twigfinder_place {
    uint32_t starts[TWIGFINDER_NODES];
};

/* Writes the sheet of a book text from byte 0 of `sheet` on, and leaves the bytes behind it. Count: the bytes of the sheet.
 * Refused: 1 to 8, what is wrong first in the text, and where; 9 if `sheet` is too short, and place is the bytes needed. Nothing is written
 * then. */
struct twigfinder_answer twigfinder_index(const uint8_t *text, size_t text_len, uint8_t *sheet, size_t sheet_len);

/* Whether these bytes are a lawful sheet. Count: their number.
 * Refused: 10 to 13, what is wrong first, and where. */
struct twigfinder_answer twigfinder_check(const uint8_t *sheet, size_t sheet_len);

/* Writes the standard spelling of a pattern from byte 0 of `out` on, and leaves the bytes behind it. Two patterns have the same spelling
 * exactly if they mean the same. Count: the bytes of the spelling.
 * Refused: 14 to 17, what is wrong first in the pattern, and where; 18 if `out` is too short, and place is the bytes needed. */
struct twigfinder_answer twigfinder_spell(const uint8_t *pattern, size_t pattern_len, uint8_t *out, size_t out_len);

/* Writes the embeddings of a pattern in the book of a sheet after the first `skip`, as many as fit into `places` or are left, and leaves the
 * places behind them. They come in order: at the first node where two embeddings differ, the element of the earlier one starts first. Each
 * comes once. Count: how many were written; fewer than `places_len` only if no more are left.
 * The call allocates `rows` rows of 12 bytes to work in, which are freed before it returns.
 * Refused: 14 to 17 for the pattern; 10 to 13 for the sheet; 19 if the rows are too few, and place is how many would do. Nothing is written
 * then.
 * Each call searches from the beginning, in time about linear in the elements with the pattern's names, and then passes over `skip`
 * embeddings one by one: so better a large table than many small pages. */
struct twigfinder_answer twigfinder_find(const uint8_t *sheet, size_t sheet_len, const uint8_t *pattern, size_t pattern_len, size_t rows,
                                         size_t skip, struct twigfinder_place *places, size_t places_len);

/* How many embeddings a pattern has in the book of a sheet. Rows and refusals as for twigfinder_find. The time is linear in the number of
 * embeddings, which grows fast with the nodes of a pattern. */
struct twigfinder_answer twigfinder_count(const uint8_t *sheet, size_t sheet_len, const uint8_t *pattern, size_t pattern_len, size_t rows);

#ifdef __cplusplus
}
#endif

#endif
