/* Prints where a pattern occurs in a book text, as the program `finder` does: for each embedding a line with the starts of its elements,
 * and then `end`; or only the line of a refusal.
 *
 *   find PATTERN [BOOK]      without BOOK, the book text is read from standard input
 */
#include <inttypes.h>
#include <stdbool.h>
#include <stdio.h>
#include <stdlib.h>
#include <string.h>

#include "twigfinder.h"

/* How many embeddings are asked for at once. */
enum { PAGE = 65536 };

static _Noreturn void fail(const char *why) {
    fprintf(stderr, "find: %s\n", why);
    exit(1);
}

static void *room(size_t size) {
    void *bytes = malloc(size);
    if (bytes == NULL)
        fail("no memory");
    return bytes;
}

/* Whether an answer is granted. The line of a refusal is printed. */
static bool granted(struct twigfinder_answer answer) {
    if (answer.number == 0)
        return true;
    if (answer.number == TWIGFINDER_MEMORY)
        fail("no memory");
    printf("refused %" PRIu32 " at %zu\n", answer.number, answer.place);
    return false;
}

static void print_place(const struct twigfinder_place *place) {
    for (size_t i = 0; i < TWIGFINDER_NODES && place->starts[i] != TWIGFINDER_NONE; i++)
        printf(i == 0 ? "%" PRIu32 : " %" PRIu32, place->starts[i]);
    putchar('\n');
}

/* Prints all embeddings of a pattern in a sheet; or the line of a refusal. */
static void print_all(const uint8_t *sheet, size_t sheet_len, const uint8_t *pattern, size_t pattern_len) {
    struct twigfinder_place *places = room(PAGE * sizeof *places);
    size_t rows = 4096;
    size_t skip = 0;
    for (;;) {
        struct twigfinder_answer found = twigfinder_find(sheet, sheet_len, pattern, pattern_len, rows, skip, places, PAGE);
        if (found.number == 19) { /* too few rows: the place says how many will do */
            rows = found.place;
            continue;
        }
        if (!granted(found))
            break;
        for (size_t k = 0; k < found.count; k++)
            print_place(&places[k]);
        skip += found.count;
        if (found.count < PAGE) {
            puts("end");
            break;
        }
    }
    free(places);
}

int main(int argc, char **argv) {
    if (argc < 2 || argc > 3)
        fail("usage: find PATTERN [BOOK]");
    const uint8_t *pattern = (const uint8_t *)argv[1];
    size_t pattern_len = strlen(argv[1]);
    FILE *file = argc == 3 ? fopen(argv[2], "rb") : stdin;
    if (file == NULL)
        fail("the book cannot be opened");

    /* one byte more than a book text may have, so that a longer one is refused */
    uint8_t *text = room(TWIGFINDER_TEXT_BYTES + 1);
    size_t text_len = fread(text, 1, TWIGFINDER_TEXT_BYTES + 1, file);
    if (ferror(file))
        fail("the book cannot be read");

    /* the pattern is read before the book, so that its refusal comes first */
    uint8_t spelling[TWIGFINDER_SPELLING_BYTES];
    uint8_t *sheet = room(TWIGFINDER_SHEET_BYTES);
    if (granted(twigfinder_spell(pattern, pattern_len, spelling, sizeof spelling))) {
        struct twigfinder_answer indexed = twigfinder_index(text, text_len, sheet, TWIGFINDER_SHEET_BYTES);
        if (granted(indexed))
            print_all(sheet, indexed.count, pattern, pattern_len);
    }
    free(sheet);
    free(text);
    if (argc == 3)
        fclose(file);
    return 0;
}
