/*
 * feeding: loads a text PCK kernel as a card reader hands it over, 512 bytes at a time, and prints
 * what is held then. No more than a block of the kernel is in memory, beside the pool. While it is
 * read, a line on standard error tells how far it is, and that nothing more is held yet. Of a
 * kernel that is refused it prints the faulty line, a caret under the column, for which the card is
 * read a second time.
 *
 *     feeding [KERNEL]
 *
 * The exit status is 0 if the kernel is loaded.
 */
#include "globe.h"

#include <inttypes.h>
#include <stdbool.h>
#include <stdio.h>
#include <stdlib.h>

/* Any number will do as a label: only one text is held. */
enum { LABEL = 1 };

/* What a card reader hands over at once. */
enum { BLOCK = 512 };

/* The most bytes that are shown of a line: no fault is further behind. */
enum { SHOWN = 133 };

/* All memory is laid out here: the library asks for none. */
static uint64_t pool[GLOBE_POOL_WORDS];
static uint8_t block[BLOCK];

static bool was_refused(globe_reply reply) {
    if (reply.number == GLOBE_OK) {
        return false;
    }
    printf("refused %" PRIu32, reply.number);
    if (reply.line != 0) {
        printf(" at line %" PRIu32 ", column %" PRIu32, reply.line, reply.column);
    }
    printf("\n");
    return true;
}

/* Overwrites the progress line; the pool may be asked between two parts as at any time. */
static void print_progress(unsigned long bytes) {
    globe_counts held = globe_totals(pool, GLOBE_POOL_WORDS);
    fprintf(stderr, "\r%lu bytes read, texts held %" PRIu32, bytes, held.texts);
}

/*
 * Feeds the open text with all blocks of a file, and tells whether they could be read. A part may
 * have any length, so that the last block needs no care; nor does a line that two blocks share.
 */
static bool feed_blocks(FILE *card) {
    unsigned long bytes = 0;
    size_t count;
    while ((count = fread(block, 1, sizeof block, card)) > 0) {
        globe_feed(pool, GLOBE_POOL_WORDS, block, count);
        bytes += count;
        print_progress(bytes);
    }
    fprintf(stderr, "\n");
    return ferror(card) == 0;
}

/* Whether a byte can be printed as it is. */
static bool is_plain(int byte) { return (byte >= ' ' && byte <= '~') || byte == '\t'; }

/* The next byte of a line, or EOF at its end, which a CR belongs to only before an LF. */
static int line_byte(FILE *card) {
    int byte = getc(card);
    if (byte == '\r') {
        int next = getc(card);
        ungetc(next, card);
        return next == '\n' ? EOF : byte;
    }
    return byte == '\n' ? EOF : byte;
}

/* Prints the faulty line, and a caret under the column. */
static void print_fault(FILE *card, uint32_t line, uint32_t column) {
    char under[SHOWN + 1] = "";
    int byte;
    rewind(card);
    while (line > 1 && (byte = getc(card)) != EOF) {
        line -= byte == '\n';
    }
    for (int i = 0; i < SHOWN && (byte = line_byte(card)) != EOF; i++) {
        putchar(is_plain(byte) ? byte : '?');
        under[i] = byte == '\t' ? '\t' : ' ';
    }
    printf("\n%.*s^\n", (int)column - 1, under);
}

/* Loads a file into the pool. */
static bool load(FILE *card) {
    if (was_refused(globe_open(pool, GLOBE_POOL_WORDS, LABEL))) {
        return false;
    }
    if (!feed_blocks(card)) {
        /* Half a text is none: it goes, and all that was held stays. */
        globe_drop(pool, GLOBE_POOL_WORDS);
        fprintf(stderr, "feeding: the card cannot be read to its end\n");
        return false;
    }
    /* Only now is told whether the text is right and has room. */
    globe_reply closed = globe_close(pool, GLOBE_POOL_WORDS);
    if (was_refused(closed)) {
        if (closed.line != 0) {
            print_fault(card, closed.line, closed.column);
        }
        return false;
    }
    globe_counts held = globe_totals(pool, GLOBE_POOL_WORDS);
    printf("texts %" PRIu32 ", statements %" PRIu32 ", values %" PRIu32 "\n", held.texts,
           held.statements, held.values);
    return true;
}

int main(int argc, char **argv) {
    const char *kernel = argc > 1 ? argv[1] : "examples/kernels/planets.tpc";
    if (argc > 2) {
        fprintf(stderr, "usage: feeding [KERNEL]\n");
        return EXIT_FAILURE;
    }
    if (globe_pool_words() != GLOBE_POOL_WORDS) {
        fprintf(stderr, "feeding: globe.h and libglobe_c.a are of different editions\n");
        return EXIT_FAILURE;
    }
    FILE *card = fopen(kernel, "rb");
    if (card == NULL) {
        perror(kernel);
        return EXIT_FAILURE;
    }
    globe_make_empty(pool, GLOBE_POOL_WORDS);
    printf("%s: ", kernel);
    bool loaded = load(card);
    fclose(card);
    return loaded ? EXIT_SUCCESS : EXIT_FAILURE;
}
