/*
 * orientation: loads a text PCK kernel and prints how a body is oriented and how large it is, by
 * the kernel and by the built-in table, and the captions that the kernel has for it: the strings of
 * BODYn_CAPTION. Of a kernel that is refused it prints the faulty line, a caret under the column.
 *
 *     orientation [KERNEL [BODY [EPOCH]]]
 *
 * BODY is a NAIF code, 499 (Mars) where none is given; EPOCH is in TDB seconds past J2000, 0 where
 * none is given. The exit status is 0 if the kernel is loaded and has an orientation of the body.
 */
#include "globe.h"

#include <inttypes.h>
#include <stdbool.h>
#include <stdio.h>
#include <stdlib.h>

/* Any number will do as a label: only one text is held. */
enum { LABEL = 1 };

/* All memory is laid out here: the library asks for none. */
static uint64_t pool[GLOBE_POOL_WORDS];

/* One byte more than the longest text, so that a longer file is refused and never cut short. */
static uint8_t text[GLOBE_TEXT_BYTES + 1];

/* The most bytes that are shown of a line: no fault is further behind. */
enum { SHOWN = 133 };

/* What a refusal is called, and what to do about it. */
static const struct {
    const char *name, *advice;
} refusals[] = {
    [GLOBE_LABEL_HELD] = {"LABEL HELD", "remove the text under this label, or use another label"},
    [GLOBE_TEXT_TOO_LONG] = {"TEXT TOO LONG",
                             "split the text, or feed it in parts: one has at most 65,536 bytes"},
    [GLOBE_LINE_TOO_LONG] = {"LINE TOO LONG", "break the line: a data line has at most 132 bytes"},
    [GLOBE_BAD_BYTE] = {"BAD BYTE", "retype the line in plain letters, digits, signs and blanks"},
    [GLOBE_NUMBER] = {"NUMBER", "shorten the number: it has over 19 digits or too steep a power"},
    [GLOBE_NO_ROOM] = {"NO ROOM", "remove a text: there is room for 16 texts, 512 statements, "
                                  "3,072 values and 8,192 bytes of strings"},
    [GLOBE_NOT_HELD] = {"NOT HELD", "look up the label: no text is held under it"},
    [GLOBE_EPOCH] = {"EPOCH", "give TDB seconds past J2000, at most 157,788,000,000 of them"},
    [GLOBE_UNKNOWN_BODY] = {"UNKNOWN BODY",
                            "look up the code, or load a text that has this of the body"},
    [GLOBE_INCOMPLETE] = {"INCOMPLETE", "add what is missing: POLE_RA, POLE_DEC and PM go "
                                        "together, and NUT_PREC terms go with NUT_PREC_ANGLES"},
    [GLOBE_WRONG_COUNT] = {"WRONG COUNT", "count the values: 1 to 3 for pole and meridian, 3 for "
                                          "radii, and for each angle 2, or one more than "
                                          "MAX_PHASE_DEGREE says"},
    [GLOBE_NO_VARIABLE] = {"NO VARIABLE", "look up the name: no statement has it, or no string the "
                                          "place"},
    [GLOBE_SHORT_BUFFER] = {"SHORT BUFFER", "lend a longer buffer: 3,072 values always suffice, or "
                                            "60 bytes for a string"},
    [GLOBE_DAMAGED_POOL] = {"DAMAGED POOL", "make the pool empty and load its texts again"},
    [GLOBE_MIXED_KIND] = {"MIXED KIND", "take a string away from the numbers, or a number from the "
                                        "strings"},
    [GLOBE_BAD_NAME] = {"BAD NAME", "begin the line with a name of at most 32 letters, digits and "
                                    "underscores"},
    [GLOBE_NO_OPERATOR] = {"NO OPERATOR", "write = or += after the name"},
    [GLOBE_BAD_VALUE] = {"BAD VALUE", "write a number here, or a string of at most 60 bytes in "
                                      "single quotes; a list has one kind of them"},
    [GLOBE_OPEN_LIST] = {"OPEN LIST", "give the list a value and close it with a )"},
    [GLOBE_REST_OF_LINE] = {"REST OF LINE", "take this away, or begin a new line before it"},
    [GLOBE_TEXT_OPEN] = {"TEXT OPEN", "close or drop the text that is open"},
    [GLOBE_BAD_DEGREE] = {"BAD DEGREE", "give MAX_PHASE_DEGREE one number: 1, 2 or 3"},
    [GLOBE_BAD_RADIUS] = {"BAD RADIUS", "look up the radii: each is greater than 0"},
};

static bool was_refused(uint32_t number, uint32_t line, uint32_t column) {
    if (number == GLOBE_OK) {
        return false;
    }
    printf("refused %" PRIu32 " (%s)", number, refusals[number].name);
    if (line != 0) {
        printf(" at line %" PRIu32 ", column %" PRIu32, line, column);
    }
    printf(": %s\n", refusals[number].advice);
    return true;
}

static bool print_orientation(globe_oriented o) {
    if (was_refused(o.number, o.line, o.column)) {
        return false;
    }
    printf("pole at right ascension %.6f, declination %.6f; meridian %.6f degrees\n", o.ra, o.dec,
           o.w);
    printf("    %11.8f %11.8f %11.8f\n", o.m11, o.m12, o.m13);
    printf("    %11.8f %11.8f %11.8f\n", o.m21, o.m22, o.m23);
    printf("    %11.8f %11.8f %11.8f\n", o.m31, o.m32, o.m33);
    return true;
}

static void print_radii(globe_axes radii) {
    if (!was_refused(radii.number, radii.line, radii.column)) {
        printf("radii %g, %g and %g km\n", radii.a, radii.b, radii.c);
    }
}

/* Prints the captions of a body, one after another, up to the place that is past the end. */
static void print_captions(uint32_t body) {
    char name[32];
    uint8_t caption[GLOBE_STRING];
    int bytes = snprintf(name, sizeof name, "BODY%" PRIu32 "_CAPTION", body);
    for (size_t place = 1;; place++) {
        globe_fetched fetched = globe_fetch_string(pool, GLOBE_POOL_WORDS, (const uint8_t *)name,
                                                   (size_t)bytes, place, caption, sizeof caption);
        if (fetched.number == GLOBE_NO_VARIABLE) {
            return;
        }
        printf("caption %zu: ", place);
        if (was_refused(fetched.number, fetched.line, fetched.column)) {
            return;
        }
        printf("%.*s\n", (int)fetched.count, (const char *)caption);
    }
}

/* Where a line of the text begins. */
static const uint8_t *line_start(uint32_t line) {
    const uint8_t *at = text;
    while (line > 1) {
        line -= *at++ == '\n';
    }
    return at;
}

/* How many bytes of a line are shown: not its end, and not what is over the limit. */
static size_t shown_bytes(const uint8_t *at, const uint8_t *end) {
    size_t count = 0;
    while (count < SHOWN && at + count < end && at[count] != '\n') {
        count++;
    }
    bool crlf = count > 0 && at + count < end && at[count] == '\n' && at[count - 1] == '\r';
    return crlf ? count - 1 : count;
}

/* Whether a byte can be printed as it is. */
static bool is_plain(uint8_t byte) { return (byte >= ' ' && byte <= '~') || byte == '\t'; }

/* Prints the faulty line of the text, and a caret under the column. */
static void print_fault(size_t bytes, uint32_t line, uint32_t column) {
    const uint8_t *at = line_start(line);
    size_t count = shown_bytes(at, text + bytes);
    for (size_t i = 0; i < count; i++) {
        putchar(is_plain(at[i]) ? at[i] : '?');
    }
    putchar('\n');
    for (size_t i = 0; i + 1 < column; i++) {
        putchar(at[i] == '\t' ? '\t' : ' ');
    }
    printf("^\n");
}

/* Loads a file into the pool and prints what is held then. */
static bool load(const char *path) {
    FILE *file = fopen(path, "rb");
    if (file == NULL) {
        perror(path);
        return false;
    }
    size_t bytes = fread(text, 1, sizeof text, file);
    bool unread = ferror(file) != 0;
    fclose(file);
    if (unread) {
        perror(path);
        return false;
    }

    printf("%s: ", path);
    globe_reply reply = globe_load(pool, GLOBE_POOL_WORDS, LABEL, text, bytes);
    if (was_refused(reply.number, reply.line, reply.column)) {
        if (reply.line != 0) {
            print_fault(bytes, reply.line, reply.column);
        }
        return false;
    }
    globe_counts held = globe_totals(pool, GLOBE_POOL_WORDS);
    printf("texts %" PRIu32 ", statements %" PRIu32 ", values %" PRIu32 "\n", held.texts,
           held.statements, held.values);
    return true;
}

int main(int argc, char **argv) {
    const char *kernel = argc > 1 ? argv[1] : "examples/kernels/planets.tpc";
    char *body_end = "", *epoch_end = "";
    /* A negative code becomes a large one here, which no source knows. */
    uint32_t body = argc > 2 ? (uint32_t)strtol(argv[2], &body_end, 10) : 499;
    double epoch = argc > 3 ? strtod(argv[3], &epoch_end) : 0.0;
    if (argc > 4 || *body_end != '\0' || *epoch_end != '\0') {
        fprintf(stderr, "usage: orientation [KERNEL [BODY [EPOCH]]]\n");
        return EXIT_FAILURE;
    }
    if (globe_pool_words() != GLOBE_POOL_WORDS) {
        fprintf(stderr, "orientation: globe.h and libglobe_c.a are of different editions\n");
        return EXIT_FAILURE;
    }

    globe_make_empty(pool, GLOBE_POOL_WORDS);
    if (!load(kernel)) {
        return EXIT_FAILURE;
    }
    printf("by the kernel: ");
    bool oriented = print_orientation(globe_orientation(pool, GLOBE_POOL_WORDS, body, epoch));
    printf("by the kernel: ");
    print_radii(globe_radii(pool, GLOBE_POOL_WORDS, body));
    printf("by the table: ");
    print_orientation(globe_builtin_orientation(body, epoch));
    printf("by the table: ");
    print_radii(globe_builtin_radii(body));
    print_captions(body);
    return oriented ? EXIT_SUCCESS : EXIT_FAILURE;
}
