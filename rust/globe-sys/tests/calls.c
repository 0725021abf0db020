/*
 * Makes one call after another through globe.h and prints every field of each answer, doubles as
 * their bits: tests/calls.rs makes the same calls from Rust.
 */
#include "globe.h"

#include <inttypes.h>
#include <stdio.h>
#include <string.h>

static uint64_t pool[GLOBE_POOL_WORDS];

static const char TEXT[] = "note\n"
                           "\\begindata\n"
                           "BODY899_POLE_RA = 299.36\n"
                           "BODY899_POLE_DEC = 43.46\n"
                           "BODY899_PM = ( 253.18 536.3128492 )\n"
                           "BODY899_NUT_PREC_RA = 0.70\n"
                           "BODY899_RADII = ( 24764 24764\n"
                           "24341 )\n"
                           "BODY8_NUT_PREC_ANGLES = ( 357.85 52.316 )\n"
                           "CAPTION = ( 'Neptune' '' 'Le Verrier''s planet' )\n";
/* One text for each refusal that tells a line and a column. */
static const char *const FAULTY[] = {
    "\\begindata\nX = 1\nX = 1E23\n", "\\begindata\n\tX = \001",
    "\\begindata\n 'X' = 1",          "\\begindata\nX\t: 1",
    "\\begindata\nX = 1\nX = \n",     "\\begindata\nX = ( 1 \r\n",
    "\\begindata\nX = ( 1\n) 2",
};
static const char MIXING[] = "\\begindata\nBODY899_PM += 'a caption'\n";
/* A text in two parts, cut within a delimiter, and one that is faulty at its end. */
static const char *const PARTS[] = {"note\n \\begin", "data\r\nPART = ( 1\n2 )"};
static const char OPEN_LIST[] = "\\begindata\nX = ( 1 \r\n";
static const char NAME[] = "BODY899_RADII";

static void print_doubles(size_t count, const double *values) {
    for (size_t i = 0; i < count; i++) {
        uint64_t bits;
        memcpy(&bits, &values[i], sizeof bits);
        printf(" %016" PRIX64, bits);
    }
    printf("\n");
}

/* What every answer begins with. */
static void print_place(const char *answer, uint32_t number, uint32_t line, uint32_t column) {
    printf("%s %" PRIu32 " %" PRIu32 " %" PRIu32, answer, number, line, column);
}

static void print_reply(globe_reply r) {
    print_place("reply", r.number, r.line, r.column);
    printf("\n");
}

static void print_counts(globe_counts c) {
    print_place("counts", c.number, c.line, c.column);
    printf(" %" PRIu32 " %" PRIu32 " %" PRIu32 "\n", c.texts, c.statements, c.values);
}

static void print_fetched(globe_fetched f, const double *buffer, size_t room) {
    print_place("fetched", f.number, f.line, f.column);
    printf(" %" PRIu32, f.count);
    print_doubles(room, buffer);
}

/* Fetches a string and prints the answer and the buffer, all of it. */
static void print_string(const char *name, size_t place, size_t room) {
    uint8_t buffer[GLOBE_STRING];
    memset(buffer, '-', sizeof buffer);
    globe_fetched f = globe_fetch_string(pool, GLOBE_POOL_WORDS, (const uint8_t *)name,
                                         strlen(name), place, buffer, room);
    print_place("string", f.number, f.line, f.column);
    printf(" %" PRIu32 " %.*s\n", f.count, GLOBE_STRING, (const char *)buffer);
}

static void print_oriented(globe_oriented o) {
    const double values[] = {o.ra,  o.dec, o.w,   o.m11, o.m12, o.m13,
                             o.m21, o.m22, o.m23, o.m31, o.m32, o.m33};
    print_place("oriented", o.number, o.line, o.column);
    print_doubles(12, values);
}

static void print_axes(globe_axes x) {
    const double values[] = {x.a, x.b, x.c};
    print_place("axes", x.number, x.line, x.column);
    print_doubles(3, values);
}

static void print_position(globe_position p) {
    print_place("position", p.number, p.line, p.column);
    printf(" %" PRIu32 "\n", p.position);
}

static void print_motion(globe_motion m) {
    print_place("motion", m.number, m.line, m.column);
    printf(" %" PRIu32 " %" PRId32 "\n", m.target, m.move);
}

static void faulty_loads(void) {
    for (size_t i = 0; i < sizeof FAULTY / sizeof *FAULTY; i++) {
        const uint8_t *text = (const uint8_t *)FAULTY[i];
        print_reply(globe_load(pool, GLOBE_POOL_WORDS, 2, text, strlen(FAULTY[i])));
    }
}

static void string_calls(void) {
    const uint8_t *caption = (const uint8_t *)"CAPTION", *mixing = (const uint8_t *)MIXING;
    double buffer[1] = {-1};

    print_string("CAPTION", 1, GLOBE_STRING);
    print_string("CAPTION", 2, 0);
    print_string("CAPTION", 3, 19);
    print_string("CAPTION", 3, 18);
    print_string("CAPTION", 0, GLOBE_STRING);
    print_string("CAPTION", 4, GLOBE_STRING);
    print_string("CAPTION", SIZE_MAX, GLOBE_STRING);
    print_string("BODY899_RADII", 3, GLOBE_STRING);
    print_string("BODY899_RADII", 4, GLOBE_STRING);
    print_string("", 1, GLOBE_STRING);
    print_fetched(globe_fetch(pool, GLOBE_POOL_WORDS, caption, 7, buffer, 1), buffer, 1);
    /* NULL with 0 is an empty slice. */
    print_fetched(globe_fetch_string(pool, GLOBE_POOL_WORDS, caption, 7, 2, NULL, 0), buffer, 1);
    print_fetched(globe_fetch_string(pool, GLOBE_POOL_WORDS, NULL, 0, 1, NULL, 0), buffer, 1);
    print_fetched(globe_fetch_string(NULL, 0, caption, 7, 1, NULL, 0), buffer, 1);
    print_reply(globe_load(pool, GLOBE_POOL_WORDS, 9, mixing, sizeof MIXING - 1));
    print_oriented(globe_orientation(pool, GLOBE_POOL_WORDS, 899, 0.0));
    print_reply(globe_remove(pool, GLOBE_POOL_WORDS, 9));
}

/* Feeds the open text with a part that ends in a 0. */
static void print_feed(const char *part) {
    print_reply(globe_feed(pool, GLOBE_POOL_WORDS, (const uint8_t *)part, strlen(part)));
}

static void part_calls(void) {
    const size_t words = globe_pool_words();

    print_reply(globe_feed(pool, words, NULL, 0));
    print_reply(globe_close(pool, words));
    print_reply(globe_drop(pool, words));
    print_reply(globe_open(pool, words, 4294967295u));
    print_reply(globe_open(pool, words, 3));
    print_reply(globe_open(pool, words, 3));
    print_reply(globe_load(pool, words, 4, NULL, 0));
    print_reply(globe_remove(pool, words, 7));
    print_reply(globe_clear(pool, words));
    print_feed(PARTS[0]);
    print_reply(globe_feed(pool, words, NULL, 0));
    print_feed(PARTS[1]);
    print_counts(globe_totals(pool, words));
    print_reply(globe_close(pool, words));
    print_counts(globe_totals(pool, words));
    print_reply(globe_open(pool, words, 4));
    print_feed(OPEN_LIST);
    print_reply(globe_close(pool, words));
    print_reply(globe_close(pool, words));
    print_reply(globe_open(pool, words, 4));
    print_feed(PARTS[1]);
    print_reply(globe_drop(pool, words));
    print_reply(globe_drop(pool, words));
    print_reply(globe_open(NULL, 0, 4));
    print_reply(globe_feed(NULL, 0, NULL, 0));
    print_reply(globe_close(NULL, 0));
    print_reply(globe_drop(NULL, 0));
    print_reply(globe_remove(pool, words, 3));
}

static void drive_calls(void) {
    print_position(globe_drive_position(pool, GLOBE_POOL_WORDS, 899, 0.0, 360));
    print_position(globe_drive_position(pool, GLOBE_POOL_WORDS, 899, 0.0, 4097));
    print_position(globe_drive_position(NULL, 0, 899, 0.0, 2));
    print_position(globe_drive_builtin_position(399, 0.0, 4096));
    print_position(globe_drive_builtin_position(11, 0.0, 1));
    print_position(globe_drive_builtin_position(11, 0.0, 2));
    print_motion(globe_drive_move(pool, GLOBE_POOL_WORDS, 899, 0.0, 360, 73));
    print_motion(globe_drive_move(pool, GLOBE_POOL_WORDS, 899, 0.0, 360, 300));
    print_motion(globe_drive_move(pool, GLOBE_POOL_WORDS, 899, 0.0, 360, 360));
    print_motion(globe_drive_move(NULL, 0, 899, 0.0, 360, 359));
    print_motion(globe_drive_builtin_move(399, 0.0, 4096, 4095));
    print_motion(globe_drive_builtin_move(399, 0.0, 0, 4294967295u));
    print_motion(globe_drive_builtin_move(399, 157788000001.0, 2, 2));
    print_motion(globe_drive_builtin_move(399, 157788000001.0, 2, 1));
}

int main(void) {
    const uint8_t *text = (const uint8_t *)TEXT, *name = (const uint8_t *)NAME;
    const size_t words = globe_pool_words();
    double buffer[4] = {-1, -1, -1, -1};

    memset(pool, 0xA5, sizeof pool);
    print_counts(globe_totals(pool, words));
    print_reply(globe_make_empty(pool, words - 1));
    print_reply(globe_make_empty(pool, words));
    print_reply(globe_load(pool, words, 4294967295u, text, sizeof TEXT - 1));
    print_reply(globe_load(pool, words, 4294967295u, text, sizeof TEXT - 1));
    faulty_loads();
    print_counts(globe_totals(pool, words));
    print_fetched(globe_fetch(pool, words, name, sizeof NAME - 1, buffer, 2), buffer, 4);
    print_fetched(globe_fetch(pool, words, name, sizeof NAME - 1, buffer, 4), buffer, 4);
    print_fetched(globe_fetch(pool, words, name, sizeof NAME - 2, buffer, 4), buffer, 4);
    print_oriented(globe_orientation(pool, words, 899, 1234567890.125));
    print_oriented(globe_orientation(pool, words, 899, 157788000000.0));
    print_oriented(globe_orientation(pool, words, 899, 157788000001.0));
    print_oriented(globe_orientation(pool, words, (uint32_t)-31, 0.0));
    print_oriented(globe_builtin_orientation(599, -1e9));
    print_oriented(globe_builtin_orientation(11, 0.0));
    print_axes(globe_radii(pool, words, 899));
    print_axes(globe_radii(pool, words, 399));
    print_axes(globe_builtin_radii(399));
    print_axes(globe_builtin_radii(10));
    drive_calls();

    /* NULL with 0 is an empty slice. */
    print_reply(globe_make_empty(NULL, 0));
    print_counts(globe_totals(NULL, 0));
    print_reply(globe_load(pool, words, 7, NULL, 0));
    print_fetched(globe_fetch(pool, words, NULL, 0, buffer, 4), buffer, 4);
    print_fetched(globe_fetch(pool, words, name, sizeof NAME - 1, NULL, 0), buffer, 4);
    print_counts(globe_totals(pool, words));
    string_calls();
    part_calls();

    print_reply(globe_remove(pool, words, 8));
    print_reply(globe_remove(pool, words, 7));
    print_counts(globe_totals(pool, words));
    print_reply(globe_clear(pool, words));
    print_counts(globe_totals(pool, words));
    print_doubles(words, (const double *)(const void *)pool);
    return 0;
}
