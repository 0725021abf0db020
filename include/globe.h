/*
 * globe.h: where the Sun, the planets and their satellites point, from SPICE text PCK kernels or
 * from a built-in table, and where a motor stands that turns a globe there.
 *
 * The pool. A pool holds up to 16 texts, each under a label, with 512 statements and 3,072 values,
 * numbers and strings together, whose strings have 8,192 bytes. It is memory of GLOBE_POOL_WORDS
 * words that the caller lends at each call, made a pool once by globe_make_empty; memory that is
 * all zeros is an empty pool already. The library keeps nothing between calls, asks for no memory,
 * and reads and writes nothing but what is lent to it. So calls on different pools may run at the
 * same time, and so may calls that take the same pool as const.
 *
 * Parts. A text is loaded at once by globe_load, or opened, fed with parts and closed: so a card
 * reader's blocks can be passed on as they come, and a text may have 4,194,304 bytes. Where it is
 * cut does not matter. One text may be open at a time, and its memory is in the pool. Until it is
 * closed, queries see what is held without it, and a fault of it is told at closing only.
 *
 * Lent memory. Each pointer goes with the number of elements behind it, and must not be NULL unless
 * that number is 0. With 0 it is not looked at, and NULL stands for an empty slice: an empty text,
 * an empty name, a buffer without room. The pool, text, name and buffer of one call must not
 * overlap, and each is aligned for its type.
 *
 * Answers. Each answer has a number, 0 or that of a refusal, and a line and a column, both counted
 * from 1: where the text is faulty, for the refusals 3, 4, 6 and 17 to 21, and 0 otherwise. Columns
 * count bytes, a tab as one, and where something is missing the column is one past the line. The
 * values and counts of a refused answer are zeros. Zeros look like a pole and a meridian: look at
 * the number first. A refused call leaves every byte of the pool and of the buffer as it was, but
 * that a refused globe_close ends the open text. Where several refusals apply, the answer is the
 * one that is asked first; below, each call has its refusals in that order.
 *
 * Arithmetic. The values are fixed to the last bit; a number of a text is the double nearest to it,
 * and of two that are as near the one with the even significand. For that the caller owes the
 * default rounding, to nearest, and that small numbers are not flushed to zero, as linking with
 * -ffast-math may have it.
 *
 * Epochs are TDB seconds past J2000, which is JD 2451545.0 TDB (source document 001). Body codes
 * are NAIF codes; those with a meaning here are 1 to 10 and 100 to 999. A negative code, passed as
 * unsigned, is no such code and is refused 10.
 *
 * Link with libglobe_c.a and the C library's mathematics (-lm).
 */
#ifndef GLOBE_H
#define GLOBE_H

#include <stddef.h>
#include <stdint.h>

#ifdef __cplusplus
extern "C" {
#endif

/*
 * The words of a pool, for memory that is laid out at compile time; globe_pool_words tells what the
 * linked library wants.
 */
#define GLOBE_POOL_WORDS 6707

/*
 * The most bytes of a text that is loaded at once, and of one that is fed in parts; the most values
 * of a variable, and the most bytes of a string: a buffer of so many is never too short.
 */
#define GLOBE_TEXT_BYTES 65536
#define GLOBE_PARTS_BYTES 4194304
#define GLOBE_VALUES 3072
#define GLOBE_STRING 60

/* The numbers of answers; 5 is not given any more. In brackets: which column comes with it. */
enum globe_number {
    GLOBE_OK = 0,            /* not refused */
    GLOBE_LABEL_HELD = 1,    /* the label is held already */
    GLOBE_TEXT_TOO_LONG = 2, /* the text has over 65,536 bytes, or over 4,194,304 in parts */
    GLOBE_LINE_TOO_LONG = 3, /* a data or delimiter line has over 132 bytes, its end not counted
                                (133) */
    GLOBE_BAD_BYTE = 4,      /* the data line has a byte that is neither 32 to 126 nor a tab (of the
                                first such byte) */
    GLOBE_NUMBER = 6,        /* over 19 digits after leading zeros, or an exponent that less the
                                digits after the point is beyond 22 or -22, also of 0 (of the
                                number's first byte) */
    GLOBE_NO_ROOM = 7,       /* held and new are over 16 texts, 512 statements, 3,072 values or
                                8,192 bytes of strings */
    GLOBE_NOT_HELD = 8,      /* the label is not held, or no text is open */
    GLOBE_EPOCH = 9,         /* the epoch is not finite, or over 157,788,000,000 s from J2000 */
    GLOBE_UNKNOWN_BODY = 10, /* no such code, or the source has nothing of what is asked */
    GLOBE_INCOMPLETE = 11,   /* some of the variables that the orientation wants are missing */
    GLOBE_WRONG_COUNT = 12,  /* a variable has too few or too many values for what is asked */
    GLOBE_NO_VARIABLE = 13,  /* no held statement has that name, or no string has that place */
    GLOBE_SHORT_BUFFER = 14, /* the buffer is shorter than the variable, or than the string */
    GLOBE_DAMAGED_POOL = 15, /* the size is wrong, or the words are not those of a pool */
    GLOBE_MIXED_KIND = 16,   /* a string where numbers are asked for, or the other way round */
    GLOBE_BAD_NAME = 17,     /* the data line begins with no name, or with one of over 32 bytes (of
                                its first byte that is no blank) */
    GLOBE_NO_OPERATOR = 18,  /* neither = nor += follows the name (of what follows it, blanks apart,
                                or one past the line) */
    GLOBE_BAD_VALUE = 19,    /* what should be a number or a string is none, or is of the list's
                                second kind (of its first byte, or one past the line) */
    GLOBE_OPEN_LIST = 20,    /* the list is empty (of its bracket), or open at a delimiter line (1)
                                or at the text's end (one past its last line) */
    GLOBE_REST_OF_LINE = 21, /* more than blanks follows the statement (of the first such byte) */
    GLOBE_TEXT_OPEN = 22,    /* a text is open */
    GLOBE_BAD_DEGREE = 23,   /* the degree of a system's angles is not one number, 1, 2 or 3 */
    GLOBE_BAD_RADIUS = 24,   /* a radius of the pool is not greater than 0 */
    GLOBE_BAD_RING = 25,     /* a motor's ring has 2 to 4,096 positions, and not so many */
    GLOBE_BAD_POSITION = 26  /* the present position is not below the ring's number */
};

/* Done, or refused. */
typedef struct {
    uint32_t number, line, column;
} globe_reply;

/* How many values, or bytes of a string, were written to the buffer. */
typedef struct {
    uint32_t number, line, column, count;
} globe_fetched;

/* How many texts, statements and values are held. */
typedef struct {
    uint32_t number, line, column, texts, statements, values;
} globe_counts;

/*
 * An orientation: right ascension ra and declination dec of the north pole and the prime meridian
 * w, in degrees, and the matrix from inertial to body-fixed axes, row by row. ra and w are at least
 * 0 and below 360, which is never answered.
 */
typedef struct {
    uint32_t number, line, column;
    double ra, dec, w, m11, m12, m13, m21, m22, m23, m31, m32, m33;
} globe_oriented;

/*
 * Three radii, in the order of the variable: in a kernel the two equatorial ones, then the polar
 * one, in km. If the call is not refused, each is greater than 0 and finite.
 */
typedef struct {
    uint32_t number, line, column;
    double a, b, c;
} globe_axes;

/* Where a motor should stand on its ring: a position from 0 on, below the ring's number. */
typedef struct {
    uint32_t number, line, column, position;
} globe_position;

/*
 * Where a motor should stand, and how it gets there from where it stands: so many positions
 * forward, or back where move is negative. It is the shorter way round, forward if both are as
 * long: more than half the ring back or forward is never answered, nor half of it back.
 */
typedef struct {
    uint32_t number, line, column, target;
    int32_t move;
} globe_motion;

/* The words that the linked library wants of a pool. It is never refused. */
size_t globe_pool_words(void);

/*
 * Makes memory an empty pool, whatever it held; a text that is open is dropped.
 * Refused: 15 DAMAGED POOL, if words is not globe_pool_words(); the content is not looked at.
 * It writes the totals and that no text is open; words that are out of use keep what they held.
 */
globe_reply globe_make_empty(uint64_t *pool, size_t words);

/*
 * Loads a text of so many bytes under a label, any number. Its statements come after those of the
 * texts loaded before it.
 * Refused: 15 DAMAGED POOL; 22 TEXT OPEN; 1 LABEL HELD; 2 TEXT TOO LONG, over GLOBE_TEXT_BYTES;
 * then, for the first faulty line, which the answer tells with the column, 3 LINE TOO LONG, 4 BAD
 * BYTE, and whichever of 17 BAD NAME, 18 NO OPERATOR, 19 BAD VALUE, 20 OPEN LIST, 21 REST OF LINE
 * and 6 NUMBER starts at the earliest byte (19 before 6 for a number among strings); 7 NO ROOM.
 * The text is only read. A text of no statements is loaded too, and takes a label.
 */
globe_reply globe_load(uint64_t *pool, size_t words, uint32_t label, const uint8_t *text,
                       size_t bytes);

/*
 * Opens a text under a label, any number that is not held. It has no bytes yet.
 * Refused: 15 DAMAGED POOL; 22 TEXT OPEN; 1 LABEL HELD.
 * With 16 texts held it is opened too; closing then tells that there is no room.
 */
globe_reply globe_open(uint64_t *pool, size_t words, uint32_t label);

/*
 * Feeds the open text with a part of so many bytes, which may be 0. Nothing about the text is told
 * here: it is fed on also past a fault, past the pool's room and past GLOBE_PARTS_BYTES.
 * Refused: 15 DAMAGED POOL; 8 NOT HELD, if no text is open.
 * The part is only read, and is not wanted any more after the call.
 */
globe_reply globe_feed(uint64_t *pool, size_t words, const uint8_t *part, size_t bytes);

/*
 * Closes the open text: it is held under its label, after the texts loaded before it, as if all its
 * bytes had been loaded at once.
 * Refused: 15 DAMAGED POOL; 8 NOT HELD, if no text is open; 2 TEXT TOO LONG, over
 * GLOBE_PARTS_BYTES; then as for globe_load, for the first faulty line, which the answer tells with
 * the column, 3, 4, 6 and 17 to 21; 7 NO ROOM.
 * Refused by any but 15 and 8, the text is open no longer, its label is free, and nothing else has
 * changed.
 */
globe_reply globe_close(uint64_t *pool, size_t words);

/*
 * Drops the open text: it was never there, and its label is free.
 * Refused: 15 DAMAGED POOL; 8 NOT HELD, if no text is open.
 */
globe_reply globe_drop(uint64_t *pool, size_t words);

/*
 * Takes out the text under a label: the pool then answers as if that text had never been loaded,
 * and has its room again.
 * Refused: 15 DAMAGED POOL; 22 TEXT OPEN; 8 NOT HELD.
 */
globe_reply globe_remove(uint64_t *pool, size_t words, uint32_t label);

/*
 * Takes out all texts.
 * Refused: 15 DAMAGED POOL (globe_make_empty mends a pool of the right size); 22 TEXT OPEN.
 * It writes the totals; words that are out of use keep what they held.
 */
globe_reply globe_clear(uint64_t *pool, size_t words);

/*
 * Writes the values of a variable from the buffer's start and tells how many they are: the values
 * of its last direct assignment among the held texts, if there is one, and of all that is appended
 * after it. room is counted in doubles, name_bytes in bytes; the name needs no 0 at its end, and
 * its case counts.
 * Refused: 15 DAMAGED POOL; 13 NO VARIABLE, also for bytes that are no name; 16 MIXED KIND, if any
 * of the values is a string; 14 SHORT BUFFER.
 * The pool and the name are only read; the buffer keeps what stands after the values.
 */
globe_fetched globe_fetch(const uint64_t *pool, size_t words, const uint8_t *name,
                          size_t name_bytes, double *buffer, size_t room);

/*
 * Writes the string at a place of a variable, counted from 1, from the buffer's start and tells its
 * length, which may be 0: the bytes between its quotes, each doubled quote as one, without a 0 at
 * their end. The variable is as for globe_fetch; room and name_bytes are counted in bytes.
 * Refused: 15 DAMAGED POOL; 13 NO VARIABLE, also for a place that is 0 or past the variable's end;
 * 16 MIXED KIND, if any of the values is a number, at whatever place; 14 SHORT BUFFER.
 * The pool and the name are only read; the buffer keeps what stands after the string.
 */
globe_fetched globe_fetch_string(const uint64_t *pool, size_t words, const uint8_t *name,
                                 size_t name_bytes, size_t place, uint8_t *buffer, size_t room);

/*
 * Tells how many texts, statements and values are held, strings among the values.
 * Refused: 15 DAMAGED POOL.
 * The pool is only read.
 */
globe_counts globe_totals(const uint64_t *pool, size_t words);

/*
 * The orientation of a body at an epoch, by the variables of the pool and by nothing else.
 * Refused: 15 DAMAGED POOL; 9 EPOCH; 10 UNKNOWN BODY, for a code that has no meaning or a body n of
 * which none of BODYn_POLE_RA, BODYn_POLE_DEC and BODYn_PM is held; 11 INCOMPLETE, if only some of
 * these are held, or one of BODYn_NUT_PREC_RA, _DEC and _PM without BODYs_NUT_PREC_ANGLES (s is the
 * hundreds of n, or n itself up to 10); 23 BAD DEGREE, if one of these terms is held, and
 * BODYs_MAX_PHASE_DEGREE is held and is not one number that is 1, 2 or 3 as a double; 16 MIXED
 * KIND, if any of the others has a string in it, the angles only where they are asked for; 12 WRONG
 * COUNT, if one of the first three has over 3 values, or the angles are asked for and are not whole
 * groups of one value more than their degree, over 32 groups, or fewer than the longest of the
 * terms has values. The degree is 1 where nothing is held of it.
 * The pool is only read.
 */
globe_oriented globe_orientation(const uint64_t *pool, size_t words, uint32_t body, double epoch);

/*
 * The orientation of a body at an epoch, by the built-in table: the Sun, 10, and the planets, 199,
 * 299 and so on to 999.
 * Refused: 9 EPOCH; 10 UNKNOWN BODY, for every other code.
 */
globe_oriented globe_builtin_orientation(uint32_t body, double epoch);

/*
 * The radii of a body, by the variable BODYn_RADII of the pool and by nothing else.
 * Refused: 15 DAMAGED POOL; 10 UNKNOWN BODY, for a code that has no meaning or a variable that is
 * not held; 16 MIXED KIND, if it has a string in it; 12 WRONG COUNT, if it has not three values; 24
 * BAD RADIUS, if one of them is not greater than 0: 0, -0 or negative.
 * The pool is only read.
 */
globe_axes globe_radii(const uint64_t *pool, size_t words, uint32_t body);

/*
 * The radii of a planet in km, by the built-in table: 199, 299 and so on to 999.
 * Refused: 10 UNKNOWN BODY, for every other code, also for the Sun.
 */
globe_axes globe_builtin_radii(uint32_t body);

/*
 * The position of a motor that turns a globe to a body's meridian at an epoch, by the variables of
 * the pool. ring is the number of the positions of a whole turn, which stand at its multiples from
 * 0 on: the answer is the largest one, below ring, whose angle is not above the meridian. Angles
 * are compared as doubles: that of position n is n times (360.0 / ring).
 * Refused: 25 BAD RING, unless ring is 2 to 4,096; then as globe_orientation.
 * The pool is only read.
 */
globe_position globe_drive_position(const uint64_t *pool, size_t words, uint32_t body, double epoch,
                                    uint32_t ring);

/*
 * The same by the built-in table.
 * Refused: 25 BAD RING; then as globe_builtin_orientation.
 */
globe_position globe_drive_builtin_position(uint32_t body, double epoch, uint32_t ring);

/*
 * The same position as target, and the move to it from the present position: present plus move is
 * target, or a turn more or less. It is 0 exactly if the motor stands there already.
 * Refused: 25 BAD RING; 26 BAD POSITION, if present is not below ring; then as globe_orientation.
 * The pool is only read.
 */
globe_motion globe_drive_move(const uint64_t *pool, size_t words, uint32_t body, double epoch,
                              uint32_t ring, uint32_t present);

/*
 * The same by the built-in table.
 * Refused: 25 BAD RING; 26 BAD POSITION; then as globe_builtin_orientation.
 */
globe_motion globe_drive_builtin_move(uint32_t body, double epoch, uint32_t ring, uint32_t present);

#ifdef __cplusplus
}
#endif

#endif
