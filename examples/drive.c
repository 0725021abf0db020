/*
 * drive: a shell that follows a planet through a day. It asks the built-in table every hour where
 * its motor should stand, and moves there: over the meridian, where positions begin again at 0, by
 * as few positions as everywhere else.
 *
 *     drive [BODY [RING [EPOCH]]]
 *
 * BODY is a NAIF code, 399 (the Earth) where none is given; RING is the number of the motor's
 * positions, 200 where none is given; EPOCH is in TDB seconds past J2000, 0 where none is given.
 * The exit status is 0 if no call is refused.
 */
#include "globe.h"

#include <inttypes.h>
#include <stdbool.h>
#include <stdio.h>
#include <stdlib.h>

enum { HOURS = 24 };

static const double HOUR = 3600.0;

/* Whether an answer is a refusal, which is told. */
static bool was_refused(uint32_t number) {
    if (number != GLOBE_OK) {
        fprintf(stderr, "refused %" PRIu32 "\n", number);
    }
    return number != GLOBE_OK;
}

/* Turns the motor by so many positions: here the shell is a number that is printed. */
static void turn(uint32_t *shell, uint32_t ring, int32_t move) {
    int64_t at = (int64_t)*shell + move;
    *shell = (uint32_t)((at + ring) % ring);
}

int main(int count, char **arguments) {
    uint32_t body = count > 1 ? (uint32_t)strtol(arguments[1], NULL, 10) : 399;
    uint32_t ring = count > 2 ? (uint32_t)strtol(arguments[2], NULL, 10) : 200;
    double start = count > 3 ? strtod(arguments[3], NULL) : 0.0;

    globe_position first = globe_drive_builtin_position(body, start, ring);
    if (was_refused(first.number)) {
        return EXIT_FAILURE;
    }
    uint32_t shell = first.position;
    printf("body %" PRIu32 ", ring of %" PRIu32 ": the shell stands at %" PRIu32 "\n", body, ring,
           shell);
    for (int hour = 1; hour <= HOURS; hour++) {
        globe_motion motion = globe_drive_builtin_move(body, start + hour * HOUR, ring, shell);
        if (was_refused(motion.number)) {
            return EXIT_FAILURE;
        }
        turn(&shell, ring, motion.move);
        printf("hour %2d: to %4" PRIu32 " by %+4" PRId32 "\n", hour, motion.target, motion.move);
    }
    return EXIT_SUCCESS;
}
