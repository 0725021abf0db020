/* Prints the sizes, offsets and numbers of globe.h, a line each. */
#include "globe.h"

#include <stdalign.h>
#include <stdio.h>

#define SIZE(type) printf(#type " %zu %zu\n", sizeof(type), alignof(type))
#define OFFSET(type, field) printf(#type "." #field " %zu\n", offsetof(type, field))
#define NUMBER(name) printf(#name " %d\n", name)

int main(void) {
    SIZE(globe_reply);
    OFFSET(globe_reply, number);
    OFFSET(globe_reply, line);
    OFFSET(globe_reply, column);
    SIZE(globe_fetched);
    OFFSET(globe_fetched, number);
    OFFSET(globe_fetched, line);
    OFFSET(globe_fetched, column);
    OFFSET(globe_fetched, count);
    SIZE(globe_counts);
    OFFSET(globe_counts, number);
    OFFSET(globe_counts, line);
    OFFSET(globe_counts, column);
    OFFSET(globe_counts, texts);
    OFFSET(globe_counts, statements);
    OFFSET(globe_counts, values);
    SIZE(globe_oriented);
    OFFSET(globe_oriented, number);
    OFFSET(globe_oriented, line);
    OFFSET(globe_oriented, column);
    OFFSET(globe_oriented, ra);
    OFFSET(globe_oriented, dec);
    OFFSET(globe_oriented, w);
    OFFSET(globe_oriented, m11);
    OFFSET(globe_oriented, m12);
    OFFSET(globe_oriented, m13);
    OFFSET(globe_oriented, m21);
    OFFSET(globe_oriented, m22);
    OFFSET(globe_oriented, m23);
    OFFSET(globe_oriented, m31);
    OFFSET(globe_oriented, m32);
    OFFSET(globe_oriented, m33);
    SIZE(globe_axes);
    OFFSET(globe_axes, number);
    OFFSET(globe_axes, line);
    OFFSET(globe_axes, column);
    OFFSET(globe_axes, a);
    OFFSET(globe_axes, b);
    OFFSET(globe_axes, c);
    SIZE(globe_position);
    OFFSET(globe_position, number);
    OFFSET(globe_position, line);
    OFFSET(globe_position, column);
    OFFSET(globe_position, position);
    SIZE(globe_motion);
    OFFSET(globe_motion, number);
    OFFSET(globe_motion, line);
    OFFSET(globe_motion, column);
    OFFSET(globe_motion, target);
    OFFSET(globe_motion, move);
    NUMBER(GLOBE_POOL_WORDS);
    NUMBER(GLOBE_TEXT_BYTES);
    NUMBER(GLOBE_PARTS_BYTES);
    NUMBER(GLOBE_VALUES);
    NUMBER(GLOBE_STRING);
    NUMBER(GLOBE_OK);
    NUMBER(GLOBE_LABEL_HELD);
    NUMBER(GLOBE_TEXT_TOO_LONG);
    NUMBER(GLOBE_LINE_TOO_LONG);
    NUMBER(GLOBE_BAD_BYTE);
    NUMBER(GLOBE_NUMBER);
    NUMBER(GLOBE_NO_ROOM);
    NUMBER(GLOBE_NOT_HELD);
    NUMBER(GLOBE_EPOCH);
    NUMBER(GLOBE_UNKNOWN_BODY);
    NUMBER(GLOBE_INCOMPLETE);
    NUMBER(GLOBE_WRONG_COUNT);
    NUMBER(GLOBE_NO_VARIABLE);
    NUMBER(GLOBE_SHORT_BUFFER);
    NUMBER(GLOBE_DAMAGED_POOL);
    NUMBER(GLOBE_MIXED_KIND);
    NUMBER(GLOBE_BAD_NAME);
    NUMBER(GLOBE_NO_OPERATOR);
    NUMBER(GLOBE_BAD_VALUE);
    NUMBER(GLOBE_OPEN_LIST);
    NUMBER(GLOBE_REST_OF_LINE);
    NUMBER(GLOBE_TEXT_OPEN);
    NUMBER(GLOBE_BAD_DEGREE);
    NUMBER(GLOBE_BAD_RADIUS);
    NUMBER(GLOBE_BAD_RING);
    NUMBER(GLOBE_BAD_POSITION);
    return 0;
}
