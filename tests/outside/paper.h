/* What reference.c and handmade.c share: the paper's numbers, the catalogues, and how an answer is given. */
#ifndef PAPER_H
#define PAPER_H

#include <stdbool.h>
#include <stddef.h>
#include <stdint.h>
#include <string.h>

enum {
    OBJECTS_MOST = 1024,
    LABEL_MOST = 32,
    LISTED_MOST = 65536,
    NO_OBJECT = 65535,
    NO_BIT = 255,
    TABLE_LEAST = 5,
    IMAGE_LEAST = 7,
    LIST_LEAST = 13,
    /* offsets in the forms */
    VERSION = 4,
    CATALOGUE = 5,
    TABLE_COUNT = 7,
    TABLE_ENTRIES = 9,
    IMAGE_POSITION = 7,
    IMAGE_ELEMENTS = 11,
    LIST_FROM = 7,
    LIST_TO = 11,
    LIST_COUNT = 15,
    LIST_ENTRIES = 17,
    /* kinds of element: a number above all of theirs, the most fields of one, and the one without DAT */
    KINDS = 32,
    FIELDS_MOST = 24,
    KIND_WITHOUT_DAT = 22
};

/* A field from bit low up; its highest admitted value, top, is 0 if it is reserved. */
struct row {
    uint8_t low, width, top;
};

/* A kind's width in bytes, and its fields from bit 0 up; a row of width 0 ends them. */
struct layout {
    uint8_t width;
    struct row rows[FIELDS_MOST + 1];
};

extern const struct layout layouts[KINDS];

/* By X, for Y = 0: the kind of each type, 0 if it isn't carried. NULL if the catalogue isn't. */
extern const uint8_t *const catalogues[256];

static inline const uint8_t *kinds_under(uint8_t x, uint8_t y)
{
    return y == 0 ? catalogues[x] : NULL;
}

/* Checks 10, 11 and 12, field by field. */
bool check_fields(uint8_t kind, const uint8_t *element, uint32_t object, uint32_t *answer);

/* Answers */

static inline void give(uint32_t *answer, uint32_t code, uint32_t object, uint32_t bit, size_t length)
{
    memset(answer, 0, 8 * sizeof *answer);
    answer[0] = code;
    answer[1] = object;
    answer[2] = bit;
    answer[3] = (uint32_t)length;
}

static inline void succeed(uint32_t *answer, size_t length)
{
    give(answer, 0, NO_OBJECT, NO_BIT, length);
}

/* Refusals return false, so that a check can return them. */
static inline bool refused_bit(uint32_t *answer, uint32_t code, uint32_t object, uint32_t bit)
{
    give(answer, code, object, bit, 0);
    return false;
}

static inline bool refused_object(uint32_t *answer, uint32_t code, uint32_t object)
{
    return refused_bit(answer, code, object, NO_BIT);
}

static inline bool refused(uint32_t *answer, uint32_t code)
{
    return refused_bit(answer, code, NO_OBJECT, NO_BIT);
}

/* 21 comes last: false if the output is shorter than what is to be written. */
static inline bool room(size_t out_len, size_t length, uint32_t *answer)
{
    if (out_len >= length)
        return true;
    give(answer, 21, NO_OBJECT, NO_BIT, length);
    return false;
}

#endif
