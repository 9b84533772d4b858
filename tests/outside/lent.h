/* Buffers lent to a call. Each ends at a page that can't be accessed, so that touching a byte after it stops the
   program, and has guard bytes before it. */
#ifndef LENT_H
#define LENT_H

#include <stdbool.h>
#include <stddef.h>
#include <stdint.h>

struct lent {
    uint8_t *end, *bytes;
    size_t len, most;
    uint8_t guard;
};

/* A buffer of up to most bytes, with copies of the guard byte before it. */
struct lent lent_new(size_t most, uint8_t guard);

/* Lends len bytes; returns where they begin. */
uint8_t *lend(struct lent *lent, size_t len);
uint8_t *lend_copy(struct lent *lent, const void *bytes, size_t len);

/* Whether the guard bytes are as they were. */
bool guard_intact(const struct lent *lent);

#endif
