#include "lent.h"

#include <stdio.h>
#include <stdlib.h>
#include <string.h>
#include <sys/mman.h>
#include <unistd.h>

enum { GUARD = 64 };

struct lent lent_new(size_t most, uint8_t guard)
{
    size_t page = (size_t)sysconf(_SC_PAGESIZE);
    size_t size = (most + GUARD + page - 1) / page * page;
    uint8_t *start = mmap(NULL, size + page, PROT_READ | PROT_WRITE, MAP_PRIVATE | MAP_ANONYMOUS, -1, 0);
    if (start == MAP_FAILED || mprotect(start + size, page, PROT_NONE) != 0) {
        perror("memory");
        exit(2);
    }
    return (struct lent){start + size, start + size, 0, most, guard};
}

uint8_t *lend(struct lent *lent, size_t len)
{
    if (len > lent->most) {
        fprintf(stderr, "%zu bytes are too many to lend\n", len);
        exit(2);
    }
    lent->bytes = lent->end - len;
    lent->len = len;
    memset(lent->bytes - GUARD, lent->guard, GUARD);
    return lent->bytes;
}

uint8_t *lend_copy(struct lent *lent, const void *bytes, size_t len)
{
    return memcpy(lend(lent, len), bytes, len);
}

bool guard_intact(const struct lent *lent)
{
    for (const uint8_t *byte = lent->bytes - GUARD; byte < lent->bytes; byte++)
        if (*byte != lent->guard)
            return false;
    return true;
}
