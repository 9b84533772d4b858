/* A request to any of the calls, run on the reference, the library and the handmade C, and compared. */
#ifndef REQUESTS_H
#define REQUESTS_H

#include "faces.h"
#include "forms.h"

enum call {
    CHECK_ELEMENT,
    CHECK_TABLE,
    CHECK_IMAGE,
    CHECK_LIST,
    READ_STATE,
    WRITE_STATE,
    LABEL,
    DIFFERENCE,
    APPLY,
    JOIN,
    TURN_BACK,
    RECEIVE,
    RECEIVE_BACKLOG,
    LISTING,
    CALLS
};

/* table is also the element of check_element and the data of listing, second the lists of a backlog; a call uses only
   what it takes. */
struct request {
    enum call call;
    const struct form *table, *first, *second;
    uint8_t x, y, type;
    uint16_t object;
    uint32_t kind, position, fields[32], standing[4];
    size_t room;
};

/* What a call left, in the buffers lent to it. */
struct outcome {
    const uint32_t *answer, *fields, *standing;
    const uint8_t *out;
};

extern const char *const call_names[CALLS];
/* Requests compared; and of requests and laws, those that passed and the faults found. */
extern unsigned long compared, passed, failed;

void open_buffers(void);
bool writes(enum call call);

/* Runs a request on one face; touching anything but its outputs counts as failed. */
struct outcome perform(const struct face *face, const struct request *request);

/* Runs a request on all three and compares; returns the reference's outcome. */
struct outcome compare(const struct request *request);

/* One law: counted as passed or failed. */
void hold(bool law, const char *name);

/* Prints how many requests there were by catalogue, call and code. If all_reached, a code that a call can give under a
   catalogue and that no request reached counts as failed. */
void print_counts(bool all_reached);

#endif
