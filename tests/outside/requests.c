#include "requests.h"

#include "lent.h"

#include <inttypes.h>
#include <signal.h>
#include <stdio.h>
#include <stdlib.h>
#include <string.h>
#include <unistd.h>

enum { CODES = 23, PRINTED_MOST = 20 };

#define UP_TO(code) ((1u << ((code) + 1)) - 1)
#define CODE(code) (1u << (code))

const char *const call_names[CALLS] = {"check_element", "check_table", "check_image",     "check_list", "read_state",
                                       "write_state",   "label",       "difference",      "apply",      "join",
                                       "turn_back",     "receive",     "receive_backlog", "listing"};

/* The codes that each call can give. */
static const uint32_t codes[CALLS] = {
    [CHECK_ELEMENT] = CODE(0) | CODE(3) | CODE(5) | CODE(8) | CODE(10) | CODE(11) | CODE(12),
    [CHECK_TABLE] = UP_TO(8),
    [CHECK_IMAGE] = UP_TO(12),
    [CHECK_LIST] = UP_TO(15),
    [READ_STATE] = UP_TO(13),
    [WRITE_STATE] = UP_TO(13) | CODE(21) | CODE(22),
    [LABEL] = UP_TO(8) | CODE(13),
    [DIFFERENCE] = UP_TO(12) | CODE(21),
    [APPLY] = UP_TO(18) | CODE(21),
    [JOIN] = UP_TO(15) | CODE(19) | CODE(20) | CODE(21),
    [TURN_BACK] = UP_TO(15) | CODE(21),
    [RECEIVE] = UP_TO(18) | CODE(21),
    [RECEIVE_BACKLOG] = UP_TO(18) | CODE(21),
    [LISTING] = UP_TO(12) | CODE(21),
};

unsigned long compared, passed, failed;
static unsigned long counts[256][CALLS][CODES]; /* by X, 0 if the catalogue isn't carried or can't be read */

/* What each face is lent. The guards differ, so that a read before a buffer shows. */
static struct buffers {
    struct lent table, first, second, out, fields, standing, answer;
} buffers[3];

static struct {
    const struct face *face;
    enum call call;
} running;

static void stopped(int signal)
{
    (void)signal;
    static const char text[] = " was stopped: it touched memory outside its buffers, or gave up\n";
    const char *const parts[] = {running.face->name, ", ", call_names[running.call], text};
    for (size_t i = 0; i < 4; i++)
        if (write(STDOUT_FILENO, parts[i], strlen(parts[i])) < 0)
            break;
    _exit(1);
}

void open_buffers(void)
{
    static const uint8_t guards[] = {0xA5, 0x3A, 0x5C};
    for (int i = 0; i < 3; i++) {
        uint8_t guard = guards[i];
        buffers[i] = (struct buffers){.table = lent_new(FORM_MOST, guard),
                                      .first = lent_new(FORM_MOST, guard),
                                      .second = lent_new(FORM_MOST, guard),
                                      .out = lent_new(FORM_MOST, guard),
                                      .fields = lent_new(128, guard),
                                      .standing = lent_new(16, guard),
                                      .answer = lent_new(32, guard)};
    }
    static const int signals[] = {SIGSEGV, SIGBUS, SIGILL, SIGFPE, SIGABRT};
    for (size_t i = 0; i < sizeof signals / sizeof *signals; i++)
        signal(signals[i], stopped);
}

bool writes(enum call call)
{
    return call == WRITE_STATE || (call >= DIFFERENCE && call < CALLS);
}

static uint8_t before_call(size_t at)
{
    return (uint8_t)(0xA5 + 7 * at);
}

/* Failures */

static void print_form(const char *name, const struct form *form)
{
    if (form == NULL)
        return;
    printf(" %s=", name);
    if (form->len > 400)
        printf("(%zu bytes)", form->len);
    for (size_t i = 0; i < form->len && form->len <= 400; i++)
        printf("%02x", form->bytes[i]);
}

static void fail(const struct request *request, const char *what)
{
    if (failed++ >= PRINTED_MOST)
        return;
    printf("%s, %s: %s:", running.face->name, call_names[request->call], what);
    print_form("table", request->table);
    print_form("first", request->first);
    print_form("second", request->second);
    printf(" catalogue=%u.%u type=%u number=%u kind=%" PRIu32 " position=%" PRIu32 " room=%zu\n", request->x,
           request->y, request->type, request->object, request->kind, request->position, request->room);
}

void hold(bool law, const char *name)
{
    if (law)
        passed++;
    else if (failed++ < PRINTED_MOST)
        printf("law broken: %s\n", name);
}

/* Running */

static uint8_t *lend_form(struct lent *lent, const struct form *form)
{
    return form == NULL ? lend(lent, 0) : lend_copy(lent, form->bytes, form->len);
}

static bool unchanged(const struct lent *lent, const struct form *form)
{
    return form == NULL || memcmp(lent->bytes, form->bytes, form->len) == 0;
}

static void call_face(const struct face *face, const struct request *r, struct buffers *b)
{
    const uint8_t *table = lend_form(&b->table, r->table), *first = lend_form(&b->first, r->first),
                  *second = lend_form(&b->second, r->second);
    size_t table_len = b->table.len, first_len = b->first.len, second_len = b->second.len, room = r->room;
    uint8_t *out = lend(&b->out, room);
    uint32_t *answer = (uint32_t *)(void *)lend(&b->answer, 32);
    uint32_t *fields = (uint32_t *)(void *)lend_copy(&b->fields, r->fields, 128);
    uint32_t *standing = (uint32_t *)(void *)lend_copy(&b->standing, r->standing, 16);
    memset(answer, b->answer.guard, 32);
    for (size_t i = 0; i < 128 && r->call == READ_STATE; i++)
        b->fields.bytes[i] = before_call(i);
    for (size_t i = 0; i < room; i++)
        out[i] = before_call(i);
    running.face = face;
    running.call = r->call;
    switch (r->call) {
    case CHECK_ELEMENT: face->check_element(r->x, r->y, r->type, table, table_len, answer); break;
    case CHECK_TABLE: face->check_table(table, table_len, answer); break;
    case CHECK_IMAGE: face->check_image(table, table_len, first, first_len, answer); break;
    case CHECK_LIST: face->check_list(table, table_len, first, first_len, answer); break;
    case READ_STATE: face->read_state(table, table_len, first, first_len, r->object, fields, answer); break;
    case WRITE_STATE:
        face->write_state(table, table_len, first, first_len, r->object, r->kind, fields, r->position, out, room,
                          answer);
        break;
    case LABEL: face->label(table, table_len, r->object, answer); break;
    case DIFFERENCE: face->difference(table, table_len, first, first_len, second, second_len, out, room, answer); break;
    case APPLY: face->apply(table, table_len, first, first_len, second, second_len, out, room, answer); break;
    case JOIN: face->join(table, table_len, first, first_len, second, second_len, out, room, answer); break;
    case TURN_BACK: face->turn_back(table, table_len, first, first_len, out, room, answer); break;
    case RECEIVE:
        face->receive(table, table_len, first, first_len, second, second_len, out, room, standing, answer);
        break;
    case RECEIVE_BACKLOG:
        face->receive_backlog(table, table_len, first, first_len, second, second_len, out, room, standing, answer);
        break;
    case LISTING: face->listing(table, table_len, out, room, answer); break;
    case CALLS: break;
    }
}

struct outcome perform(const struct face *face, const struct request *request)
{
    struct buffers *b = &buffers[face == &library ? 0 : face == &handmade ? 1 : 2];
    call_face(face, request, b);
    struct outcome outcome = {(uint32_t *)(void *)b->answer.bytes, (uint32_t *)(void *)b->fields.bytes,
                              (uint32_t *)(void *)b->standing.bytes, b->out.bytes};
    if (!guard_intact(&b->table) || !guard_intact(&b->first) || !guard_intact(&b->second) || !guard_intact(&b->out) ||
        !guard_intact(&b->answer) || !guard_intact(&b->fields) || !guard_intact(&b->standing))
        fail(request, "bytes before a lent buffer are changed");
    if (!unchanged(&b->table, request->table) || !unchanged(&b->first, request->first) ||
        !unchanged(&b->second, request->second) ||
        (request->call == WRITE_STATE && memcmp(outcome.fields, request->fields, 128) != 0))
        fail(request, "an input is changed");
    size_t front = outcome.answer[0] == 21 ? 0 : outcome.answer[3]; /* a backlog may be written and then refused */
    for (size_t i = front; i < request->room; i++)
        if (outcome.out[i] != before_call(i)) {
            fail(request, "the output is changed after its front");
            break;
        }
    for (size_t i = 0; i < 128 && request->call == READ_STATE && outcome.answer[0] != 0; i++)
        if (b->fields.bytes[i] != before_call(i)) {
            fail(request, "a refused read changes the fields");
            break;
        }
    return outcome;
}

/* Runs a request on a face and compares what it leaves with what the reference left. */
static void compare_face(const struct face *face, const struct request *request, const struct outcome *expected)
{
    struct outcome found = perform(face, request);
    if (memcmp(found.answer, expected->answer, 32) != 0) {
        fail(request, "answer");
        if (failed <= PRINTED_MOST)
            for (int i = 0; i < 8; i++)
                printf("  number %d: reference %" PRIu32 ", %s %" PRIu32 "\n", i, expected->answer[i], face->name,
                       found.answer[i]);
    }
    if (memcmp(found.out, expected->out, request->room) != 0)
        fail(request, "output");
    if (request->call == READ_STATE && memcmp(found.fields, expected->fields, 128) != 0)
        fail(request, "fields");
    if (memcmp(found.standing, expected->standing, 16) != 0)
        fail(request, "standing");
}

/* X of the catalogue that a request is under, 0 if there is none. */
static uint8_t catalogue_of(const struct request *request)
{
    const uint8_t named[] = {request->x, request->y}, *at = named;
    if (request->call != CHECK_ELEMENT) {
        if (request->table->len < TABLE_COUNT)
            return 0;
        at = request->table->bytes + CATALOGUE;
    }
    return kinds_under(at[0], at[1]) == NULL ? 0 : at[0];
}

struct outcome compare(const struct request *request)
{
    unsigned long before = failed;
    struct outcome expected = perform(&reference, request);
    compared++;
    uint32_t code = expected.answer[0];
    if (code < CODES)
        counts[catalogue_of(request)][request->call][code]++;
    compare_face(&library, request, &expected);
    compare_face(&handmade, request, &expected);
    if (failed == before)
        passed++;
    return expected;
}

/* The codes that a call can give under a catalogue, or under none. */
static uint32_t codes_under(int x, int call)
{
    return codes[call] & (x == 0 ? CODE(1) | CODE(2) | CODE(3) : ~CODE(3));
}

static void print_catalogue(int x)
{
    char name[16] = "no catalogue";
    if (x != 0)
        snprintf(name, sizeof name, "under %d.0", x);
    printf("%-15s %8s", name, "all");
    for (int code = 0; code < CODES; code++)
        printf(" %6d", code);
    printf("\n");
    for (int call = 0; call < CALLS; call++) {
        unsigned long all = 0;
        for (int code = 0; code < CODES; code++)
            all += counts[x][call][code];
        printf("%-15s %8lu", call_names[call], all);
        for (int code = 0; code < CODES; code++)
            if (codes_under(x, call) & CODE(code))
                printf(" %6lu", counts[x][call][code]);
            else
                printf(" %6s", counts[x][call][code] == 0 ? "" : "?");
        printf("\n");
    }
}

void print_counts(bool all_reached)
{
    for (int x = 0; x < 256; x++) {
        if (x != 0 && catalogues[x] == NULL)
            continue;
        print_catalogue(x);
        for (int call = 0; call < CALLS && all_reached; call++)
            for (int code = x == 0 ? 3 : 0; code < CODES; code++)
                if ((codes_under(x, call) & CODE(code)) != 0 && counts[x][call][code] == 0) {
                    printf("not reached: %s, code %d\n", call_names[call], code);
                    failed++;
                }
    }
}
