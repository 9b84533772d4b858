#include "laws.h"

#include "requests.h"

#include <string.h>

static const struct form *under;
static uint32_t answer[8];

/* Makes a call of the library with room for any output; returns the code, with the output in made. */
static uint32_t make(struct form *made, enum call call, const struct form *first, const struct form *second)
{
    struct request request = {.call = call, .table = under, .first = first, .second = second};
    request.room = writes(call) ? 2 * OBJECTS_MOST + 32 + 2 * (first->len + (second == NULL ? 0 : second->len)) : 0;
    struct outcome outcome = perform(&library, &request);
    memcpy(answer, outcome.answer, sizeof answer);
    if (made != NULL) {
        made->len = answer[0] == 0 ? answer[3] : 0;
        memcpy(made->bytes, outcome.out, made->len);
    }
    return answer[0];
}

static bool same(const struct form *one, const struct form *other)
{
    return one->len == other->len && memcmp(one->bytes, other->bytes, one->len) == 0;
}

static bool makes(const struct form *expected, enum call call, const struct form *first, const struct form *second)
{
    static struct form made;
    return make(&made, call, first, second) == 0 && same(&made, expected);
}

static bool accepted(enum call check, const struct form *form)
{
    return make(NULL, check, form, NULL) == 0;
}

static void hold_differences(const struct form *a, const struct form *b, const struct form *c, const struct form *d)
{
    static struct form ab, bc, cd, ac, bd, ad, ba;
    bool had = make(&ab, DIFFERENCE, a, b) == 0 && make(&bc, DIFFERENCE, b, c) == 0 &&
               make(&cd, DIFFERENCE, c, d) == 0 && make(&ac, DIFFERENCE, a, c) == 0 &&
               make(&bd, DIFFERENCE, b, d) == 0 && make(&ad, DIFFERENCE, a, d) == 0 && make(&ba, DIFFERENCE, b, a) == 0;
    hold(had, "two accepted images have a difference");
    hold(accepted(CHECK_LIST, &ab), "a difference is accepted");
    hold(makes(b, APPLY, a, &ab), "the list from A to B turns A into B");
    hold(makes(&ba, TURN_BACK, &ab, NULL), "the list from A to B turned back is the list from B to A");
    hold(makes(&ac, JOIN, &ab, &bc), "the lists from A to B and from B to C join to the list from A to C");
    hold(ac.len <= ab.len + bc.len, "a join is never longer than the two lists together");
    hold(makes(c, APPLY, a, &ac), "an image takes a join with the result of the two in turn");
    hold(makes(&ad, JOIN, &ac, &cd) && makes(&ad, JOIN, &ab, &bd), "three lists join alike, whichever pair is first");
}

/* Any image and list: if the list applies, it is the difference. */
static void hold_only_list(const struct form *image, const struct form *list)
{
    static struct form reached;
    if (make(&reached, APPLY, image, list) != 0)
        return;
    hold(accepted(CHECK_IMAGE, &reached), "what apply gives is accepted");
    hold(makes(list, DIFFERENCE, image, &reached), "a list that turns A into B is the list from A to B");
}

/* Any two accepted lists: a join turned back is the two turned back and joined in the opposite order, refusals too. */
static void hold_turned_join(const struct form *first, const struct form *second)
{
    static struct form first_back, second_back, join, join_back, back;
    uint32_t joined[8];
    if (!accepted(CHECK_LIST, first) || !accepted(CHECK_LIST, second))
        return;
    make(&join, JOIN, first, second);
    memcpy(joined, answer, sizeof joined);
    hold(make(&first_back, TURN_BACK, first, NULL) == 0 && accepted(CHECK_LIST, &first_back),
         "what turning back gives is accepted");
    make(&second_back, TURN_BACK, second, NULL);
    make(&back, JOIN, &second_back, &first_back);
    hold(memcmp(joined, answer, sizeof joined) == 0, "a join and the join of the turned lists have one answer");
    if (joined[0] != 0)
        return;
    hold(accepted(CHECK_LIST, &join), "what join gives is accepted");
    make(&join_back, TURN_BACK, &join, NULL);
    hold(same(&join_back, &back), "a join turned back is the two turned back and joined in the opposite order");
}

static void hold_states(const struct form *image, uint16_t object)
{
    static struct form written;
    size_t entry = entry_of(under, object), at = IMAGE_ELEMENTS;
    for (uint16_t i = 0; i < object; i++)
        at += layouts[kind_at(under, entry_of(under, i))].width;
    uint8_t kind = kind_at(under, entry);
    const uint8_t *element = pool_element(kind);

    struct request read = {.call = READ_STATE, .table = under, .first = image, .object = object};
    struct outcome outcome = perform(&library, &read);
    struct request write = {.call = WRITE_STATE,
                            .table = under,
                            .first = image,
                            .object = object,
                            .kind = outcome.answer[5],
                            .position = number(image->bytes + 7, 4),
                            .room = image->len};
    memcpy(write.fields, outcome.fields, sizeof write.fields);
    outcome = perform(&library, &write);
    hold(outcome.answer[0] == 0 && memcmp(outcome.out, image->bytes, image->len) == 0,
         "a state read and written at the image's own position gives the image");

    write.position = draw_position();
    memcpy(write.fields, pool_fields(kind, element), sizeof write.fields);
    outcome = perform(&library, &write);
    copy_form(&written, image);
    put_number(written.bytes + 7, 4, write.position);
    memcpy(written.bytes + at, element, layouts[kind].width);
    hold(outcome.answer[0] == 0 && memcmp(outcome.out, written.bytes, written.len) == 0,
         "a write replaces the object's element and the position, and nothing else");

    read.first = &written;
    outcome = perform(&library, &read);
    hold(outcome.answer[0] == 0 && outcome.answer[5] == kind && memcmp(outcome.fields, write.fields, 128) == 0,
         "a state that is written is read");

    struct request label = {.call = LABEL, .table = under, .object = object};
    outcome = perform(&library, &label);
    hold(outcome.answer[0] == 0 && outcome.answer[5] == entry + 2 && outcome.answer[6] == under->bytes[entry + 1],
         "a label is the object's own bytes in the table");
}

/* Receives from a fresh standing: the tallies sum to the number of calls, and each call is apply plus one in a tally. */
static void hold_tallies(const struct form images[4], const struct form *lists[3])
{
    struct request receive = {.call = RECEIVE, .table = under, .room = images[0].len};
    for (uint32_t calls = 1; calls <= 6; calls++) {
        static struct form applied;
        receive.first = &images[draw(4)];
        receive.second = lists[draw(3)];
        uint32_t code = make(&applied, APPLY, receive.first, receive.second);
        struct outcome outcome = perform(&library, &receive);
        hold(outcome.answer[0] == code && (code != 0 || memcmp(outcome.out, applied.bytes, applied.len) == 0),
             "receive applies as apply does");
        receive.standing[code == 0 ? 0 : code == 16 ? 1 : code == 17 ? 2 : 3]++;
        hold(memcmp(outcome.standing, receive.standing, 16) == 0, "a receive call adds 1 to exactly one tally");
        hold(outcome.standing[0] + outcome.standing[1] + outcome.standing[2] + outcome.standing[3] == calls,
             "the tallies sum to the receive calls since fresh");
    }
}

/* What a backlog leaves, or lists received in turn. */
struct reached {
    uint32_t answer[8], standing[4];
    struct form image;
};

static void keep(struct reached *reached, const struct outcome *outcome, size_t image_len)
{
    memcpy(reached->answer, outcome->answer, sizeof reached->answer);
    memcpy(reached->standing, outcome->standing, sizeof reached->standing);
    memcpy(reached->image.bytes, outcome->out, image_len);
    reached->image.len = image_len;
}

static void take(struct reached *reached, const struct form *image, const struct form *backlog,
                 const uint32_t *standing)
{
    struct request request = {.call = RECEIVE_BACKLOG, .table = under, .first = image, .second = backlog};
    request.room = image->len;
    memcpy(request.standing, standing, sizeof request.standing);
    struct outcome outcome = perform(&library, &request);
    keep(reached, &outcome, image->len);
}

/* The list that begins at this place by its own first four bytes, or what is left if that isn't a whole list. */
static void cut_list(struct form *list, const struct form *backlog, size_t at)
{
    size_t left = backlog->len - at;
    list->len = 0;
    append(list, backlog->bytes + at, left);
    if (left >= 4 && number(list->bytes, 4) <= left - 4)
        list->len = 4 + number(list->bytes, 4);
}

/* Receives the lists of a backlog in turn up to the first that is refused, and gives the numbers of a backlog. */
static void receive_in_turn(struct reached *reached, const struct form *image, const struct form *backlog)
{
    static struct form before, list;
    uint32_t taken = 0;
    *reached = (struct reached){.answer = {0, NO_OBJECT, NO_BIT}};
    copy_form(&reached->image, image);
    for (size_t at = 0; at < backlog->len && reached->answer[0] == 0; at += list.len) {
        copy_form(&before, &reached->image);
        cut_list(&list, backlog, at);
        struct request request = {.call = RECEIVE, .table = under, .first = &before, .second = &list};
        request.room = image->len;
        memcpy(request.standing, reached->standing, sizeof request.standing);
        struct outcome outcome = perform(&library, &request);
        keep(reached, &outcome, image->len);
        if (outcome.answer[0] == 0)
            taken++;
        else
            copy_form(&reached->image, &before);
    }
    reached->answer[3] = (uint32_t)image->len;
    reached->answer[5] = taken;
}

static bool alike(const struct reached *one, const struct reached *other)
{
    return memcmp(one->answer, other->answer, sizeof one->answer) == 0 &&
           memcmp(one->standing, other->standing, sizeof one->standing) == 0 && same(&one->image, &other->image);
}

/* Three lists end to end, accepted or not. */
static void hold_backlogs(const struct form *image, const struct form *lists[3])
{
    static const uint32_t fresh[4] = {0};
    static struct form backlog, front, rest, join, joined;
    static struct reached whole, by_turns, of_front, of_rest;
    backlog.len = front.len = rest.len = 0;
    uint32_t in_front = draw(4);
    for (uint32_t i = 0; i < 3; i++) {
        append(&backlog, lists[i]->bytes, lists[i]->len);
        append(i < in_front ? &front : &rest, lists[i]->bytes, lists[i]->len);
    }
    take(&whole, image, &backlog, fresh);
    receive_in_turn(&by_turns, image, &backlog);
    hold(alike(&whole, &by_turns), "a backlog is its lists received in turn up to the first that is refused");
    hold(whole.standing[0] + whole.standing[1] + whole.standing[2] + whole.standing[3] ==
             whole.answer[5] + (whole.answer[0] != 0),
         "the tallies sum to the lists looked at");
    hold(accepted(CHECK_IMAGE, &whole.image), "what a backlog leaves is accepted");

    take(&of_front, image, &front, fresh);
    if (of_front.answer[0] == 0) {
        take(&of_rest, &of_front.image, &rest, of_front.standing);
        of_rest.answer[5] += of_front.answer[5];
        hold(alike(&whole, &of_rest), "a backlog whose front is taken is its front and then its rest");
    }
    if (whole.answer[0] == 0 && accepted(CHECK_LIST, lists[0]) && accepted(CHECK_LIST, lists[1]))
        hold(make(&join, JOIN, lists[0], lists[1]) == 0 && make(&joined, JOIN, &join, lists[2]) == 0 &&
                 makes(&whole.image, APPLY, image, &joined),
             "a backlog that is taken leads where the join of its lists leads");
}

void hold_laws(const struct form *table, const struct form images[4], const struct form *first,
               const struct form *second)
{
    static struct form list, last;
    under = table;
    hold_differences(&images[0], &images[1], &images[2], &images[3]);
    make(&list, DIFFERENCE, &images[0], &images[1]);
    hold_only_list(&images[0], first);
    hold_only_list(&images[1], second);
    hold_turned_join(first, second);
    hold_tallies(images, (const struct form *[3]){&list, first, second});
    make(&last, DIFFERENCE, &images[2], &images[3]);
    hold_backlogs(&images[0], (const struct form *[3]){first, second, &last});
    if (objects_of(table) != 0)
        hold_states(&images[2], (uint16_t)draw(objects_of(table)));
}
