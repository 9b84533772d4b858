/* Compares the library and the handmade C with the reference on random and damaged requests, and tests the paper's laws
   on the library itself:
   compare [REQUESTS [SEED]] */
#include "laws.h"
#include "requests.h"

#include <inttypes.h>
#include <stdio.h>
#include <stdlib.h>
#include <string.h>

enum { REQUESTS = 130000, SEED = 831, REQUESTS_A_ROUND = 60, IMAGES = 4, LISTS = 8, BACKLOG_MOST = 400 };

/* What a round works on: a table, four images that follow one another, and lists between them. */
static struct form table, images[IMAGES], lists[LISTS];
static const struct {
    uint8_t from, to;
} between[LISTS] = {{0, 1}, {1, 2}, {2, 3}, {0, 2}, {1, 0}, {2, 1}, {1, 3}, {3, 0}};

/* Lists end to end, how many they are, and where each begins and the last ends. */
static struct form backlog;
static uint32_t backlog_lists;
static size_t borders[BACKLOG_MOST + 1];

/* Copies that may be damaged. */
static struct form bent_table, bent_first, bent_second, element;

static uint32_t objects_of_round(unsigned long round)
{
    if (round % 400 == 7)
        return OBJECTS_MOST - round / 400 % 2;
    if (round % 100 == 9)
        return draw(400);
    if (once_in(6))
        return draw(60);
    return draw(once_in(2) ? 5 : 13);
}

static void make_list(struct form *list, const struct form *a, const struct form *b)
{
    uint32_t answer[8];
    reference.difference(table.bytes, table.len, a->bytes, a->len, b->bytes, b->len, list->bytes, FORM_MOST, answer);
    list->len = answer[3];
    if (answer[0] != 0) {
        fprintf(stderr, "a form that was made is refused: %" PRIu32 "\n", answer[0]);
        exit(2);
    }
}

static void make_round(unsigned long round)
{
    random_table(&table, objects_of_round(round));
    first_image(&images[0], &table);
    for (int i = 1; i < IMAGES; i++)
        next_image(&images[i], &table, &images[i - 1], &images[i < 2 ? 0 : i - 2]);
    if (once_in(6)) /* equal positions don't mean equal images */
        memcpy(images[1].bytes + 7, images[0].bytes + 7, 4);
    for (int i = 0; i < LISTS; i++)
        make_list(&lists[i], &images[between[i].from], &images[between[i].to]);
}

/* The forms of a request */

static bool takes_images(enum call call)
{
    return call == CHECK_IMAGE || call == READ_STATE || call == WRITE_STATE || call == DIFFERENCE || call == APPLY ||
           call == RECEIVE || call == RECEIVE_BACKLOG || call == LISTING;
}

/* A list from this image. */
static uint32_t list_from(uint8_t image)
{
    uint32_t list;
    do
        list = draw(LISTS);
    while (between[list].from != image);
    return list;
}

/* None, some or hundreds of lists that apply in turn from this image on; now and then any list is among them. */
static void make_backlog(uint8_t image, bool any)
{
    uint32_t count = once_in(50) ? BACKLOG_MOST : draw(9), other = any ? draw(count) : count;
    backlog.len = backlog_lists = 0;
    while (backlog_lists < count) {
        uint32_t list = backlog_lists == other ? draw(LISTS) : list_from(image);
        if (!append(&backlog, lists[list].bytes, lists[list].len))
            break;
        borders[++backlog_lists] = backlog.len;
        image = between[list].to;
    }
}

/* A copy of the backlog with one list damaged, with the last one cut at any byte, or with up to three bytes more. */
static void damage_backlog(struct form *damaged)
{
    static struct form list;
    uint32_t which = draw(backlog_lists);
    size_t start = borders[which], end = borders[which + 1], last = borders[backlog_lists - (backlog_lists != 0)];
    copy_form(damaged, &backlog);
    if (backlog_lists == 0 || once_in(5)) {
        append(damaged, lists[0].bytes, 1 + draw(3));
    } else if (once_in(4)) {
        damaged->len = last + draw((uint32_t)(backlog.len - last));
    } else {
        list.len = 0;
        append(&list, backlog.bytes + start, end - start);
        damage_list(&list, &table);
        damaged->len = start;
        append(damaged, list.bytes, list.len);
        append(damaged, backlog.bytes + end, backlog.len - end);
    }
}

static void choose_forms(struct request *request)
{
    bool any = once_in(4); /* else they fit each other */
    if (takes_images(request->call)) {
        uint8_t image = (uint8_t)draw(3);
        request->first = &images[image];
        if (request->call == DIFFERENCE)
            request->second = &images[draw(IMAGES)];
        else if (request->call == APPLY || request->call == RECEIVE)
            request->second = &lists[any ? draw(LISTS) : list_from(image)];
        else if (request->call == RECEIVE_BACKLOG) {
            make_backlog(image, any);
            request->second = &backlog;
        }
    } else if (request->call == CHECK_LIST || request->call == TURN_BACK) {
        request->first = &lists[draw(LISTS)];
    } else if (request->call == JOIN) {
        uint32_t list = draw(LISTS);
        request->first = &lists[list];
        request->second = &lists[any ? draw(LISTS) : list_from(between[list].to)];
    }
}

static void damage_forms(struct request *request)
{
    if (once_in(2) && request->call != CHECK_TABLE)
        return;
    uint32_t which = draw(request->second != NULL ? 3 : request->first != NULL ? 2 : 1);
    uint32_t times = once_in(3) ? 1 + draw(3) : 1;
    bool image = which == 1 ? takes_images(request->call) : request->call == DIFFERENCE;
    struct form *form = which == 0 ? &bent_table : which == 1 ? &bent_first : &bent_second;
    copy_form(form, which == 0 ? &table : which == 1 ? request->first : request->second);
    while (times-- > 0)
        if (which == 0)
            damage_table(form);
        else if (image)
            damage_image(form, &table);
        else if (request->call == RECEIVE_BACKLOG)
            damage_backlog(form);
        else
            damage_list(form, &table);
    *(which == 0 ? &request->table : which == 1 ? &request->first : &request->second) = form;
}

/* A table followed by its image; now and then cut, lengthened, or as long as data may be, or one byte more. */
static void join_data(struct request *request)
{
    static struct form data;
    size_t table_len = request->table->len, len = table_len + request->first->len;
    if (len > FORM_MOST)
        return;
    memcpy(data.bytes, request->table->bytes, table_len);
    memcpy(data.bytes + table_len, request->first->bytes, request->first->len);
    if (once_in(8))
        len -= draw((uint32_t)len + 1);
    else if (once_in(8) && len + 4 < FORM_MOST)
        memset(data.bytes + len, 1, 4), len += 1 + draw(4);
    else if (once_in(100) && len < LISTED_MOST) {
        memset(data.bytes + len, 0, FORM_MOST - len);
        len = LISTED_MOST - 1 + draw(3);
        put_number(data.bytes + table_len, 4, (uint32_t)(len - table_len) - 4);
    }
    data.len = len;
    request->table = &data;
    request->first = NULL;
}

/* The numbers of a request */

static void choose_element(struct request *request)
{
    uint8_t x = draw_catalogue(), type = draw_type(x), kind = catalogues[x][type];
    element.len = layouts[kind].width;
    memcpy(element.bytes, pool_element(kind), element.len);
    for (uint32_t times = draw(3); times > 0; times--)
        flip_bit(element.bytes, element.len);
    if (once_in(8))
        element.len = draw(6);
    request->type = once_in(8) ? (uint8_t)draw(256) : type;
    request->x = once_in(8) ? (uint8_t)draw(once_in(2) ? 5 : 256) : x;
    request->y = once_in(8) ? (uint8_t)draw(once_in(2) ? 5 : 256) : 0;
    request->table = &element;
}

static void choose_state(struct request *request)
{
    static const uint32_t values[] = {0, 1, 2, 3, 4, 5, 7, 8, 13, 16, 256, 0x80000000u, 0xFFFFFFFFu};
    uint32_t count = objects_of(&table);
    request->object = (uint16_t)(once_in(12) ? count + draw(2) : once_in(30) ? 65535 : draw(count));
    uint8_t x = table.bytes[CATALOGUE];
    uint8_t type = request->object < count ? table.bytes[entry_of(&table, request->object)] : draw_type(x);
    uint8_t kind = catalogues[once_in(4) ? draw_catalogue() : x][type]; /* of the type under its own catalogue or another */
    request->kind = kind;
    memcpy(request->fields, pool_fields(kind, pool_element(kind)), 128);
    uint32_t *field = &request->fields[draw(FIELDS_MOST)];
    if (once_in(3))
        *field = values[draw(13)];
    if (once_in(8))
        request->fields[0] = 0;
    if (once_in(2))
        memset(request->fields + FIELDS_MOST, 0xFF, (32 - FIELDS_MOST) * sizeof(uint32_t)); /* beyond the fields of every kind */
    if (once_in(8))
        request->kind = once_in(3) ? request->kind + 256 : draw(KINDS);
    request->position = draw_position();
}

static void choose_standing(struct request *request)
{
    static const uint32_t tallies[] = {0, 1, 5, 0xFFFFFFFEu, 0xFFFFFFFFu};
    for (int i = 0; i < 4; i++)
        request->standing[i] = tallies[draw(5)];
}

static size_t ample_room(const struct request *request)
{
    size_t objects = objects_of(&table) + 2;
    switch (request->call) {
    case DIFFERENCE: return 17 + 10 * objects;
    case JOIN: return 17 + 20 * objects;
    case LISTING: return 64 * objects < FORM_MOST ? 64 * objects : FORM_MOST;
    default: return request->first->len + draw(40);
    }
}

/* First an output of no bytes or with ample room, then one near the length that the answer gave. */
static void compare_rooms(struct request *request)
{
    request->room = once_in(4) ? 0 : ample_room(request);
    uint32_t answer[8];
    memcpy(answer, compare(request).answer, sizeof answer);
    uint32_t length = answer[3];
    if (length == 0)
        return;
    const uint32_t rooms[] = {length, length, length - 1, length + 1, draw(length)};
    request->room = rooms[draw(5)];
    if (request->room <= FORM_MOST)
        compare(request);
}

static void compare_one(void)
{
    struct request request = {.call = (enum call)draw(CALLS), .table = &table};
    choose_forms(&request);
    if (request.call == CHECK_ELEMENT)
        choose_element(&request);
    else
        damage_forms(&request);
    choose_state(&request);
    choose_standing(&request);
    if (request.call == LISTING)
        join_data(&request);
    if (writes(request.call))
        compare_rooms(&request);
    else
        compare(&request);
}

/* A table of one object, and an image of it. */
static void make_single(uint8_t x, uint8_t type)
{
    empty_table(&table, x);
    add_object(&table, type, "A:A", 3);
    first_image(&images[0], &table);
}

/* Writes every field of a type with each value up to 17 and reads it back, with and without data. */
static void sweep_states(uint8_t x, uint8_t type, uint8_t kind)
{
    static struct form written;
    make_single(x, type);
    for (uint32_t place = 0; place < FIELDS_MOST * 18 * 2; place++) {
        struct request write = {.call = WRITE_STATE, .table = &table, .first = &images[0], .kind = kind};
        write.room = images[0].len;
        write.fields[0] = place % 2;
        write.fields[place / 36] = place / 2 % 18;
        struct outcome outcome = compare(&write);
        if (outcome.answer[0] != 0)
            continue;
        written.len = images[0].len;
        memcpy(written.bytes, outcome.out, written.len);
        compare(&(struct request){.call = READ_STATE, .table = &table, .first = &written});
    }
}

/* Writes a state of every kind to an object of a type, with and without data, and with another field set: 22 comes
   before 12. */
static void sweep_kinds(uint8_t x, uint8_t type, uint8_t own)
{
    make_single(x, type);
    for (uint32_t place = 0; place < 2 * (KINDS + 1); place++) {
        uint32_t kind = place / 2;
        struct request write = {.call = WRITE_STATE, .table = &table, .first = &images[0], .kind = kind};
        write.room = images[0].len;
        write.fields[0] = place % 2;
        write.fields[1] = 1;
        uint32_t code = compare(&write).answer[0];
        hold((code == 22) == (kind != own), "22 is given exactly where the kind isn't the object's");
    }
}

/* Two objects of one type, and one of another between them: labels of each length that are the same, differ in one byte
   at each place, or of which one has an extra byte at the front or the end. Then an object that repeats in any case. */
static void sweep_labels(void)
{
    for (size_t len = 3; len <= 32; len++)
        for (size_t place = 0; place < len + 3; place++)
            for (int later = 0; later < 2; later++) {
                const struct request request = {.call = CHECK_TABLE, .table = &table};
                char labels[2][33];
                const size_t lens[2] = {len, place > len ? len + 1 : len};
                memset(labels, 'A', sizeof labels);
                labels[0][1] = ':';
                labels[1][place == len + 1 ? 2 : 1] = ':';
                if (place < len)
                    labels[1][place] = 'B';
                empty_table(&table, draw_catalogue());
                add_object(&table, 4, labels[!later], lens[!later]);
                add_object(&table, 5, labels[0], len);
                add_object(&table, 4, labels[later], lens[later]);
                bool same = place == len, good = place != 1 && lens[1] <= 32;
                uint32_t code = compare(&request).answer[0];
                if (good)
                    hold(code == (same ? 7 : 0), "objects repeat where type and label are the same");
                add_object(&table, 5, labels[0], len);
                const uint32_t *answer = compare(&request).answer;
                if (good)
                    hold(answer[0] == 7 && answer[1] == (same ? 2 : 3), "the first object that repeats is named");
            }
}

/* Objects of one hash that differ in their first bytes only; and then one of them again. */
static void sweep_collisions(void)
{
    const struct request request = {.call = CHECK_TABLE, .table = &bent_table};
    colliding_table(&table, OBJECTS_MOST - 1);
    copy_form(&bent_table, &table);
    hold(compare(&request).answer[0] == 0, "objects of one hash are told apart");
    for (uint32_t object = 0; object < OBJECTS_MOST - 1; object += 73) {
        const uint8_t *entry = table.bytes + entry_of(&table, object);
        copy_form(&bent_table, &table);
        add_object(&bent_table, entry[0], (const char *)entry + 2, entry[1]);
        const uint32_t *answer = compare(&request).answer;
        hold(answer[0] == 7 && answer[1] == OBJECTS_MOST - 1,
             "an object that repeats is found among those of one hash");
    }
}

/* A backlog cut at every byte, with fresh and with full tallies, and with an output that is a byte short. */
static void sweep_cuts(void)
{
    static struct form cut;
    struct request request = {.call = RECEIVE_BACKLOG, .table = &table, .first = &images[0], .second = &cut};
    do
        make_round(0);
    while (objects_of(&table) < 3);
    do
        make_backlog(0, false);
    while (backlog_lists != 5);
    copy_form(&cut, &backlog);
    uint32_t whole = 0;
    for (cut.len = 0; cut.len <= backlog.len; cut.len++) {
        if (whole < backlog_lists && cut.len == borders[whole + 1])
            whole++;
        uint32_t code = cut.len == borders[whole] ? 0 : 1;
        request.room = images[0].len;
        memset(request.standing, 0, sizeof request.standing);
        struct outcome outcome = compare(&request);
        hold(outcome.answer[0] == code && outcome.answer[5] == whole, "a cut list is 1, and those before it are taken");
        hold(outcome.standing[0] == whole && outcome.standing[3] == code, "a cut list is counted as other");
        memset(request.standing, 0xFF, sizeof request.standing);
        compare(&request);
        request.room--;
        hold(compare(&request).answer[0] == 21, "21 comes before any list");
    }
}

static unsigned long elements, elements_differing;

/* Compares the answers to one element by itself. */
static void compare_element(uint8_t x, uint8_t y, uint8_t type, const uint8_t *bytes, size_t len)
{
    uint32_t expected[8], found[8], made[8];
    reference.check_element(x, y, type, bytes, len, expected);
    library.check_element(x, y, type, bytes, len, found);
    handmade.check_element(x, y, type, bytes, len, made);
    elements++;
    elements_differing +=
        memcmp(expected, found, sizeof expected) != 0 || memcmp(expected, made, sizeof expected) != 0;
}

/* Every element of one or two bytes, and many of the longer ones. */
static void sweep_elements(uint8_t x, uint8_t type, uint8_t kind)
{
    size_t width = layouts[kind].width;
    uint32_t end = width == 1 ? 256 : 65536;
    for (uint32_t value = 0; value < end; value++) {
        uint8_t bytes[4];
        put_number(bytes, width, value);
        if (width > 2) /* an accepted one with up to three bits changed */
            memcpy(bytes, pool_element(kind), width);
        for (uint32_t flips = width > 2 ? draw(4) : 0; flips > 0; flips--)
            flip_bit(bytes, width);
        compare_element(x, 0, type, bytes, width);
    }
}

/* Every type under every X, and every X and Y. */
static void sweep_catalogues(void)
{
    static const uint8_t element[4] = {0};
    for (uint32_t place = 0; place < 65536; place++) {
        uint8_t x = (uint8_t)(place >> 8), other = (uint8_t)place;
        compare_element(x, 0, other, element, 1 + draw(4));
        compare_element(x, other, 2, element, 1);
    }
}

int main(int argc, char **argv)
{
    unsigned long requests = argc > 1 ? strtoul(argv[1], NULL, 10) : REQUESTS;
    uint64_t start = argc > 2 ? strtoull(argv[2], NULL, 10) : SEED;
    seed(start);
    open_buffers();
    fill_pool();
    setvbuf(stdout, NULL, _IOLBF, 0); /* so that nothing printed is lost if a call is stopped */
    printf("compare: %lu requests, seed %" PRIu64 "\n", requests, start);
    unsigned long laws[256] = {0}; /* by the table's X */
    for (unsigned long round = 0; compared < requests; round++) {
        make_round(round);
        for (int i = 0; i < REQUESTS_A_ROUND; i++)
            compare_one();
        unsigned long before = passed + failed;
        copy_form(&bent_first, &lists[0]);
        copy_form(&bent_second, &lists[1]);
        if (once_in(2))
            damage_list(&bent_first, &table);
        if (once_in(2))
            damage_list(&bent_second, &table);
        hold_laws(&table, images, &bent_first, &bent_second);
        laws[table.bytes[CATALOGUE]] += passed + failed - before;
    }
    each_type(sweep_states);
    each_type(sweep_kinds);
    sweep_labels();
    sweep_collisions();
    sweep_cuts();
    print_counts(requests >= REQUESTS);
    for (int x = 0; x < 256; x++)
        if (catalogues[x] != NULL)
            printf("laws held to under %d.0: %lu\n", x, laws[x]);
    each_type(sweep_elements);
    sweep_catalogues();
    printf("elements: %lu compared, %lu differ\n", elements, elements_differing);
    passed += elements - elements_differing;
    failed += elements_differing;
    printf("compare: %lu passed, %lu failed\n", passed, failed);
    return failed != 0;
}
