/* Makes one call under catalogue 1.0, REPEATS times: benchmark FACE CALL OBJECTS ENTRIES REPEATS. For check_element,
   OBJECTS is the kind, and 31 is type 1 under 3.0.
   check_first_byte is check_table on labels that differ in the first byte only, check_colliding on labels of one hash.
   receive_backlog takes 100 lists, and receive_in_turn is receive on the same lists one by one.
   Prints the bytes of the table and of the other forms; what runs is counted from outside. */
#include "faces.h"
#include "forms.h"

#include <stdio.h>
#include <stdlib.h>
#include <string.h>

enum { BACKLOG = 100 };

static struct form table, a, b, c, first, second, data, backlog;
static uint8_t out[FORM_MOST];
static uint32_t answer[8], fields[32], standing[4];

/* A station's objects in their usual mixture, with labels such as ALB:CV0017. */
static void station_table(uint32_t objects)
{
    static const struct {
        uint8_t type;
        const char *name;
    } mixture[] = {{4, "CV"},  {1, "SIG"}, {4, "CV"}, {8, "AG"},  {5, "CVA"}, {4, "CV"},  {1, "SIG"},  {6, "CVX"},
                   {2, "IC"},  {4, "CV"},  {3, "PV"}, {7, "SDT"}, {1, "SIG"}, {9, "BOU"}, {22, "AVG"}, {23, "FRA"}};
    empty_table(&table, 1);
    for (uint32_t object = 0; object < objects; object++) {
        char label[32];
        int len = snprintf(label, sizeof label, "ALB:%s%04u", mixture[object % 16].name, (unsigned)object);
        add_object(&table, mixture[object % 16].type, label, (size_t)len);
    }
}

/* Labels of one length that differ in the first byte only. Each type has 93 of them; further ones are a byte
   longer. */
static void first_byte_table(uint32_t objects)
{
    static const uint8_t types[] = {1, 2, 3, 4, 5, 6, 7, 8, 9, 22, 23};
    empty_table(&table, 1);
    for (uint32_t object = 0; object < objects; object++) {
        char label[] = "?LB:CV00170";
        uint32_t first = object / sizeof types;
        label[0] = (char)(33 + first % 93);
        if (label[0] >= ':')
            label[0]++;
        add_object(&table, types[object % sizeof types], label, first < 93 ? 10 : 11);
    }
}

/* The next image: it differs in this many elements, spread over the table, from both that came before. */
static void change(struct form *image, const struct form *before, const struct form *earlier, uint32_t entries)
{
    uint32_t objects = objects_of(&table);
    size_t at = IMAGE_ELEMENTS, entry = TABLE_ENTRIES;
    copy_form(image, before);
    put_number(image->bytes + 7, 4, number(before->bytes + 7, 4) + 1);
    for (uint32_t object = 0, changed = 0; object < objects; object++) {
        uint8_t kind = kind_at(&table, entry);
        size_t width = layouts[kind].width;
        if (changed * objects <= object * entries && changed < entries) {
            while (memcmp(image->bytes + at, before->bytes + at, width) == 0 ||
                   memcmp(image->bytes + at, earlier->bytes + at, width) == 0)
                memcpy(image->bytes + at, pool_element(kind), width);
            changed++;
        }
        at += width;
        entry += 2 + (size_t)table.bytes[entry + 1];
    }
}

static void list_between(struct form *list, const struct form *from, const struct form *to)
{
    handmade.difference(table.bytes, table.len, from->bytes, from->len, to->bytes, to->len, list->bytes, FORM_MOST,
                        answer);
    list->len = answer[3];
}

/* Lists end to end that apply in turn from the first image on. */
static void fill_backlog(uint32_t entries)
{
    static struct form images[3], list;
    for (int i = 0; i < 3; i++)
        copy_form(&images[i], &a);
    for (int i = 0; i < BACKLOG; i++) {
        const struct form *from = &images[i % 3];
        struct form *to = &images[(i + 1) % 3];
        change(to, from, &images[(i + 2) % 3], entries);
        list_between(&list, from, to);
        append(&backlog, list.bytes, list.len);
    }
}

/* Each list with the image that the one before it left. */
static void receive_in_turn(const struct face *face)
{
    static uint8_t images[2][FORM_MOST];
    const uint8_t *image = a.bytes, *list = backlog.bytes;
    for (int i = 0; i < BACKLOG; i++) {
        size_t len = 4 + number(list, 4);
        face->receive(table.bytes, table.len, image, a.len, list, len, images[i % 2], FORM_MOST, standing, answer);
        image = images[i % 2];
        list += len;
    }
}

static void stop(const char *what)
{
    fprintf(stderr, "benchmark: %s\n", what);
    exit(2);
}

int main(int argc, char **argv)
{
    const struct face *face = argc == 6 ? face_named(argv[1]) : NULL;
    if (face == NULL)
        stop("FACE CALL OBJECTS ENTRIES REPEATS");
    const char *call = argv[2];
    uint32_t objects = (uint32_t)strtoul(argv[3], NULL, 10);
    uint32_t entries = (uint32_t)strtoul(argv[4], NULL, 10);
    unsigned long repeats = strtoul(argv[5], NULL, 10);
    const uint8_t *t = table.bytes;
    size_t others = 0;
    seed(1);
    fill_pool();

    if (strcmp(call, "check_element") == 0) {
        uint8_t kind = (uint8_t)objects, x = kind == 31 ? 3 : 1, type = kind == 31 ? 1 : kind;
        const uint8_t *element = pool_element(kind);
        others = layouts[kind].width;
        while (repeats-- > 0)
            face->check_element(x, 0, type, element, others, answer);
        printf("0 %zu\n", others);
        return 0;
    }

    bool by_first_byte = strcmp(call, "check_first_byte") == 0;
    if (by_first_byte || strcmp(call, "check_colliding") == 0) {
        if (by_first_byte)
            first_byte_table(objects);
        else
            colliding_table(&table, objects);
        while (repeats-- > 0)
            face->check_table(t, table.len, answer);
        if (answer[0] != 0)
            stop("the table is refused");
        printf("%zu 0\n", table.len);
        return 0;
    }

    uint16_t last = (uint16_t)(objects - 1);
    station_table(objects);
    put_image(&a, &table, 48213, pool_element);
    change(&b, &a, &a, entries);
    change(&c, &b, &a, entries);
    list_between(&first, &a, &b);
    list_between(&second, &b, &c);
    memcpy(data.bytes, t, table.len);
    memcpy(data.bytes + table.len, a.bytes, a.len);
    data.len = table.len + a.len;
    reference.read_state(t, table.len, b.bytes, b.len, last, fields, answer);
    uint32_t kind = answer[5];

    if (strcmp(call, "check_table") == 0) {
        while (repeats-- > 0)
            face->check_table(t, table.len, answer);
    } else if (strcmp(call, "check_image") == 0) {
        others = a.len;
        while (repeats-- > 0)
            face->check_image(t, table.len, a.bytes, a.len, answer);
    } else if (strcmp(call, "check_list") == 0) {
        others = first.len;
        while (repeats-- > 0)
            face->check_list(t, table.len, first.bytes, first.len, answer);
    } else if (strcmp(call, "read_state") == 0) {
        others = a.len;
        while (repeats-- > 0)
            face->read_state(t, table.len, a.bytes, a.len, last, fields, answer);
    } else if (strcmp(call, "write_state") == 0) {
        others = a.len;
        while (repeats-- > 0)
            face->write_state(t, table.len, a.bytes, a.len, last, kind, fields, 48214, out, sizeof out, answer);
    } else if (strcmp(call, "label") == 0) {
        while (repeats-- > 0)
            face->label(t, table.len, last, answer);
    } else if (strcmp(call, "difference") == 0) {
        others = a.len + b.len;
        while (repeats-- > 0)
            face->difference(t, table.len, a.bytes, a.len, b.bytes, b.len, out, sizeof out, answer);
    } else if (strcmp(call, "apply") == 0) {
        others = a.len + first.len;
        while (repeats-- > 0)
            face->apply(t, table.len, a.bytes, a.len, first.bytes, first.len, out, sizeof out, answer);
    } else if (strcmp(call, "join") == 0) {
        others = first.len + second.len;
        while (repeats-- > 0)
            face->join(t, table.len, first.bytes, first.len, second.bytes, second.len, out, sizeof out, answer);
    } else if (strcmp(call, "turn_back") == 0) {
        others = first.len;
        while (repeats-- > 0)
            face->turn_back(t, table.len, first.bytes, first.len, out, sizeof out, answer);
    } else if (strcmp(call, "receive") == 0) {
        others = a.len + first.len;
        while (repeats-- > 0)
            face->receive(t, table.len, a.bytes, a.len, first.bytes, first.len, out, sizeof out, standing, answer);
    } else if (strcmp(call, "receive_backlog") == 0) {
        fill_backlog(entries);
        others = a.len + backlog.len;
        while (repeats-- > 0)
            face->receive_backlog(t, table.len, a.bytes, a.len, backlog.bytes, backlog.len, out, sizeof out, standing,
                                  answer);
        if (answer[5] != BACKLOG)
            stop("the backlog isn't taken");
    } else if (strcmp(call, "receive_in_turn") == 0) {
        fill_backlog(entries);
        others = a.len + backlog.len;
        while (repeats-- > 0)
            receive_in_turn(face);
    } else if (strcmp(call, "listing") == 0) {
        others = a.len;
        while (repeats-- > 0)
            face->listing(data.bytes, data.len, out, sizeof out, answer);
    } else {
        stop("no such call");
    }
    if (answer[0] != 0 || number(first.bytes + 15, 2) != entries)
        stop("the request is refused");
    printf("%zu %zu\n", table.len, others);
    return 0;
}
