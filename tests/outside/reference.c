/* The paper in plain C11, written from the paper and annex 3 of NAS 831 alone: what the library is compared with, in answers
   and in speed. */
#include "reference.h"

#include "paper.h"

/* The catalogues */

/* What the signals of 1.0 and of 3.0 share: IND, fitted and blown of seven lamps, ME, B, UIC, SA. */
#define SIG_IND_TO_SA                                                                                                  \
    {4, 4, 12}, {8, 1, 1}, {9, 1, 1}, {10, 1, 1}, {11, 1, 1}, {12, 1, 1}, {13, 1, 1}, {14, 1, 1}, {15, 1, 1},          \
        {16, 1, 1}, {17, 1, 1}, {18, 1, 1}, {19, 1, 1}, {20, 1, 1}, {21, 1, 1}, {22, 1, 1}, {23, 1, 1}, {24, 3, 7},    \
        {27, 1, 1}

const struct layout layouts[KINDS] = {
    /* SIG of 1.0 */
    [1] = {4, {{0, 1, 1}, {1, 3, 3}, SIG_IND_TO_SA, {28, 1, 1}, {29, 2, 3}, {31, 1, 0}}},
    /* IC */
    [2] = {1, {{0, 1, 1}, {1, 2, 3}, {3, 5, 0}}},
    /* PV */
    [3] = {1, {{0, 1, 1}, {1, 2, 2}, {3, 1, 1}, {4, 4, 0}}},
    /* CV */
    [4] = {2, {{0, 1, 1}, {1, 1, 1}, {2, 1, 1}, {3, 1, 1}, {4, 2, 3}, {6, 2, 2}, {8, 1, 1}, {9, 1, 1}, {10, 3, 4},
               {13, 1, 1}, {14, 2, 0}}},
    /* CVA */
    [5] = {2, {{0, 1, 1}, {1, 1, 1}, {2, 1, 0}, {3, 1, 1}, {4, 2, 1}, {6, 2, 0}, {8, 1, 1}, {9, 1, 1}, {10, 3, 4},
               {13, 1, 1}, {14, 2, 0}}},
    /* CVX */
    [6] = {2, {{0, 1, 1}, {1, 1, 1}, {2, 1, 1}, {3, 1, 1}, {4, 2, 3}, {6, 2, 2}, {8, 2, 2}, {10, 2, 2}, {12, 1, 1},
               {13, 1, 1}, {14, 1, 1}, {15, 1, 0}}},
    /* SDT */
    [7] = {1, {{0, 1, 1}, {1, 1, 1}, {2, 1, 1}, {3, 1, 1}, {4, 1, 1}, {5, 1, 1}, {6, 2, 0}}},
    /* AG */
    [8] = {3, {{0, 1, 1}, {1, 1, 1}, {2, 1, 1}, {3, 1, 1}, {4, 2, 3}, {6, 2, 2}, {8, 2, 2}, {10, 2, 2}, {12, 3, 4},
               {15, 1, 1}, {16, 2, 3}, {18, 1, 1}, {19, 5, 0}}},
    /* BOU */
    [9] = {1, {{0, 1, 1}, {1, 1, 1}, {2, 1, 1}, {3, 1, 1}, {4, 4, 0}}},
    /* AVG */
    [22] = {2, {{0, 1, 1}, {1, 1, 1}, {2, 1, 1}, {3, 1, 1}, {4, 2, 3}, {6, 1, 1}, {7, 2, 2}, {9, 7, 0}}},
    /* FRA */
    [23] = {2, {{0, 1, 1}, {1, 1, 1}, {2, 3, 6}, {5, 1, 1}, {6, 3, 6}, {9, 1, 1}, {10, 1, 1}, {11, 1, 1}, {12, 4, 0}}},
    /* SIG of 3.0: TIPO is a bit narrower, then EAR; at the top FAI and GRP_ARS */
    [31] = {4, {{0, 1, 1}, {1, 2, 3}, {3, 1, 1}, SIG_IND_TO_SA, {28, 2, 3}, {30, 2, 2}}},
};

const uint8_t *const catalogues[256] = {
    [1] = (const uint8_t[256]){[1] = 1, 2, 3, 4, 5, 6, 7, 8, 9, [22] = 22, 23},
    [3] = (const uint8_t[256]){[1] = 31, 2, 3, 4, 5, 6, 7},
};

/* Numbers in bytes, highest byte first */

static uint32_t number(const uint8_t *bytes, size_t width)
{
    uint32_t value = 0;
    for (size_t i = 0; i < width; i++)
        value = value << 8 | bytes[i];
    return value;
}

static void put_number(uint8_t *bytes, size_t width, uint32_t value)
{
    while (width > 0) {
        bytes[--width] = (uint8_t)value;
        value >>= 8;
    }
}

/* Elements */

static uint32_t field_of(uint32_t word, const struct row *row)
{
    return word >> row->low & ((1u << row->width) - 1);
}

static bool silent_but_set(uint8_t kind, uint32_t word)
{
    return kind != KIND_WITHOUT_DAT && (word & 1) == 0 && word != 0;
}

bool check_fields(uint8_t kind, const uint8_t *element, uint32_t object, uint32_t *answer)
{
    uint32_t word = number(element, layouts[kind].width);
    for (const struct row *row = layouts[kind].rows; row->width != 0; row++)
        if (field_of(word, row) > row->top)
            return refused_bit(answer, row->top == 0 ? 10 : 11, object, row->low);
    if (silent_but_set(kind, word))
        return refused_bit(answer, 12, object, 0);
    return true;
}

/* The three forms */

/* The longest image */
enum { IMAGE_MOST = IMAGE_ELEMENTS + OBJECTS_MOST * 4 };

/* What the calls need of an accepted table; starts[object] is where its element begins among the elements. */
struct table {
    const uint8_t *bytes;
    uint32_t count;
    uint8_t kinds[OBJECTS_MOST];
    uint16_t starts[OBJECTS_MOST + 1];
};

static size_t width_of(const struct table *table, uint32_t object)
{
    return layouts[table->kinds[object]].width;
}

static size_t elements_len(const struct table *table)
{
    return table->starts[table->count];
}

/* 1 and 2 */
static bool check_head(const uint8_t *form, size_t len, uint32_t least, uint32_t *answer)
{
    if (len < 4 || number(form, 4) != len - 4 || number(form, 4) < least)
        return refused(answer, 1);
    if (form[VERSION] != 1)
        return refused(answer, 2);
    return true;
}

/* 1, 2 and 9 */
static bool check_head_under(const struct table *table, const uint8_t *form, size_t len, uint32_t least,
                             uint32_t *answer)
{
    if (!check_head(form, len, least, answer))
        return false;
    if (form[CATALOGUE] != table->bytes[CATALOGUE] || form[CATALOGUE + 1] != table->bytes[CATALOGUE + 1])
        return refused(answer, 9);
    return true;
}

/* Bytes 33 to 126, and the first colon has a byte before and after it. */
static bool label_good(const uint8_t *label, size_t len)
{
    for (size_t i = 0; i < len; i++)
        if (label[i] < 33 || label[i] > 126)
            return false;
    const uint8_t *colon = memchr(label, ':', len);
    return colon != NULL && colon != label && colon != label + len - 1;
}

/* Compares two labels of one length, from the last byte to the first. */
static bool same_label(const uint8_t *label, const uint8_t *earlier, size_t len)
{
    for (size_t i = len; i > 0; i--)
        if (label[i - 1] != earlier[i - 1])
            return false;
    return true;
}

/* Whether the entry at this place has the type and label of an earlier one. Lengths are compared first. */
static bool repeated(const uint8_t *table, size_t at)
{
    for (size_t earlier = TABLE_ENTRIES; earlier < at; earlier += 2 + table[earlier + 1])
        if (table[earlier + 1] == table[at + 1] && table[earlier] == table[at] &&
            same_label(table + at + 2, table + earlier + 2, table[at + 1]))
            return true;
    return false;
}

static bool check_table(const uint8_t *bytes, size_t len, struct table *table, uint32_t *answer)
{
    if (!check_head(bytes, len, TABLE_LEAST, answer))
        return false;
    const uint8_t *kinds = kinds_under(bytes[CATALOGUE], bytes[CATALOGUE + 1]);
    if (kinds == NULL)
        return refused(answer, 3);
    uint32_t count = number(bytes + TABLE_COUNT, 2);
    if (count > OBJECTS_MOST)
        return refused(answer, 4);
    size_t at = TABLE_ENTRIES;
    uint16_t start = 0;
    for (uint32_t object = 0; object < count; object++) {
        if (len - at < 2)
            return refused(answer, 8);
        uint8_t kind = kinds[bytes[at]];
        size_t label_len = bytes[at + 1];
        if (kind == 0)
            return refused_object(answer, 5, object);
        if (label_len < 1 || label_len > LABEL_MOST)
            return refused_object(answer, 6, object);
        if (len - at - 2 < label_len)
            return refused(answer, 8);
        if (!label_good(bytes + at + 2, label_len))
            return refused_object(answer, 6, object);
        if (repeated(bytes, at))
            return refused_object(answer, 7, object);
        table->kinds[object] = kind;
        table->starts[object] = start;
        start += layouts[kind].width;
        at += 2 + label_len;
    }
    if (at != len)
        return refused(answer, 8);
    table->bytes = bytes;
    table->count = count;
    table->starts[count] = start;
    return true;
}

static bool check_image(const struct table *table, const uint8_t *image, size_t len, uint32_t *answer)
{
    if (!check_head_under(table, image, len, IMAGE_LEAST, answer))
        return false;
    if (len != IMAGE_ELEMENTS + elements_len(table))
        return refused(answer, 8);
    for (uint32_t object = 0; object < table->count; object++)
        if (!check_fields(table->kinds[object], image + IMAGE_ELEMENTS + table->starts[object], object, answer))
            return false;
    return true;
}

static bool check_list(const struct table *table, const uint8_t *list, size_t len, uint32_t *answer)
{
    if (!check_head_under(table, list, len, LIST_LEAST, answer))
        return false;
    uint32_t count = number(list + LIST_COUNT, 2);
    uint32_t least = 0;
    size_t at = LIST_ENTRIES;
    for (uint32_t entry = 0; entry < count; entry++) {
        if (len - at < 2)
            return refused(answer, 8);
        uint32_t object = number(list + at, 2);
        at += 2;
        if (object >= table->count)
            return refused_object(answer, 13, object);
        if (object < least)
            return refused_object(answer, 14, object);
        size_t width = width_of(table, object);
        if (len - at < 2 * width)
            return refused(answer, 8);
        if (!check_fields(table->kinds[object], list + at, object, answer) ||
            !check_fields(table->kinds[object], list + at + width, object, answer))
            return false;
        if (memcmp(list + at, list + at + width, width) == 0)
            return refused_object(answer, 15, object);
        least = object + 1;
        at += 2 * width;
    }
    if (at != len)
        return refused(answer, 8);
    return true;
}

/* Entries of an accepted list, one after the other */

struct entry {
    uint32_t object;
    size_t width;
    const uint8_t *old, *new;
};

struct cursor {
    const struct table *table;
    const uint8_t *at, *end;
};

static struct cursor entries_of(const struct table *table, const uint8_t *list, size_t len)
{
    return (struct cursor){table, list + LIST_ENTRIES, list + len};
}

/* False at the end. The object is then above every other, for the walk over two lists. */
static bool next_entry(struct cursor *cursor, struct entry *entry)
{
    if (cursor->at == cursor->end) {
        entry->object = NO_OBJECT;
        return false;
    }
    entry->object = number(cursor->at, 2);
    entry->width = width_of(cursor->table, entry->object);
    entry->old = cursor->at + 2;
    entry->new = entry->old + entry->width;
    cursor->at = entry->new + entry->width;
    return true;
}

/* A list being written, or only measured if out is null. */
struct draft {
    uint8_t *out;
    size_t len;
    uint32_t count;
};

static void add_entry(struct draft *draft, uint32_t object, size_t width, const uint8_t *old, const uint8_t *new)
{
    if (draft->out != NULL) {
        uint8_t *entry = draft->out + draft->len;
        put_number(entry, 2, object);
        memcpy(entry + 2, old, width);
        memcpy(entry + 2 + width, new, width);
    }
    draft->len += 2 + 2 * width;
    draft->count++;
}

static void finish_list(const struct draft *draft, const struct table *table, uint32_t from, uint32_t to)
{
    uint8_t *list = draft->out;
    put_number(list, 4, (uint32_t)draft->len - 4);
    memcpy(list + VERSION, table->bytes + VERSION, 3);
    put_number(list + LIST_FROM, 4, from);
    put_number(list + LIST_TO, 4, to);
    put_number(list + LIST_COUNT, 2, draft->count);
}

/* The calls: checks */

void reference_check_element(uint8_t x, uint8_t y, uint8_t type, const uint8_t *element, size_t element_len,
                             uint32_t answer[8])
{
    const uint8_t *kinds = kinds_under(x, y);
    if (kinds == NULL)
        refused(answer, 3);
    else if (kinds[type] == 0)
        refused(answer, 5);
    else if (element_len != layouts[kinds[type]].width)
        refused(answer, 8);
    else if (check_fields(kinds[type], element, NO_OBJECT, answer))
        succeed(answer, 0);
}

void reference_check_table(const uint8_t *table, size_t table_len, uint32_t answer[8])
{
    struct table t;
    if (check_table(table, table_len, &t, answer))
        succeed(answer, 0);
}

void reference_check_image(const uint8_t *table, size_t table_len, const uint8_t *image, size_t image_len,
                           uint32_t answer[8])
{
    struct table t;
    if (check_table(table, table_len, &t, answer) && check_image(&t, image, image_len, answer))
        succeed(answer, 0);
}

void reference_check_list(const uint8_t *table, size_t table_len, const uint8_t *list, size_t list_len,
                          uint32_t answer[8])
{
    struct table t;
    if (check_table(table, table_len, &t, answer) && check_list(&t, list, list_len, answer))
        succeed(answer, 0);
}

/* The calls: states and labels */

void reference_read_state(const uint8_t *table, size_t table_len, const uint8_t *image, size_t image_len,
                          uint16_t object, uint32_t fields[32], uint32_t answer[8])
{
    struct table t;
    if (!check_table(table, table_len, &t, answer) || !check_image(&t, image, image_len, answer))
        return;
    if (object >= t.count) {
        refused_object(answer, 13, object);
        return;
    }
    const struct layout *layout = &layouts[t.kinds[object]];
    uint32_t word = number(image + IMAGE_ELEMENTS + t.starts[object], layout->width);
    memset(fields, 0, 32 * sizeof *fields);
    for (const struct row *row = layout->rows; row->width != 0; row++)
        if (row->top != 0)
            *fields++ = field_of(word, row);
    succeed(answer, 0);
    answer[5] = t.kinds[object];
}

/* The element of a given state, if it is admitted. */
static bool check_state(uint8_t kind, const uint32_t *fields, uint32_t object, uint32_t *word, uint32_t *answer)
{
    *word = 0;
    for (const struct row *row = layouts[kind].rows; row->width != 0; row++) {
        if (row->top == 0)
            continue;
        if (*fields > row->top)
            return refused_bit(answer, 11, object, row->low);
        *word |= *fields++ << row->low;
    }
    if (silent_but_set(kind, *word))
        return refused_bit(answer, 12, object, 0);
    return true;
}

void reference_write_state(const uint8_t *table, size_t table_len, const uint8_t *image, size_t image_len,
                           uint16_t object, uint32_t kind, const uint32_t fields[32], uint32_t position, uint8_t *out,
                           size_t out_len, uint32_t answer[8])
{
    struct table t;
    uint32_t word;
    if (!check_table(table, table_len, &t, answer) || !check_image(&t, image, image_len, answer))
        return;
    if (object >= t.count) {
        refused_object(answer, 13, object);
        return;
    }
    if (kind != t.kinds[object]) {
        refused_object(answer, 22, object);
        return;
    }
    if (!check_state(t.kinds[object], fields, object, &word, answer) || !room(out_len, image_len, answer))
        return;
    memcpy(out, image, image_len);
    put_number(out + IMAGE_POSITION, 4, position);
    put_number(out + IMAGE_ELEMENTS + t.starts[object], width_of(&t, object), word);
    succeed(answer, image_len);
}

void reference_label(const uint8_t *table, size_t table_len, uint16_t object, uint32_t answer[8])
{
    struct table t;
    if (!check_table(table, table_len, &t, answer))
        return;
    if (object >= t.count) {
        refused_object(answer, 13, object);
        return;
    }
    size_t at = TABLE_ENTRIES;
    for (uint32_t i = 0; i < object; i++)
        at += 2 + table[at + 1];
    succeed(answer, 0);
    answer[5] = (uint32_t)at + 2;
    answer[6] = table[at + 1];
}

/* The calls: change lists */

static void differing(const struct table *table, const uint8_t *a, const uint8_t *b, struct draft *draft)
{
    for (uint32_t object = 0; object < table->count; object++) {
        size_t at = IMAGE_ELEMENTS + table->starts[object];
        size_t width = width_of(table, object);
        if (memcmp(a + at, b + at, width) != 0)
            add_entry(draft, object, width, a + at, b + at);
    }
}

void reference_difference(const uint8_t *table, size_t table_len, const uint8_t *a, size_t a_len, const uint8_t *b,
                          size_t b_len, uint8_t *out, size_t out_len, uint32_t answer[8])
{
    struct table t;
    struct draft measured = {NULL, LIST_ENTRIES, 0};
    struct draft written = {out, LIST_ENTRIES, 0};
    if (!check_table(table, table_len, &t, answer) || !check_image(&t, a, a_len, answer) ||
        !check_image(&t, b, b_len, answer))
        return;
    differing(&t, a, b, &measured);
    if (!room(out_len, measured.len, answer))
        return;
    differing(&t, a, b, &written);
    finish_list(&written, &t, number(a + IMAGE_POSITION, 4), number(b + IMAGE_POSITION, 4));
    succeed(answer, written.len);
}

void reference_apply(const uint8_t *table, size_t table_len, const uint8_t *image, size_t image_len,
                     const uint8_t *list, size_t list_len, uint8_t *out, size_t out_len, uint32_t answer[8])
{
    struct table t;
    struct cursor cursor;
    struct entry entry;
    if (!check_table(table, table_len, &t, answer) || !check_image(&t, image, image_len, answer) ||
        !check_list(&t, list, list_len, answer))
        return;
    uint32_t position = number(image + IMAGE_POSITION, 4);
    uint32_t from = number(list + LIST_FROM, 4);
    if (from != position) {
        refused(answer, from < position ? 16 : 17);
        return;
    }
    cursor = entries_of(&t, list, list_len);
    while (next_entry(&cursor, &entry))
        if (memcmp(image + IMAGE_ELEMENTS + t.starts[entry.object], entry.old, entry.width) != 0) {
            refused_object(answer, 18, entry.object);
            return;
        }
    if (!room(out_len, image_len, answer))
        return;
    memcpy(out, image, image_len);
    memcpy(out + IMAGE_POSITION, list + LIST_TO, 4);
    cursor = entries_of(&t, list, list_len);
    while (next_entry(&cursor, &entry))
        memcpy(out + IMAGE_ELEMENTS + t.starts[entry.object], entry.new, entry.width);
    succeed(answer, image_len);
}

/* Walks both lists by ascending object; 20 names the lowest object whose elements don't meet. */
static bool joined(struct cursor first, struct cursor second, struct draft *draft, uint32_t *answer)
{
    struct entry f, s;
    bool in_first = next_entry(&first, &f);
    bool in_second = next_entry(&second, &s);
    while (in_first || in_second) {
        if (f.object < s.object) {
            add_entry(draft, f.object, f.width, f.old, f.new);
            in_first = next_entry(&first, &f);
        } else if (s.object < f.object) {
            add_entry(draft, s.object, s.width, s.old, s.new);
            in_second = next_entry(&second, &s);
        } else {
            if (memcmp(f.new, s.old, f.width) != 0)
                return refused_object(answer, 20, f.object);
            if (memcmp(f.old, s.new, f.width) != 0)
                add_entry(draft, f.object, f.width, f.old, s.new);
            in_first = next_entry(&first, &f);
            in_second = next_entry(&second, &s);
        }
    }
    return true;
}

void reference_join(const uint8_t *table, size_t table_len, const uint8_t *first, size_t first_len,
                    const uint8_t *second, size_t second_len, uint8_t *out, size_t out_len, uint32_t answer[8])
{
    struct table t;
    struct draft measured = {NULL, LIST_ENTRIES, 0};
    struct draft written = {out, LIST_ENTRIES, 0};
    if (!check_table(table, table_len, &t, answer) || !check_list(&t, first, first_len, answer) ||
        !check_list(&t, second, second_len, answer))
        return;
    if (number(first + LIST_TO, 4) != number(second + LIST_FROM, 4)) {
        refused(answer, 19);
        return;
    }
    struct cursor from_first = entries_of(&t, first, first_len);
    struct cursor from_second = entries_of(&t, second, second_len);
    if (!joined(from_first, from_second, &measured, answer) || !room(out_len, measured.len, answer))
        return;
    joined(from_first, from_second, &written, answer);
    finish_list(&written, &t, number(first + LIST_FROM, 4), number(second + LIST_TO, 4));
    succeed(answer, written.len);
}

void reference_turn_back(const uint8_t *table, size_t table_len, const uint8_t *list, size_t list_len, uint8_t *out,
                         size_t out_len, uint32_t answer[8])
{
    struct table t;
    struct draft written = {out, LIST_ENTRIES, 0};
    struct entry entry;
    if (!check_table(table, table_len, &t, answer) || !check_list(&t, list, list_len, answer) ||
        !room(out_len, list_len, answer))
        return;
    struct cursor cursor = entries_of(&t, list, list_len);
    while (next_entry(&cursor, &entry))
        add_entry(&written, entry.object, entry.width, entry.new, entry.old);
    finish_list(&written, &t, number(list + LIST_TO, 4), number(list + LIST_FROM, 4));
    succeed(answer, written.len);
}

void reference_receive(const uint8_t *table, size_t table_len, const uint8_t *image, size_t image_len,
                       const uint8_t *list, size_t list_len, uint8_t *out, size_t out_len, uint32_t standing[4],
                       uint32_t answer[8])
{
    reference_apply(table, table_len, image, image_len, list, list_len, out, out_len, answer);
    uint32_t *tally;
    switch (answer[0]) {
    case 0: tally = &standing[0]; break;
    case 16: tally = &standing[1]; break;
    case 17: tally = &standing[2]; break;
    default: tally = &standing[3]; break;
    }
    if (*tally != UINT32_MAX)
        ++*tally;
}

/* The length of the list at the front; what is left if that isn't a whole list, so that its check gives 1. */
static size_t front_len(const uint8_t *lists, size_t len)
{
    if (len < 4 || len - 4 < number(lists, 4))
        return len;
    return 4 + (size_t)number(lists, 4);
}

/* Receives list by list, each with the image that the one before it left. */
void reference_receive_backlog(const uint8_t *table, size_t table_len, const uint8_t *image, size_t image_len,
                               const uint8_t *lists, size_t lists_len, uint8_t *out, size_t out_len,
                               uint32_t standing[4], uint32_t answer[8])
{
    struct table t;
    uint8_t before[IMAGE_MOST];
    uint32_t taken = 0;
    if (!check_table(table, table_len, &t, answer) || !check_image(&t, image, image_len, answer) ||
        !room(out_len, image_len, answer))
        return;
    memcpy(out, image, image_len);
    succeed(answer, image_len);
    while (lists_len > 0 && answer[0] == 0) {
        size_t list_len = front_len(lists, lists_len);
        memcpy(before, out, image_len);
        reference_receive(table, table_len, before, image_len, lists, list_len, out, out_len, standing, answer);
        if (answer[0] == 0 && taken != UINT32_MAX)
            taken++;
        lists += list_len;
        lists_len -= list_len;
    }
    answer[3] = (uint32_t)image_len; /* also if a list was refused */
    answer[5] = taken;
}

/* The listing */

static size_t digits(uint32_t value)
{
    size_t count = 1;
    while (value >= 10) {
        value /= 10;
        count++;
    }
    return count;
}

static uint8_t *put_decimal(uint8_t *to, uint32_t value)
{
    size_t count = digits(value);
    for (size_t i = count; i > 0; i--) {
        to[i - 1] = (uint8_t)('0' + value % 10);
        value /= 10;
    }
    return to + count;
}

static uint8_t *put_bytes(uint8_t *to, const void *bytes, size_t len)
{
    memcpy(to, bytes, len);
    return to + len;
}

static uint8_t *put_byte(uint8_t *to, char byte)
{
    *to = (uint8_t)byte;
    return to + 1;
}

static uint8_t *put_hex(uint8_t *to, const uint8_t *bytes, size_t len)
{
    static const char hex[] = "0123456789ABCDEF";
    for (size_t i = 0; i < len; i++) {
        to = put_byte(to, hex[bytes[i] >> 4]);
        to = put_byte(to, hex[bytes[i] & 15]);
    }
    return to;
}

static size_t listing_len(const struct table *table, uint32_t position)
{
    const uint8_t *entry = table->bytes + TABLE_ENTRIES;
    size_t len = digits(table->bytes[CATALOGUE]) + 1 + digits(table->bytes[CATALOGUE + 1]) + 1 + digits(position) + 1 +
                 digits(table->count) + 1;
    for (uint32_t object = 0; object < table->count; object++) {
        len += digits(object) + 1 + digits(entry[0]) + 1 + entry[1] + 1 + 2 * width_of(table, object) + 1;
        entry += 2 + entry[1];
    }
    return len;
}

static void put_listing(uint8_t *to, const struct table *table, const uint8_t *image)
{
    const uint8_t *entry = table->bytes + TABLE_ENTRIES;
    to = put_decimal(to, table->bytes[CATALOGUE]);
    to = put_byte(to, '.');
    to = put_decimal(to, table->bytes[CATALOGUE + 1]);
    to = put_byte(to, ' ');
    to = put_decimal(to, number(image + IMAGE_POSITION, 4));
    to = put_byte(to, ' ');
    to = put_decimal(to, table->count);
    to = put_byte(to, '\n');
    for (uint32_t object = 0; object < table->count; object++) {
        to = put_decimal(to, object);
        to = put_byte(to, ' ');
        to = put_decimal(to, entry[0]);
        to = put_byte(to, ' ');
        to = put_bytes(to, entry + 2, entry[1]);
        to = put_byte(to, ' ');
        to = put_hex(to, image + IMAGE_ELEMENTS + table->starts[object], width_of(table, object));
        to = put_byte(to, '\n');
        entry += 2 + entry[1];
    }
}

/* Splits the data by the table's length, and checks both forms. */
static bool check_data(const uint8_t *data, size_t len, struct table *table, const uint8_t **image, uint32_t *answer)
{
    if (len > LISTED_MOST || len < 4 || len - 4 < number(data, 4))
        return refused(answer, 1);
    size_t table_len = 4 + (size_t)number(data, 4);
    *image = data + table_len;
    return check_table(data, table_len, table, answer) && check_image(table, *image, len - table_len, answer);
}

void reference_listing(const uint8_t *data, size_t data_len, uint8_t *out, size_t out_len, uint32_t answer[8])
{
    struct table t;
    const uint8_t *image;
    if (!check_data(data, data_len, &t, &image, answer))
        return;
    size_t len = listing_len(&t, number(image + IMAGE_POSITION, 4));
    if (!room(out_len, len, answer))
        return;
    put_listing(out, &t, image);
    succeed(answer, len);
}
