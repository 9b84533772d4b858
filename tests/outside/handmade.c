/* The calls in C as one would write them by hand for speed: repeated objects are found by a hash table, an element is
   checked by one addition and one mask, and an output is written in one pass. The reference gives the code and bit of a
   refused element. */
#include "handmade.h"

#include "paper.h"

/* The longest outputs: a list that names every object, and the lines of a listing. */
enum {
    LIST_MOST = LIST_ENTRIES + OBJECTS_MOST * (2 + 4 + 4),
    TEXT_MOST = sizeof "255.255 4294967295 1024" + OBJECTS_MOST * (sizeof "1023 23  01234567" + LABEL_MOST)
};

/* Numbers in bytes, highest byte first */

static uint32_t number2(const uint8_t *bytes)
{
    return (uint32_t)(bytes[0] << 8 | bytes[1]);
}

static uint32_t number4(const uint8_t *bytes)
{
    return (uint32_t)bytes[0] << 24 | (uint32_t)bytes[1] << 16 | (uint32_t)bytes[2] << 8 | bytes[3];
}

static void put2(uint8_t *bytes, uint32_t value)
{
    bytes[0] = (uint8_t)(value >> 8);
    bytes[1] = (uint8_t)value;
}

static void put4(uint8_t *bytes, uint32_t value)
{
    put2(bytes, value >> 16);
    put2(bytes + 2, value);
}

/* Elements */

/* A field from bit low up: what is added to it so that a value above top carries, and the bit that this reaches. */
#define ADDED(low, width, top) ((((uint64_t)1 << (width)) - 1 - (top)) << (low))
#define CARRY(low, width, top) ((uint64_t)1 << ((low) + (width)))

/* By kind, the fields that don't admit every value; a reserved one admits only 0. */
#define SIG(part) part(1, 3, 3) | part(4, 4, 12) | part(31, 1, 0)
#define IC(part) part(3, 5, 0)
#define PV(part) part(1, 2, 2) | part(4, 4, 0)
#define CV(part) part(6, 2, 2) | part(10, 3, 4) | part(14, 2, 0)
#define CVA(part) part(2, 1, 0) | part(4, 2, 1) | part(6, 2, 0) | part(10, 3, 4) | part(14, 2, 0)
#define CVX(part) part(6, 2, 2) | part(8, 2, 2) | part(10, 2, 2) | part(15, 1, 0)
#define SDT(part) part(6, 2, 0)
#define AG(part) part(6, 2, 2) | part(8, 2, 2) | part(10, 2, 2) | part(12, 3, 4) | part(19, 5, 0)
#define BOU(part) part(4, 4, 0)
#define AVG(part) part(7, 2, 2) | part(9, 7, 0)
#define FRA(part) part(2, 3, 6) | part(6, 3, 6) | part(12, 4, 0)
#define SIG_OF_3(part) part(4, 4, 12) | part(30, 2, 2)

#define BITS(width) (0xFFFFFFFFu >> (32 - 8 * (width)))
#define KIND(width, limits) {limits(ADDED), limits(CARRY), BITS(width), BITS(width), width}

/* silent: the bits that must be 0 if DAT is 0; none for the kind without DAT. */
static const struct kind {
    uint64_t added, carries;
    uint32_t bits, silent;
    size_t width;
} kinds[KINDS] = {
    [1] = KIND(4, SIG),
    [2] = KIND(1, IC),
    [3] = KIND(1, PV),
    [4] = KIND(2, CV),
    [5] = KIND(2, CVA),
    [6] = KIND(2, CVX),
    [7] = KIND(1, SDT),
    [8] = KIND(3, AG),
    [9] = KIND(1, BOU),
    [KIND_WITHOUT_DAT] = {AVG(ADDED), AVG(CARRY), BITS(2), 0, 2},
    [23] = KIND(2, FRA),
    [31] = KIND(4, SIG_OF_3),
};

/* An element as a number, read from the four bytes that end with it: every form has enough bytes before an element. */
static uint32_t word_of(const uint8_t *element, const struct kind *kind)
{
    return number4(element + kind->width - 4) & kind->bits;
}

static bool admitted(uint64_t word, const struct kind *kind)
{
    uint64_t carry = (word + kind->added) ^ word ^ kind->added;
    return (carry & kind->carries) == 0 && ((word & 1) != 0 || (word & kind->silent) == 0);
}

/* Not inlined, so that it costs accepted elements nothing. */
__attribute__((noinline)) static bool refused_element(const struct kind *kind, const uint8_t *element, uint32_t object,
                                                      uint32_t *answer)
{
    check_fields((uint8_t)(kind - kinds), element, object, answer);
    return false;
}

/* One to four bytes, without a call. */
static void copy_element(uint8_t *to, const uint8_t *from, size_t width)
{
    switch (width) {
    case 1: memcpy(to, from, 1); break;
    case 2: memcpy(to, from, 2); break;
    case 3: memcpy(to, from, 3); break;
    case 4: memcpy(to, from, 4); break;
    }
}

/* The three forms */

/* An accepted table; starts[object] is where its element begins among the elements. */
struct table {
    const uint8_t *bytes;
    uint32_t count;
    uint8_t kinds[OBJECTS_MOST];
    uint16_t starts[OBJECTS_MOST + 1];
};

static const struct kind *kind_of(const struct table *table, uint32_t object)
{
    return &kinds[table->kinds[object]];
}

/* 1 and 2 */
static bool check_head(const uint8_t *form, size_t len, uint32_t least, uint32_t *answer)
{
    if (len < 4 || number4(form) != len - 4 || number4(form) < least)
        return refused(answer, 1);
    if (form[VERSION] != 1)
        return refused(answer, 2);
    return true;
}

/* 1, 2 and 9 */
static bool check_head_under(const struct table *table, const uint8_t *form, size_t len, uint32_t least,
                             uint32_t *answer)
{
    if (!check_head(form, len, least, answer))
        return false;
    if (number2(form + CATALOGUE) != number2(table->bytes + CATALOGUE))
        return refused(answer, 9);
    return true;
}

/* A step of the hash FNV-1a */
static uint32_t mixed(uint32_t hash, uint8_t byte)
{
    return (hash ^ byte) * 16777619u;
}

/* Bytes 33 to 126, at least one, and the first colon has a byte before and after it. They are hashed on the way. */
static bool check_label(const uint8_t *label, size_t len, uint32_t *hash)
{
    const uint8_t *colon = NULL, *byte = label, *end = label + len;
    do {
        if (*byte < 33 || *byte > 126)
            return false;
        if (*byte == ':' && colon == NULL)
            colon = byte;
        *hash = mixed(*hash, *byte);
    } while (++byte < end);
    return colon != NULL && colon != label && colon != end - 1;
}

/* The slot for an entry that is not there yet, NULL if it is. Entries of one hash are in consecutive slots; 0 is a free
   slot. */
static uint16_t *free_slot(uint16_t *slots, uint32_t mask, uint32_t hash, const uint8_t *table, const uint8_t *entry)
{
    for (;; hash++) {
        uint16_t *slot = &slots[hash & mask];
        if (*slot == 0)
            return slot;
        const uint8_t *earlier = table + *slot;
        if (earlier[0] == entry[0] && earlier[1] == entry[1] && memcmp(earlier + 2, entry + 2, entry[1]) == 0)
            return NULL;
    }
}

static bool check_table(const uint8_t *bytes, size_t len, struct table *table, uint32_t *answer)
{
    if (!check_head(bytes, len, TABLE_LEAST, answer))
        return false;
    const uint8_t *carried = kinds_under(bytes[CATALOGUE], bytes[CATALOGUE + 1]);
    if (carried == NULL)
        return refused(answer, 3);
    uint32_t count = number2(bytes + TABLE_COUNT);
    if (count > OBJECTS_MOST)
        return refused(answer, 4);
    /* the hash table holds where entries begin. At least half is free, and a short table has little to clear. */
    uint16_t slots[2 * OBJECTS_MOST];
    uint32_t size = 1;
    while (size < 2 * count)
        size *= 2;
    memset(slots, 0, size * sizeof *slots);
    size_t at = TABLE_ENTRIES;
    uint16_t start = 0;
    for (uint32_t object = 0; object < count; object++) {
        if (len - at < 2)
            return refused(answer, 8);
        uint8_t kind = carried[bytes[at]];
        size_t label_len = bytes[at + 1];
        if (kind == 0)
            return refused_object(answer, 5, object);
        if (label_len < 1 || label_len > LABEL_MOST)
            return refused_object(answer, 6, object);
        if (len - at - 2 < label_len)
            return refused(answer, 8);
        uint32_t hash = mixed(2166136261u, bytes[at]);
        if (!check_label(bytes + at + 2, label_len, &hash))
            return refused_object(answer, 6, object);
        uint16_t *slot = free_slot(slots, size - 1, hash, bytes, bytes + at);
        if (slot == NULL)
            return refused_object(answer, 7, object);
        *slot = (uint16_t)at;
        table->kinds[object] = kind;
        table->starts[object] = start;
        start += kinds[kind].width;
        at += 2 + label_len;
    }
    if (at != len)
        return refused(answer, 8);
    table->bytes = bytes;
    table->count = count;
    table->starts[count] = start;
    return true;
}

static bool check_image(const struct table *table, const uint8_t *image, size_t len, uint32_t *answer)
{
    if (!check_head_under(table, image, len, IMAGE_LEAST, answer))
        return false;
    if (len != IMAGE_ELEMENTS + (size_t)table->starts[table->count])
        return refused(answer, 8);
    const uint8_t *element = image + IMAGE_ELEMENTS;
    for (uint32_t object = 0; object < table->count; object++) {
        const struct kind *kind = kind_of(table, object);
        if (!admitted(word_of(element, kind), kind))
            return refused_element(kind, element, object, answer);
        element += kind->width;
    }
    return true;
}

static bool check_list(const struct table *table, const uint8_t *list, size_t len, uint32_t *answer)
{
    if (!check_head_under(table, list, len, LIST_LEAST, answer))
        return false;
    uint32_t count = number2(list + LIST_COUNT);
    uint32_t least = 0;
    size_t at = LIST_ENTRIES;
    for (uint32_t entry = 0; entry < count; entry++) {
        if (len - at < 2)
            return refused(answer, 8);
        uint32_t object = number2(list + at);
        at += 2;
        if (object >= table->count)
            return refused_object(answer, 13, object);
        if (object < least)
            return refused_object(answer, 14, object);
        const struct kind *kind = kind_of(table, object);
        size_t width = kind->width;
        if (len - at < 2 * width)
            return refused(answer, 8);
        uint32_t old = word_of(list + at, kind);
        uint32_t new = word_of(list + at + width, kind);
        if (!admitted(old, kind))
            return refused_element(kind, list + at, object, answer);
        if (!admitted(new, kind))
            return refused_element(kind, list + at + width, object, answer);
        if (old == new)
            return refused_object(answer, 15, object);
        least = object + 1;
        at += 2 * width;
    }
    if (at != len)
        return refused(answer, 8);
    return true;
}

/* The calls: checks */

void handmade_check_element(uint8_t x, uint8_t y, uint8_t type, const uint8_t *element, size_t element_len,
                            uint32_t answer[8])
{
    const uint8_t *carried = kinds_under(x, y);
    uint32_t word = 0;
    if (carried == NULL) {
        refused(answer, 3);
        return;
    }
    const struct kind *kind = &kinds[carried[type]];
    if (kind->width == 0) {
        refused(answer, 5);
        return;
    }
    if (element_len != kind->width) {
        refused(answer, 8);
        return;
    }
    for (size_t i = 0; i < element_len; i++)
        word = word << 8 | element[i];
    if (admitted(word, kind))
        succeed(answer, 0);
    else
        refused_element(kind, element, NO_OBJECT, answer);
}

void handmade_check_table(const uint8_t *table, size_t table_len, uint32_t answer[8])
{
    struct table t;
    if (check_table(table, table_len, &t, answer))
        succeed(answer, 0);
}

void handmade_check_image(const uint8_t *table, size_t table_len, const uint8_t *image, size_t image_len,
                          uint32_t answer[8])
{
    struct table t;
    if (check_table(table, table_len, &t, answer) && check_image(&t, image, image_len, answer))
        succeed(answer, 0);
}

void handmade_check_list(const uint8_t *table, size_t table_len, const uint8_t *list, size_t list_len,
                         uint32_t answer[8])
{
    struct table t;
    if (check_table(table, table_len, &t, answer) && check_list(&t, list, list_len, answer))
        succeed(answer, 0);
}

/* The calls: states and labels */

void handmade_read_state(const uint8_t *table, size_t table_len, const uint8_t *image, size_t image_len,
                         uint16_t object, uint32_t fields[32], uint32_t answer[8])
{
    struct table t;
    if (!check_table(table, table_len, &t, answer) || !check_image(&t, image, image_len, answer))
        return;
    if (object >= t.count) {
        refused_object(answer, 13, object);
        return;
    }
    uint32_t word = word_of(image + IMAGE_ELEMENTS + t.starts[object], kind_of(&t, object));
    memset(fields, 0, 32 * sizeof *fields);
    for (const struct row *row = layouts[t.kinds[object]].rows; row->width != 0; row++)
        if (row->top != 0)
            *fields++ = word >> row->low & ((1u << row->width) - 1);
    succeed(answer, 0);
    answer[5] = t.kinds[object];
}

/* The element of a given state, if it is admitted. */
static bool check_state(uint8_t kind, const uint32_t *fields, uint32_t object, uint32_t *word, uint32_t *answer)
{
    *word = 0;
    for (const struct row *row = layouts[kind].rows; row->width != 0; row++) {
        if (row->top == 0)
            continue;
        if (*fields > row->top)
            return refused_bit(answer, 11, object, row->low);
        *word |= *fields++ << row->low;
    }
    if (!admitted(*word, &kinds[kind]))
        return refused_bit(answer, 12, object, 0);
    return true;
}

void handmade_write_state(const uint8_t *table, size_t table_len, const uint8_t *image, size_t image_len,
                          uint16_t object, uint32_t kind, const uint32_t fields[32], uint32_t position, uint8_t *out,
                          size_t out_len, uint32_t answer[8])
{
    struct table t;
    uint32_t word;
    if (!check_table(table, table_len, &t, answer) || !check_image(&t, image, image_len, answer))
        return;
    if (object >= t.count) {
        refused_object(answer, 13, object);
        return;
    }
    if (kind != t.kinds[object]) {
        refused_object(answer, 22, object);
        return;
    }
    if (!check_state(t.kinds[object], fields, object, &word, answer) || !room(out_len, image_len, answer))
        return;
    memcpy(out, image, image_len);
    put4(out + IMAGE_POSITION, position);
    for (size_t at = t.starts[object + 1]; at > t.starts[object]; word >>= 8)
        out[IMAGE_ELEMENTS + --at] = (uint8_t)word;
    succeed(answer, image_len);
}

void handmade_label(const uint8_t *table, size_t table_len, uint16_t object, uint32_t answer[8])
{
    struct table t;
    if (!check_table(table, table_len, &t, answer))
        return;
    if (object >= t.count) {
        refused_object(answer, 13, object);
        return;
    }
    size_t at = TABLE_ENTRIES;
    for (uint32_t i = 0; i < object; i++)
        at += 2 + table[at + 1];
    succeed(answer, 0);
    answer[5] = (uint32_t)at + 2;
    answer[6] = table[at + 1];
}

/* The calls: change lists */

static uint8_t *put_entry(uint8_t *to, uint32_t object, size_t width, const uint8_t *old, const uint8_t *new)
{
    put2(to, object);
    copy_element(to + 2, old, width);
    copy_element(to + 2 + width, new, width);
    return to + 2 + 2 * width;
}

static void put_list_head(uint8_t *list, size_t len, const struct table *table, const uint8_t *from, const uint8_t *to,
                          uint32_t count)
{
    put4(list, (uint32_t)len - 4);
    memcpy(list + VERSION, table->bytes + VERSION, 3);
    memcpy(list + LIST_FROM, from, 4);
    memcpy(list + LIST_TO, to, 4);
    put2(list + LIST_COUNT, count);
}

/* For an output whose length is known only now; it was made in out or in a separate buffer. */
static void hand_over(const uint8_t *made, size_t len, uint8_t *out, size_t out_len, uint32_t *answer)
{
    if (!room(out_len, len, answer))
        return;
    if (made != out)
        memcpy(out, made, len);
    succeed(answer, len);
}

void handmade_difference(const uint8_t *table, size_t table_len, const uint8_t *a, size_t a_len, const uint8_t *b,
                         size_t b_len, uint8_t *out, size_t out_len, uint32_t answer[8])
{
    struct table t;
    uint8_t made[LIST_MOST];
    uint8_t *list = out_len < LIST_MOST ? made : out;
    uint8_t *to = list + LIST_ENTRIES;
    uint32_t count = 0;
    if (!check_table(table, table_len, &t, answer) || !check_image(&t, a, a_len, answer) ||
        !check_image(&t, b, b_len, answer))
        return;
    size_t at = IMAGE_ELEMENTS;
    for (uint32_t object = 0; object < t.count; object++) {
        const struct kind *kind = kind_of(&t, object);
        if (word_of(a + at, kind) != word_of(b + at, kind)) {
            to = put_entry(to, object, kind->width, a + at, b + at);
            count++;
        }
        at += kind->width;
    }
    size_t len = (size_t)(to - list);
    put_list_head(list, len, &t, a + IMAGE_POSITION, b + IMAGE_POSITION, count);
    hand_over(list, len, out, out_len, answer);
}

/* 16, 17 and 18 of an accepted list */
static bool check_applies(const struct table *table, const uint8_t *image, const uint8_t *list, size_t list_len,
                          uint32_t *answer)
{
    uint32_t position = number4(image + IMAGE_POSITION);
    uint32_t from = number4(list + LIST_FROM);
    if (from != position)
        return refused(answer, from < position ? 16 : 17);
    for (const uint8_t *entry = list + LIST_ENTRIES, *end = list + list_len; entry < end;) {
        uint32_t object = number2(entry);
        const struct kind *kind = kind_of(table, object);
        const uint8_t *element = image + IMAGE_ELEMENTS + table->starts[object];
        if (word_of(element, kind) != word_of(entry + 2, kind))
            return refused_object(answer, 18, object);
        entry += 2 + 2 * kind->width;
    }
    return true;
}

/* Applies a list in place. */
static void put_changes(const struct table *table, uint8_t *image, const uint8_t *list, size_t list_len)
{
    memcpy(image + IMAGE_POSITION, list + LIST_TO, 4);
    for (const uint8_t *entry = list + LIST_ENTRIES, *end = list + list_len; entry < end;) {
        uint32_t object = number2(entry);
        size_t width = kind_of(table, object)->width;
        copy_element(image + IMAGE_ELEMENTS + table->starts[object], entry + 2 + width, width);
        entry += 2 + 2 * width;
    }
}

void handmade_apply(const uint8_t *table, size_t table_len, const uint8_t *image, size_t image_len, const uint8_t *list,
                    size_t list_len, uint8_t *out, size_t out_len, uint32_t answer[8])
{
    struct table t;
    if (!check_table(table, table_len, &t, answer) || !check_image(&t, image, image_len, answer) ||
        !check_list(&t, list, list_len, answer) || !check_applies(&t, image, list, list_len, answer) ||
        !room(out_len, image_len, answer))
        return;
    memcpy(out, image, image_len);
    put_changes(&t, out, list, list_len);
    succeed(answer, image_len);
}

void handmade_join(const uint8_t *table, size_t table_len, const uint8_t *first, size_t first_len,
                   const uint8_t *second, size_t second_len, uint8_t *out, size_t out_len, uint32_t answer[8])
{
    struct table t;
    uint8_t list[LIST_MOST]; /* never in the output, since 20 may be found half-way */
    uint8_t *to = list + LIST_ENTRIES;
    uint32_t count = 0;
    if (!check_table(table, table_len, &t, answer) || !check_list(&t, first, first_len, answer) ||
        !check_list(&t, second, second_len, answer))
        return;
    if (number4(first + LIST_TO) != number4(second + LIST_FROM)) {
        refused(answer, 19);
        return;
    }
    const uint8_t *f = first + LIST_ENTRIES, *f_end = first + first_len;
    const uint8_t *s = second + LIST_ENTRIES, *s_end = second + second_len;
    while (f < f_end || s < s_end) {
        uint32_t in_first = f < f_end ? number2(f) : NO_OBJECT;
        uint32_t in_second = s < s_end ? number2(s) : NO_OBJECT;
        uint32_t object = in_first < in_second ? in_first : in_second;
        const struct kind *kind = kind_of(&t, object);
        size_t width = kind->width;
        const uint8_t *old = in_first == object ? f + 2 : s + 2;
        const uint8_t *new = in_second == object ? s + 2 + width : f + 2 + width;
        if (in_first == in_second) {
            if (word_of(f + 2 + width, kind) != word_of(s + 2, kind)) {
                refused_object(answer, 20, object);
                return;
            }
        }
        if (word_of(old, kind) != word_of(new, kind)) {
            to = put_entry(to, object, width, old, new);
            count++;
        }
        if (in_first == object)
            f += 2 + 2 * width;
        if (in_second == object)
            s += 2 + 2 * width;
    }
    size_t len = (size_t)(to - list);
    put_list_head(list, len, &t, first + LIST_FROM, second + LIST_TO, count);
    hand_over(list, len, out, out_len, answer);
}

void handmade_turn_back(const uint8_t *table, size_t table_len, const uint8_t *list, size_t list_len, uint8_t *out,
                        size_t out_len, uint32_t answer[8])
{
    struct table t;
    if (!check_table(table, table_len, &t, answer) || !check_list(&t, list, list_len, answer) ||
        !room(out_len, list_len, answer))
        return;
    uint8_t *to = out + LIST_ENTRIES;
    for (const uint8_t *entry = list + LIST_ENTRIES; entry < list + list_len;) {
        uint32_t object = number2(entry);
        size_t width = kind_of(&t, object)->width;
        to = put_entry(to, object, width, entry + 2 + width, entry + 2);
        entry += 2 + 2 * width;
    }
    put_list_head(out, list_len, &t, list + LIST_TO, list + LIST_FROM, number2(list + LIST_COUNT));
    succeed(answer, list_len);
}

static void tally(uint32_t *standing, uint32_t code)
{
    uint32_t *tallied = &standing[code == 0 ? 0 : code == 16 ? 1 : code == 17 ? 2 : 3];
    if (*tallied != UINT32_MAX)
        ++*tallied;
}

void handmade_receive(const uint8_t *table, size_t table_len, const uint8_t *image, size_t image_len,
                      const uint8_t *list, size_t list_len, uint8_t *out, size_t out_len, uint32_t standing[4],
                      uint32_t answer[8])
{
    handmade_apply(table, table_len, image, image_len, list, list_len, out, out_len, answer);
    tally(standing, answer[0]);
}

/* Table and image are checked once, and each list is applied to the image in out. */
void handmade_receive_backlog(const uint8_t *table, size_t table_len, const uint8_t *image, size_t image_len,
                              const uint8_t *lists, size_t lists_len, uint8_t *out, size_t out_len,
                              uint32_t standing[4], uint32_t answer[8])
{
    struct table t;
    uint32_t taken = 0;
    if (!check_table(table, table_len, &t, answer) || !check_image(&t, image, image_len, answer) ||
        !room(out_len, image_len, answer))
        return;
    memcpy(out, image, image_len);
    succeed(answer, image_len);
    for (size_t left = lists_len; left > 0;) {
        const uint8_t *list = lists + lists_len - left;
        size_t len = left < 4 || left - 4 < number4(list) ? left : 4 + (size_t)number4(list);
        if (!check_list(&t, list, len, answer) || !check_applies(&t, out, list, len, answer)) {
            tally(standing, answer[0]);
            break;
        }
        put_changes(&t, out, list, len);
        tally(standing, 0);
        taken += taken != UINT32_MAX;
        left -= len;
    }
    answer[3] = (uint32_t)image_len; /* also if a list was refused */
    answer[5] = taken;
}

/* The listing */

static uint8_t *put_decimal(uint8_t *to, uint32_t value)
{
    uint8_t *end = to + 1;
    for (uint32_t rest = value; rest > 9; rest /= 10)
        end++;
    for (uint8_t *digit = end; digit > to; value /= 10)
        *--digit = (uint8_t)('0' + value % 10);
    return end;
}

static uint8_t *put_bytes(uint8_t *to, const void *bytes, size_t len)
{
    memcpy(to, bytes, len);
    return to + len;
}

static uint8_t *put_listing(uint8_t *to, const struct table *table, const uint8_t *image)
{
    static const char hex[] = "0123456789ABCDEF";
    to = put_decimal(to, table->bytes[CATALOGUE]);
    *to++ = '.';
    to = put_decimal(to, table->bytes[CATALOGUE + 1]);
    *to++ = ' ';
    to = put_decimal(to, number4(image + IMAGE_POSITION));
    *to++ = ' ';
    to = put_decimal(to, table->count);
    *to++ = '\n';
    const uint8_t *entry = table->bytes + TABLE_ENTRIES, *element = image + IMAGE_ELEMENTS;
    for (uint32_t object = 0; object < table->count; object++) {
        to = put_decimal(to, object);
        *to++ = ' ';
        to = put_decimal(to, entry[0]);
        *to++ = ' ';
        to = put_bytes(to, entry + 2, entry[1]);
        *to++ = ' ';
        for (const uint8_t *end = element + kind_of(table, object)->width; element < end; element++) {
            *to++ = (uint8_t)hex[*element >> 4];
            *to++ = (uint8_t)hex[*element & 15];
        }
        *to++ = '\n';
        entry += 2 + entry[1];
    }
    return to;
}

/* Splits the data by the table's length, and checks both forms. */
static bool check_data(const uint8_t *data, size_t len, struct table *table, const uint8_t **image, uint32_t *answer)
{
    if (len > LISTED_MOST || len < 4 || len - 4 < number4(data))
        return refused(answer, 1);
    size_t table_len = 4 + (size_t)number4(data);
    *image = data + table_len;
    return check_table(data, table_len, table, answer) && check_image(table, *image, len - table_len, answer);
}

void handmade_listing(const uint8_t *data, size_t data_len, uint8_t *out, size_t out_len, uint32_t answer[8])
{
    struct table t;
    const uint8_t *image;
    uint8_t made[TEXT_MOST];
    uint8_t *text = out_len < TEXT_MOST ? made : out;
    if (!check_data(data, data_len, &t, &image, answer))
        return;
    uint8_t *end = put_listing(text, &t, image);
    hand_over(text, (size_t)(end - text), out, out_len, answer);
}
