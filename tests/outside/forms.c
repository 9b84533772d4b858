#include "forms.h"

#include "faces.h"

/* The numbers of the norm's catalogues and types are below these. */
enum { CATALOGUES = 4, TYPES = 26, POOL = 128 };

/* Random numbers: splitmix64 */

static uint64_t state;

void seed(uint64_t start)
{
    state = start;
}

static uint64_t next(void)
{
    uint64_t z = state += 0x9E3779B97F4A7C15u;
    z = (z ^ z >> 30) * 0xBF58476D1CE4E5B9u;
    z = (z ^ z >> 27) * 0x94D049BB133111EBu;
    return z ^ z >> 31;
}

uint32_t draw(uint32_t below)
{
    return below == 0 ? 0 : (uint32_t)((next() >> 32) * below >> 32);
}

bool once_in(uint32_t n)
{
    return draw(n) == 0;
}

uint32_t draw_position(void)
{
    static const uint32_t edges[] = {0, 1, 7, 255, 256, 65535, 65536, 0x80000000u, 0xFFFFFFFEu, 0xFFFFFFFFu};
    return once_in(3) ? (uint32_t)next() : edges[draw(sizeof edges / sizeof *edges)];
}

/* Catalogues */

uint8_t draw_catalogue(void)
{
    uint8_t x;
    do
        x = (uint8_t)draw(CATALOGUES);
    while (catalogues[x] == NULL);
    return x;
}

uint8_t draw_type(uint8_t x)
{
    uint8_t type;
    do
        type = (uint8_t)draw(TYPES);
    while (catalogues[x][type] == 0);
    return type;
}

/* The next type after this one, and the first after the last. */
static uint8_t next_type(uint8_t x, uint8_t type)
{
    do
        type++;
    while (catalogues[x][type] == 0);
    return type;
}

void each_type(void (*visit)(uint8_t x, uint8_t type, uint8_t kind))
{
    for (uint8_t x = 0; x < CATALOGUES; x++)
        for (uint8_t type = 0; catalogues[x] != NULL && type < TYPES; type++)
            if (catalogues[x][type] != 0)
                visit(x, type, catalogues[x][type]);
}

/* Bytes */

uint32_t number(const uint8_t *bytes, size_t width)
{
    uint32_t value = 0;
    for (size_t i = 0; i < width; i++)
        value = value << 8 | bytes[i];
    return value;
}

void put_number(uint8_t *bytes, size_t width, uint32_t value)
{
    for (size_t i = width; i > 0; i--, value >>= 8)
        bytes[i - 1] = (uint8_t)value;
}

void copy_form(struct form *to, const struct form *from)
{
    to->len = from->len;
    memcpy(to->bytes, from->bytes, from->len);
}

bool append(struct form *form, const uint8_t *bytes, size_t len)
{
    if (len > FORM_MOST - form->len)
        return false;
    memcpy(form->bytes + form->len, bytes, len);
    form->len += len;
    return true;
}

void refit(struct form *form)
{
    if (form->len >= 4)
        put_number(form->bytes, 4, (uint32_t)form->len - 4);
}

void flip_bit(uint8_t *bytes, size_t len)
{
    uint8_t *byte = bytes + draw((uint32_t)len);
    *byte ^= (uint8_t)(1u << draw(8));
}

/* Accepted elements */

static uint8_t pool[KINDS][POOL][4];
static uint32_t fields[KINDS][POOL][32];

/* Reads the fields through a table and an image of one object. */
static void fill_kind(uint8_t x, uint8_t type, uint8_t kind)
{
    uint32_t answer[8];
    size_t width = layouts[kind].width;
    const uint8_t table[] = {0, 0, 0, 10, 1, x, 0, 0, 1, type, 3, 'A', ':', 'A'};
    uint8_t image[IMAGE_ELEMENTS + 4] = {0, 0, 0, (uint8_t)(IMAGE_LEAST + width), 1, x, 0};
    for (size_t i = 1; i < POOL; i++) { /* the first is without data */
        do {
            put_number(pool[kind][i], width, (uint32_t)next() | (kind != KIND_WITHOUT_DAT)); /* DAT */
            reference.check_element(x, 0, type, pool[kind][i], width, answer);
        } while (answer[0] != 0);
        memcpy(image + IMAGE_ELEMENTS, pool[kind][i], width);
        reference.read_state(table, sizeof table, image, IMAGE_ELEMENTS + width, 0, fields[kind][i], answer);
    }
}

void fill_pool(void)
{
    each_type(fill_kind);
}

const uint8_t *pool_element(uint8_t kind)
{
    return pool[kind][once_in(8) ? 0 : draw(POOL)];
}

const uint32_t *pool_fields(uint8_t kind, const uint8_t *element)
{
    return fields[kind][(size_t)(element - pool[kind][0]) / sizeof pool[kind][0]];
}

/* Accepted forms */

uint32_t objects_of(const struct form *table)
{
    return number(table->bytes + 7, 2);
}

size_t entry_of(const struct form *table, uint32_t object)
{
    size_t at = TABLE_ENTRIES;
    while (object-- > 0 && at + 1 < table->len)
        at += 2 + (size_t)table->bytes[at + 1];
    return at;
}

uint8_t kind_at(const struct form *table, size_t entry)
{
    return catalogues[table->bytes[CATALOGUE]][table->bytes[entry]];
}

static void put_head(struct form *form, uint8_t x)
{
    form->bytes[VERSION] = 1;
    form->bytes[CATALOGUE] = x;
    form->bytes[CATALOGUE + 1] = 0;
}

static uint8_t printable(void)
{
    return (uint8_t)(33 + draw(94));
}

static uint8_t printable_not_colon(void)
{
    uint8_t byte = (uint8_t)(33 + draw(93));
    return byte >= ':' ? (uint8_t)(byte + 1) : byte;
}

/* A label that no other object has: the byte before its first colon and the last byte depend on the object. */
static size_t put_label(uint8_t *label, uint32_t object)
{
    size_t before = once_in(2) ? 0 : draw(15), after = once_in(2) ? 0 : draw(15), len = 0;
    if (once_in(20))
        before = 15, after = 14; /* 32 bytes, the most */
    for (size_t i = 0; i < before; i++)
        label[len++] = printable_not_colon();
    uint8_t mark = (uint8_t)(33 + object / 32);
    label[len++] = mark >= ':' ? (uint8_t)(mark + 1) : mark;
    label[len++] = ':';
    for (size_t i = 0; i < after; i++)
        label[len++] = printable();
    label[len++] = (uint8_t)(50 + object % 32);
    return len;
}

void random_table(struct form *table, uint32_t objects)
{
    size_t at = TABLE_ENTRIES, last = 0;
    uint8_t x = draw_catalogue(), type = 0;
    bool shared = true;
    put_head(table, x);
    put_number(table->bytes + 7, 2, objects);
    for (uint32_t object = 0; object < objects; object++) {
        uint8_t *entry = table->bytes + at;
        shared = !shared && once_in(5); /* the label of the object before, under another type */
        if (shared) {
            type = next_type(x, type);
            entry[1] = table->bytes[last + 1];
            memcpy(entry + 2, table->bytes + last + 2, entry[1]);
        } else {
            type = draw_type(x);
            entry[1] = (uint8_t)put_label(entry + 2, object);
        }
        entry[0] = type;
        last = at;
        at += 2 + (size_t)entry[1];
    }
    table->len = at;
    refit(table);
}

void empty_table(struct form *table, uint8_t x)
{
    put_head(table, x);
    put_number(table->bytes + 7, 2, 0);
    table->len = TABLE_ENTRIES;
    refit(table);
}

void add_object(struct form *table, uint8_t type, const char *label, size_t len)
{
    table->bytes[table->len++] = type;
    table->bytes[table->len++] = (uint8_t)len;
    memcpy(table->bytes + table->len, label, len);
    table->len += len;
    put_number(table->bytes + 7, 2, objects_of(table) + 1);
    refit(table);
}

/* At most 822 labels of one hash are alike after their third byte. So 822 of these have 33 as their fourth byte, and the
   others 34. */
void colliding_table(struct form *table, uint32_t objects)
{
    enum { TYPE = 4, CROWDED = 529, VALUES = 94 };
    char label[] = "????:CV0017000000000000000000000";
    empty_table(table, 1);
    for (uint32_t front = 0; objects_of(table) < objects; front++) {
        uint32_t hash = TYPE, rest = front;
        for (int i = 0; i < 4; i++, rest /= VALUES) {
            label[i] = (char)(33 + rest % VALUES);
            hash = (hash * 9 + (uint8_t)label[i]) % 1024;
        }
        if (hash == CROWDED && label[0] != ':')
            add_object(table, TYPE, label, sizeof label - 1);
    }
}

void put_image(struct form *image, const struct form *table, uint32_t position, const uint8_t *(*element)(uint8_t kind))
{
    size_t at = IMAGE_ELEMENTS, entry = TABLE_ENTRIES;
    put_head(image, table->bytes[CATALOGUE]);
    put_number(image->bytes + 7, 4, position);
    for (uint32_t object = 0; object < objects_of(table); object++) {
        uint8_t kind = kind_at(table, entry);
        memcpy(image->bytes + at, element(kind), layouts[kind].width);
        at += layouts[kind].width;
        entry += 2 + (size_t)table->bytes[entry + 1];
    }
    image->len = at;
    refit(image);
}

void first_image(struct form *image, const struct form *table)
{
    put_image(image, table, draw_position(), pool_element);
}

void next_image(struct form *image, const struct form *table, const struct form *before, const struct form *earlier)
{
    static const uint32_t rates[] = {1, 2, 3, 10, 1000};
    uint32_t rate = rates[draw(5)];
    size_t at = IMAGE_ELEMENTS, entry = TABLE_ENTRIES;
    copy_form(image, before);
    put_number(image->bytes + 7, 4, draw_position());
    for (uint32_t object = 0; object < objects_of(table); object++) {
        uint8_t kind = kind_at(table, entry);
        if (once_in(rate)) /* to what it was earlier, or to anything */
            memcpy(image->bytes + at, once_in(3) ? earlier->bytes + at : pool_element(kind), layouts[kind].width);
        at += layouts[kind].width;
        entry += 2 + (size_t)table->bytes[entry + 1];
    }
}

/* Damage. Places are chosen within the form's length, since earlier damage may have cut it. */

static void put_byte(struct form *form, size_t at, uint8_t byte)
{
    if (at < form->len)
        form->bytes[at] = byte;
}

static void resize(struct form *form, size_t len)
{
    if (len > FORM_MOST)
        return;
    for (size_t i = form->len; i < len; i++)
        form->bytes[i] = (uint8_t)next();
    form->len = len;
    if (once_in(2))
        refit(form);
}

/* What can happen to any form; count_at is where its count is, 0 if it has none. */
static void damage_any(struct form *form, size_t count_at)
{
    static const uint32_t lengths[] = {0, 4, 5, 6, 7, 12, 13, 0x7FFFFFFFu, 0xFFFFFFFBu, 0xFFFFFFFCu, 0xFFFFFFFFu};
    static const uint32_t counts[] = {0, 1, 2, 1023, 1024, 1025, 65535};
    size_t at = draw((uint32_t)form->len);
    switch (draw(11)) {
    case 0: put_byte(form, at, (uint8_t)next()); break;
    case 1:
    case 2: put_byte(form, at, (uint8_t)(form->bytes[at] ^ 1u << draw(8))); break;
    case 3: resize(form, form->len - draw((uint32_t)(form->len < 8 ? form->len : 8) + 1)); break;
    case 4: resize(form, form->len + 1 + draw(8)); break;
    case 5: resize(form, draw(21)); break;
    case 6: put_byte(form, 4, (uint8_t)(once_in(2) ? draw(4) : next())); break;
    case 7: put_byte(form, CATALOGUE + at % 2, (uint8_t)draw(4)); break;
    case 8: put_byte(form, CATALOGUE, draw_catalogue()); break;
    case 9:
        if (form->len >= 4)
            put_number(form->bytes, 4, once_in(2) ? number(form->bytes, 4) + draw(3) - 1 : lengths[draw(11)]);
        break;
    case 10:
        if (count_at != 0 && form->len >= count_at + 2)
            put_number(form->bytes + count_at, 2,
                       once_in(2) ? number(form->bytes + count_at, 2) + draw(3) - 1 : counts[draw(7)]);
        break;
    }
}

void damage_table(struct form *table)
{
    static const uint8_t label_lengths[] = {0, 1, 2, 3, 31, 32, 33, 34, 48, 255};
    static const uint8_t label_bytes[] = {0, 31, 32, 33, ':', 126, 127, 128, 255};
    uint32_t count = table->len >= TABLE_ENTRIES ? objects_of(table) : 0;
    size_t at = count == 0 || count > OBJECTS_MOST ? table->len : entry_of(table, draw(count));
    if (once_in(2) || at + 2 > table->len || at + 2 + table->bytes[at + 1] > table->len) {
        damage_any(table, 7);
        return;
    }
    size_t label_len = table->bytes[at + 1], place = at + 2 + draw((uint32_t)label_len);
    switch (draw(6)) {
    case 0: put_byte(table, at, once_in(2) ? draw_type(draw_catalogue()) : (uint8_t)draw(KINDS)); break;
    case 1: put_byte(table, at + 1, once_in(2) ? label_lengths[draw(10)] : (uint8_t)(label_len + draw(3) - 1)); break;
    case 2: put_byte(table, place, label_bytes[draw(9)]); break;
    case 3: /* the colons removed, and mostly one put at an edge or next to it */
        for (size_t i = 0; i < label_len; i++)
            if (table->bytes[at + 2 + i] == ':')
                table->bytes[at + 2 + i] = 'x';
        if (!once_in(3))
            put_byte(table, at + 2 + (once_in(2) ? draw(2) : label_len - 1 - draw(2)), ':');
        break;
    default: /* the entry repeated at the end, whole or with a byte of its label or its type changed */
        if (count == OBJECTS_MOST || table->len + 2 + label_len > FORM_MOST)
            break;
        memcpy(table->bytes + table->len, table->bytes + at, 2 + label_len);
        if (label_len > 0 && once_in(4))
            table->bytes[table->len + (place - at)] ^= 1;
        if (once_in(4))
            table->bytes[table->len] = draw_type(draw_catalogue());
        table->len += 2 + label_len;
        put_number(table->bytes + 7, 2, count + 1);
        refit(table);
        break;
    }
}

static void nudge_position(struct form *form, size_t at)
{
    if (form->len >= at + 4)
        put_number(form->bytes + at, 4, once_in(2) ? number(form->bytes + at, 4) + 2 * draw(2) - 1 : draw_position());
}

void damage_image(struct form *image, const struct form *table)
{
    uint32_t count = objects_of(table);
    if (once_in(2) || count == 0) {
        damage_any(image, 0);
        return;
    }
    size_t at = IMAGE_ELEMENTS, entry = TABLE_ENTRIES;
    for (uint32_t object = draw(count); object > 0; object--) {
        at += layouts[kind_at(table, entry)].width;
        entry += 2 + (size_t)table->bytes[entry + 1];
    }
    uint8_t kind = kind_at(table, entry);
    size_t width = layouts[kind].width;
    if (at + width > image->len)
        return;
    switch (draw(4)) {
    case 0: nudge_position(image, 7); break;
    case 1: memcpy(image->bytes + at, pool_element(kind), width); break;
    case 2: image->bytes[at + width - 1] &= 0xFE; break; /* DAT, except for type 22 */
    case 3: flip_bit(image->bytes + at, width); break;
    }
}

void damage_list(struct form *list, const struct form *table)
{
    uint32_t count = list->len >= LIST_ENTRIES ? number(list->bytes + 15, 2) : 0;
    if (once_in(3) || count == 0) {
        if (once_in(4))
            nudge_position(list, 7 + 4 * (size_t)draw(2));
        else
            damage_any(list, 15);
        return;
    }
    /* an entry and the one before it, while they are whole */
    size_t at = LIST_ENTRIES, before = 0, width;
    uint8_t kind;
    for (uint32_t entry = draw(count);; entry--) {
        uint32_t object = at + 2 > list->len ? 65535 : number(list->bytes + at, 2);
        if (object >= objects_of(table))
            return;
        kind = kind_at(table, entry_of(table, object));
        width = layouts[kind].width;
        if (at + 2 + 2 * width > list->len)
            return;
        if (entry == 0)
            break;
        before = at;
        at += 2 + 2 * width;
    }
    uint8_t *old = list->bytes + at + 2;
    uint8_t *new = old + width;
    switch (draw(8)) {
    case 0: put_number(list->bytes + at, 2, draw(objects_of(table) + 2)); break;
    case 1: put_number(list->bytes + at, 2, once_in(2) ? 65535 : objects_of(table)); break;
    case 2: /* the number of the entry before */
        if (before != 0)
            memcpy(list->bytes + at, list->bytes + before, 2);
        break;
    case 3: memcpy(new, old, width); break;
    case 4: memcpy(old, pool_element(kind), width); break;
    case 5: memcpy(new, pool_element(kind), width); break;
    case 6: (once_in(2) ? old : new)[width - 1] &= 0xFE; break;
    case 7: flip_bit(old, 2 * width); break;
    }
}
