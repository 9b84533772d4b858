/* Tables, images and lists made at random, and ways to damage them. */
#ifndef FORMS_H
#define FORMS_H

#include "paper.h"

enum { FORM_MOST = LISTED_MOST + 64 };

struct form {
    size_t len;
    uint8_t bytes[FORM_MOST];
};

/* Random numbers, the same for the same seed. Two draws take two statements, so that their order is fixed. */
void seed(uint64_t start);
uint32_t draw(uint32_t below);
bool once_in(uint32_t n);
uint32_t draw_position(void);

/* X of a catalogue that is carried, and a type under it. */
uint8_t draw_catalogue(void);
uint8_t draw_type(uint8_t x);

/* Visits every type of every catalogue. */
void each_type(void (*visit)(uint8_t x, uint8_t type, uint8_t kind));

uint32_t number(const uint8_t *bytes, size_t width);
void put_number(uint8_t *bytes, size_t width, uint32_t value);
void copy_form(struct form *to, const struct form *from);
/* Adds bytes at the end; false, and nothing added, if the form would be too long. */
bool append(struct form *form, const uint8_t *bytes, size_t len);
void flip_bit(uint8_t *bytes, size_t len);

/* Accepted elements of a kind, found once by trying: the element's bytes, and its fields. */
void fill_pool(void);
const uint8_t *pool_element(uint8_t kind);
const uint32_t *pool_fields(uint8_t kind, const uint8_t *element);

/* Accepted forms; a table is of any catalogue or of that of X. An image that follows another differs in some elements,
   some of them taken from an earlier image. */
void random_table(struct form *table, uint32_t objects);
void empty_table(struct form *table, uint8_t x);
void add_object(struct form *table, uint8_t type, const char *label, size_t len);

/* Objects of one type, with labels of 32 bytes and one hash: h begins as the type and becomes (9 h + b) mod 1,024 for
   each byte b of the label. The labels differ in the first four bytes only, and most of them in the first three. */
void colliding_table(struct form *table, uint32_t objects);

void first_image(struct form *image, const struct form *table);
void next_image(struct form *image, const struct form *table, const struct form *before, const struct form *earlier);
void put_image(struct form *image, const struct form *table, uint32_t position,
               const uint8_t *(*element)(uint8_t kind));

/* Damages a form in one or more places; the form need not be whole. */
void damage_table(struct form *table);
void damage_image(struct form *image, const struct form *table);
void damage_list(struct form *list, const struct form *table);

/* Makes the first four bytes fit the form's length. */
void refit(struct form *form);

/* The table's count of objects; in an accepted table, where an object's entry begins, and the kind of the object whose
   entry begins at a place. */
uint32_t objects_of(const struct form *table);
size_t entry_of(const struct form *table, uint32_t object);
uint8_t kind_at(const struct form *table, size_t entry);

#endif
