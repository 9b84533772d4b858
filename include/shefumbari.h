/* Shefumbari: tables, images and change lists of an interlocking's indications, under catalogue 1.0 (types 1 to 9, 22
   and 23) or 3.0 (types 1 to 7) of NAS 831.

   Every call fills answer with eight numbers: code, object, bit, length, a place kept for later (0), and three that are
   0 unless the call says otherwise. Success is 0, 65535, 255 and the number of bytes written. A refusal is a code from
   1 to 22, the object and bit it names (65535 and 255 if it names none), and length 0; 21 (output too short) gives the
   length needed.

   Success writes the front of out and leaves the rest; a refusal writes nothing but answer and a tally. Only
   shefumbari_receive_backlog, if it refuses a list, writes out and gives the length as it does on success. No call
   keeps a pointer or changes an input. Buffers lent to one call must not overlap, and no pointer may be null, even if
   its length is 0. */
#ifndef SHEFUMBARI_H
#define SHEFUMBARI_H

#include <stddef.h>
#include <stdint.h>

#ifdef __cplusplus
extern "C" {
#endif

/* Checks one element of a type under catalogue x.y: 3 if the catalogue isn't carried, 5 if the type isn't, 8 if the
   length isn't the type's width, then 10, 11 or 12 with the bit. No object is named. */
void shefumbari_check_element(uint8_t x, uint8_t y, uint8_t type, const uint8_t *element, size_t element_len,
                              uint32_t answer[8]);

/* Checks a table. */
void shefumbari_check_table(const uint8_t *table, size_t table_len, uint32_t answer[8]);

/* Checks an image under its table. */
void shefumbari_check_image(const uint8_t *table, size_t table_len, const uint8_t *image, size_t image_len,
                            uint32_t answer[8]);

/* Checks a change list under its table. */
void shefumbari_check_list(const uint8_t *table, size_t table_len, const uint8_t *list, size_t list_len,
                           uint32_t answer[8]);

/* Reads an object's state: answer[5] is its kind (the type, except 31 for type 1 under catalogue 3.0), and fields are
   the values of its fields that aren't reserved, from bit 0 up, then zeros. If refused, the kind is 0 and fields stays
   as it was. */
void shefumbari_read_state(const uint8_t *table, size_t table_len, const uint8_t *image, size_t image_len,
                           uint16_t object, uint32_t fields[32], uint32_t answer[8]);

/* Writes to out the image with the object's state replaced and the new position. 22 if kind isn't the object's; 11 if
   a field has a value that isn't listed; 12 if a state without data has another field that isn't 0. Numbers in fields
   beyond the kind's own are ignored. */
void shefumbari_write_state(const uint8_t *table, size_t table_len, const uint8_t *image, size_t image_len,
                            uint16_t object, uint32_t kind, const uint32_t fields[32], uint32_t position,
                            uint8_t *out, size_t out_len, uint32_t answer[8]);

/* Finds an object's label: answer[5] is its offset in the table, answer[6] its length. If refused, both are 0. */
void shefumbari_label(const uint8_t *table, size_t table_len, uint16_t object, uint32_t answer[8]);

/* Writes to out the change list that turns image a into image b. */
void shefumbari_difference(const uint8_t *table, size_t table_len, const uint8_t *a, size_t a_len, const uint8_t *b,
                           size_t b_len, uint8_t *out, size_t out_len, uint32_t answer[8]);

/* Writes to out the image that the list turns this image into: 16 late, 17 gap, 18 another old element. */
void shefumbari_apply(const uint8_t *table, size_t table_len, const uint8_t *image, size_t image_len,
                      const uint8_t *list, size_t list_len, uint8_t *out, size_t out_len, uint32_t answer[8]);

/* Writes to out one list for two in turn: 19 if their positions don't meet, 20 if their elements don't. */
void shefumbari_join(const uint8_t *table, size_t table_len, const uint8_t *first, size_t first_len,
                     const uint8_t *second, size_t second_len, uint8_t *out, size_t out_len, uint32_t answer[8]);

/* Writes to out the list that leads back: its positions are swapped, and each old element with the new one. */
void shefumbari_turn_back(const uint8_t *table, size_t table_len, const uint8_t *list, size_t list_len, uint8_t *out,
                          size_t out_len, uint32_t answer[8]);

/* Applies a list as shefumbari_apply does, and adds 1 to one of the tallies in standing, also when it refuses: applied,
   late (16), gap (17) or other. A tally at 4294967295 stays. A fresh standing is four zeros. */
void shefumbari_receive(const uint8_t *table, size_t table_len, const uint8_t *image, size_t image_len,
                        const uint8_t *list, size_t list_len, uint8_t *out, size_t out_len, uint32_t standing[4],
                        uint32_t answer[8]);

/* Receives the lists that lie end to end in lists, each as shefumbari_receive does, with the image that the one before
   it led to. A list is as long as its first four bytes say; bytes that don't hold a whole one are refused with 1. The
   first list that is refused ends the call, and the rest isn't looked at. Writes to out the image after the lists
   taken, which is the given one if there are none; answer[5] is their number, at most 4294967295. If a list is refused,
   code, object and bit are the list's, and length is the image's. A refused table or image, or 21, comes before any
   list: then nothing is written, no tally changes and answer[5] is 0. With no bytes in lists it succeeds. */
void shefumbari_receive_backlog(const uint8_t *table, size_t table_len, const uint8_t *image, size_t image_len,
                                const uint8_t *lists, size_t lists_len, uint8_t *out, size_t out_len,
                                uint32_t standing[4], uint32_t answer[8]);

/* Writes to out the panel as text: data is a table followed by its image. It also refuses with 1 if data is
   over 65,536 bytes or ends inside its table. Every text fits in 65,536 bytes. */
void shefumbari_listing(const uint8_t *data, size_t data_len, uint8_t *out, size_t out_len, uint32_t answer[8]);

#ifdef __cplusplus
}
#endif

#endif
