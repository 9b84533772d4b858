/* The paper in plain C: each call of shefumbari.h under the name reference_, with the same parameters. */
#ifndef REFERENCE_H
#define REFERENCE_H

#include <stddef.h>
#include <stdint.h>

void reference_check_element(uint8_t x, uint8_t y, uint8_t type, const uint8_t *element, size_t element_len,
                             uint32_t answer[8]);
void reference_check_table(const uint8_t *table, size_t table_len, uint32_t answer[8]);
void reference_check_image(const uint8_t *table, size_t table_len, const uint8_t *image, size_t image_len,
                           uint32_t answer[8]);
void reference_check_list(const uint8_t *table, size_t table_len, const uint8_t *list, size_t list_len,
                          uint32_t answer[8]);
void reference_read_state(const uint8_t *table, size_t table_len, const uint8_t *image, size_t image_len,
                          uint16_t object, uint32_t fields[32], uint32_t answer[8]);
void reference_write_state(const uint8_t *table, size_t table_len, const uint8_t *image, size_t image_len,
                           uint16_t object, uint32_t kind, const uint32_t fields[32], uint32_t position, uint8_t *out,
                           size_t out_len, uint32_t answer[8]);
void reference_label(const uint8_t *table, size_t table_len, uint16_t object, uint32_t answer[8]);
void reference_difference(const uint8_t *table, size_t table_len, const uint8_t *a, size_t a_len, const uint8_t *b,
                          size_t b_len, uint8_t *out, size_t out_len, uint32_t answer[8]);
void reference_apply(const uint8_t *table, size_t table_len, const uint8_t *image, size_t image_len,
                     const uint8_t *list, size_t list_len, uint8_t *out, size_t out_len, uint32_t answer[8]);
void reference_join(const uint8_t *table, size_t table_len, const uint8_t *first, size_t first_len,
                    const uint8_t *second, size_t second_len, uint8_t *out, size_t out_len, uint32_t answer[8]);
void reference_turn_back(const uint8_t *table, size_t table_len, const uint8_t *list, size_t list_len, uint8_t *out,
                         size_t out_len, uint32_t answer[8]);
void reference_receive(const uint8_t *table, size_t table_len, const uint8_t *image, size_t image_len,
                       const uint8_t *list, size_t list_len, uint8_t *out, size_t out_len, uint32_t standing[4],
                       uint32_t answer[8]);
void reference_receive_backlog(const uint8_t *table, size_t table_len, const uint8_t *image, size_t image_len,
                               const uint8_t *lists, size_t lists_len, uint8_t *out, size_t out_len,
                               uint32_t standing[4], uint32_t answer[8]);
void reference_listing(const uint8_t *data, size_t data_len, uint8_t *out, size_t out_len, uint32_t answer[8]);

#endif
