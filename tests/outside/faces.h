/* The three implementations that are run alike: the library by its header, the C made by hand for speed, and the
   reference. */
#ifndef FACES_H
#define FACES_H

#include <stddef.h>
#include <stdint.h>

struct face {
    const char *name;
    void (*check_element)(uint8_t, uint8_t, uint8_t, const uint8_t *, size_t, uint32_t *);
    void (*check_table)(const uint8_t *, size_t, uint32_t *);
    void (*check_image)(const uint8_t *, size_t, const uint8_t *, size_t, uint32_t *);
    void (*check_list)(const uint8_t *, size_t, const uint8_t *, size_t, uint32_t *);
    void (*read_state)(const uint8_t *, size_t, const uint8_t *, size_t, uint16_t, uint32_t *, uint32_t *);
    void (*write_state)(const uint8_t *, size_t, const uint8_t *, size_t, uint16_t, uint32_t, const uint32_t *,
                        uint32_t, uint8_t *, size_t, uint32_t *);
    void (*label)(const uint8_t *, size_t, uint16_t, uint32_t *);
    void (*difference)(const uint8_t *, size_t, const uint8_t *, size_t, const uint8_t *, size_t, uint8_t *, size_t,
                       uint32_t *);
    void (*apply)(const uint8_t *, size_t, const uint8_t *, size_t, const uint8_t *, size_t, uint8_t *, size_t,
                  uint32_t *);
    void (*join)(const uint8_t *, size_t, const uint8_t *, size_t, const uint8_t *, size_t, uint8_t *, size_t,
                 uint32_t *);
    void (*turn_back)(const uint8_t *, size_t, const uint8_t *, size_t, uint8_t *, size_t, uint32_t *);
    void (*receive)(const uint8_t *, size_t, const uint8_t *, size_t, const uint8_t *, size_t, uint8_t *, size_t,
                    uint32_t *, uint32_t *);
    void (*receive_backlog)(const uint8_t *, size_t, const uint8_t *, size_t, const uint8_t *, size_t, uint8_t *,
                            size_t, uint32_t *, uint32_t *);
    void (*listing)(const uint8_t *, size_t, uint8_t *, size_t, uint32_t *);
};

extern const struct face library, handmade, reference;

/* The face of that name, or NULL. */
const struct face *face_named(const char *name);

#endif
