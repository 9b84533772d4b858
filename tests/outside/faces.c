#include "faces.h"

#include "handmade.h"
#include "reference.h"
#include "shefumbari.h"

#include <string.h>

#define FACE(prefix)                                                                                                   \
    prefix##check_element, prefix##check_table, prefix##check_image, prefix##check_list, prefix##read_state,           \
        prefix##write_state, prefix##label, prefix##difference, prefix##apply, prefix##join, prefix##turn_back,        \
        prefix##receive, prefix##receive_backlog, prefix##listing

const struct face library = {"library", FACE(shefumbari_)};
const struct face handmade = {"handmade", FACE(handmade_)};
const struct face reference = {"reference", FACE(reference_)};

const struct face *face_named(const char *name)
{
    const struct face *const faces[] = {&library, &handmade, &reference};
    for (size_t i = 0; i < sizeof faces / sizeof *faces; i++)
        if (strcmp(name, faces[i]->name) == 0)
            return faces[i];
    return NULL;
}
