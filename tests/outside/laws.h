/* The laws of the paper over the library's own calls. */
#ifndef LAWS_H
#define LAWS_H

#include "forms.h"

/* Takes images that follow one another under an accepted table, and two lists, accepted or not. */
void hold_laws(const struct form *table, const struct form images[4], const struct form *first,
               const struct form *second);

#endif
