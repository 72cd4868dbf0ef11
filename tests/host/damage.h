/* Images that the calls did not make: one octet changed, or whole images made near the limits of the rules. */
#ifndef DAMAGE_H
#define DAMAGE_H

#include "valid.h"

#include <stdint.h>

struct damage_tally {
    uint64_t changed, changed_good, made, made_good;
    uint64_t rules[IMAGE_RULES];
};

extern struct damage_tally damage_tally;

/* Some calls on a copy of the image with one octet changed. */
void changed_octet(const uint8_t *image);

/* Some calls on an image made of fields that obey the rules, all or all but one. */
void made_image(void);

#endif
