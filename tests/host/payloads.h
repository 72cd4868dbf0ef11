/* Payloads to receive: good ones of each type, and ones that are wrong in one way. */
#ifndef PAYLOADS_H
#define PAYLOADS_H

#include <stddef.h>
#include <stdint.h>

enum payload_sort {
    OWN,
    OTHER_TTSI,
    OTHER_KIND,
    GOOD_FDI,
    GOOD_BDI,
    ONE_OCTET,
    WRONG_FIELD,
    WRONG_LENGTH,
    PAYLOAD_SORTS
};

/* For a path of this kind and expected TTSI. Answers the length; 128 octets are enough room. */
size_t draw_payload(enum payload_sort sort, uint8_t kind, const uint8_t ttsi[20], uint8_t *payload);

/* The BIP16 of the other octets. */
void set_parity(uint8_t payload[44]);

#endif
