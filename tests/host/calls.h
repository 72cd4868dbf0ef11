/* One call with all its arguments, what it should do, and the making of it: buffers lent, guarded and compared. */
#ifndef CALLS_H
#define CALLS_H

#include "plain.h"

enum call_name { EMPTY, ADD, RECEIVE, CLOSE, SERVER, WRITE_FDI, WRITE_BDI, WRITE, CALL_NAMES };
enum { ANSWERS = 14, LENT_MOST = 128, CAPACITY = PW_IMAGE + 200, GUARD = 64 };

struct call {
    enum call_name name;
    size_t image_len;
    uint64_t lsp;
    uint8_t kind, on, type, rate;
    uint16_t dt;
    uint32_t dl;
    uint8_t in[LENT_MOST]; /* the TTSI or payload lent to be read */
    size_t in_len;
    size_t out_len; /* the answer or payload lent to be written */
};

struct outcome {
    uint8_t number;
    uint8_t image[PW_IMAGE]; /* the image afterwards, where the number is 0 */
    size_t image_octets;
    uint8_t out[PW_PAYLOAD]; /* what is written of the lent answer or payload */
    size_t out_octets;
};

/* The node's buffer: the image, octets that are not of it, and guards around. */
struct host {
    uint8_t octets[GUARD + CAPACITY + GUARD];
    size_t len;
};

struct tally {
    uint64_t seed, calls;
    uint64_t answers[CALL_NAMES][ANSWERS];
    uint8_t short_image[CALL_NAMES][PW_IMAGE]; /* by length lent: seen */
    uint8_t short_out[CALL_NAMES][PW_PAYLOAD];
};

extern struct tally tally;
extern const char *const call_names[CALL_NAMES];

void fail(const char *format, ...);

size_t image_size(const uint8_t *image);
int has_image(enum call_name name);
size_t out_need(enum call_name name);

/* Whether the image's buffer, or a close's answer, is too short: the 11 that comes before all other numbers. */
int too_short(const struct call *c);

/* A buffer of its own with this image in it and other octets behind. */
void host_put(struct host *h, const uint8_t *image);

/* A refusal, and what the plain calls give on a copy of the image. */
void outcome_refused(struct outcome *o, uint8_t number);
void outcome_plain(struct outcome *o, const struct call *c, const uint8_t *image);

/* Makes the call on the host's buffer and compares number and all octets with what should be. */
void make_call(struct host *h, const struct call *c, const struct outcome *should);

#endif
