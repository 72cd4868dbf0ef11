/* The table as it should be, and calls on the node's buffer beside it. */
#ifndef WORLD_H
#define WORLD_H

#include "calls.h"
#include "model.h"
#include "payloads.h"

/* The histories, and the image reckoned from them. */
struct world {
    struct model model;
    uint8_t image[PW_IMAGE];
};

extern struct world world;
extern struct host host;

/* Calls made since start. */
extern uint64_t calls_made;

/* A new buffer of random octets, in which pw_empty puts an empty table. */
void start(uint64_t seed);

/* A call with buffers that are long enough, or at times one that is not; its other arguments 0. */
struct call call_of(enum call_name name, uint64_t lsp);

/* Makes the call and the model's step; answers the number. */
uint8_t check_call(const struct call *c);

void add(uint8_t kind, const uint8_t *ttsi, size_t ttsi_len);
uint8_t receive(uint64_t lsp, enum payload_sort sort);
void server(uint64_t lsp, uint8_t on);
void close_slot(uint64_t lsp);
void write_state(uint64_t lsp);
void write_fields(void);

#endif
