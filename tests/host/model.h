/*
 * A model of the table that keeps each path's whole history: exact counts by slot and the FDIs by slot. Everything
 * else (defect, unavailability, records, what goes out, each octet of the image) is found anew by looking back over
 * the slots.
 */
#ifndef MODEL_H
#define MODEL_H

#include <stddef.h>
#include <stdint.h>

enum { MODEL_PATHS = 64, MODEL_SLOTS = 1200, MODEL_HEADER = 5, MODEL_FIELD = 79 };

struct path {
    uint8_t kind;
    uint8_t ttsi[20];
    uint32_t dl;
    uint32_t closed;
    /* By slot number, the open slot included; 0 is no slot. */
    uint32_t own[MODEL_SLOTS + 2];
    uint32_t other[MODEL_SLOTS + 2];
    uint16_t fdi_dt[MODEL_SLOTS + 2]; /* of the last FDI received in that slot, 0 if none was */
    uint32_t fdi_dl[MODEL_SLOTS + 2];
    uint8_t server;
};

struct model {
    unsigned paths;
    struct path path[MODEL_PATHS];
};

/* Each answers the number of the call of the same name, buffers too short (11) left aside. */
uint8_t model_add(struct model *m, uint8_t kind, const uint8_t *ttsi, size_t ttsi_len, uint32_t dl);
uint8_t model_receive(struct model *m, uint64_t lsp, const uint8_t *payload, size_t payload_len);
uint8_t model_close(struct model *m, uint64_t lsp, uint8_t answer[27]);
uint8_t model_server(struct model *m, uint64_t lsp, uint8_t on);
uint8_t model_write_state(const struct model *m, uint64_t lsp, uint8_t type, uint8_t payload[44]);
uint8_t model_write(uint8_t type, const uint8_t *ttsi, size_t ttsi_len, uint8_t rate, uint16_t dt, uint32_t dl,
                    uint8_t payload[44]);

/* The image's octets, whole or one path's field of them. */
size_t model_image(const struct model *m, uint8_t *image);
void model_field(const struct path *p, uint8_t field[79]);

/* After the closes so far: the defect's code or 0, whether unavailable, closes the FDI has left or 0. */
uint16_t model_defect(const struct path *p);
int model_unavailable(const struct path *p);
uint32_t model_fdi_left(const struct path *p);

#endif
