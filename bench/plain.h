/*
 * The calls of partnerwedge.h in plain C: what the library is measured against, and a second opinion in its tests.
 * With PW_PLAIN a source that calls pw_* calls these instead.
 */
#ifndef PLAIN_H
#define PLAIN_H

#include "partnerwedge.h"

uint8_t plain_empty(uint8_t *image, size_t image_len);
uint8_t plain_add(uint8_t *image, size_t image_len, uint8_t kind, const uint8_t *ttsi, size_t ttsi_len, uint32_t dl);
uint8_t plain_receive(uint8_t *image, size_t image_len, uint64_t lsp, const uint8_t *payload, size_t payload_len);
uint8_t plain_close(uint8_t *image, size_t image_len, uint64_t lsp, uint8_t *answer, size_t answer_len);
uint8_t plain_server(uint8_t *image, size_t image_len, uint64_t lsp, uint8_t on);
uint8_t plain_write_fdi(const uint8_t *image, size_t image_len, uint64_t lsp, uint8_t *payload, size_t payload_len);
uint8_t plain_write_bdi(const uint8_t *image, size_t image_len, uint64_t lsp, uint8_t *payload, size_t payload_len);
uint8_t plain_write(uint8_t type, const uint8_t *ttsi, size_t ttsi_len, uint8_t rate, uint16_t dt, uint32_t dl,
                    uint8_t *payload, size_t payload_len);

#ifdef PW_PLAIN
#define pw_empty plain_empty
#define pw_add plain_add
#define pw_receive plain_receive
#define pw_close plain_close
#define pw_server plain_server
#define pw_write_fdi plain_write_fdi
#define pw_write_bdi plain_write_bdi
#define pw_write plain_write
#endif

#endif
