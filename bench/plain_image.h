/* The image tested where it lies, and one LSP's field decoded and encoded: the second part of plain.c, which alone includes it. */
#ifndef PLAIN_IMAGE_H
#define PLAIN_IMAGE_H

#include <string.h>

#include "plain_payload.h"

/* Offsets in an LSP's field, tag and length included. */
enum {
    AT_KIND = 3,
    AT_TTSI = 4,
    AT_DL = 24,
    AT_CLOSED = 28,
    AT_E = 36,
    AT_U = 47,
    AT_CODE = 58,
    AT_STOOD = 60,
    AT_UNAVAILABLE = 61,
    AT_SINCE = 62,
    AT_SERVER = 70,
    AT_LEFT = 71,
    AT_FDI_DT = 73,
    AT_FDI_DL = 75
};

static const uint64_t most_slots = UINT64_C(1000000000000);
static const uint16_t life_of[7] = {3, 300, 150, 60, 30, 15, 6};
static const uint8_t header[4] = {1, 0, 2, 1};

struct lsp {
    uint8_t kind;
    uint8_t ttsi[PW_TTSI];
    uint32_t dl;
    uint64_t closed;
    uint8_t e[ROW];
    uint8_t u[ROW];
    uint16_t code;
    uint8_t stood;
    uint8_t unavailable;
    uint64_t since;
    uint8_t server;
    uint16_t left;
    uint16_t fdi_dt;
    uint32_t fdi_dl;
};

static int counts_good(const uint8_t *field, uint64_t closed)
{
    int never = closed < 10 ? 10 - (int)closed : 0;
    int good = 1;
    for (int i = 0; i < ROW; i++)
        good &= field[AT_E + i] <= E_CUT && field[AT_U + i] <= U_CUT;
    for (int i = 0; i < never; i++)
        good &= field[AT_E + i] == 0 && field[AT_U + i] == 0;
    return good;
}

static int defect_good(const uint8_t *field, uint64_t closed)
{
    uint16_t code = get16(field + AT_CODE);
    uint8_t stood = field[AT_STOOD];
    int available_cv = field[AT_KIND] == 0 && field[AT_UNAVAILABLE] == 0;

    if (stood == 0)
        return code == 0;
    return code >= LOCV && code <= EXCESS && closed >= 3 && stood <= closed - 2 &&
           stood <= (available_cv ? STOOD_CUT - 1 : STOOD_CUT);
}

static int availability_good(const uint8_t *field, uint64_t closed)
{
    uint64_t since = get64(field + AT_SINCE);

    if (field[AT_UNAVAILABLE] == 0)
        return since == 0;
    return field[AT_UNAVAILABLE] == 1 && field[AT_KIND] == 0 && since >= 1 && closed >= 13 && since <= closed - 12;
}

static int fdi_good(const uint8_t *field)
{
    uint16_t left = get16(field + AT_LEFT);
    uint16_t dt = get16(field + AT_FDI_DT);

    if (left == 0)
        return dt == 0 && get32(field + AT_FDI_DL) == 0;
    return left <= life_of[field[AT_KIND]] + 1 && dt_good(dt);
}

static int field_good(const uint8_t *field)
{
    uint64_t closed = get64(field + AT_CLOSED);

    return field[0] == 2 && get16(field + 1) == FIELD - 3 && field[AT_KIND] <= 6 && ttsi_good(field + AT_TTSI) &&
           closed <= most_slots && counts_good(field, closed) && defect_good(field, closed) &&
           availability_good(field, closed) && field[AT_SERVER] <= 1 && fdi_good(field);
}

static const uint8_t *field_of(const uint8_t *image, uint64_t lsp)
{
    return image + HEADER + FIELD * (size_t)lsp;
}

static unsigned mark_of(const uint8_t *ttsi)
{
    return (unsigned)(get64(ttsi + 4) % 251 + get64(ttsi + 12) % 251);
}

static int expected_before(const uint8_t *image, uint64_t lsps, const uint8_t *ttsi)
{
    for (uint64_t i = 0; i < lsps; i++)
        if (memcmp(field_of(image, i) + AT_TTSI, ttsi, PW_TTSI) == 0)
            return 1;
    return 0;
}

static int image_good(const uint8_t *image)
{
    uint8_t marked[512] = {0};

    if (memcmp(image, header, sizeof header) != 0 || image[4] > LSPS)
        return 0;
    for (unsigned i = 0; i < image[4]; i++) {
        const uint8_t *field = field_of(image, i);
        if (!field_good(field))
            return 0;
        /* Equal TTSIs have equal marks: only a mark seen before needs the comparison. */
        unsigned mark = mark_of(field + AT_TTSI);
        if (marked[mark] && expected_before(image, i, field + AT_TTSI))
            return 0;
        marked[mark] = 1;
    }
    return 1;
}

static struct lsp decode(const uint8_t *field)
{
    struct lsp l;
    l.kind = field[AT_KIND];
    memcpy(l.ttsi, field + AT_TTSI, PW_TTSI);
    l.dl = get32(field + AT_DL);
    l.closed = get64(field + AT_CLOSED);
    memcpy(l.e, field + AT_E, ROW);
    memcpy(l.u, field + AT_U, ROW);
    l.code = get16(field + AT_CODE);
    l.stood = field[AT_STOOD];
    l.unavailable = field[AT_UNAVAILABLE];
    l.since = get64(field + AT_SINCE);
    l.server = field[AT_SERVER];
    l.left = get16(field + AT_LEFT);
    l.fdi_dt = get16(field + AT_FDI_DT);
    l.fdi_dl = get32(field + AT_FDI_DL);
    return l;
}

static void encode(uint8_t *field, const struct lsp *l)
{
    field[0] = 2;
    put16(field + 1, FIELD - 3);
    field[AT_KIND] = l->kind;
    memcpy(field + AT_TTSI, l->ttsi, PW_TTSI);
    put32(field + AT_DL, l->dl);
    put64(field + AT_CLOSED, l->closed);
    memcpy(field + AT_E, l->e, ROW);
    memcpy(field + AT_U, l->u, ROW);
    put16(field + AT_CODE, l->code);
    field[AT_STOOD] = l->stood;
    field[AT_UNAVAILABLE] = l->unavailable;
    put64(field + AT_SINCE, l->since);
    field[AT_SERVER] = l->server;
    put16(field + AT_LEFT, l->left);
    put16(field + AT_FDI_DT, l->fdi_dt);
    put32(field + AT_FDI_DL, l->fdi_dl);
}

#endif
