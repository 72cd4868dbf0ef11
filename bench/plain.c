/* The calls in plain C, in place on the image: check all records, decode one, step it, put it back. */
#include "plain.h"

#include <string.h>

#include "plain_image.h"

/* ---- one LSP's steps ---- */

static uint8_t step_receive(struct lsp *l, const uint8_t *payload)
{
    uint8_t type = payload[0];

    if (type == BDI)
        return DONE;
    if (type == FDI) {
        l->left = (uint16_t)(life_of[l->kind] + 1);
        l->fdi_dt = get16(payload + 2);
        l->fdi_dl = get32(payload + 24);
        return DONE;
    }
    if (memcmp(payload + 4, l->ttsi, PW_TTSI) != 0) {
        l->u[ROW - 1] = U_CUT;
        return DONE;
    }
    /* A CV has a zero where an FFD has its rate: this octet is the kind it belongs to. */
    if (payload[24] != l->kind)
        return OTHER;
    if (l->e[ROW - 1] < E_CUT)
        l->e[ROW - 1]++;
    return DONE;
}

static unsigned sum_of_last(const uint8_t *row, int slots)
{
    unsigned sum = 0;
    for (int i = ROW - slots; i < ROW; i++)
        sum += row[i];
    return sum;
}

static void step_defect(struct lsp *l, uint64_t slot)
{
    if (slot >= 3) {
        unsigned e = sum_of_last(l->e, 3), u = sum_of_last(l->u, 3);
        if (u > 0)
            l->code = e == 0 ? MISMATCH : MISMERGE;
        else if (e == 0)
            l->code = LOCV;
        else if (e >= 5)
            l->code = EXCESS;
        else if (e >= 2)
            l->code = 0;
    }
    if (l->code == 0)
        l->stood = 0;
    else if (l->stood < STOOD_CUT)
        l->stood++;
}

struct record {
    uint8_t letter; /* 0 none, 1 U, 2 B */
    uint64_t from, until;
};

static struct record step_availability(struct lsp *l, uint64_t slot, uint8_t stood_before)
{
    struct record record = {0, 0, 0};

    if (l->kind != 0)
        return record;
    if (l->unavailable) {
        unsigned e = sum_of_last(l->e, 10), u = sum_of_last(l->u, 10);
        if (l->code == 0 && e >= 9 && e <= 11 && u == 0) {
            record = (struct record){1, l->since, slot - 9};
            l->unavailable = 0;
            l->since = 0;
        }
    } else if (l->stood == STOOD_CUT) {
        l->unavailable = 1;
        l->since = slot - 12;
    } else if (l->code == 0 && stood_before > 0) {
        record = (struct record){2, slot - stood_before - 2, slot - 2};
    }
    return record;
}

static struct record step_close(struct lsp *l)
{
    uint64_t slot = l->closed + 1;
    uint8_t stood_before = l->stood;

    step_defect(l, slot);
    struct record record = step_availability(l, slot, stood_before);
    memmove(l->e, l->e + 1, ROW - 1);
    memmove(l->u, l->u + 1, ROW - 1);
    l->e[ROW - 1] = 0;
    l->u[ROW - 1] = 0;
    if (l->left > 0 && --l->left == 0) {
        l->fdi_dt = 0;
        l->fdi_dl = 0;
    }
    l->closed = slot;
    return record;
}

struct going_out {
    uint16_t dt;
    uint32_t dl;
    uint8_t alarm;
};

static struct going_out going_out(const struct lsp *l)
{
    if (l->code == LOCV && l->server)
        return (struct going_out){SERVER, l->dl, 0};
    if (l->code == LOCV && l->left > 0)
        return (struct going_out){l->fdi_dt, l->fdi_dl, 0};
    if (l->code != 0)
        return (struct going_out){l->code, l->dl, 1};
    return (struct going_out){0, 0, 0};
}

/* ---- the calls ---- */

/* Each call opens the image by itself: with one function for it the compiler made plain_write_fdi a third slower. */

uint8_t plain_write(uint8_t type, const uint8_t *ttsi, size_t ttsi_len, uint8_t rate, uint16_t dt, uint32_t dl,
                    uint8_t *payload, size_t payload_len)
{
    if (ttsi_len != PW_TTSI || !ttsi_good(ttsi))
        return GIVEN;
    switch (type) {
    case CV:
        break;
    case FFD:
        if (!rate_good(rate))
            return GIVEN;
        break;
    case FDI:
    case BDI:
        if (!dt_good(dt))
            return GIVEN;
        break;
    default:
        return GIVEN;
    }
    if (payload_len < PW_PAYLOAD)
        return SHORT;
    memset(payload, 0, PW_PAYLOAD);
    payload[0] = type;
    memcpy(payload + 4, ttsi, PW_TTSI);
    if (type == FFD) {
        payload[24] = rate;
    } else if (type != CV) {
        put16(payload + 2, dt);
        put32(payload + 24, dl);
    }
    put16(payload + 42, bip16(payload));
    return DONE;
}

uint8_t plain_empty(uint8_t *image, size_t image_len)
{
    if (image_len < PW_IMAGE)
        return SHORT;
    memcpy(image, header, sizeof header);
    image[4] = 0;
    return DONE;
}

uint8_t plain_add(uint8_t *image, size_t image_len, uint8_t kind, const uint8_t *ttsi, size_t ttsi_len, uint32_t dl)
{
    if (image_len < PW_IMAGE)
        return SHORT;
    if (!image_good(image))
        return NO_IMAGE;
    if (kind > 6 || ttsi_len != PW_TTSI || !ttsi_good(ttsi))
        return GIVEN;
    if (expected_before(image, image[4], ttsi))
        return TWICE;
    if (image[4] == LSPS)
        return FULL;
    struct lsp l = {0};
    l.kind = kind;
    memcpy(l.ttsi, ttsi, PW_TTSI);
    l.dl = dl;
    encode(image + HEADER + FIELD * (size_t)image[4], &l);
    image[4]++;
    return DONE;
}

uint8_t plain_receive(uint8_t *image, size_t image_len, uint64_t lsp, const uint8_t *payload, size_t payload_len)
{
    if (image_len < PW_IMAGE)
        return SHORT;
    if (!image_good(image))
        return NO_IMAGE;
    if (lsp >= image[4])
        return NO_LSP;
    uint8_t number = read_payload(payload, payload_len);
    if (number != DONE)
        return number;
    uint8_t *field = image + HEADER + FIELD * (size_t)lsp;
    struct lsp l = decode(field);
    number = step_receive(&l, payload);
    if (number == DONE)
        encode(field, &l);
    return number;
}

uint8_t plain_close(uint8_t *image, size_t image_len, uint64_t lsp, uint8_t *answer, size_t answer_len)
{
    if (image_len < PW_IMAGE || answer_len < PW_ANSWER)
        return SHORT;
    if (!image_good(image))
        return NO_IMAGE;
    if (lsp >= image[4])
        return NO_LSP;
    uint8_t *field = image + HEADER + FIELD * (size_t)lsp;
    struct lsp l = decode(field);
    if (l.closed >= most_slots)
        return LAST_SLOT;
    struct record record = step_close(&l);
    struct going_out out = going_out(&l);
    encode(field, &l);
    put16(answer, l.code);
    put16(answer + 2, out.dt);
    put32(answer + 4, out.dl);
    answer[8] = out.alarm;
    answer[9] = l.code == MISMATCH || l.code == MISMERGE;
    answer[10] = record.letter;
    put64(answer + 11, record.from);
    put64(answer + 19, record.until);
    return DONE;
}

uint8_t plain_server(uint8_t *image, size_t image_len, uint64_t lsp, uint8_t on)
{
    if (image_len < PW_IMAGE)
        return SHORT;
    if (!image_good(image))
        return NO_IMAGE;
    if (lsp >= image[4])
        return NO_LSP;
    if (on > 1)
        return GIVEN;
    image[HEADER + FIELD * (size_t)lsp + AT_SERVER] = on;
    return DONE;
}

static uint8_t write_from_state(uint8_t type, const uint8_t *image, size_t image_len, uint64_t lsp, uint8_t *payload,
                                size_t payload_len)
{
    static const uint8_t no_ttsi[PW_TTSI];

    if (image_len < PW_IMAGE)
        return SHORT;
    if (!image_good(image))
        return NO_IMAGE;
    if (lsp >= image[4])
        return NO_LSP;
    struct lsp l = decode(field_of(image, lsp));
    if (l.code == 0)
        return NO_DEFECT;
    struct going_out out = going_out(&l);
    return plain_write(type, no_ttsi, PW_TTSI, 0, out.dt, out.dl, payload, payload_len);
}

uint8_t plain_write_fdi(const uint8_t *image, size_t image_len, uint64_t lsp, uint8_t *payload, size_t payload_len)
{
    return write_from_state(FDI, image, image_len, lsp, payload, payload_len);
}

uint8_t plain_write_bdi(const uint8_t *image, size_t image_len, uint64_t lsp, uint8_t *payload, size_t payload_len)
{
    return write_from_state(BDI, image, image_len, lsp, payload, payload_len);
}
