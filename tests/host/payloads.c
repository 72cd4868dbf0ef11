#include "payloads.h"

#include "draw.h"
#include "model.h"

#include <string.h>

void set_parity(uint8_t payload[44])
{
    payload[42] = payload[43] = 0;
    for (int i = 0; i < 42; i++)
        payload[42 + i % 2] ^= payload[i];
}

static void draw_signal(uint8_t type, const uint8_t ttsi[20], uint8_t *payload)
{
    uint8_t other[20] = {0};
    uint16_t dt = draw_dt();
    uint32_t dl = draw_dl();
    if (one_in(2))
        draw_other_ttsi(other, ttsi);
    model_write(type, one_in(4) ? ttsi : other, 20, 0, dt, dl, payload);
}

static void good(uint8_t kind, const uint8_t ttsi[20], uint8_t *payload)
{
    draw_payload((enum payload_sort)draw(GOOD_BDI + 1), kind, ttsi, payload);
}

/* One octet where the type's row leaves no freedom, or a DT, rate or TTSI out of its rule; the BIP16 is right. */
static void wrong_field(uint8_t kind, const uint8_t ttsi[20], uint8_t *payload)
{
    static const uint16_t types[6] = {0, 0xffff, 0x0100, 0x0103, 0x0200, 0x0205};
    uint16_t dt = one_in(2) ? types[draw(6)] : (uint16_t)draw(65536);

    good(kind, ttsi, payload);
    switch (draw(7)) {
    case 0:
        payload[0] = (uint8_t)draw(one_in(2) ? 10 : 256);
        break;
    case 1:
        payload[1] = (uint8_t)draw(256);
        break;
    case 2:
        payload[2] = (uint8_t)(dt >> 8);
        payload[3] = (uint8_t)dt;
        break;
    case 3:
        change_one(payload + 20, 2);
        break;
    case 4:
        payload[24] = (uint8_t)draw(one_in(2) ? 9 : 256);
        break;
    default:
        change_one(payload + 25, 17);
    }
    set_parity(payload);
}

size_t draw_payload(enum payload_sort sort, uint8_t kind, const uint8_t ttsi[20], uint8_t *payload)
{
    uint8_t other[20];
    uint8_t rate = (uint8_t)(1 + draw(6));

    switch (sort) {
    case OWN:
        model_write(kind == 0 ? 1 : 7, ttsi, 20, kind, 0, 0, payload);
        break;
    case OTHER_TTSI:
        draw_other_ttsi(other, ttsi);
        if (one_in(2) && kind != 0)
            rate = kind;
        model_write(one_in(2) ? 1 : 7, other, 20, rate, 0, 0, payload);
        break;
    case OTHER_KIND:
        if (rate == kind)
            rate = (uint8_t)(rate == 6 ? 1 : rate + 1);
        model_write(kind != 0 && one_in(2) ? 1 : 7, ttsi, 20, rate, 0, 0, payload);
        break;
    case GOOD_FDI:
        draw_signal(2, ttsi, payload);
        break;
    case GOOD_BDI:
        draw_signal(3, ttsi, payload);
        break;
    case ONE_OCTET:
        good(kind, ttsi, payload);
        change_one(payload, 44);
        break;
    case WRONG_FIELD:
        wrong_field(kind, ttsi, payload);
        break;
    default:
        draw_octets(payload, 128);
        good(kind, ttsi, payload);
        return one_in(2) ? draw(44) : 45 + draw(83);
    }
    return 44;
}
