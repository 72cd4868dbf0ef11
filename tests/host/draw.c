#include "draw.h"

#include <string.h>

static uint64_t state;

void draw_seed(uint64_t seed)
{
    state = seed;
}

uint64_t draw_number(void)
{
    uint64_t z = state += UINT64_C(0x9e3779b97f4a7c15);
    z = (z ^ z >> 30) * UINT64_C(0xbf58476d1ce4e5b9);
    z = (z ^ z >> 27) * UINT64_C(0x94d049bb133111eb);
    return z ^ z >> 31;
}

uint32_t draw(uint32_t below)
{
    return (uint32_t)((draw_number() >> 32) * below >> 32);
}

int one_in(uint32_t chances)
{
    return draw(chances) == 0;
}

void draw_octets(uint8_t *octets, size_t count)
{
    while (count > 0) {
        uint64_t number = draw_number();
        size_t some = count < sizeof number ? count : sizeof number;
        memcpy(octets, &number, some);
        octets += some;
        count -= some;
    }
}

void change_one(uint8_t *octets, uint32_t among)
{
    uint32_t at = draw(among);
    octets[at] ^= (uint8_t)(1 + draw(255));
}

void draw_ttsi(uint8_t ttsi[20])
{
    static const uint8_t common[20] = {0, 0, 0, 0, 0, 0, 0, 0, 0, 0, 0xff, 0xff, 0xc0, 0, 2, 1, 0, 0, 0, 7};

    memcpy(ttsi, common, 20);
    switch (draw(6)) {
    case 0:
        ttsi[19] = (uint8_t)draw(256);
        break;
    case 1:
        ttsi[18] = (uint8_t)draw(256);
        break;
    case 2:
        change_one(ttsi, 4);
        break;
    case 3: /* 251 times k more in octets 4 to 11 */
        ttsi[4 + draw(6)] = 251;
        ttsi[0] = (uint8_t)draw(4);
        break;
    case 4:
        draw_octets(ttsi, 20);
        ttsi[16] = ttsi[17] = 0;
        break;
    default:
        if (one_in(8))
            memset(ttsi, 0, 20);
        change_one(ttsi + 12, 4);
    }
}

void draw_other_ttsi(uint8_t other[20], const uint8_t ttsi[20])
{
    memcpy(other, ttsi, 20);
    if (one_in(3)) {
        draw_ttsi(other);
    } else {
        uint32_t at = draw(18);
        other[at < 16 ? at : at + 2] ^= (uint8_t)(1 + draw(255));
    }
    if (memcmp(other, ttsi, 20) == 0)
        other[0] ^= 1;
}

uint16_t draw_dt(void)
{
    static const uint16_t types[7] = {0x0101, 0x0102, 0x0201, 0x0202, 0x0203, 0x0204, 0x02ff};
    return types[draw(7)];
}

uint32_t draw_dl(void)
{
    return one_in(8) ? 0 : one_in(8) ? UINT32_MAX : (uint32_t)draw_number();
}
