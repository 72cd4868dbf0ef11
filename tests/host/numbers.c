#include "numbers.h"

#include "calls.h"

#include <string.h>

static const uint8_t t[PW_TTSI] = {0, 0, 0, 0, 0, 0, 0, 0, 0, 0, 0xff, 0xff, 0xc0, 0, 2, 1, 0, 0, 0, 7};

static void number(const char *of, uint64_t is, uint64_t should_be)
{
    if (is != should_be)
        fail("%s: %llu, should be %llu", of, (unsigned long long)is, (unsigned long long)should_be);
}

static void bip16(const char *of, uint8_t type, const uint8_t *ttsi, uint8_t rate, uint16_t dt, uint32_t dl,
                  unsigned should_be)
{
    uint8_t payload[PW_PAYLOAD];
    number(of, pw_write(type, ttsi, PW_TTSI, rate, dt, dl, payload, sizeof payload), 0);
    number(of, (uint64_t)payload[42] << 8 | payload[43], should_be);
}

struct last_close {
    uint64_t code, record, from, until;
    unsigned records; /* on the way */
};

static uint64_t get(const uint8_t *at, int octets)
{
    uint64_t n = 0;
    while (octets-- > 0)
        n = n << 8 | *at++;
    return n;
}

/* A new path with T, and slots with these counts of CV. */
static struct last_close after(const int *counts, int slots, uint8_t *image)
{
    uint8_t payload[PW_PAYLOAD], answer[PW_ANSWER];
    struct last_close last = {0, 0, 0, 0, 0};

    number("empty", pw_empty(image, PW_IMAGE), 0);
    number("add", pw_add(image, PW_IMAGE, 0, t, PW_TTSI, 0), 0);
    number("write", pw_write(1, t, PW_TTSI, 0, 0, 0, payload, sizeof payload), 0);
    for (int s = 0; s < slots; s++) {
        for (int i = 0; i < counts[s]; i++)
            number("receive", pw_receive(image, PW_IMAGE, 0, payload, PW_PAYLOAD), 0);
        number("close", pw_close(image, PW_IMAGE, 0, answer, sizeof answer), 0);
        last.code = get(answer, 2);
        last.record = answer[10];
        last.from = get(answer + 11, 8);
        last.until = get(answer + 19, 8);
        last.records += answer[10] != 0;
    }
    return last;
}

static void close_case(const char *of, const int *counts, int slots, uint64_t code, uint64_t record, uint64_t from,
                       uint64_t until)
{
    uint8_t image[PW_IMAGE];
    struct last_close last = after(counts, slots, image);
    number(of, last.code, code);
    number(of, last.record, record);
    number(of, last.from, from);
    number(of, last.until, until);
    number(of, last.records, record != 0);
}

void numbers_to_meet(void)
{
    static const uint8_t zeros[PW_TTSI];
    static const int p7[5] = {0, 0, 0, 1, 1}, p9[3] = {1, 1, 2}, p10[3] = {1, 2, 2}, many[3] = {0, 0, 256};
    static const int p11[16] = {1, 1, 1, 0, 0, 0, 0, 0, 0, 0, 0, 0, 0, 0, 1, 1};
    static const int p12[16] = {1, 1, 1, 0, 0, 0, 0, 0, 0, 0, 0, 0, 0, 0, 0, 1};
    static const int program[29] = {1, 1, 1, 0, 0, 0, 0, 0, 0, 0, 0, 0, 0, 0, 0,
                                    0, 0, 0, 0, 0, 1, 1, 1, 1, 1, 1, 1, 1, 1};
    uint8_t image[PW_IMAGE], payload[PW_PAYLOAD] = {0};

    bip16("P1", 1, t, 0, 0, 0, 0x3cf9);
    bip16("P2", 7, t, 3, 0, 0, 0x39f9);
    bip16("P3", 2, zeros, 0, 0x0201, 0xfde8, 0xfde9);
    bip16("P4", 3, zeros, 0, 0x0201, 0xfde8, 0xfce9);
    close_case("P5", p7, 2, 0, 0, 0, 0);
    close_case("P6", p7, 3, 0x0201, 0, 0, 0);
    close_case("P7", p7, 4, 0x0201, 0, 0, 0);
    close_case("P8", p7, 5, 0, 2, 1, 3);
    close_case("P9", p9, 3, 0, 0, 0, 0);
    close_case("P10", p10, 3, 0x0204, 0, 0, 0);
    close_case("P11", p11, 16, 0, 2, 4, 14);
    close_case("P12", p12, 16, 0x0201, 0, 0, 0);
    after(p12, 15, image);
    number("P12 unavailable at 15", image[5 + 61], 0);
    after(p12, 16, image);
    number("P12 unavailable at 16", image[5 + 61], 1);
    number("P12 since", get(image + 5 + 62, 8), 4);
    close_case("E 0,0,256", many, 3, 0x0204, 0, 0, 0);
    close_case("the records program's case", program, 29, 0, 1, 4, 20);
    number("43 octets", pw_receive(image, PW_IMAGE, 0, payload, 43), 2);
}
