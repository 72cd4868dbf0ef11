#include "valid.h"

#include <string.h>

const char *const image_rule_names[IMAGE_RULES] = {
    "none",
    "header",
    "at most 64 paths",
    "field's tag and length",
    "kind",
    "TTSI",
    "closed slots",
    "E at most 12",
    "U at most 1",
    "counts of slots that never were",
    "code",
    "code zero exactly when stood is",
    "stood is 0 below 3 closed slots",
    "stood at most 11",
    "stood at most closed-2",
    "stood at most 10 on an available CV path",
    "unavailable is 0 or 1",
    "unavailable is 0 on FFD",
    "since is 0 if available",
    "since is 1 to closed-12",
    "server",
    "closes left",
    "DT and DL zero if no close is left",
    "the FDI's DT",
    "TTSIs differ",
};

struct cursor {
    const uint8_t *at;
};

static uint64_t next(struct cursor *c, int octets)
{
    uint64_t number = 0;
    while (octets-- > 0)
        number = number * 256 + *c->at++;
    return number;
}

static int one_of(uint64_t number, const unsigned *list, int length)
{
    for (int i = 0; i < length; i++)
        if (list[i] == number)
            return 1;
    return 0;
}

static enum image_rule broken_in_field(struct cursor c)
{
    static const unsigned lives[7] = {3, 300, 150, 60, 30, 15, 6};
    static const unsigned codes[5] = {0, 0x0201, 0x0202, 0x0203, 0x0204};
    static const unsigned types[7] = {0x0101, 0x0102, 0x0201, 0x0202, 0x0203, 0x0204, 0x02ff};
    unsigned e[11], u[11];

    if (next(&c, 1) != 2 || next(&c, 2) != 76)
        return RULE_FIELD;
    uint64_t kind = next(&c, 1);
    if (kind > 6)
        return RULE_KIND;
    next(&c, 8);
    next(&c, 8);
    if (next(&c, 4) > 0xffff)
        return RULE_TTSI;
    next(&c, 4);
    uint64_t closed = next(&c, 8);
    if (closed > UINT64_C(1000000000000))
        return RULE_CLOSED;
    for (int i = 0; i < 11; i++)
        e[i] = (unsigned)next(&c, 1);
    for (int i = 0; i < 11; i++)
        u[i] = (unsigned)next(&c, 1);
    for (int i = 0; i < 11; i++)
        if (e[i] > 12)
            return RULE_E;
    for (int i = 0; i < 11; i++)
        if (u[i] > 1)
            return RULE_U;
    /* Count i, but the open slot's, is that of slot closed - 9 + i. */
    for (unsigned i = 0; i < 10; i++)
        if (closed + i < 10 && (e[i] != 0 || u[i] != 0))
            return RULE_NEVER_WAS;
    uint64_t code = next(&c, 2), stood = next(&c, 1), unavailable = next(&c, 1), since = next(&c, 8);
    if (!one_of(code, codes, 5))
        return RULE_CODE;
    if ((code == 0) != (stood == 0))
        return RULE_CODE_AND_STOOD;
    if (closed < 3 && stood != 0)
        return RULE_STOOD_EARLY;
    if (stood > 11)
        return RULE_STOOD;
    if (closed >= 3 && stood + 2 > closed)
        return RULE_STOOD_CLOSED;
    if (kind == 0 && unavailable == 0 && stood > 10)
        return RULE_STOOD_AVAILABLE;
    if (unavailable > 1)
        return RULE_UNAVAILABLE;
    if (unavailable == 1 && kind != 0)
        return RULE_UNAVAILABLE_FFD;
    if (unavailable == 0 && since != 0)
        return RULE_SINCE_AVAILABLE;
    if (unavailable == 1 && (since == 0 || since > closed || closed - since < 12))
        return RULE_SINCE;
    if (next(&c, 1) > 1)
        return RULE_SERVER;
    uint64_t left = next(&c, 2), dt = next(&c, 2), dl = next(&c, 4);
    if (left > lives[kind] + 1)
        return RULE_LEFT;
    if (left == 0 && (dt != 0 || dl != 0))
        return RULE_FDI_GONE;
    if (left != 0 && !one_of(dt, types, 7))
        return RULE_FDI_DT;
    return VALID;
}

enum image_rule broken_rule(const uint8_t *image)
{
    struct cursor c = {image};
    if (next(&c, 4) != 0x01000201)
        return RULE_HEADER;
    unsigned paths = (unsigned)next(&c, 1);
    if (paths > 64)
        return RULE_PATHS;
    for (unsigned i = 0; i < paths; i++) {
        struct cursor field = {c.at + 79 * i};
        enum image_rule rule = broken_in_field(field);
        if (rule != VALID)
            return rule;
    }
    for (unsigned i = 0; i < paths; i++)
        for (unsigned j = 0; j < i; j++)
            if (memcmp(c.at + 79 * i + 4, c.at + 79 * j + 4, 20) == 0)
                return RULE_DIFFER;
    return VALID;
}
