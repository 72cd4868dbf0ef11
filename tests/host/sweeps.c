#include "sweeps.h"

#include "draw.h"
#include "world.h"

#include <string.h>

/* A table of three paths: kinds 0 and 3, the first with LOCV standing. */
static void three_paths(uint64_t seed)
{
    static const uint8_t kinds[3] = {0, 3, 0};
    uint8_t ttsi[PW_TTSI];

    start(seed);
    while (world.model.paths < 3) {
        draw_ttsi(ttsi);
        add(kinds[world.model.paths], ttsi, PW_TTSI);
    }
    while (model_defect(&world.model.path[0]) == 0)
        close_slot(0);
}

/* A call that is answered 0 as it stands. */
static struct call good_call(enum call_name name)
{
    static const uint8_t new_ttsi[PW_TTSI] = {1, 2, 3, 4, 5, 6, 7, 8, 9, 10, 11, 12, 13, 14, 15, 16, 0, 0, 19, 20};
    const struct path *p = &world.model.path[0];
    struct call c = call_of(name, 0);

    c.image_len = PW_IMAGE;
    c.out_len = out_need(name);
    c.type = 1;
    if (name == RECEIVE) {
        c.in_len = draw_payload(OWN, p->kind, p->ttsi, c.in);
    } else if (name == ADD || name == WRITE) {
        memcpy(c.in, new_ttsi, PW_TTSI);
        c.in_len = PW_TTSI;
    }
    return c;
}

/* Each buffer lent to be written too short by each length, the others as they should be. */
static void short_buffers(enum call_name name, size_t step)
{
    struct call c = good_call(name);

    for (size_t len = 0; len < PW_IMAGE && has_image(name); len += len + step < PW_IMAGE ? step : 1) {
        c.image_len = len;
        check_call(&c);
    }
    c.image_len = PW_IMAGE;
    for (size_t len = 0; len < out_need(name); len++) {
        c.out_len = len;
        check_call(&c);
    }
    if (!has_image(name))
        return;
    /* No other number may come before the image's length: not with wrong arguments, nor on a damaged image. */
    c.image_len = PW_IMAGE - 1;
    c.lsp = c.kind = c.on = 9;
    check_call(&c);
    host.octets[GUARD] ^= 1;
    check_call(&c);
    host.octets[GUARD] ^= 1;
}

/* Each buffer lent to be read with each length. */
static void input_lengths(enum call_name name)
{
    for (size_t len = 0; len <= LENT_MOST; len++) {
        struct call c = good_call(name);
        c.in_len = len;
        check_call(&c);
        if (name == ADD && world.model.paths > 3)
            three_paths(tally.seed);
    }
}

static void octet_arguments(void)
{
    for (unsigned value = 0; value < 256; value++) {
        struct call c = good_call(SERVER);
        c.on = (uint8_t)value;
        check_call(&c);
        c = good_call(ADD);
        c.kind = (uint8_t)value;
        check_call(&c);
        if (world.model.paths > 3)
            three_paths(tally.seed);
        c = good_call(WRITE);
        c.type = (uint8_t)value;
        c.dt = 0x0201;
        c.rate = 1;
        check_call(&c);
        c.type = 7;
        c.rate = (uint8_t)value;
        check_call(&c);
        for (uint64_t lsp = 0; lsp < 3; lsp++) {
            c = good_call(RECEIVE);
            c.lsp = lsp;
            model_write(7, world.model.path[lsp].ttsi, PW_TTSI, 3, 0, 0, c.in);
            c.in[24] = (uint8_t)value; /* the rate */
            set_parity(c.in);
            check_call(&c);
            c.in[24] = 0;
            c.in[0] = (uint8_t)value; /* the function type */
            set_parity(c.in);
            check_call(&c);
        }
    }
}

/* Each DT, written and received. */
static void defect_types(size_t step)
{
    for (size_t dt = 0; dt < 65536; dt += step) {
        struct call c = good_call(WRITE);
        c.type = (uint8_t)(2 + dt % 2);
        c.dt = (uint16_t)dt;
        check_call(&c);
        c = good_call(RECEIVE);
        model_write((uint8_t)(3 - dt % 2), world.model.path[0].ttsi, PW_TTSI, 0, 0x0201, 1, c.in);
        c.in[2] = (uint8_t)(dt >> 8);
        c.in[3] = (uint8_t)dt;
        set_parity(c.in);
        check_call(&c);
    }
}

/* Each octet of a payload changed in each bit, the BIP16 as it was and made right again. */
static void payload_bits(void)
{
    static const uint8_t types[4] = {1, 2, 3, 7};

    for (unsigned bit = 0; bit < 44 * 8 * 4; bit++) {
        struct call c = good_call(RECEIVE);
        c.lsp = 1;
        model_write(types[bit % 4], world.model.path[1].ttsi, PW_TTSI, 3, 0x0201, 0xfde8, c.in);
        c.in[bit / 32] ^= (uint8_t)(1 << bit / 4 % 8);
        check_call(&c);
        set_parity(c.in);
        check_call(&c);
    }
}

/* 65,536 packets in one slot: a count of 16 bits would be silence again. */
static void long_slot(enum payload_sort sort)
{
    for (int i = 0; i < 65536; i++)
        while (receive(0, sort) != 0)
            continue;
    for (int i = 0; i < 6; i++)
        close_slot(0);
}

void sweeps(size_t step)
{
    three_paths(1000000);
    for (int name = 0; name < CALL_NAMES; name++)
        short_buffers((enum call_name)name, step);
    three_paths(1000001);
    input_lengths(ADD);
    input_lengths(RECEIVE);
    input_lengths(WRITE);
    three_paths(1000002);
    octet_arguments();
    defect_types(step);
    payload_bits();
    if (step > 1)
        return;
    three_paths(1000003);
    long_slot(OWN);
    long_slot(OTHER_TTSI);
}
