/*
 * Random sequences of calls, each compared in number and in every octet with a model that knows only histories.
 * test_host [calls]: at least that many calls, 600,000 if not said. Ends with 1 on the first difference.
 */
#include "damage.h"
#include "draw.h"
#include "events.h"
#include "numbers.h"
#include "sweeps.h"
#include "world.h"

#include <stdio.h>
#include <stdlib.h>
#include <string.h>

/* ---- what a path goes through ---- */

static uint64_t other_lsp(void)
{
    uint64_t lsp = draw(world.model.paths);

    switch (draw(5)) {
    case 0:
        return world.model.paths;
    case 1:
        return UINT64_MAX - draw(2);
    case 2: /* a path's number, if only its low 8 or 32 bits were looked at */
        return lsp + (UINT64_C(1) << 8);
    case 3:
        return lsp + (UINT64_C(1) << 32);
    default:
        return world.model.paths + draw_number() % (UINT64_MAX - 64);
    }
}

static void disturb(uint64_t lsp)
{
    const struct path *p = &world.model.path[lsp];

    switch (draw(12)) {
    case 0:
        events[FDI_REPLACED] += model_fdi_left(p) > 0;
        receive(lsp, GOOD_FDI);
        break;
    case 1:
        receive(lsp, GOOD_BDI);
        break;
    case 2:
        receive(lsp, OTHER_KIND);
        break;
    case 3:
        receive(lsp, ONE_OCTET);
        break;
    case 4:
        receive(lsp, WRONG_FIELD);
        break;
    case 5:
        receive(lsp, WRONG_LENGTH);
        break;
    case 6:
        server(lsp, (uint8_t)(one_in(4) ? draw(256) : draw(2)));
        break;
    case 7:
        write_fields();
        break;
    case 8:
        lsp = other_lsp();
        switch (draw(4)) {
        case 0:
            receive(lsp, (enum payload_sort)draw(PAYLOAD_SORTS));
            break;
        case 1:
            close_slot(lsp);
            break;
        case 2:
            server(lsp, (uint8_t)draw(256));
            break;
        default:
            write_state(lsp);
        }
        break;
    default:
        write_state(lsp);
    }
}

static void flood(uint64_t lsp, enum payload_sort sort)
{
    static const uint32_t sizes[6] = {255, 256, 257, 256, 512, 300};
    uint32_t size = sizes[draw(6)];
    const struct path *p = &world.model.path[lsp];

    while (size-- > 0)
        receive(lsp, sort);
    events[FLOOD_OWN] += p->own[p->closed + 1] > 255;
    events[FLOOD_OTHER] += p->other[p->closed + 1] > 255;
}

enum regime { HEALTHY, ABOUT_ONE, SILENT, SPARSE, UNEVEN, MANY, ONLY_OTHERS, BOTH, REGIMES };

static void slot(uint64_t lsp, enum regime regime)
{
    static const uint32_t around[10] = {1, 1, 1, 1, 1, 1, 1, 1, 0, 2};
    uint32_t own = 0, others = 0;

    switch (regime) {
    case HEALTHY:
        own = 1;
        break;
    case ABOUT_ONE: /* nine to eleven in ten slots, or just not */
        own = around[draw(10)];
        break;
    case SILENT:
        break;
    case SPARSE:
        own = draw(3) == 0;
        break;
    case UNEVEN:
        own = draw(3);
        break;
    case MANY:
        own = one_in(10) ? 11 + draw(4) : 2 + draw(3);
        break;
    case ONLY_OTHERS:
        others = draw(3);
        break;
    default:
        own = draw(2);
        others = draw(2);
    }
    while (own > 0 || others > 0) {
        if (own > 0 && (others == 0 || one_in(2))) {
            receive(lsp, OWN);
            own--;
        } else {
            receive(lsp, OTHER_TTSI);
            others--;
        }
    }
    if (one_in(5))
        disturb(lsp);
    close_slot(lsp);
}

static void some_slots(uint64_t lsp)
{
    enum regime regime = one_in(3) ? HEALTHY : (enum regime)draw(REGIMES);
    uint32_t slots = 1 + draw(one_in(3) ? 24 : 8);

    if (one_in(60))
        flood(lsp, one_in(2) ? OWN : OTHER_TTSI);
    if (world.model.path[lsp].kind == 1 && one_in(10)) {
        receive(lsp, GOOD_FDI);
        for (slots = 302; slots > 0; slots--)
            close_slot(lsp);
    }
    while (slots-- > 0)
        slot(lsp, regime);
}

/* ---- adding ---- */

static void some_add(void)
{
    uint8_t ttsi[PW_TTSI + 20];
    uint8_t kind = one_in(2) ? 0 : (uint8_t)draw(7);
    size_t len = PW_TTSI;

    draw_octets(ttsi, sizeof ttsi);
    draw_ttsi(ttsi);
    switch (draw(8)) {
    case 0:
        kind = (uint8_t)draw(256);
        break;
    case 1:
        change_one(ttsi + 16, 2);
        break;
    case 2:
        len = draw(sizeof ttsi + 1);
        break;
    case 3:
        if (world.model.paths > 0)
            memcpy(ttsi, world.model.path[draw(world.model.paths)].ttsi, PW_TTSI);
        break;
    default:
        break;
    }
    add(kind, ttsi, len);
}

/* ---- copies put back ---- */

enum { COPIES = 3 };

static struct world copies[COPIES];
static uint64_t kept[COPIES]; /* 0, or the seed it was kept at */

static void copy_world(struct world *to, const struct world *from)
{
    to->model.paths = from->model.paths;
    memcpy(to->model.path, from->model.path, from->model.paths * sizeof from->model.path[0]);
    memcpy(to->image, from->image, sizeof to->image);
}

static void keep_copy(void)
{
    uint32_t i = draw(COPIES);
    copy_world(&copies[i], &world);
    kept[i] = tally.seed;
}

static void put_copy_back(void)
{
    uint32_t i = draw(COPIES);
    if (kept[i] != tally.seed)
        return;
    events[RESTART]++;
    events[RESTART_BACK] += memcmp(copies[i].image, world.image, sizeof world.image) != 0;
    copy_world(&world, &copies[i]);
    host_put(&host, world.image);
    for (unsigned k = 0; k < world.model.paths; k++) {
        events[RESTART_IN_DEFECT] += model_defect(&world.model.path[k]) != 0;
        events[RESTART_IN_OUTAGE] += model_unavailable(&world.model.path[k]) != 0;
    }
}

/* ---- the last slot ---- */

static void move(uint8_t *at, uint64_t by)
{
    uint64_t number = 0;
    for (int i = 0; i < 8; i++)
        number = number << 8 | at[i];
    number += by;
    for (int i = 8; i-- > 0; number >>= 8)
        at[i] = (uint8_t)number;
}

/* With closed and since moved, a close answers as it does unmoved, its record moved too; then there is no more slot. */
static void last_slot(uint64_t lsp)
{
    static struct host moved;
    static struct path before;
    static struct outcome should;
    uint8_t image[PW_IMAGE];
    struct path *p = &world.model.path[lsp];
    uint8_t *field = image + MODEL_HEADER + MODEL_FIELD * lsp;
    struct call c = call_of(CLOSE, lsp);

    if (p->closed < 12 || p->closed == MODEL_SLOTS)
        return;
    uint64_t by = UINT64_C(999999999999) - p->closed;
    c.image_len = PW_IMAGE;
    c.out_len = PW_ANSWER;
    memcpy(image, world.image, sizeof image);
    move(field + 28, by);
    if (field[61])
        move(field + 62, by);
    host_put(&moved, image);

    before = *p;
    outcome_refused(&should, model_close(&world.model, lsp, should.out));
    model_field(p, field);
    *p = before;
    move(field + 28, by);
    if (field[61])
        move(field + 62, by);
    if (should.out[10]) {
        move(should.out + 11, by);
        move(should.out + 19, by);
        events[LAST_SLOT_RECORD]++;
    }
    should.out_octets = PW_ANSWER;
    should.image_octets = image_size(image);
    memcpy(should.image, image, should.image_octets);
    make_call(&moved, &c, &should);
    events[LAST_SLOT_CLOSED]++;

    outcome_refused(&should, 9);
    make_call(&moved, &c, &should);
    outcome_plain(&should, &c, image); /* the plain call says so too */
    if (should.number != 9)
        fail("the plain close answers %u at the last slot", should.number);
    move(field + 28, 1);
    host_put(&moved, image);
    outcome_refused(&should, 10);
    make_call(&moved, &c, &should);
}

/* ---- sequences ---- */

static void sequence(uint64_t seed, uint64_t calls)
{
    static const unsigned sizes[6] = {1, 2, 1, 6, 20, 64};
    unsigned paths = sizes[seed % 6];
    uint8_t again[PW_IMAGE];

    start(seed);
    while (world.model.paths < paths)
        some_add();
    while (calls_made < calls) {
        uint64_t lsp = draw(paths < 3 || one_in(3) ? world.model.paths : 3);
        some_slots(lsp);
        if (one_in(paths == 64 ? 2 : 30))
            some_add();
        if (one_in(8))
            keep_copy();
        if (one_in(16))
            put_copy_back();
        if (one_in(2))
            changed_octet(world.image);
        if (one_in(2))
            made_image();
        if (one_in(4))
            last_slot(draw(world.model.paths));
        events[FULL_TABLE] += world.model.paths == 64;
    }
    /* The fields that were not reckoned anew lately should still be what the histories say. */
    if (model_image(&world.model, again) != image_size(world.image) ||
        memcmp(again, world.image, image_size(again)) != 0)
        fail("the model disagrees with itself");
}

int main(int argc, char **argv)
{
    uint64_t target = argc > 1 ? strtoull(argv[1], NULL, 10) : 600000;
    uint64_t sequences = 0;
    int all = target >= 200000;

    numbers_to_meet();
    sweeps(all ? 1 : 97);
    for (uint64_t before = tally.calls; tally.calls < before + target;)
        sequence(++sequences, 4000);
    must_have_happened(all);
    summary(sequences);
    return 0;
}
