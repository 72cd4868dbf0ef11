#include "damage.h"

#include "calls.h"
#include "draw.h"
#include "payloads.h"

#include <string.h>

struct damage_tally damage_tally;

enum {
    AT_KIND = 3,
    AT_TTSI = 4,
    AT_CLOSED = 28,
    AT_E = 36,
    AT_U = 47,
    AT_CODE = 58,
    AT_STOOD = 60,
    AT_UNAVAILABLE = 61,
    AT_SINCE = 62,
    AT_SERVER = 70,
    AT_LEFT = 71,
    AT_FDI_DT = 73,
    AT_FDI_DL = 75
};

static const uint64_t most_slots = UINT64_C(1000000000000);

static void put(uint8_t *at, int octets, uint64_t number)
{
    while (octets-- > 0)
        *at++ = (uint8_t)(number >> (8 * octets));
}

static uint64_t get(const uint8_t *at, int octets)
{
    uint64_t number = 0;
    while (octets-- > 0)
        number = number << 8 | *at++;
    return number;
}

/* ---- calls of any sort on any image ---- */

static void draw_call(struct call *c, const uint8_t *image)
{
    static const uint8_t types[4] = {1, 2, 3, 7};
    unsigned paths = image[4] > 64 ? 64 : image[4];
    /* The field that the arguments are about; the image of an empty table has room for one too. */
    const uint8_t *field = image + 5 + 79 * (paths > 0 ? draw(paths) : 0);

    memset(c, 0, sizeof *c);
    c->name = (enum call_name)draw(CALL_NAMES);
    uint32_t need = (uint32_t)out_need(c->name);
    c->image_len = one_in(40) ? draw(PW_IMAGE) : PW_IMAGE + draw(CAPACITY - PW_IMAGE + 1);
    c->lsp = one_in(20) ? paths + draw(3) : (uint64_t)(field - image - 5) / 79;
    c->kind = (uint8_t)draw(one_in(10) ? 256 : 7);
    c->on = (uint8_t)draw(one_in(10) ? 256 : 2);
    c->type = one_in(10) ? (uint8_t)draw(256) : types[draw(4)];
    c->rate = (uint8_t)draw(one_in(10) ? 256 : 8);
    c->dt = one_in(10) ? (uint16_t)draw(65536) : draw_dt();
    c->dl = draw_dl();
    if (need > 0)
        c->out_len = one_in(10) ? draw(need) : need + draw(20);
    if (c->name == RECEIVE) {
        enum payload_sort sort = one_in(3) ? (enum payload_sort)draw(PAYLOAD_SORTS) : OWN;
        c->in_len = draw_payload(sort, field[AT_KIND], field + AT_TTSI, c->in);
    } else if (c->name == ADD || c->name == WRITE) {
        if (one_in(4))
            memcpy(c->in, field + AT_TTSI, PW_TTSI);
        else
            draw_ttsi(c->in);
        c->in_len = one_in(10) ? draw(40) : PW_TTSI;
    }
}

/* Right after host_put: what the calls do here is 11 or 10 where a rule is broken, and else what the plain calls do. */
static void try_calls(struct host *h, enum image_rule broken, int calls)
{
    uint8_t *image = h->octets + GUARD;
    struct call c;
    struct outcome should;

    while (calls-- > 0) {
        draw_call(&c, image);
        if (has_image(c.name) && c.name != EMPTY && (too_short(&c) || broken != VALID))
            outcome_refused(&should, too_short(&c) ? 11 : 10);
        else
            outcome_plain(&should, &c, image);
        make_call(h, &c, &should);
        if (c.name == EMPTY && should.number == 0)
            return;
        if (broken == VALID && broken_rule(image) != VALID)
            fail("%s left an image that breaks the rule: %s", call_names[c.name],
                 image_rule_names[broken_rule(image)]);
    }
}

/* ---- one octet changed ---- */

static uint8_t changed(uint8_t octet)
{
    static const uint8_t likely[8] = {0, 1, 2, 10, 11, 12, 13, 255};
    uint8_t to = octet;
    while (to == octet)
        switch (draw(5)) {
        case 0:
            to = (uint8_t)(octet + 1);
            break;
        case 1:
            to = (uint8_t)(octet - 1);
            break;
        case 2:
            to = likely[draw(8)];
            break;
        case 3:
            to = octet ^ (uint8_t)(1 << draw(8));
            break;
        default:
            to = (uint8_t)draw(256);
        }
    return to;
}

void changed_octet(const uint8_t *image)
{
    static struct host h;
    uint8_t copy[PW_IMAGE];

    draw_octets(copy, sizeof copy);
    memcpy(copy, image, image_size(image));
    uint32_t at = one_in(10) ? draw(5) : draw((uint32_t)image_size(image));
    copy[at] = changed(copy[at]);
    host_put(&h, copy);
    enum image_rule broken = broken_rule(copy);
    damage_tally.changed++;
    damage_tally.changed_good += broken == VALID;
    damage_tally.rules[broken]++;
    try_calls(&h, broken, 4);
}

/* ---- made images ---- */

static uint64_t draw_closed(void)
{
    switch (draw(5)) {
    case 0:
        return most_slots - draw(3);
    case 1:
        return draw(1000);
    case 2:
        return draw_number() % most_slots;
    default:
        return draw(16);
    }
}

static void made_field(uint8_t *field)
{
    static const unsigned lives[7] = {3, 300, 150, 60, 30, 15, 6};
    uint64_t closed = draw_closed();
    uint8_t kind = one_in(3) ? (uint8_t)draw(7) : 0;
    unsigned out = kind == 0 && closed >= 13 && one_in(2);
    uint32_t most = closed < 3 ? 0 : closed - 2 < 11 ? (uint32_t)closed - 2 : kind == 0 && !out ? 10 : 11;
    uint32_t stood = one_in(3) ? most : draw(most + 1);
    uint32_t busy = 1 + draw(4), left = one_in(2) ? 0 : one_in(2) ? lives[kind] + 1 : 1 + draw(lives[kind]);

    if (kind == 0 && !out && stood > 10)
        stood = 10;
    memset(field, 0, 79);
    put(field, 3, 0x02004c);
    field[AT_KIND] = kind;
    draw_ttsi(field + AT_TTSI);
    put(field + AT_TTSI + 20, 4, draw_dl());
    put(field + AT_CLOSED, 8, closed);
    for (unsigned i = 0; i < 11; i++)
        if (i == 10 || closed + i >= 10) {
            field[AT_E + i] = (uint8_t)(one_in(30) ? 12 : draw(busy));
            field[AT_U + i] = (uint8_t)one_in(30);
        }
    if (stood > 0)
        put(field + AT_CODE, 2, 0x0201 + draw(4));
    field[AT_STOOD] = (uint8_t)stood;
    field[AT_UNAVAILABLE] = (uint8_t)out;
    if (out)
        put(field + AT_SINCE, 8, one_in(3) ? 1 : one_in(2) ? closed - 12 : 1 + draw_number() % (closed - 12));
    field[AT_SERVER] = (uint8_t)draw(2);
    put(field + AT_LEFT, 2, left);
    if (left > 0) {
        put(field + AT_FDI_DT, 2, draw_dt());
        put(field + AT_FDI_DL, 4, draw_dl());
    }
}

/* Takes one field just over one limit; where the field's other octets allow it all the same, it stays good. */
static void over_a_limit(uint8_t *field)
{
    static const unsigned lives[7] = {3, 300, 150, 60, 30, 15, 6};
    uint64_t closed = get(field + AT_CLOSED, 8);
    unsigned slots = closed < 16 ? (unsigned)closed : 16;

    switch (draw(19)) {
    case 0:
        field[draw(3)]++;
        break;
    case 1:
        field[AT_KIND] = 7;
        break;
    case 2:
        field[AT_TTSI + 16 + draw(2)] = 1;
        break;
    case 3:
        put(field + AT_CLOSED, 8, most_slots + 1);
        break;
    case 4:
        field[AT_E + draw(11)] = 13;
        break;
    case 5:
        field[AT_U + draw(11)] = 2;
        break;
    case 6:
        field[(one_in(2) ? AT_E : AT_U) + (slots < 10 ? 9 - slots : 0)] = 1;
        break;
    case 7:
        put(field + AT_CODE, 2, one_in(2) ? 0x0200 : 0x0205);
        break;
    case 8:
        field[AT_STOOD] = (uint8_t)draw(12);
        break;
    case 9:
        put(field + AT_CODE, 2, one_in(2) ? 0 : 0x0201);
        break;
    case 10:
        put(field + AT_CODE, 2, 0x0202);
        field[AT_STOOD] = (uint8_t)(slots > 2 ? slots - 1 : 1);
        break;
    case 11:
        put(field + AT_CODE, 2, 0x0203);
        field[AT_STOOD] = one_in(4) ? 12 : 11;
        break;
    case 12:
        field[AT_UNAVAILABLE] = (uint8_t)(1 + draw(2));
        break;
    case 13:
        put(field + AT_SINCE, 8, closed < 12 ? 0 : one_in(2) ? closed - 11 : 0);
        break;
    case 14:
        field[AT_UNAVAILABLE] = 1;
        put(field + AT_SINCE, 8, closed < 12 ? 1 : closed - 11 - draw(2));
        break;
    case 15:
        field[AT_SERVER] = 2;
        break;
    case 16:
        put(field + AT_LEFT, 2, field[AT_KIND] > 6 ? 1 : lives[field[AT_KIND]] + 2);
        put(field + AT_FDI_DT, 2, draw_dt());
        break;
    case 17:
        put(field + AT_LEFT, 2, 0);
        break;
    default:
        put(field + AT_FDI_DT, 2, one_in(2) ? 0xffff : 0);
    }
}

void made_image(void)
{
    static struct host h;
    uint8_t image[PW_IMAGE];
    unsigned paths = one_in(6) ? 64 : 1 + draw(6);

    draw_octets(image, sizeof image);
    put(image, 4, 0x01000201);
    image[4] = (uint8_t)paths;
    for (unsigned i = 0; i < paths; i++)
        made_field(image + 5 + 79 * i);
    /* TTSIs drawn are often equal: most images get ones that differ. */
    if (!one_in(4))
        for (unsigned i = 0; i < paths; i++)
            put(image + 5 + 79 * i + AT_TTSI + (one_in(2) ? 0 : 14), 2, 256 + i);
    if (one_in(2))
        over_a_limit(image + 5 + 79 * draw(paths));
    if (one_in(40))
        image[4] = 65;
    host_put(&h, image);
    enum image_rule broken = broken_rule(image);
    damage_tally.made++;
    damage_tally.made_good += broken == VALID;
    damage_tally.rules[broken]++;
    try_calls(&h, broken, broken == VALID ? 8 : 2);
}
