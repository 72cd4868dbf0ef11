#include "world.h"

#include "draw.h"
#include "events.h"

#include <string.h>

struct world world;
struct host host;
uint64_t calls_made;

static void refresh_field(uint64_t lsp)
{
    world.image[4] = (uint8_t)world.model.paths;
    model_field(&world.model.path[lsp], world.image + MODEL_HEADER + MODEL_FIELD * lsp);
}

static uint8_t step_model(const struct call *c, uint8_t *out)
{
    struct model *m = &world.model;
    uint8_t number = 0;

    if (too_short(c))
        return 11;
    switch (c->name) {
    case EMPTY:
        m->paths = 0;
        model_image(m, world.image);
        break;
    case ADD:
        number = model_add(m, c->kind, c->in, c->in_len, c->dl);
        if (number == 0)
            refresh_field(m->paths - 1);
        break;
    case RECEIVE:
        number = model_receive(m, c->lsp, c->in, c->in_len);
        if (number == 0)
            refresh_field(c->lsp);
        break;
    case CLOSE:
        number = model_close(m, c->lsp, out);
        if (number == 0)
            refresh_field(c->lsp);
        break;
    case SERVER:
        number = model_server(m, c->lsp, c->on);
        if (number == 0)
            refresh_field(c->lsp);
        break;
    case WRITE_FDI:
    case WRITE_BDI:
        number = model_write_state(m, c->lsp, c->name == WRITE_FDI ? 2 : 3, out);
        break;
    default:
        number = model_write(c->type, c->in, c->in_len, c->rate, c->dt, c->dl, out);
    }
    return number == 0 && c->out_len < out_need(c->name) ? 11 : number;
}

uint8_t check_call(const struct call *c)
{
    static struct outcome should;
    uint8_t out[PW_PAYLOAD];

    calls_made++;
    outcome_refused(&should, step_model(c, out));
    if (should.number == 0) {
        should.out_octets = out_need(c->name);
        memcpy(should.out, out, should.out_octets);
        should.image_octets = c->name == WRITE ? 0 : image_size(world.image);
        memcpy(should.image, world.image, should.image_octets);
    }
    make_call(&host, c, &should);
    return should.number;
}

struct call call_of(enum call_name name, uint64_t lsp)
{
    struct call c;
    size_t need = out_need(name);

    memset(&c, 0, sizeof c);
    c.name = name;
    c.lsp = lsp;
    c.image_len = one_in(400) ? draw(PW_IMAGE) : one_in(4) ? PW_IMAGE : host.len;
    c.out_len = need == 0 ? 0 : one_in(40) ? draw((uint32_t)need) : need + draw(20);
    return c;
}

void add(uint8_t kind, const uint8_t *ttsi, size_t ttsi_len)
{
    struct call c = call_of(ADD, 0);
    c.kind = kind;
    memcpy(c.in, ttsi, ttsi_len);
    c.in_len = ttsi_len;
    c.dl = draw_dl();
    check_call(&c);
}

uint8_t receive(uint64_t lsp, enum payload_sort sort)
{
    struct call c = call_of(RECEIVE, lsp);
    const struct path *p = &world.model.path[lsp < world.model.paths ? lsp : 0];
    c.in_len = draw_payload(sort, p->kind, p->ttsi, c.in);
    return check_call(&c);
}

void server(uint64_t lsp, uint8_t on)
{
    struct call c = call_of(SERVER, lsp);
    c.on = on;
    check_call(&c);
}

void write_state(uint64_t lsp)
{
    struct call c = call_of(one_in(2) ? WRITE_FDI : WRITE_BDI, lsp);
    check_call(&c);
}

void write_fields(void)
{
    static const uint8_t types[4] = {1, 2, 3, 7};
    struct call c = call_of(WRITE, 0);
    c.type = one_in(8) ? (uint8_t)draw(256) : types[draw(4)];
    c.rate = (uint8_t)(one_in(3) ? draw(256) : draw(8));
    c.dt = one_in(3) ? (uint16_t)draw(65536) : draw_dt();
    c.dl = draw_dl();
    draw_ttsi(c.in);
    if (one_in(10))
        change_one(c.in + 16, 2);
    c.in_len = one_in(10) ? draw(41) : PW_TTSI;
    check_call(&c);
}

/* ---- closing, and what it was that happened ---- */

static void count_close(const struct path *p, uint16_t before, int out_before, uint32_t fdi_before)
{
    uint16_t code = model_defect(p);
    int out = model_unavailable(p), fdi = model_fdi_left(p) > 0;

    if (code != 0 && before == 0)
        events[code == 0x0201   ? LOCV_ENTERED
               : code == 0x0202 ? MISMATCH_ENTERED
               : code == 0x0203 ? MISMERGE_ENTERED
                                : EXCESS_ENTERED]++;
    events[KIND_CHANGED] += code != 0 && before != 0 && code != before;
    events[LEFT] += code == 0 && before != 0;
    events[FFD_DEFECT] += code != 0 && p->kind != 0;
    events[DECLARED] += out && !out_before;
    events[RECORD_U] += out_before && !out;
    events[RECORD_B] += code == 0 && before != 0 && p->kind == 0 && !out_before;
    events[LEFT_WHILE_UNAVAILABLE] += code == 0 && before != 0 && out;
    events[SERVER_SENT] += code == 0x0201 && p->server;
    events[FDI_SENT] += code == 0x0201 && !p->server && fdi;
    events[FDI_WITHOUT_EFFECT] += code != 0 && code != 0x0201 && fdi;
    events[FDI_ENDED_IN_LOCV] += code == 0x0201 && !p->server && fdi_before && !fdi;
    events[LONG_FDI_ENDED] += p->kind == 1 && fdi_before && !fdi;
}

void close_slot(uint64_t lsp)
{
    struct call c = call_of(CLOSE, lsp);
    const struct path *p = &world.model.path[lsp < world.model.paths ? lsp : 0];

    if (lsp >= world.model.paths) {
        check_call(&c);
        return;
    }
    if (p->closed == MODEL_SLOTS)
        return;
    uint16_t before = model_defect(p);
    int out_before = model_unavailable(p);
    uint32_t fdi_before = model_fdi_left(p);
    if (check_call(&c) == 0)
        count_close(p, before, out_before, fdi_before);
}

void start(uint64_t seed)
{
    struct call c;

    tally.seed = seed;
    draw_seed(seed);
    calls_made = 0;
    memset(world.image, 0, sizeof world.image);
    draw_octets(host.octets, sizeof host.octets);
    host.len = PW_IMAGE + draw(CAPACITY - PW_IMAGE + 1);
    do
        c = call_of(EMPTY, 0);
    while (check_call(&c) != 0);
}
