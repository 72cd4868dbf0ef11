/* Each rule of the paper as a question about a path's history and a slot. */
#include "model.h"

#include <string.h>

static void put(uint8_t **at, int octets, uint64_t number)
{
    while (octets-- > 0)
        *(*at)++ = (uint8_t)(number >> (8 * octets));
}

/* ---- counting in slots ---- */

static uint64_t sum(const uint32_t *counts, uint32_t n, uint32_t slots)
{
    uint64_t total = 0;
    for (uint32_t s = n; s >= 1 && s + slots > n; s--)
        total += counts[s];
    return total;
}

/* The code of the entry that slot n met, or 0. */
static uint16_t entry(const struct path *p, uint32_t n)
{
    if (n < 3)
        return 0;
    uint64_t e3 = sum(p->own, n, 3), u3 = sum(p->other, n, 3);
    if (u3 > 0 && e3 == 0)
        return 0x0202;
    if (u3 > 0 && e3 > 0)
        return 0x0203;
    if (u3 == 0 && e3 == 0)
        return 0x0201;
    if (u3 == 0 && e3 >= 5)
        return 0x0204;
    return 0;
}

static int leaving(const struct path *p, uint32_t n)
{
    uint64_t e3 = sum(p->own, n, 3);
    return n >= 3 && sum(p->other, n, 3) == 0 && 2 <= e3 && e3 <= 4;
}

/* The code that stands after slot n: the latest entry's, unless a later slot met the exit. */
static uint16_t standing(const struct path *p, uint32_t n)
{
    for (uint32_t s = n; s >= 3; s--) {
        uint16_t code = entry(p, s);
        if (code != 0)
            return code;
        if (leaving(p, s))
            return 0;
    }
    return 0;
}

/* The first close of the run of closes up to n at which a defect stood; n + 1 if none stands. */
static uint32_t entered(const struct path *p, uint32_t n)
{
    uint32_t e = n + 1;
    while (e > 1 && standing(p, e - 1))
        e--;
    return e;
}

/* ---- out of service ---- */

static int stood_eleven(const struct path *p, uint32_t m)
{
    if (m < 11)
        return 0;
    for (uint32_t s = m - 10; s <= m; s++)
        if (!standing(p, s))
            return 0;
    return 1;
}

static int clears(const struct path *p, uint32_t j)
{
    uint64_t e10 = sum(p->own, j, 10);
    return 9 <= e10 && e10 <= 11 && sum(p->other, j, 10) == 0 && !standing(p, j);
}

/* Some m up to n has the eleven closes, and no j after it up to n clears. */
static int unavailable(const struct path *p, uint32_t n)
{
    if (p->kind != 0)
        return 0;
    for (uint32_t m = n; m >= 1; m--) {
        if (stood_eleven(p, m))
            return 1;
        if (clears(p, m))
            return 0;
    }
    return 0;
}

/* Where unavailable after n: the first slot m with the eleven closes since the start or the last clearing. */
static uint32_t declared(const struct path *p, uint32_t n)
{
    uint32_t m = n;
    while (m >= 1 && !clears(p, m))
        m--;
    do
        m++;
    while (!stood_eleven(p, m));
    return m;
}

struct record {
    uint8_t letter;
    uint32_t from, until;
};

static struct record record_of(const struct path *p, uint32_t n)
{
    struct record none = {0, 0, 0};
    if (p->kind != 0)
        return none;
    if (unavailable(p, n - 1) && !unavailable(p, n)) {
        struct record u = {1, declared(p, n - 1) - 12, n - 9};
        return u;
    }
    if (standing(p, n - 1) && !standing(p, n)) {
        uint32_t e = entered(p, n - 1);
        for (uint32_t s = e; s <= n; s++)
            if (unavailable(p, s))
                return none;
        struct record b = {2, e - 2, n - 2};
        return b;
    }
    return none;
}

/* ---- what goes out ---- */

static uint32_t life(uint8_t kind)
{
    static const uint32_t interval[7] = {1000, 10, 20, 50, 100, 200, 500};
    return 3000 / interval[kind];
}

/* The slot of the last FDI received, or 0. */
static uint32_t fdi_slot(const struct path *p)
{
    uint32_t r = p->closed + 1;
    while (r >= 1 && p->fdi_dt[r] == 0)
        r--;
    return r;
}

uint32_t model_fdi_left(const struct path *p)
{
    uint32_t r = fdi_slot(p);
    if (r == 0 || r + life(p->kind) <= p->closed)
        return 0;
    return r + life(p->kind) - p->closed;
}

uint16_t model_defect(const struct path *p)
{
    return standing(p, p->closed);
}

int model_unavailable(const struct path *p)
{
    return unavailable(p, p->closed);
}

static void going_out(const struct path *p, uint16_t *dt, uint32_t *dl, int *alarm)
{
    uint16_t code = model_defect(p);
    int fdi = model_fdi_left(p) > 0;

    *dt = code;
    *dl = code ? p->dl : 0;
    *alarm = code != 0 && !(code == 0x0201 && (p->server || fdi));
    if (code == 0x0201 && p->server) {
        *dt = 0x0101;
    } else if (code == 0x0201 && fdi) {
        *dt = p->fdi_dt[fdi_slot(p)];
        *dl = p->fdi_dl[fdi_slot(p)];
    }
}

/* ---- payloads ---- */

static int obeys_dt(unsigned dt)
{
    return dt == 0x0101 || dt == 0x0102 || (dt >= 0x0201 && dt <= 0x0204) || dt == 0x02ff;
}

static int obeys_ttsi(const uint8_t *ttsi, size_t len)
{
    return len == 20 && ttsi[16] == 0 && ttsi[17] == 0;
}

uint8_t model_write(uint8_t type, const uint8_t *ttsi, size_t ttsi_len, uint8_t rate, uint16_t dt, uint32_t dl,
                    uint8_t payload[44])
{
    int ffd = type == 7, signal = type == 2 || type == 3;
    uint8_t *at = payload;
    unsigned parity = 0;

    if (type != 1 && !ffd && !signal)
        return 12;
    if (!obeys_ttsi(ttsi, ttsi_len) || (ffd && (rate < 1 || rate > 6)) || (signal && !obeys_dt(dt)))
        return 12;
    put(&at, 2, (uint64_t)type << 8);
    put(&at, 2, signal ? dt : 0);
    memcpy(at, ttsi, 20);
    at += 20;
    put(&at, 4, signal ? dl : ffd ? (uint64_t)rate << 24 : 0);
    memset(at, 0, 14);
    at += 14;
    for (int word = 0; word < 21; word++)
        parity ^= (unsigned)payload[2 * word] << 8 | payload[2 * word + 1];
    put(&at, 2, parity);
    return 0;
}

/* A payload is good exactly when it is what writing its fields gives. */
static uint8_t reading(const uint8_t *payload, size_t len)
{
    uint8_t again[44];
    unsigned parity = 0;

    if (len != 44)
        return 2;
    for (int word = 0; word < 22; word++)
        parity ^= (unsigned)payload[2 * word] << 8 | payload[2 * word + 1];
    if (parity != 0)
        return 3;
    if (payload[0] != 1 && payload[0] != 2 && payload[0] != 3 && payload[0] != 7)
        return 4;
    uint16_t dt = (uint16_t)(payload[2] << 8 | payload[3]);
    uint32_t dl = (uint32_t)payload[24] << 24 | (uint32_t)payload[25] << 16 | (uint32_t)payload[26] << 8 | payload[27];
    if (model_write(payload[0], payload + 4, 20, payload[24], dt, dl, again) != 0 || memcmp(again, payload, 44) != 0)
        return 5;
    return 0;
}

/* ---- the calls ---- */

uint8_t model_add(struct model *m, uint8_t kind, const uint8_t *ttsi, size_t ttsi_len, uint32_t dl)
{
    if (kind > 6 || !obeys_ttsi(ttsi, ttsi_len))
        return 12;
    for (unsigned i = 0; i < m->paths; i++)
        if (memcmp(m->path[i].ttsi, ttsi, 20) == 0)
            return 8;
    if (m->paths == MODEL_PATHS)
        return 7;
    struct path *p = &m->path[m->paths++];
    memset(p, 0, sizeof *p);
    p->kind = kind;
    memcpy(p->ttsi, ttsi, 20);
    p->dl = dl;
    return 0;
}

uint8_t model_receive(struct model *m, uint64_t lsp, const uint8_t *payload, size_t payload_len)
{
    if (lsp >= m->paths)
        return 1;
    uint8_t number = reading(payload, payload_len);
    if (number != 0)
        return number;
    struct path *p = &m->path[lsp];
    uint32_t open = p->closed + 1;
    uint8_t type = payload[0];
    if (type == 2) {
        p->fdi_dt[open] = (uint16_t)(payload[2] << 8 | payload[3]);
        p->fdi_dl[open] = (uint32_t)payload[24] << 24 | (uint32_t)payload[25] << 16 | (uint32_t)payload[26] << 8 |
                          payload[27];
    } else if (type != 3) {
        int own_type = p->kind == 0 ? type == 1 : type == 7 && payload[24] == p->kind;
        if (memcmp(payload + 4, p->ttsi, 20) != 0)
            p->other[open]++;
        else if (own_type)
            p->own[open]++;
        else
            return 6;
    }
    return 0;
}

uint8_t model_close(struct model *m, uint64_t lsp, uint8_t answer[27])
{
    uint16_t dt;
    uint32_t dl;
    int alarm;

    if (lsp >= m->paths)
        return 1;
    struct path *p = &m->path[lsp];
    p->closed++;
    uint16_t code = model_defect(p);
    struct record record = record_of(p, p->closed);
    going_out(p, &dt, &dl, &alarm);
    put(&answer, 2, code);
    put(&answer, 2, dt);
    put(&answer, 4, dl);
    put(&answer, 1, alarm ? 1 : 0);
    put(&answer, 1, code == 0x0202 || code == 0x0203);
    put(&answer, 1, record.letter);
    put(&answer, 8, record.from);
    put(&answer, 8, record.until);
    return 0;
}

uint8_t model_server(struct model *m, uint64_t lsp, uint8_t on)
{
    if (lsp >= m->paths)
        return 1;
    if (on != 0 && on != 1)
        return 12;
    m->path[lsp].server = on;
    return 0;
}

uint8_t model_write_state(const struct model *m, uint64_t lsp, uint8_t type, uint8_t payload[44])
{
    uint8_t zeros[20] = {0};
    uint16_t dt;
    uint32_t dl;
    int alarm;

    if (lsp >= m->paths)
        return 1;
    going_out(&m->path[lsp], &dt, &dl, &alarm);
    if (dt == 0)
        return 13;
    return model_write(type, zeros, 20, 0, dt, dl, payload);
}

/* ---- the image ---- */

static void put_counts(uint8_t **at, const uint32_t *counts, uint32_t closed, uint32_t most)
{
    for (uint32_t back = 11; back-- > 0;) {
        uint32_t count = closed + 1 > back ? counts[closed + 1 - back] : 0;
        put(at, 1, count < most ? count : most);
    }
}

void model_field(const struct path *p, uint8_t field[79])
{
    uint32_t stood = p->closed + 1 - entered(p, p->closed);
    uint32_t left = model_fdi_left(p);
    uint32_t r = left ? fdi_slot(p) : 0;
    int out = model_unavailable(p);

    put(&field, 1, 2);
    put(&field, 2, 76);
    put(&field, 1, p->kind);
    memcpy(field, p->ttsi, 20);
    field += 20;
    put(&field, 4, p->dl);
    put(&field, 8, p->closed);
    put_counts(&field, p->own, p->closed, 12);
    put_counts(&field, p->other, p->closed, 1);
    put(&field, 2, model_defect(p));
    put(&field, 1, stood < 11 ? stood : 11);
    put(&field, 1, out ? 1 : 0);
    put(&field, 8, out ? declared(p, p->closed) - 12 : 0);
    put(&field, 1, p->server);
    put(&field, 2, left);
    put(&field, 2, left ? p->fdi_dt[r] : 0);
    put(&field, 4, left ? p->fdi_dl[r] : 0);
}

size_t model_image(const struct model *m, uint8_t *image)
{
    put(&image, 1, 1);
    put(&image, 2, 2);
    put(&image, 1, 1);
    put(&image, 1, m->paths);
    for (unsigned i = 0; i < m->paths; i++)
        model_field(&m->path[i], image + i * MODEL_FIELD);
    return MODEL_HEADER + m->paths * (size_t)MODEL_FIELD;
}
