#include "calls.h"

#include "draw.h"

#include <stdarg.h>
#include <stdio.h>
#include <stdlib.h>
#include <string.h>

struct tally tally;

const char *const call_names[CALL_NAMES] = {"empty",  "add",       "receive",   "close",
                                            "server", "write_fdi", "write_bdi", "write"};

void fail(const char *format, ...)
{
    va_list list;
    fprintf(stderr, "FAILED at seed %llu, call %llu: ", (unsigned long long)tally.seed,
            (unsigned long long)tally.calls);
    va_start(list, format);
    vfprintf(stderr, format, list);
    va_end(list);
    fputc('\n', stderr);
    exit(1);
}

size_t image_size(const uint8_t *image)
{
    return 5 + 79 * (size_t)image[4];
}

int has_image(enum call_name name)
{
    return name != WRITE;
}

size_t out_need(enum call_name name)
{
    return name == CLOSE ? PW_ANSWER : name == WRITE_FDI || name == WRITE_BDI || name == WRITE ? PW_PAYLOAD : 0;
}

int too_short(const struct call *c)
{
    return (has_image(c->name) && c->image_len < PW_IMAGE) || (c->name == CLOSE && c->out_len < PW_ANSWER);
}

void host_put(struct host *h, const uint8_t *image)
{
    size_t size = image_size(image);
    draw_octets(h->octets, sizeof h->octets);
    /* A damaged header may count more than 64 fields; there is no room for those. */
    memcpy(h->octets + GUARD, image, size < PW_IMAGE ? size : PW_IMAGE);
    h->len = one_in(2) ? PW_IMAGE : PW_IMAGE + draw(CAPACITY - PW_IMAGE + 1);
}

void outcome_refused(struct outcome *o, uint8_t number)
{
    o->number = number;
    o->image_octets = o->out_octets = 0;
}

/* ---- lent buffers ---- */

/*
 * Guarded: random octets around and in the buffer, all of them compared afterwards. Bare: a block of its own that ends
 * where the buffer ends and has no octets but the given ones set, so that valgrind sees each octet out of bounds or
 * read without being of the input.
 */
struct lent {
    uint8_t *block, *octets, *should_be;
    size_t size;
};

static uint8_t *block_of(size_t size)
{
    uint8_t *block = malloc(size);
    if (block == NULL)
        fail("no memory");
    return block;
}

static struct lent lend(int bare, size_t len, const uint8_t *given, size_t count)
{
    struct lent l;
    size_t before = bare ? 1 + draw(8) : GUARD;

    l.size = before + len + (bare ? 0 : GUARD);
    l.block = block_of(l.size);
    l.octets = l.block + before;
    l.should_be = NULL;
    if (!bare)
        draw_octets(l.block, l.size);
    if (count > 0)
        memcpy(l.octets, given, count);
    if (!bare) {
        l.should_be = block_of(l.size);
        memcpy(l.should_be, l.block, l.size);
    }
    return l;
}

static void compare(const struct call *c, const char *what, const uint8_t *is, const uint8_t *should_be, size_t count,
                    size_t before)
{
    if (count == 0 || memcmp(is, should_be, count) == 0)
        return;
    size_t at = 0;
    while (is[at] == should_be[at])
        at++;
    fail("%s, LSP %llu: %s octet %ld is %02x, should be %02x", call_names[c->name], (unsigned long long)c->lsp, what,
         (long)at - (long)before, is[at], should_be[at]);
}

/* The first octets lent should now be these, all others as they were. */
static void take_back(const struct call *c, const char *what, struct lent *l, const uint8_t *first, size_t count)
{
    if (l->should_be != NULL) {
        if (count > 0)
            memcpy(l->should_be + GUARD, first, count);
        compare(c, what, l->block, l->should_be, l->size, GUARD);
    } else {
        compare(c, what, l->octets, first, count, 0);
    }
    free(l->should_be);
    free(l->block);
}

/* ---- making a call ---- */

struct calls {
    uint8_t (*empty)(uint8_t *, size_t);
    uint8_t (*add)(uint8_t *, size_t, uint8_t, const uint8_t *, size_t, uint32_t);
    uint8_t (*receive)(uint8_t *, size_t, uint64_t, const uint8_t *, size_t);
    uint8_t (*close)(uint8_t *, size_t, uint64_t, uint8_t *, size_t);
    uint8_t (*server)(uint8_t *, size_t, uint64_t, uint8_t);
    uint8_t (*write_fdi)(const uint8_t *, size_t, uint64_t, uint8_t *, size_t);
    uint8_t (*write_bdi)(const uint8_t *, size_t, uint64_t, uint8_t *, size_t);
    uint8_t (*write)(uint8_t, const uint8_t *, size_t, uint8_t, uint16_t, uint32_t, uint8_t *, size_t);
};

static const struct calls library = {pw_empty,  pw_add,       pw_receive,   pw_close,
                                     pw_server, pw_write_fdi, pw_write_bdi, pw_write};
static const struct calls plain = {plain_empty,  plain_add,       plain_receive,   plain_close,
                                   plain_server, plain_write_fdi, plain_write_bdi, plain_write};

static uint8_t apply(const struct calls *to, const struct call *c, uint8_t *image, const uint8_t *in, uint8_t *out)
{
    switch (c->name) {
    case EMPTY:
        return to->empty(image, c->image_len);
    case ADD:
        return to->add(image, c->image_len, c->kind, in, c->in_len, c->dl);
    case RECEIVE:
        return to->receive(image, c->image_len, c->lsp, in, c->in_len);
    case CLOSE:
        return to->close(image, c->image_len, c->lsp, out, c->out_len);
    case SERVER:
        return to->server(image, c->image_len, c->lsp, c->on);
    case WRITE_FDI:
        return to->write_fdi(image, c->image_len, c->lsp, out, c->out_len);
    case WRITE_BDI:
        return to->write_bdi(image, c->image_len, c->lsp, out, c->out_len);
    default:
        return to->write(c->type, in, c->in_len, c->rate, c->dt, c->dl, out, c->out_len);
    }
}

void outcome_plain(struct outcome *o, const struct call *c, const uint8_t *image)
{
    uint8_t copy[CAPACITY] = {0}, out[LENT_MOST] = {0};
    size_t size = image_size(image);

    memcpy(copy, image, size < PW_IMAGE ? size : PW_IMAGE);
    outcome_refused(o, apply(&plain, c, copy, c->in, out));
    if (o->number != 0)
        return;
    o->out_octets = out_need(c->name);
    memcpy(o->out, out, o->out_octets);
    if (has_image(c->name)) {
        o->image_octets = image_size(copy);
        memcpy(o->image, copy, o->image_octets);
    }
}

static void count_call(const struct call *c, uint8_t number)
{
    tally.answers[c->name][number]++;
    if (number != 11)
        return;
    if (has_image(c->name) && c->image_len < PW_IMAGE)
        tally.short_image[c->name][c->image_len] = 1;
    else
        tally.short_out[c->name][c->out_len] = 1;
}

void make_call(struct host *h, const struct call *c, const struct outcome *should)
{
    int bare = one_in(4);
    struct lent in = lend(bare, c->in_len, c->in, c->in_len);
    struct lent out = lend(bare, c->out_len, NULL, 0);
    uint8_t *image = h->octets + GUARD;
    uint8_t number;

    tally.calls++;
    if (bare) {
        size_t size = image_size(image);
        size = size < PW_IMAGE ? size : PW_IMAGE;
        size = size < c->image_len ? size : c->image_len;
        struct lent block = lend(1, c->image_len, image, size);
        number = apply(&library, c, block.octets, in.octets, out.octets);
        if (number != should->number)
            fail("%s, LSP %llu: %u, should be %u", call_names[c->name], (unsigned long long)c->lsp, number,
                 should->number);
        if (number == 0 && should->image_octets > 0)
            memcpy(image, should->image, size = should->image_octets);
        take_back(c, "image", &block, image, size);
    } else {
        static uint8_t should_be[sizeof h->octets];
        memcpy(should_be, h->octets, sizeof should_be);
        number = apply(&library, c, image, in.octets, out.octets);
        if (number != should->number)
            fail("%s, LSP %llu: %u, should be %u", call_names[c->name], (unsigned long long)c->lsp, number,
                 should->number);
        memcpy(should_be + GUARD, should->image, should->image_octets);
        compare(c, "image", h->octets, should_be, sizeof should_be, GUARD);
    }
    take_back(c, "lent input", &in, c->in, c->in_len);
    take_back(c, c->name == CLOSE ? "answer" : "payload", &out, should->out, should->out_octets);
    count_call(c, number);
}
