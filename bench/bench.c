/*
 * Time and stack of each call, the library's beside the plain one's, in one run.
 *
 * Time: the least of several rounds, the two taking turns so that both meet the same machine. Both are called through
 * pointers into other objects, so no call can be folded away.
 * Stack: the call runs on a stack of its own that is filled with a pattern; what it wrote is counted from the top to
 * the lowest octet changed, less what an empty call in its place writes.
 */
#define _GNU_SOURCE
#include "plain.h"

#include <stdio.h>
#include <stdlib.h>
#include <string.h>
#include <time.h>
#include <ucontext.h>

struct calls {
    uint8_t (*empty)(uint8_t *, size_t);
    uint8_t (*add)(uint8_t *, size_t, uint8_t, const uint8_t *, size_t, uint32_t);
    uint8_t (*receive)(uint8_t *, size_t, uint64_t, const uint8_t *, size_t);
    uint8_t (*close)(uint8_t *, size_t, uint64_t, uint8_t *, size_t);
    uint8_t (*server)(uint8_t *, size_t, uint64_t, uint8_t);
    uint8_t (*write_fdi)(const uint8_t *, size_t, uint64_t, uint8_t *, size_t);
    uint8_t (*write_bdi)(const uint8_t *, size_t, uint64_t, uint8_t *, size_t);
    uint8_t (*write)(uint8_t, const uint8_t *, size_t, uint8_t, uint16_t, uint32_t, uint8_t *, size_t);
};

static const struct calls both[2] = {
    {pw_empty, pw_add, pw_receive, pw_close, pw_server, pw_write_fdi, pw_write_bdi, pw_write},
    {plain_empty, plain_add, plain_receive, plain_close, plain_server, plain_write_fdi, plain_write_bdi, plain_write},
};

/*
 * What is lent; the calls are about the last path. Both sides are lent the very same octets in turn: where a buffer
 * lies can double the time of a short call.
 */
struct lent {
    uint8_t image[5120]; /* multiples of 64, for the same reason */
    uint8_t fewer[5120]; /* the image before the last path was added */
    uint8_t ttsi[64];
    uint8_t cv[64];
    uint8_t payload[64];
    uint8_t answer[64];
    const struct calls *to;
    uint64_t last;
    uint8_t on;
};

static struct lent lent __attribute__((aligned(64)));

static void must(uint8_t number)
{
    if (number != 0) {
        fprintf(stderr, "a call was refused with %u\n", number);
        exit(1);
    }
}

/* Paths of kind 0 with twelve healthy slots; the last one then silent until LOCV has stood for long. */
static void prepare(struct lent *s, const struct calls *to, unsigned paths)
{
    s->to = to;
    s->last = paths - 1;
    s->on = 0;
    must(to->empty(s->image, PW_IMAGE));
    for (unsigned i = 0; i < paths; i++) {
        for (unsigned k = 0; k < PW_TTSI; k++)
            s->ttsi[k] = (uint8_t)(k < 16 ? 32 + k : 0);
        s->ttsi[15] = (uint8_t)(i / 8);
        s->ttsi[19] = (uint8_t)(i % 8);
        memcpy(s->fewer, s->image, PW_IMAGE);
        must(to->add(s->image, PW_IMAGE, 0, s->ttsi, PW_TTSI, i));
        must(to->write(1, s->ttsi, PW_TTSI, 0, 0, 0, s->cv, PW_PAYLOAD));
        for (int slot = 0; slot < 12; slot++) {
            must(to->receive(s->image, PW_IMAGE, i, s->cv, PW_PAYLOAD));
            must(to->close(s->image, PW_IMAGE, i, s->answer, PW_ANSWER));
        }
    }
    for (int slot = 0; slot < 30; slot++)
        must(to->close(s->image, PW_IMAGE, s->last, s->answer, PW_ANSWER));
}

static uint8_t call_nothing(struct lent *s)
{
    return (uint8_t)(s->last >> 8);
}

static uint8_t call_empty(struct lent *s)
{
    return s->to->empty(s->fewer, PW_IMAGE);
}

/* The octets past the image are not looked at: the header copied back is the whole image of one path fewer. */
static uint8_t call_add(struct lent *s)
{
    memcpy(s->image, s->fewer, 5);
    return s->to->add(s->image, PW_IMAGE, 0, s->ttsi, PW_TTSI, 7);
}

static uint8_t call_receive(struct lent *s)
{
    return s->to->receive(s->image, PW_IMAGE, s->last, s->cv, PW_PAYLOAD);
}

static uint8_t call_close(struct lent *s)
{
    return s->to->close(s->image, PW_IMAGE, s->last, s->answer, PW_ANSWER);
}

static uint8_t call_server(struct lent *s)
{
    s->on ^= 1;
    return s->to->server(s->image, PW_IMAGE, s->last, s->on);
}

static uint8_t call_write_fdi(struct lent *s)
{
    return s->to->write_fdi(s->image, PW_IMAGE, s->last, s->payload, PW_PAYLOAD);
}

static uint8_t call_write_bdi(struct lent *s)
{
    return s->to->write_bdi(s->image, PW_IMAGE, s->last, s->payload, PW_PAYLOAD);
}

static uint8_t call_write(struct lent *s)
{
    return s->to->write(1, s->ttsi, PW_TTSI, 0, 0, 0, s->payload, PW_PAYLOAD);
}

struct measured {
    const char *name;
    uint8_t (*call)(struct lent *);
};

static const struct measured list[] = {
    {"empty", call_empty},         {"add", call_add},
    {"receive", call_receive},     {"close", call_close},
    {"server", call_server},       {"write_fdi", call_write_fdi},
    {"write_bdi", call_write_bdi}, {"write", call_write},
};

/* ---- time ---- */

enum { ROUNDS = 31 };

static double now(void)
{
    struct timespec t;
    clock_gettime(CLOCK_MONOTONIC, &t);
    return (double)t.tv_sec * 1e9 + (double)t.tv_nsec;
}

static double repeat(const struct measured *m, struct lent *s, unsigned long times)
{
    unsigned refused = 0;
    double start = now();
    for (unsigned long i = 0; i < times; i++)
        refused |= m->call(s);
    double end = now();
    must((uint8_t)refused);
    return (end - start) / (double)times;
}

/* As many calls as take about a millisecond. */
static unsigned long enough(const struct measured *m, struct lent *s)
{
    unsigned long times = 16;
    while (repeat(m, s, times) * (double)times < 1e6)
        times *= 2;
    return times;
}

/* ---- stack ---- */

enum { STACK = 1 << 18 };

static uint8_t stack[STACK];
static ucontext_t here, there;
static const struct measured *on_stack;
static struct lent *on_side;

static void run_on_stack(void)
{
    must(on_stack->call(on_side));
}

static size_t written(const struct measured *m, struct lent *s, uint8_t pattern)
{
    size_t low = 0;

    memset(stack, pattern, STACK);
    on_stack = m;
    on_side = s;
    getcontext(&there);
    there.uc_stack.ss_sp = stack;
    there.uc_stack.ss_size = STACK;
    there.uc_link = &here;
    makecontext(&there, run_on_stack, 0);
    swapcontext(&here, &there);
    while (low < STACK && stack[low] == pattern)
        low++;
    return STACK - low;
}

/* With two patterns, lest the lowest octet written was the pattern. */
static size_t stack_of(const struct measured *m, struct lent *s)
{
    size_t one = written(m, s, 0xa5), other = written(m, s, 0x5a);
    return one > other ? one : other;
}

int main(void)
{
    static const unsigned sizes[3] = {1, 8, 64};
    static const struct measured nothing = {"", call_nothing};

    printf("%-10s %5s %12s %10s %8s %14s %12s\n", "call", "paths", "library ns", "plain ns", "ratio", "library stack",
           "plain stack");
    for (unsigned i = 0; i < sizeof list / sizeof list[0]; i++)
        for (unsigned k = 0; k < 3; k++) {
            double least[2] = {1e30, 1e30};
            unsigned long times[2];
            size_t used[2];
            for (int side = 0; side < 2; side++) {
                prepare(&lent, &both[side], sizes[k]);
                times[side] = enough(&list[i], &lent);
                used[side] = stack_of(&list[i], &lent) - stack_of(&nothing, &lent);
            }
            for (int round = 0; round < ROUNDS; round++)
                for (int side = 0; side < 2; side++) {
                    prepare(&lent, &both[side], sizes[k]);
                    double time = repeat(&list[i], &lent, times[side]);
                    least[side] = time < least[side] ? time : least[side];
                }
            printf("%-10s %5u %12.1f %10.1f %8.2f %14lu %12lu\n", list[i].name, sizes[k], least[0], least[1],
                   least[0] / least[1], (unsigned long)used[0], (unsigned long)used[1]);
        }
    return 0;
}
