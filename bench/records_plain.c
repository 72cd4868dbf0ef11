/* The records program in plain C, to measure the other beside: events in, records out, in memory that doesn't grow. */
#define _POSIX_C_SOURCE 200809L
#include <errno.h>
#include <stdint.h>
#include <stdio.h>
#include <string.h>
#include <unistd.h>

enum { ADD = 0x11, PACKET = 0x12, CLOSE = 0x13, SERVER = 0x14 };
enum { CV = 1, FDI = 2, BDI = 3, FFD = 7 };
enum { DONE, NO_LSP, LENGTH, PARITY, TYPE, RULE, OTHER, FULL, TWICE, LAST_SLOT, GIVEN = 12 };
enum { PATHS = 64, PAYLOAD = 44, TTSI = 20, SLOTS = 10, STOOD = 11 };
enum { MOST = 12 }; /* counts above it change no answer: Excess begins at 5, clearing ends at 11 */

static const uint64_t most_slots = UINT64_C(1000000000000);

struct path {
    uint64_t closed, entered, since; /* entered and since are 0 where no defect stands, where it is available */
    uint32_t e3, u3, e10, u10;       /* over the last closed slots */
    uint32_t e_open, u_open;
    uint8_t e[SLOTS], u[SLOTS]; /* rings: slot n is at n modulo ten */
    uint8_t place;              /* of the open slot */
    uint8_t kind, server;
    uint8_t ttsi[TTSI];
};

static struct path paths[PATHS];
static unsigned path_count;

/* ---- output ---- */

static char out[1 << 16];
static size_t out_length;

static void flush(void)
{
    size_t done = 0;
    while (done < out_length) {
        ssize_t n = write(1, out + done, out_length - done);
        if (n < 0 && errno == EINTR)
            continue;
        if (n <= 0)
            _exit(1); /* nobody reads */
        done += (size_t)n;
    }
    out_length = 0;
}

static void put_number(uint64_t number, char last)
{
    char digits[20];
    int n = 0;
    do
        digits[n++] = (char)('0' + number % 10);
    while (number /= 10);
    while (n > 0)
        out[out_length++] = digits[--n];
    out[out_length++] = last;
}

static void put_word(const char *word)
{
    size_t length = strlen(word);
    memcpy(out + out_length, word, length);
    out_length += length;
}

/* Room for the longest line. */
static void line(void)
{
    if (out_length > sizeof out - 128)
        flush();
}

static void put_record(unsigned lsp, char letter, uint64_t from, uint64_t until)
{
    line();
    put_number(lsp, ' ');
    out[out_length++] = letter;
    out[out_length++] = ' ';
    put_number(from, ' ');
    put_number(until, '\n');
}

/* ---- payloads ---- */

static uint16_t get16(const uint8_t *at)
{
    return (uint16_t)(at[0] << 8 | at[1]);
}

static uint64_t load64(const uint8_t *at)
{
    uint64_t word;
    memcpy(&word, at, 8);
    return word;
}

static uint32_t load32(const uint8_t *at)
{
    uint32_t word;
    memcpy(&word, at, 4);
    return word;
}

/* The exclusive-or of all 22 words, BIP16's own too, is 0 exactly when it is right, in either order of octets. */
static int parity_good(const uint8_t *p)
{
    uint64_t x = load64(p) ^ load64(p + 8) ^ load64(p + 16) ^ load64(p + 24) ^ load64(p + 32) ^ load32(p + 40);
    x ^= x >> 32;
    x ^= x >> 16;
    return (x & 0xffff) == 0;
}

static int ttsi_good(const uint8_t *ttsi)
{
    return ttsi[16] == 0 && ttsi[17] == 0;
}

static int dt_good(uint16_t dt)
{
    return dt == 0x0101 || dt == 0x0102 || (dt >= 0x0201 && dt <= 0x0204) || dt == 0x02ff;
}

/* Octets 28 to 41, zero in every row. */
static int zeros(const uint8_t *p)
{
    return (load64(p + 28) | load64(p + 34)) == 0;
}

static uint8_t read_payload(const uint8_t *p, size_t length)
{
    int good;
    if (length != PAYLOAD)
        return LENGTH;
    if (!parity_good(p))
        return PARITY;
    switch (p[0]) {
    case CV:
        good = get16(p + 2) == 0 && load32(p + 24) == 0;
        break;
    case FFD:
        good = get16(p + 2) == 0 && p[24] >= 1 && p[24] <= 6 && p[25] == 0 && get16(p + 26) == 0;
        break;
    case FDI:
    case BDI:
        good = dt_good(get16(p + 2));
        break;
    default:
        return TYPE;
    }
    return good && p[1] == 0 && ttsi_good(p + 4) && zeros(p) ? DONE : RULE;
}

/* ---- events ---- */

static uint8_t add(const uint8_t *content)
{
    if (content[0] > 6 || !ttsi_good(content + 1))
        return GIVEN;
    for (unsigned i = 0; i < path_count; i++)
        if (memcmp(paths[i].ttsi, content + 1, TTSI) == 0)
            return TWICE;
    if (path_count == PATHS)
        return FULL;
    struct path *path = &paths[path_count++];
    path->kind = content[0];
    memcpy(path->ttsi, content + 1, TTSI);
    return DONE;
}

static uint8_t receive(struct path *path, const uint8_t *p, size_t length)
{
    uint8_t number = read_payload(p, length);
    if (number != DONE || p[0] == FDI || p[0] == BDI)
        return number; /* an FDI changes what goes out, and no record */
    if (memcmp(p + 4, path->ttsi, TTSI) != 0) {
        path->u_open = 1;
        return DONE;
    }
    if (path->kind == 0 ? p[0] != CV : p[0] != FFD || p[24] != path->kind)
        return OTHER;
    path->e_open += path->e_open < MOST;
    return DONE;
}

/* The open slot goes in, and those three and ten slots back go out. */
static void roll(struct path *path)
{
    unsigned now = path->place, three = now >= 3 ? now - 3 : now + 7;
    path->e3 += path->e_open - path->e[three];
    path->u3 += path->u_open - path->u[three];
    path->e10 += path->e_open - path->e[now];
    path->u10 += path->u_open - path->u[now];
    path->e[now] = (uint8_t)path->e_open;
    path->u[now] = (uint8_t)path->u_open;
    path->e_open = path->u_open = 0;
    path->place = now == SLOTS - 1 ? 0 : (uint8_t)(now + 1);
    path->closed++;
}

static uint8_t close_slot(unsigned lsp)
{
    struct path *path = &paths[lsp];
    if (path->closed == most_slots)
        return LAST_SLOT;
    roll(path);
    uint64_t n = path->closed, entered = path->entered;
    if (n >= 3) {
        if (path->u3 > 0 || path->e3 == 0 || path->e3 >= 5)
            path->entered = entered ? entered : n;
        else if (path->e3 >= 2)
            path->entered = 0;
    }
    if (path->kind != 0)
        return DONE;
    if (path->since) {
        if (!path->entered && path->e10 >= 9 && path->e10 <= 11 && path->u10 == 0) {
            put_record(lsp, 'U', path->since, n - 9);
            path->since = 0;
        }
    } else if (path->entered) {
        if (n - path->entered + 1 >= STOOD)
            path->since = n - 12;
    } else if (entered) {
        put_record(lsp, 'B', entered - 2, n - 2);
    }
    return DONE;
}

static uint8_t event(uint8_t tag, const uint8_t *content, size_t length)
{
    if (tag == ADD)
        return add(content);
    unsigned lsp = content[0];
    if (lsp >= path_count)
        return NO_LSP;
    if (tag == PACKET)
        return receive(&paths[lsp], content + 1, length - 1);
    if (tag == CLOSE)
        return close_slot(lsp);
    paths[lsp].server = content[1];
    return DONE;
}

/* ---- input ---- */

static uint8_t in[1 << 16];
static size_t in_at, in_end;

/* Moves what is left to the front and reads on; 0 at the end of the input. */
static int more(void)
{
    flush(); /* before it may wait */
    memmove(in, in + in_at, in_end - in_at);
    in_end -= in_at;
    in_at = 0;
    for (;;) {
        ssize_t n = read(0, in + in_end, sizeof in - in_end);
        if (n > 0) {
            in_end += (size_t)n;
            return 1;
        }
        if (n == 0)
            return 0;
        if (errno != EINTR) {
            perror("records_plain: standard input");
            return 0;
        }
    }
}

static int length_good(uint8_t tag, size_t length)
{
    switch (tag) {
    case ADD:
        return length == 25;
    case PACKET:
        return length >= 1 && length <= 1024;
    case CLOSE:
        return length == 1;
    case SERVER:
        return length == 2;
    default:
        return 0;
    }
}

int main(void)
{
    uint64_t offset = 0, index = 0;
    for (;;) {
        /* A field that can be seen to be bad is, though more of it may come. */
        size_t have = in_end - in_at;
        const uint8_t *at = in + in_at;
        int bad = have >= 1 && (at[0] < ADD || at[0] > SERVER);
        size_t length = have >= 3 ? get16(at + 1) : 0;
        bad = bad || (have >= 3 && !length_good(at[0], length));
        if (!bad && (have < 3 || have < 3 + length)) {
            if (more())
                continue;
            bad = have > 0;
            if (!bad)
                break;
        }
        bad = bad || (at[0] == SERVER && at[4] > 1);
        if (bad) {
            put_word("bad ");
            put_number(offset, '\n');
            flush();
            return 0;
        }
        index++;
        uint8_t number = event(at[0], at + 3, length);
        if (number != DONE) {
            line();
            put_word("r ");
            put_number(index, ' ');
            put_number(number, '\n');
        }
        in_at += 3 + length;
        offset += 3 + length;
    }
    put_word("end ");
    put_number(index, '\n');
    flush();
    return 0;
}
