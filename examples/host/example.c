/*
 * A node with two paths: path 0 is checked with CV (a slot a second), path 1 with FFD of rate code 3 (a slot each
 * 50 ms). To keep it short both paths close their slots in step.
 *
 * What should be printed:
 *   Path 0 gets a CV in each of slots 1-3, none in 4-20, one in each of 21-29, none in 30-32, one in each of 33-40.
 *     LOCV begins at the first close with three empty slots, 6 (slots 4, 5, 6). At 16 it has stood at eleven closes:
 *     the path is unavailable since 16-12 = 4. The defect ends with the second CV again, at 22. At 29 the last ten
 *     slots (20-29) have nine CV, and the record is handed out: U, from 4, until 29-9 = 20.
 *     LOCV begins again at 32 (slots 30, 31, 32) and ends at 34: a short break, B, from 32-2 = 30, until 34-2 = 32.
 *   Path 1 gets its FFD in every slot, and in slot 10 also a CV of path 0 that has lost its way: Mismerge from 10 until
 *     the last three slots have no stranger, at 13. A path checked with FFD has no records.
 * The restart comes after slot 12, in the middle of the outage: it may change nothing of this.
 */
#include "partnerwedge.h"

#include <stdio.h>
#include <stdlib.h>

enum { CV = 1, FFD = 7, RATE = 3, SLOTS = 40, RESTART_AFTER = 12 };

static const uint8_t ttsi[2][PW_TTSI] = {
    {0, 0, 0, 0, 0, 0, 0, 0, 0, 0, 0xff, 0xff, 192, 0, 2, 1, 0, 0, 0, 7},
    {0, 0, 0, 0, 0, 0, 0, 0, 0, 0, 0xff, 0xff, 192, 0, 2, 1, 0, 0, 0, 8},
};

static void must(uint8_t number, const char *what)
{
    if (number != 0) {
        fprintf(stderr, "%s: refused with %u\n", what, number);
        exit(1);
    }
}

static unsigned long long number_at(const uint8_t *octets, int count)
{
    unsigned long long number = 0;
    while (count-- > 0)
        number = number << 8 | *octets++;
    return number;
}

/* What a real node gets from the line, here made by the library itself. */
static void packet(uint8_t *image, uint64_t lsp, uint8_t type, const uint8_t *from)
{
    uint8_t payload[PW_PAYLOAD];
    must(pw_write(type, from, PW_TTSI, RATE, 0, 0, payload, sizeof payload), "write");
    must(pw_receive(image, PW_IMAGE, lsp, payload, sizeof payload), "receive");
}

static void close_slot(uint8_t *image, uint64_t lsp, int slot, unsigned long long *defect)
{
    uint8_t answer[PW_ANSWER];
    must(pw_close(image, PW_IMAGE, lsp, answer, sizeof answer), "close");

    unsigned long long code = number_at(answer, 2);
    if (code != 0 && *defect == 0)
        printf("path %u: defect %04llx begins at slot %d\n", (unsigned)lsp, code, slot);
    if (code == 0 && *defect != 0)
        printf("path %u: defect %04llx ends at slot %d\n", (unsigned)lsp, *defect, slot);
    *defect = code;
    if (answer[10] != 0)
        printf("%u %c %llu %llu\n", (unsigned)lsp, answer[10] == 1 ? 'U' : 'B', number_at(answer + 11, 8),
               number_at(answer + 19, 8));
}

/* The image is all there is to keep: 5 octets, and 79 for each path. */
static uint8_t *restart(uint8_t *image, const char *name)
{
    size_t size = 5 + 79 * (size_t)image[4];
    FILE *file = fopen(name, "wb");
    if (file == NULL || fwrite(image, 1, size, file) != size || fclose(file) != 0) {
        perror(name);
        exit(1);
    }
    free(image);

    uint8_t *fresh = malloc(PW_IMAGE);
    file = fopen(name, "rb");
    if (fresh == NULL || file == NULL || fread(fresh, 1, PW_IMAGE, file) != size) {
        perror(name);
        exit(1);
    }
    fclose(file);
    return fresh;
}

int main(int argc, char **argv)
{
    unsigned long long defect[2] = {0, 0};
    uint8_t *image = malloc(PW_IMAGE);

    if (argc != 2 || image == NULL) {
        fprintf(stderr, "usage: example file-for-the-image\n");
        return 1;
    }
    must(pw_empty(image, PW_IMAGE), "empty");
    must(pw_add(image, PW_IMAGE, 0, ttsi[0], PW_TTSI, 65000), "add");
    must(pw_add(image, PW_IMAGE, RATE, ttsi[1], PW_TTSI, 65000), "add");
    for (int slot = 1; slot <= SLOTS; slot++) {
        if (slot <= 3 || (slot >= 21 && slot <= 29) || slot >= 33)
            packet(image, 0, CV, ttsi[0]);
        packet(image, 1, FFD, ttsi[1]);
        if (slot == 10)
            packet(image, 1, CV, ttsi[0]);
        close_slot(image, 0, slot, &defect[0]);
        close_slot(image, 1, slot, &defect[1]);
        if (slot == RESTART_AFTER)
            image = restart(image, argv[1]);
    }
    free(image);
    return 0;
}
