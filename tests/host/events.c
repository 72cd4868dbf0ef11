#include "events.h"

#include "calls.h"
#include "damage.h"

#include <stdio.h>

uint64_t events[EVENTS];

static const char *const event_names[EVENTS] = {
    "LOCV entered",
    "Mismatch entered",
    "Mismerge entered",
    "Excess entered",
    "kind changed while standing",
    "defect left",
    "defect on an FFD path",
    "unavailability declared",
    "record U (cleared)",
    "record B",
    "defect left, still unavailable",
    "0101 sent for the server signal",
    "FDI's DT and DL sent",
    "FDI stands, other kind sends its own",
    "FDI replaced by a later one",
    "FDI ended while LOCV stands",
    "FDI of a life of 300 ended",
    "over 255 expected packets in a slot",
    "over 255 others in a slot",
    "table of 64 filled",
    "copy put back",
    "copy of an earlier slot put back",
    "copy with a defect put back",
    "copy of an unavailable path put back",
    "last slot closed",
    "last slot closed with a record",
};

void must_have_happened(int all)
{
    static const int possible[CALL_NAMES][ANSWERS] = {
        {1, 0, 0, 0, 0, 0, 0, 0, 0, 0, 0, 1, 0, 0}, /* empty */
        {1, 0, 0, 0, 0, 0, 0, 1, 1, 0, 1, 1, 1, 0}, /* add */
        {1, 1, 1, 1, 1, 1, 1, 0, 0, 0, 1, 1, 0, 0}, /* receive */
        {1, 1, 0, 0, 0, 0, 0, 0, 0, 1, 1, 1, 0, 0}, /* close */
        {1, 1, 0, 0, 0, 0, 0, 0, 0, 0, 1, 1, 1, 0}, /* server */
        {1, 1, 0, 0, 0, 0, 0, 0, 0, 0, 1, 1, 0, 1}, /* write_fdi */
        {1, 1, 0, 0, 0, 0, 0, 0, 0, 0, 1, 1, 0, 1}, /* write_bdi */
        {1, 0, 0, 0, 0, 0, 0, 0, 0, 0, 0, 1, 1, 0}, /* write */
    };
    for (int c = 0; c < CALL_NAMES; c++)
        for (int n = 0; n < ANSWERS; n++)
            if ((tally.answers[c][n] > 0) != possible[c][n])
                fail("%s answered %d %llu times", call_names[c], n, (unsigned long long)tally.answers[c][n]);
    for (int e = 0; e < EVENTS; e++)
        if (events[e] == 0)
            fail("never happened: %s", event_names[e]);
    for (int r = 0; r < IMAGE_RULES; r++)
        if (damage_tally.rules[r] == 0)
            fail("no image broke the rule: %s", image_rule_names[r]);
    for (int c = 0; c < CALL_NAMES && all; c++) {
        for (int len = 0; len < PW_IMAGE && has_image((enum call_name)c); len++)
            if (!tally.short_image[c][len])
                fail("%s was never lent an image buffer of %d octets", call_names[c], len);
        for (size_t len = 0; len < out_need((enum call_name)c); len++)
            if (!tally.short_out[c][len])
                fail("%s was never lent %lu octets to write", call_names[c], (unsigned long)len);
    }
}

void summary(uint64_t sequences)
{
    printf("%llu calls in %llu sequences, %llu records U, %llu B, no difference\n", (unsigned long long)tally.calls,
           (unsigned long long)sequences, (unsigned long long)events[RECORD_U], (unsigned long long)events[RECORD_B]);
    for (int c = 0; c < CALL_NAMES; c++) {
        printf("  %-9s", call_names[c]);
        for (int n = 0; n < ANSWERS; n++)
            if (tally.answers[c][n] > 0)
                printf("  %d: %llu", n, (unsigned long long)tally.answers[c][n]);
        putchar('\n');
    }
    for (int e = 0; e < EVENTS; e++)
        printf("  %-37s %8llu\n", event_names[e], (unsigned long long)events[e]);
    printf("  images with one octet changed %llu (still good %llu), made %llu (good %llu); rules broken:\n   ",
           (unsigned long long)damage_tally.changed, (unsigned long long)damage_tally.changed_good,
           (unsigned long long)damage_tally.made, (unsigned long long)damage_tally.made_good);
    for (int r = 1; r < IMAGE_RULES; r++)
        printf(" %llu", (unsigned long long)damage_tally.rules[r]);
    putchar('\n');
}
