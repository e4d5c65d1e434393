/* A cue list in fewer bytes, packets of one's own making, and two lists beside each other. */
#include "head.h"

#include <stdio.h>

/* Read register 0x1000 three times. */
static const uint8_t watch[] = {'R', 'D', 0, 0, 0x00, 0x10, 'R', 'D', 0, 0, 0x00, 0x10, 'R', 'D', 0, 0, 0x00, 0x10};
/* Write register 0x2000; write register 0x1000. */
static const uint8_t lamp[] = {'W', 'R', 0, 0, 0x00, 0x20, 1, 0, 0, 0};
static const uint8_t shutter[] = {'W', 'R', 0, 0, 0x00, 0x10, 1, 0, 0, 0};

static void together(const char *name, const uint8_t *list, uint64_t length)
{
    uint64_t which = 0, place = 0;
    uint32_t refused = head_independent(watch, sizeof watch, list, length, &which, &place);

    if (refused == HEAD_REFUSED_CLASH)
        printf("watch and %s clash in record %lu of %s\n", name, (unsigned long)place, name);
    else if (refused == HEAD_ACCEPTED)
        printf("watch and %s may be played in either order\n", name);
}

int main(void)
{
    /* Both take room for the compiler's own output: twice the list is always enough. */
    static uint8_t out[2 * sizeof watch];
    /* One packet with a count of 3 and no increment; and one with a count of 2. */
    static const uint8_t own[] = {'L', 'B', 4, 0, 0x03, 0x42, 0x00, 0x10}, short_by_one[] = {'L', 'B', 4, 0, 0x02, 0x42, 0x00, 0x10};
    uint64_t bytes = 0, packets = 0, value = 0;

    head_compile(watch, sizeof watch, out, sizeof out, &bytes, &packets);
    printf("compiled: %lu bytes\n", (unsigned long)bytes);
    head_tighten(watch, sizeof watch, out, sizeof out, &bytes, &packets);
    printf("tightened: %lu bytes\n", (unsigned long)bytes);

    /* Whoever makes packets for a list asks whether they do what it says. */
    if (head_tight_check(watch, sizeof watch, own, sizeof own, &value) == HEAD_ACCEPTED)
        printf("own packets: %lu, good\n", (unsigned long)value);
    if (head_tight_check(watch, sizeof watch, short_by_one, sizeof short_by_one, &value) == HEAD_REFUSED_OUTPUT)
        printf("own packets: one read is missing\n");

    together("lamp", lamp, sizeof lamp);
    together("shutter", shutter, sizeof shutter);
    return 0;
}
