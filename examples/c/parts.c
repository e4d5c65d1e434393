/* A cue list that comes in parts, as a serial line or a file hands it out: each packet is sent as soon as it is finished, and memory is
 * needed for one packet only. */
#include "head.h"

#include <stdio.h>

/* All 0 before a list's first part; afterwards the calls keep it. */
static uint8_t state[HEAD_PART_BYTES];

static void send_packet(const uint8_t *packet, uint64_t length)
{
    printf("packet of %lu bytes:", (unsigned long)length);
    for (uint64_t k = 0; k < length; k++)
        printf(" %02X", (unsigned)packet[k]);
    printf("\n");
}

/* Returns whether the list may go on. */
static int take(const uint8_t *part, uint64_t length, uint32_t last)
{
    static uint8_t out[HEAD_PART_ROOM];
    uint64_t taken = 0, value = 0;

    do {
        uint32_t refused = head_part(state, sizeof state, part, length, last, out, sizeof out, &taken, &value);

        if (refused != HEAD_ACCEPTED) {
            printf("refused %lu at record %lu\n", (unsigned long)refused, (unsigned long)value);
            return 0;
        }
        part += taken;
        length -= taken;
        if (value > 0)
            send_packet(out + 4, value - 4);
    } while (length > 0 || (last && value > 0));
    return 1;
}

int main(void)
{
    /* 369 registers read, from 0 on, in parts of 100 bytes: one more than a reply holds. */
    static uint8_t list[369 * 6];
    uint64_t at = 0;

    for (uint32_t k = 0; k < 369; k++) {
        list[6 * k] = 'R';
        list[6 * k + 1] = 'D';
        list[6 * k + 4] = (uint8_t)(4 * k);
        list[6 * k + 5] = (uint8_t)(4 * k >> 8);
    }
    while (sizeof list - at > 100 && take(list + at, 100, 0))
        at += 100;
    if (take(list + at, sizeof list - at, 1))
        printf("all packets are out\n");
    return 0;
}
