/* A damaged cue list: what is wrong with it, and what can be saved. */
#include "head.h"

#include <stdio.h>

/* Write register 0x2000, read it, read register 0x2004; the first byte of the second record was lost. */
static const uint8_t list[] = {'W', 'R', 0, 0, 0x00, 0x20, 1, 0, 0, 0, 'D', 0, 0, 0x00, 0x20, 'R', 'D', 0, 0, 0x04, 0x20};

int main(void)
{
    /* As many bytes as the list has, and an entry for every seven bytes and one more, are always room enough. */
    static uint8_t kept[sizeof list];
    static uint64_t log[2 * (sizeof list / 7 + 1)];
    uint64_t place = 0, offset = 0, cause = 0, bytes = 0, entries = 0;
    uint32_t refused = head_list_why(list, sizeof list, &place, &offset, &cause);

    if (refused == HEAD_REFUSED_RECORD)
        printf("record %lu, at byte %lu: %s\n", (unsigned long)place, (unsigned long)offset,
               cause == 1 ? "the mark is unknown" : "the list ends inside the record");
    if (head_salvage(list, sizeof list, kept, sizeof kept, log, sizeof log / sizeof log[0], &bytes, &entries) != HEAD_ACCEPTED)
        return 1;
    printf("%lu of %lu bytes kept\n", (unsigned long)bytes, (unsigned long)sizeof list);
    for (uint64_t k = 0; k < entries; k++)
        printf("skipped: %lu bytes from byte %lu on\n", (unsigned long)log[2 * k + 1], (unsigned long)log[2 * k]);
    /* What is kept is a good list. */
    printf("now %s\n", head_list_why(kept, bytes, &place, &offset, &cause) == HEAD_ACCEPTED ? "accepted" : "refused");
    return 0;
}
