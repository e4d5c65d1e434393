/* Registers passed to a motion card over SPI: a burst is a header and its words, and as many words come back. Headers, and the command
 * words of packets, are put together from their fields and taken apart. */
#include "head.h"

#include <stdio.h>

static uint8_t store[HEAD_STORE_BYTES];

static void burst(const uint32_t *words, uint64_t length)
{
    static uint32_t answer[128];
    uint64_t value = 0;
    uint32_t refused = head_spi(words, length, store, sizeof store, answer, length, &value);

    if (refused != HEAD_ACCEPTED) {
        printf("refused %lu\n", (unsigned long)refused);
        return;
    }
    printf("%lu elements done, answer", (unsigned long)value);
    for (uint64_t k = 0; k < length; k++)
        printf(" %08lX", (unsigned long)answer[k]);
    printf("\n");
}

int main(void)
{
    /* Address 0x1000, 0xA to read and 0xB to write, increment, count 3. */
    static const uint32_t to_write[HEAD_HEADER_FIELDS] = {0x1000, 0xB, 1, 3}, to_read[HEAD_HEADER_FIELDS] = {0x1000, 0xA, 1, 3};
    /* Read, an address follows, no info area, space 0, elements of 4 bytes, increment, count 5. */
    static const uint8_t five[HEAD_FIELDS] = {0, 1, 0, 0, 2, 1, 5};
    uint32_t words[] = {0, 0x11, 0x22, 0x33}, fields[HEAD_HEADER_FIELDS] = {0};
    uint8_t command[HEAD_FIELDS] = {0};
    uint16_t word = 0;

    head_header_word(to_write, HEAD_HEADER_FIELDS, &words[0]);
    burst(words, 4);
    head_header_word(to_read, HEAD_HEADER_FIELDS, &words[0]);
    burst(words, 4);
    /* The burst ended early: what came is done. */
    burst(words, 3);
    /* The last register, and one more. */
    words[0] = 0xFFFCA820;
    burst(words, 3);

    head_header(0x600CB040, fields, HEAD_HEADER_FIELDS);
    printf("%s 0x%04lX, %s, %lu words\n", fields[1] == 0xB ? "write" : "read", (unsigned long)fields[0],
           fields[2] ? "increment" : "no increment", (unsigned long)fields[3]);

    if (head_word(five, HEAD_FIELDS, &word) == HEAD_ACCEPTED)
        printf("command word %04X, in a packet %02X %02X\n", (unsigned)word, word & 0xFFu, (unsigned)word >> 8);
    head_fields(0xC982, command, HEAD_FIELDS);
    printf("%s space %u, count %u\n", command[0] ? "write to" : "read of", (unsigned)command[3], (unsigned)command[6]);
    return 0;
}
