/* A show, from its text to the card: the text is assembled to a cue list, the list compiled to packets, and these are run in order. */
#include "head.h"

#include <stdio.h>

static const uint8_t text[] = "name shutter     registers 0x1000\n"
                              "name address.low eeprom    0x20      # low word of the card's IP address\n"
                              "write shutter 0x5A\n"
                              "read  shutter\n"
                              "write address.low 0x20\n";

/* 10 bytes for each line are always enough for a list, twice the list for its packets, and 34 bytes a record for its text. */
static uint8_t list[10 * 5], out[2 * sizeof list], written[34 * 5];

static uint8_t store[HEAD_STORE_BYTES], reply[HEAD_REPLY_BYTES];
static uint32_t pointers[HEAD_POINTERS];

/* Each packet stands behind the mark "LB" and its length. A compiled packet is never refused. */
static void play(const uint8_t *packets, uint64_t length)
{
    while (length > 0) {
        uint64_t bytes = packets[2] | (uint64_t)packets[3] << 8, value = 0, elements = 0;

        head_run(packets + 4, bytes, store, sizeof store, pointers, HEAD_POINTERS, reply, sizeof reply, &value, &elements);
        printf("packet of %lu bytes, %lu elements, values read:", (unsigned long)bytes, (unsigned long)elements);
        for (uint64_t k = 0; k < value; k++)
            printf(" %02X", (unsigned)reply[k]);
        printf("\n");
        packets += 4 + bytes;
        length -= 4 + bytes;
    }
}

int main(void)
{
    static const uint8_t mistaken[] = "name shutter registers 0x1000\nread shuter\n";
    uint64_t list_length = 0, records = 0, length = 0, packets = 0, lines = 0;
    uint32_t refused = head_assemble(text, sizeof text - 1, list, sizeof list, &list_length, &records);

    if (refused != HEAD_ACCEPTED)
        return 1;
    printf("%lu records in %lu bytes\n", (unsigned long)records, (unsigned long)list_length);
    if (head_compile(list, list_length, out, sizeof out, &length, &packets) != HEAD_ACCEPTED)
        return 1;
    printf("%lu packet in %lu bytes\n", (unsigned long)packets, (unsigned long)length);
    play(out, length);

    /* The other way: a list as text. */
    if (head_list_text(list, list_length, written, sizeof written, &length, &lines) != HEAD_ACCEPTED)
        return 1;
    printf("%.*s", (int)length, (const char *)written);

    /* A refused text has the line for its place. */
    refused = head_assemble(mistaken, sizeof mistaken - 1, list, sizeof list, &length, &records);
    if (refused == HEAD_REFUSED_TEXT_NAME)
        printf("line %lu: no such name\n", (unsigned long)length);
    return 0;
}
