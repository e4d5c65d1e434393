/* A card that answers packets: what a server does with each datagram that comes to port 27181. The reply is sent only where there is
 * one, and of a packet that is refused it is said which command is at fault, and why. */
#include "head.h"

#include <stdio.h>

/* The card, all 0 when fresh. This and the pointers are what is kept from packet to packet. */
static uint8_t store[HEAD_STORE_BYTES];
static uint32_t pointers[HEAD_POINTERS];

static void explain(const uint8_t *packet, uint64_t length)
{
    uint8_t fields[HEAD_FIELDS] = {0}, words[HEAD_SENTENCE_BYTES] = {0};
    uint64_t place = 0, index = 0, bytes = 0;
    uint32_t refused = head_why(packet, length, store, sizeof store, pointers, HEAD_POINTERS, &place, &index, fields, HEAD_FIELDS);

    head_sentence(refused, words, sizeof words, &bytes);
    printf("refused %lu at byte %lu, command %lu: %.*s\n", (unsigned long)refused, (unsigned long)place, (unsigned long)index, (int)bytes,
           (const char *)words);
}

static void send_reply(const uint8_t *reply, uint64_t length)
{
    printf("reply of %lu bytes:", (unsigned long)length);
    for (uint64_t k = 0; k < length; k++)
        printf(" %02X", (unsigned)reply[k]);
    printf("\n");
}

static void answer(const uint8_t *packet, uint64_t length)
{
    static uint8_t reply[HEAD_REPLY_BYTES];
    uint64_t value = 0, elements = 0;
    uint32_t refused = head_run(packet, length, store, sizeof store, pointers, HEAD_POINTERS, reply, sizeof reply, &value, &elements);

    if (refused != HEAD_ACCEPTED) {
        explain(packet, length);
        return;
    }
    printf("accepted, %lu elements moved\n", (unsigned long)elements);
    if (value > 0)
        send_reply(reply, value);
}

/* The packet's commands in words, from a fresh card; what does not fit is not written. */
static void in_words(const uint8_t *packet, uint64_t length)
{
    static uint32_t fresh[HEAD_POINTERS];
    static uint8_t text[1024];
    uint64_t bytes = 0;

    if (head_packet_text(packet, length, fresh, HEAD_POINTERS, text, sizeof text, &bytes) == HEAD_ACCEPTED)
        printf("%.*s", (int)bytes, (const char *)text);
}

int main(void)
{
    /* Write 0x12345678 to register 0x1000, and read it. */
    static const uint8_t shutter[] = {0x81, 0xC2, 0x00, 0x10, 0x78, 0x56, 0x34, 0x12, 0x81, 0x42, 0x00, 0x10};
    /* Open the unlock, and write two cells of the EEPROM from 0x20 on; then the same without the unlock. */
    static const uint8_t address[] = {0x01, 0xD9, 0x1A, 0x00, 0x02, 0x5A, 0x82, 0xC9, 0x20, 0x00, 0x20, 0x00, 0xA8, 0xC0};
    static const uint8_t locked[] = {0x82, 0xC9, 0x20, 0x00, 0x20, 0x00, 0xA8, 0xC0};
    /* Read the last register, and then the next one by the pointer. */
    static const uint8_t past[] = {0x81, 0x42, 0xFC, 0xFF, 0x81, 0x02};
    uint64_t value = 0;

    in_words(shutter, sizeof shutter);
    answer(shutter, sizeof shutter);
    answer(address, sizeof address);
    answer(locked, sizeof locked);
    answer(past, sizeof past);
    printf("packets run: %u\n", (unsigned)(store[HEAD_COUNT_AT] | store[HEAD_COUNT_AT + 1] << 8));

    /* What would be refused can be asked beforehand; that changes nothing. */
    if (head_check(locked, sizeof locked, store, sizeof store, pointers, HEAD_POINTERS, &value) == HEAD_REFUSED_LOCKED)
        printf("the EEPROM is locked again\n");
    return 0;
}
