/* A shutter's guard: bytes of the store that no packet, burst or list may write, whatever it holds. Reading stays free. */
#include "head.h"

#include <stdio.h>

static uint8_t store[HEAD_STORE_BYTES], reply[HEAD_REPLY_BYTES];
static uint32_t pointers[HEAD_POINTERS];

/* Two numbers for each range, its first byte and how many: the shutter's register 0x1000, and the EEPROM from 0x20 to 0x23. */
static const uint32_t guard[] = {HEAD_REGISTERS_AT + 0x1000, 4, HEAD_EEPROM_AT + 0x20, 4};
#define GUARD guard, sizeof guard / sizeof guard[0]

static void say(const char *what, uint32_t refused, uint64_t place)
{
    if (refused == HEAD_REFUSED_PROTECTED)
        printf("%s: a write to a protected cell, at %lu\n", what, (unsigned long)place);
    else
        printf("%s: %s\n", what, refused == HEAD_ACCEPTED ? "accepted" : "refused");
}

int main(void)
{
    /* Read the lamp's register 0x2000, and write the shutter's. */
    static const uint8_t packet[] = {0x81, 0x42, 0x00, 0x20, 0x81, 0xC2, 0x00, 0x10, 1, 0, 0, 0};
    /* Write three registers from 0x0FFC on; read them. */
    static const uint32_t to_write[] = {0x0FFCB830, 1, 2, 3}, to_read[] = {0x0FFCA830, 0, 0, 0};
    /* A list that writes 0x2000 and then the EEPROM's 0x22. */
    static const uint8_t list[] = {'W', 'R', 0, 0, 0x00, 0x20, 1, 0, 0, 0, 'W', 'R', 2, 0, 0x22, 0, 1, 0, 0, 0};
    /* The packet count cannot be protected: each accepted packet changes it. */
    static const uint32_t unsound[] = {0x1000, 4, HEAD_COUNT_AT, 2};
    uint32_t answer[4] = {0};
    uint64_t value = 0, elements = 0;
    uint32_t refused;

    /* Once, at the start. */
    if (head_guard(GUARD, &value) != HEAD_ACCEPTED)
        return 1;
    printf("the guard has %lu ranges\n", (unsigned long)value);
    if (head_guard(unsound, 4, &value) == HEAD_REFUSED_GUARD)
        printf("another one is not sound in range %lu\n", (unsigned long)value);

    refused = head_guarded_check(packet, sizeof packet, store, sizeof store, pointers, HEAD_POINTERS, GUARD, &value);
    say("checked", refused, value);
    refused = head_guarded_run(packet, sizeof packet, store, sizeof store, pointers, HEAD_POINTERS, reply, sizeof reply, GUARD, &value,
                               &elements);
    say("packet", refused, value);
    refused = head_guarded_run(packet, 4, store, sizeof store, pointers, HEAD_POINTERS, reply, sizeof reply, GUARD, &value, &elements);
    say("its first command alone", refused, value);
    refused = head_guarded_spi(to_write, 4, store, sizeof store, answer, 4, GUARD, &value);
    say("burst that writes", refused, value);
    refused = head_guarded_spi(to_read, 4, store, sizeof store, answer, 4, GUARD, &value);
    say("burst that reads", refused, value);

    /* Before the show: of a list that passes every compiled packet passes. */
    refused = head_guarded_list(list, sizeof list, GUARD, &value);
    say("list", refused, value);
    return 0;
}
