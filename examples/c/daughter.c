/* A daughter card: its memory has a process table, which says what fields it has; their values are packed into the three registers of
 * its channel and unpacked from them. The lamp panel asks channels, and shows a field's value in the panel's own unit. */
#include "head.h"

#include <stdio.h>
#include <string.h>

/* The table at 0: where its records stand, 6 and 23, ended by 0. Each record: 0xA0, width, type, direction, minimum and maximum as
 * floats, unit and name. A tilt of 12 bits, signed, read; a lamp's level of 8 bits, unsigned, from 0 to 100 %, written. */
static const uint8_t memory[] = {
    6, 0, 23, 0, 0, 0,                                                      /* the table */
    0xA0, 12, 3, 0x00, 0, 0, 0x80, 0xBF, 0, 0, 0x80, 0x3F, 0, 0, 0, 'T', 0, /* from -1 to 1, no unit, "T" */
    0xA0, 8, 2, 0x80, 0, 0, 0, 0, 0, 0, 0xC8, 0x42, 0, 0, '%', 0, 'L', 0    /* from 0 to 100, "%", "L" */
};
#define CARD memory, sizeof memory, 0

enum { INPUTS, OUTPUTS };

static float as_float(uint32_t bits)
{
    float value;

    memcpy(&value, &bits, sizeof value);
    return value;
}

int main(void)
{
    static uint32_t registers[HEAD_REGISTERS];
    uint32_t lamp[HEAD_FIELD_WORDS] = {0}, reading = 0;
    uint64_t inputs = 0, outputs = 0, level[] = {51}, tilt[] = {0};
    uint8_t mask = 0, asked = 0, failed = 0, lowest = 0;

    if (head_table(CARD, &inputs, &outputs) != HEAD_ACCEPTED || head_field(CARD, 1, lamp, HEAD_FIELD_WORDS) != HEAD_ACCEPTED)
        return 1;
    printf("%lu input, %lu output: %s in %s, %lu bits\n", (unsigned long)inputs, (unsigned long)outputs, (const char *)memory + lamp[6],
           (const char *)memory + lamp[5], (unsigned long)lamp[0]);

    /* Channel 2 has registers 6 to 8. What the card sends stands there likewise: -2 in 12 bits. */
    if (head_pack(CARD, OUTPUTS, 2, level, 1, registers, HEAD_REGISTERS) == HEAD_ACCEPTED)
        printf("registers of channel 2: %lX %lX %lX\n", (unsigned long)registers[6], (unsigned long)registers[7], (unsigned long)registers[8]);
    registers[6] = 0xFFE;
    if (head_unpack(CARD, INPUTS, 2, registers, HEAD_REGISTERS, tilt, 1) == HEAD_ACCEPTED)
        printf("tilt %ld\n", (long)(int64_t)tilt[0]);
    level[0] = 256;
    if (head_pack(CARD, OUTPUTS, 2, level, 1, registers, HEAD_REGISTERS) == HEAD_REFUSED_FIELD)
        printf("256 does not fit 8 bits\n");

    /* Channels 2, 4 and 5 are started, and asked. Channels 4, 5 and 7 report a fault; 7 was not asked. */
    if (head_panel_start(0x34, 0x34, &mask) != HEAD_ACCEPTED)
        return 1;
    head_panel_report(mask, 0xB0, &asked, &failed, &lowest);
    printf("%u channels asked, %u failed, the lowest is %u\n", (unsigned)asked, (unsigned)failed, (unsigned)lowest);
    if (head_panel_reading(lamp[1], lamp[0], 51, lamp[3], lamp[4], &reading) == HEAD_ACCEPTED)
        printf("lamp at %.1f %%\n", (double)as_float(reading));
    return 0;
}
