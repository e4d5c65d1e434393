#include "hostmot2.h"

#include <string.h>

enum { COOKIE = 0x0100, IDROM = 0x0400, MODULES = 0x40, PINS = 0x200, PORTS = 2, PORT_WIDTH = 17 };
enum { EEPROM = 65536, INFORMATION = 65696, NAME_BYTES = 16 };
enum { WATCHDOG = 0x02, GPIO = 0x03, LED = 0x80 };

/* Three numbers for a module: tag, version, clock and instances; base, registers and strides; and which registers each
 * instance has. */
#define MODULE(tag, instances, base, registers) ((tag) | 1 << 16 | (instances) << 24), ((base) | (registers) << 16), 0x1F

/* Four characters as a number whose low byte is the first. */
#define TEXT(a, b, c, d) ((uint32_t)(a) | (uint32_t)(b) << 8 | (uint32_t)(c) << 16 | (uint32_t)(d) << 24)

static const uint32_t cookie[] = {
    0x55AACAFE, TEXT('H', 'O', 'S', 'T'), TEXT('M', 'O', 'T', '2'), IDROM,
};

static const uint32_t idrom[] = {
    3, MODULES, PINS, TEXT('M', 'E', 'S', 'A'), TEXT('7', 'I', '9', '2'),
    /* FPGA size and pins */
    9, 144,
    PORTS, PORTS * PORT_WIDTH, PORT_WIDTH,
    /* both clocks in Hz */
    100000000, 200000000,
    /* strides between instances and between registers */
    4, 0x40, 0x100, 4,
};

/* A tag of 0 ends them. */
static const uint32_t modules[] = {
    MODULE(WATCHDOG, 1, 0x0C00, 3), MODULE(GPIO, PORTS, 0x1000, 5), MODULE(LED, 1, 0x0200, 1), 0, 0, 0,
};

static const uint8_t name[NAME_BYTES] = "7I92";
/* Six bytes of a locally administered address, the last one first. */
static const uint8_t mac[] = {0x92, 0x00, 0x00, 0x00, 0x00, 0x02};
/* The versions of LBP16 and of the firmware. */
static const uint8_t versions[] = {3, 0, 16, 0};

static void put_numbers(uint8_t *at, const uint32_t *numbers, uint32_t count)
{
    for (uint32_t k = 0; k < 4 * count; k++)
        at[k] = (uint8_t)(numbers[k / 4] >> 8 * (k % 4));
}

void hostmot2_fill(uint8_t store[HEAD_STORE_BYTES])
{
    /* All pins are plain ones: no second function. */
    static const uint32_t pin = (uint32_t)GPIO << 24;
    put_numbers(store + COOKIE, cookie, sizeof cookie / 4);
    put_numbers(store + IDROM, idrom, sizeof idrom / 4);
    put_numbers(store + IDROM + MODULES, modules, sizeof modules / 4);
    for (uint32_t k = 0; k < PORTS * PORT_WIDTH; k++)
        put_numbers(store + IDROM + PINS + 4 * k, &pin, 1);
    memcpy(store + EEPROM + 0x02, mac, sizeof mac);
    memcpy(store + EEPROM + 0x10, name, sizeof name);
    memcpy(store + INFORMATION, name, sizeof name);
    memcpy(store + INFORMATION + 0x10, versions, sizeof versions);
}

uint32_t hostmot2_flash(const uint8_t *packet, uint32_t length, uint8_t reply[HEAD_REPLY_BYTES])
{
    static const uint8_t asked[] = {0x01, 0x4E, 0x08, 0x00};
    /* a chip of 16 megabits */
    static const uint8_t id[] = {0x14, 0x00, 0x00, 0x00};
    if (length != sizeof asked || memcmp(packet, asked, sizeof asked) != 0)
        return 0;
    memcpy(reply, id, sizeof id);
    return sizeof id;
}
