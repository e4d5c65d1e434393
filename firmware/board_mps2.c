/* QEMU's mps2-an386: a LAN9118 for the Ethernet and the first UART for text, both asked in turn, without interrupts. */
#include <string.h>

#include "board.h"
#include "config.h"

#define CHIP(offset) (*(volatile uint32_t *)(0x40200000u + (offset)))
#define UART(offset) (*(volatile uint32_t *)(0x40004000u + (offset)))

/* The LAN9118's registers and their bits. */
enum { RX_DATA = 0x00, TX_DATA = 0x20, RX_STATUS = 0x40, TX_STATUS = 0x48, BYTE_TEST = 0x64, RX_CFG = 0x6C, TX_CFG = 0x70 };
enum { HW_CFG = 0x74, RX_FIFO = 0x7C, TX_FIFO = 0x80, MAC_COMMAND = 0xA4, MAC_DATA = 0xA8 };
enum { MUST_BE_ONE = 1 << 20, TX_FIFO_5_KB = 5 << 16, TX_ON = 1 << 1, RX_ERROR = 1 << 15, FIRST_PART = 1 << 13, LAST_PART = 1 << 12 };
enum { CHECKSUM_BYTES = 4, COMMAND_BYTES = 8, WORD = 4 };

/* The registers of the chip's MAC, which are reached through MAC_COMMAND and MAC_DATA. */
enum { MAC_CONTROL = 1, MAC_HIGH = 2, MAC_LOW = 3, MAC_RECEIVES = 1 << 2, MAC_SENDS = 1 << 3 };
#define MAC_BUSY 0x80000000u

#define AWAKE 0x87654321u

/* The UART's. 25 MHz are divided for 115,200 baud. */
enum { UART_DATA = 0x00, UART_STATE = 0x04, UART_CONTROL = 0x08, UART_DIVISOR = 0x10 };
enum { UART_FULL = 1, UART_SENDS = 1, DIVISOR = 217 };

static void put_mac(uint32_t number, uint32_t value)
{
    CHIP(MAC_DATA) = value;
    CHIP(MAC_COMMAND) = MAC_BUSY | number;
    while (CHIP(MAC_COMMAND) & MAC_BUSY)
        ;
}

/* The chip takes frames for our address and for all, and checks their checksum. */
static void start_chip(void)
{
    static const uint8_t mac[] = {OWN_MAC};
    uint32_t low = 0, high = 0;
    memcpy(&low, mac, 4);
    memcpy(&high, mac + 4, 2);
    CHIP(HW_CFG) = MUST_BE_ONE | TX_FIFO_5_KB;
    CHIP(RX_CFG) = 0;
    CHIP(TX_CFG) = TX_ON;
    put_mac(MAC_LOW, low);
    put_mac(MAC_HIGH, high);
    put_mac(MAC_CONTROL, MAC_RECEIVES | MAC_SENDS);
}

/* Whether the chip is awake; it is started when it is first found so. */
static int ready(void)
{
    static int started;
    if (!started && CHIP(BYTE_TEST) == AWAKE) {
        start_chip();
        started = 1;
    }
    return started;
}

/* The line that is on its way out. */
static char waiting[LINE_BYTES];
static uint32_t next, end;

static void feed_uart(void)
{
    while (next < end && !(UART(UART_STATE) & UART_FULL))
        UART(UART_DATA) = (uint8_t)waiting[next++];
}

int line_out(const char *line, uint32_t length)
{
    UART(UART_DIVISOR) = DIVISOR;
    UART(UART_CONTROL) = UART_SENDS;
    feed_uart();
    if (next < end || length > LINE_BYTES)
        return 0;
    memcpy(waiting, line, length);
    next = 0;
    end = length;
    feed_uart();
    return 1;
}

/* A frame stands in the chip as words, its checksum behind it; all of them are taken. */
static void take(uint8_t frame[FRAME_ROOM], uint32_t bytes)
{
    for (uint32_t at = 0; at < bytes; at += WORD) {
        uint32_t word = CHIP(RX_DATA);
        if (at < FRAME_ROOM)
            memcpy(frame + at, &word, WORD);
    }
}

int32_t frame_in(uint8_t frame[FRAME_ROOM])
{
    feed_uart();
    if (!ready() || (CHIP(RX_FIFO) >> 16 & 0xFF) == 0)
        return 0;
    uint32_t status = CHIP(RX_STATUS), bytes = status >> 16 & 0x3FFF;
    take(frame, bytes);
    if (status & RX_ERROR || bytes <= CHECKSUM_BYTES)
        return FRAME_DAMAGED;
    return (int32_t)(bytes - CHECKSUM_BYTES);
}

/* What became of the frames before is not asked: whoever misses a reply asks again. */
int frame_out(const uint8_t frame[FRAME_ROOM], uint32_t length)
{
    if (!ready())
        return 0;
    while (CHIP(TX_FIFO) >> 16 & 0xFF)
        (void)CHIP(TX_STATUS);
    if ((CHIP(TX_FIFO) & 0xFFFF) < FRAME_ROOM + COMMAND_BYTES)
        return 0;
    CHIP(TX_DATA) = FIRST_PART | LAST_PART | length;
    CHIP(TX_DATA) = length;
    for (uint32_t at = 0; at < length; at += WORD) {
        uint32_t word;
        memcpy(&word, frame + at, WORD);
        CHIP(TX_DATA) = word;
    }
    return 1;
}
