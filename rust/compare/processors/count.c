/* Counts the instructions of some calls of the library: those of the benchmark, beside newlib's memcpy of as many bytes as the
 * call has to move, and those that take most. */
#include <string.h>

#include "head.h"
#include "machine.h"
#include "ticks.h"

static uint8_t store[HEAD_STORE_BYTES], reply[HEAD_REPLY_BYTES], packet[HEAD_REPLY_BYTES];
static uint8_t show[8 + 2 * HEAD_REPLY_BYTES], fields[HEAD_FIELDS];
static uint32_t pointers[HEAD_POINTERS], words[128], answer[128];
static uint32_t guard[128], ranges;
static uint64_t value, elements;
static uint32_t length, refused, expected, moved;
static int well;

static void copy(void)
{
    memcpy(reply, packet, moved);
}

static void report(const char *name, void (*call)(void), uint32_t times)
{
    uint32_t instructions = count(call, times);
    say(name);
    say(" ");
    say_number(instructions);
    if (moved) {
        say(", memcpy ");
        say_number(count(copy, 1000));
    }
    say(refused == expected ? "\n" : " and refused\n");
    well &= refused == expected;
    moved = 0;
}

static void run(void)
{
    refused = head_run(packet, length, store, sizeof store, pointers, HEAD_POINTERS, reply, sizeof reply, &value, &elements);
}

static void guarded_run(void)
{
    refused = head_guarded_run(packet, length, store, sizeof store, pointers, HEAD_POINTERS, reply, sizeof reply, guard, 2 * ranges,
                               &value, &elements);
}

static void check(void)
{
    refused = head_check(packet, length, store, sizeof store, pointers, HEAD_POINTERS, &value);
}

static void why(void)
{
    refused = head_why(packet, length, store, sizeof store, pointers, HEAD_POINTERS, &value, &elements, fields, sizeof fields);
}

static void judge(void)
{
    refused = head_judge(show, sizeof show, store, sizeof store, pointers, HEAD_POINTERS, &value, &elements);
}

static void burst(void)
{
    refused = head_spi(words, 128, store, sizeof store, answer, 128, &value);
}

static void put(uint32_t half)
{
    packet[length++] = (uint8_t)half;
    packet[length++] = (uint8_t)(half >> 8);
}

/* So many commands more, each of n elements with so many bytes of data, `step` bytes from one element to the next command's. */
static void add(uint32_t word, uint32_t at, uint32_t step, uint32_t n, uint32_t data, uint32_t commands)
{
    for (; commands; commands--) {
        put(word | n);
        put(at);
        length += data * n;
        at += step * n;
    }
}

/* 127 elements of registers twice, and the rest. */
static void blocks(uint32_t word, uint32_t rest, uint32_t data)
{
    length = 0;
    add(word, 0, 4, 127, data, 2);
    add(word, 1016, 4, rest, data, 1);
}

/* Commands of one register. */
static void singles(uint32_t word, uint32_t data, uint32_t commands)
{
    length = 0;
    add(word, 0, 4, 1, data, commands);
}

static void report_run(const char *name, uint32_t bytes)
{
    moved = bytes;
    report(name, run, 40);
}

/* A recording of the packet and its reply, which is the same at each run. */
static void record(void)
{
    static const uint8_t mark[4] = {'L', 'B', HEAD_REPLY_BYTES & 0xFF, HEAD_REPLY_BYTES >> 8};
    run();
    memcpy(show, mark, 4);
    memcpy(show + 4, packet, sizeof packet);
    memcpy(show + 4 + sizeof packet, mark, 4);
    memcpy(show + 8 + sizeof packet, reply, sizeof reply);
}

/* The packet with guards of 4 and of 64 ranges, of 4 bytes each, that it does not write. */
static void report_guarded(const char *with_4, const char *with_64)
{
    for (uint32_t k = 0; k < 64; k++) {
        guard[2 * k] = 0x8000 + 8 * k;
        guard[2 * k + 1] = 4;
    }
    ranges = 4;
    report(with_4, guarded_run, 40);
    ranges = 64;
    report(with_64, guarded_run, 40);
}

static void words_of_4(void)
{
    blocks(0x4280, 114, 0);
    report_run("reads368", 1472);
    report_guarded("reads368guard4", "reads368guard64");
    blocks(0xC280, 111, 4);
    report_run("writes365", 1460);
    report_guarded("writes365guard4", "writes365guard64");
    blocks(0x4200, 114, 0);
    report_run("reads368still", 1472);
    blocks(0xC200, 111, 4);
    report_run("writes365still", 1460);
}

static void words_of_2(void)
{
    length = 0;
    add(0x4980, 0, 0, 64, 0, 11);
    add(0x4980, 0, 0, 32, 0, 1);
    report_run("reads736of2", 1472);
    length = 0;
    add(0xD900, 0x1A, 0, 1, 0, 1);
    put(0x5A02);
    add(0xC980, 0x20, 0, 48, 2, 14);
    add(0xC980, 0x20, 0, 31, 2, 1);
    report_run("writes703of2", 1406);
    length = 0;
    add(0x5900, 0, 0, 127, 0, 5);
    add(0x5900, 0, 0, 101, 0, 1);
    report_run("reads736of2still", 1472);
    length = 0;
    add(0xD900, 0, 0, 127, 2, 5);
    add(0xD900, 0, 0, 89, 2, 1);
    report_run("writes724of2still", 1448);
    length = 0;
    add(0x6180, 0, 0, 8, 0, 92);
    report_run("info92", 1472);
}

static void small(void)
{
    singles(0x4280, 0, 1);
    report_run("small1", 4);
    singles(0x4280, 0, 10);
    report_run("small10", 40);
    singles(0x4280, 0, 100);
    report_run("small100", 400);
    singles(0x4280, 0, 368);
    report_run("small368", 1472);
    report_guarded("small368guard4", "small368guard64");
    report("check368", check, 40);
    singles(0xC280, 4, 184);
    report_run("small184", 736);
    report_guarded("small184guard4", "small184guard64");
}

static void refusals(void)
{
    blocks(0x4280, 115, 0);
    expected = 12;
    report_run("refused3", 12);
    singles(0xC280, 4, 184);
    length--;
    expected = 11;
    report_run("refused184", 1471);
    expected = 0;
}

/* The packet with most writes, each of one element without an address, which a guard takes most for. */
static void most_writes(void)
{
    pointers[2] = 0;
    for (length = 0; length < HEAD_REPLY_BYTES;) {
        put(0x9901);
        put(0);
    }
    report("writes368of2", run, 10);
    report_guarded("writes368of2guard4", "writes368of2guard64");
}

/* The packet that takes most: info reads of one element without an address. */
static void longest(void)
{
    for (length = 0; length < HEAD_REPLY_BYTES;)
        put(0x3D01);
    report("info736", run, 10);
    report("checkinfo736", check, 10);
    report("whyinfo736", why, 10);
    record();
    report("judgeinfo736", judge, 10);
}

static void report_burst(const char *name, uint32_t header)
{
    words[0] = 0x10000000 | header << 8 | 0xF0;
    moved = 508;
    report(name, burst, 100);
}

static void bursts(void)
{
    report_burst("burstread", 0xAF);
    report_burst("burstwrite", 0xBF);
    report_burst("burstreadstill", 0xA7);
    report_burst("burstwritestill", 0xB7);
}

int program(const uint8_t *file)
{
    (void)file;
    well = 1;
    start_ticks();
    words_of_4();
    words_of_2();
    small();
    refusals();
    bursts();
    most_writes();
    longest();
    return well;
}
