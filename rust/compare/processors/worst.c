/* Looks for the packet and the record that take most instructions: packets full of one kind of command, of every kind, and
 * lists full of one kind of record.
 *
 * From the packets follows a bound of all: prices of a packet's byte and of a reply's, such that each packet here takes no
 * more than its bytes are worth, and an empty packet beside. What a command takes does not depend on the commands before it,
 * so that no packet takes more than 1,472 bytes of both are worth; the prices are those for which that is least. Packets of
 * random commands are held against them. */
#include <string.h>

#include "head.h"
#include "machine.h"
#include "ticks.h"

enum { RECORDS = 1000, ROOM_BYTES = 20 * RECORDS, MOST_KINDS = 4000, PART = 64, MIXED = 2000 };

static uint8_t store[HEAD_STORE_BYTES], reply[HEAD_REPLY_BYTES], packet[HEAD_REPLY_BYTES + 600];
static uint8_t list[10 * RECORDS], out[ROOM_BYTES], state[HEAD_PART_BYTES], room[HEAD_PART_ROOM];
static uint32_t pointers[HEAD_POINTERS], length, list_length, out_length, refused, commands;
static uint64_t value, other;

/* The packets that were counted: bytes of packet and reply, and instructions above those of an empty packet. */
static struct {
    uint32_t packet, reply, instructions;
} counted[MOST_KINDS];
static uint32_t counts, empty;

static void run(void)
{
    refused = head_run(packet, length, store, sizeof store, pointers, HEAD_POINTERS, reply, sizeof reply, &value, &other);
}

static void put(uint32_t half)
{
    packet[length++] = (uint8_t)half;
    packet[length++] = (uint8_t)(half >> 8);
}

/* A kind of command: class 0 read, 1 write, 2 info read; mode 0 with address, 1 with address and increment, 2 with neither, 3
 * increment alone, but for an address where the area ends. */
struct kind {
    uint32_t class, space, mode, elements, address;
};

static const char *const classes[] = {"read", "write", "info"};
static const char *const modes[] = {"address", "address, increment", "neither", "increment"};

static uint32_t area(const struct kind *k)
{
    if (k->class == 2)
        return 16;
    return k->space == 0 ? 65536 : k->space == 2 ? 128 : 32;
}

/* Fills the packet with commands of a kind; the reply's bytes are counted too. */
static void fill(const struct kind *k)
{
    uint32_t size = k->space == 0 && k->class < 2 ? 4 : 2, data = k->class == 1 ? size * k->elements : 0;
    uint32_t replied = 0, left = 0;
    length = commands = 0;
    for (uint32_t space = 0; space < HEAD_POINTERS; space++)
        pointers[space] = space < 4 || k->address <= 16 ? k->address : 0;
    if (k->class == 1 && k->space == 2) {
        put(0xD901);
        put(0x1A);
        put(0x5A02);
    }
    for (;;) {
        uint32_t addressed = k->mode < 2 || (k->mode == 3 && left < k->elements);
        uint32_t bytes = 2 + (addressed ? 2 : 0) + data, answer = k->class == 1 ? 0 : size * k->elements;
        if (length + bytes > HEAD_REPLY_BYTES || replied + answer > HEAD_REPLY_BYTES)
            return;
        if (addressed)
            left = (area(k) - k->address) / size;
        put((k->class == 1 ? 0x8000 : 0) | (addressed ? 0x4000 : 0) | (k->class == 2 ? 0x2000 : 0) | k->space << 10 |
            (size == 4 ? 0x200 : 0x100) | (k->mode & 1 ? 0x80 : 0) | k->elements);
        if (addressed)
            put(k->address);
        memset(packet + length, 0, data);
        length += data;
        replied += answer;
        left -= k->elements;
        commands++;
    }
}

static void show(const struct kind *k, uint32_t instructions, uint32_t bytes)
{
    uint32_t hundredths = (uint32_t)((uint64_t)instructions * 100 / bytes);
    say(classes[k->class]);
    say(", ");
    say(modes[k->mode]);
    say(", space ");
    say_number(k->space);
    say(", ");
    say_number(k->elements);
    say(" each at ");
    say_number(k->address);
    say(": ");
    say_number(commands);
    say(" commands take ");
    say_number(instructions);
    say(", for a byte of packet or reply ");
    say_number(hundredths / 100);
    say(hundredths % 100 < 10 ? ".0" : ".");
    say_number(hundredths % 100);
    say("\n");
}

/* Counts one packet; whether it is accepted and takes more for a byte than what was given. */
static int more(const struct kind *k, uint32_t *most, uint32_t *bytes)
{
    fill(k);
    if (commands == 0 || counts == MOST_KINDS)
        return 0;
    run();
    if (refused)
        return 0;
    uint32_t all = length + (uint32_t)value, now = count(run, 2);
    counted[counts].packet = length;
    counted[counts].reply = (uint32_t)value;
    counted[counts++].instructions = now - empty;
    if ((uint64_t)now * *bytes <= (uint64_t)*most * all)
        return 0;
    *most = now;
    *bytes = all;
    return 1;
}

/* Of a class and a mode the kind that takes most for a byte of packet and reply. */
static void kinds(uint32_t class, uint32_t mode)
{
    static const uint32_t spaces[] = {0, 2, 6, 7}, elements[] = {1, 2, 8, 127};
    static const uint32_t addresses[] = {0, 2, 4, 6, 8, 10, 12, 14, 0x1A, 0x1E, 0x20, 0x7E};
    enum { ADDRESSES = sizeof addresses / sizeof addresses[0] };
    struct kind worst = {0, 0, 0, 0, 0};
    uint32_t most = 0, bytes = 1;
    for (uint32_t at = 0; at < 16 * ADDRESSES; at++) {
        struct kind k = {class, spaces[at / 4 % 4], mode, elements[at % 4], addresses[at / 16]};
        if (k.address < area(&k) && more(&k, &most, &bytes))
            worst = k;
    }
    if (most) {
        fill(&worst);
        show(&worst, most, bytes);
    }
}

/* The least price of a reply's byte beside that of a packet's, in parts of an instruction; 0 where the latter is too low. */
static uint32_t price(uint32_t packets)
{
    uint32_t replies = 1;
    for (uint32_t k = 0; k < counts; k++) {
        uint64_t taken = (uint64_t)PART * counted[k].instructions, worth = (uint64_t)packets * counted[k].packet;
        if (taken <= worth)
            continue;
        if (counted[k].reply == 0)
            return 0;
        uint32_t rest = (uint32_t)((taken - worth + counted[k].reply - 1) / counted[k].reply);
        replies = rest > replies ? rest : replies;
    }
    return replies;
}

/* The prices of a packet's and a reply's byte, in parts of an instruction. */
static uint32_t of_packet, of_reply;

static void bound(void)
{
    uint32_t least = UINT32_MAX;
    for (uint32_t packets = 1; packets < 400 * PART; packets++) {
        uint32_t replies = price(packets);
        if (replies && packets + replies < least) {
            least = packets + replies;
            of_packet = packets;
            of_reply = replies;
        }
    }
    say_number(counts);
    say(" packets; no packet takes more than ");
    say_number(empty + (uint32_t)(((uint64_t)least * HEAD_REPLY_BYTES + PART - 1) / PART));
    say(": a byte of packet is worth ");
    say_number(of_packet);
    say("/64 instructions, a byte of reply ");
    say_number(of_reply);
    say("/64, an empty packet takes ");
    say_number(empty);
    say("\n");
}

static uint32_t drawn(uint32_t end)
{
    static uint32_t seed;
    seed = seed * 1664525 + 1013904223;
    return (seed >> 8) % end;
}

/* Fills the packet with random commands of all kinds, most of them good. */
static void mix(void)
{
    static const uint32_t spaces[] = {0, 2, 6, 7}, elements[] = {1, 1, 1, 2, 8, 127};
    uint32_t most = 1 + drawn(HEAD_REPLY_BYTES), high = drawn(2) ? 6 : 3;
    length = 0;
    put(0xD901);
    put(0x1A);
    put(0x5A02);
    for (;;) {
        uint32_t class = drawn(3), space = spaces[drawn(class == 1 ? 3 : 4)], n = elements[drawn(high)];
        uint32_t addressed = space == 2 && class == 1 ? 1 : drawn(2), increment = addressed && n <= 2 ? drawn(2) : 0;
        uint32_t size = space == 0 && class < 2 ? 4 : 2, data = class == 1 ? size * n : 0;
        if (length + 4 + data > most)
            return;
        put((class == 1 ? 0x8000 : 0) | addressed << 14 | (class == 2 ? 0x2000 : 0) | space << 10 |
            (size == 4 ? 0x200 : 0x100) | increment << 7 | n);
        if (addressed)
            put(space == 2 && class == 1 ? 0x20 : 4 * drawn(3));
        memset(packet + length, 0, data);
        length += data;
    }
}

/* Holds packets of random commands against the prices; whether all that are accepted keep to them. */
static int mixed(void)
{
    uint32_t accepted = 0, above = 0;
    for (uint32_t k = 0; k < MIXED; k++) {
        mix();
        run();
        if (refused)
            continue;
        uint64_t worth = (uint64_t)of_packet * length + (uint64_t)of_reply * value;
        uint32_t now = count(run, 2);
        if (refused)
            continue;
        accepted++;
        above += (uint64_t)PART * (now - empty) > worth;
    }
    say_number(accepted);
    say(" packets of random commands, ");
    say_number(above);
    say(" take more than their bytes are worth\n");
    return accepted > MIXED / 4 && above == 0;
}

static void compile(void)
{
    refused = head_compile(list, list_length, out, sizeof out, &value, &other);
}

static void tighten(void)
{
    refused = head_tighten(list, list_length, out, sizeof out, &value, &other);
}

static void tight_check(void)
{
    refused = head_tight_check(list, list_length, out, out_length, &value);
}

static void independent(void)
{
    refused = head_independent(list, list_length, list, 0, &value, &other);
}

/* In parts of as many bytes. */
static uint32_t most;

static void parts(void)
{
    uint32_t at = 0;
    memset(state, 0, sizeof state);
    for (;;) {
        uint32_t some = list_length - at < most ? list_length - at : most;
        refused = head_part(state, sizeof state, list + at, some, at + some == list_length, room, sizeof room, &value, &other);
        at += (uint32_t)value;
        if (refused || (at == list_length && other == 0))
            return;
    }
}

static void byte_parts(void)
{
    most = 1;
    parts();
}

static void whole_parts(void)
{
    most = list_length;
    parts();
}

static void record(uint32_t write, uint32_t space, uint32_t address)
{
    const uint8_t head[6] = {write ? 'W' : 'R', write ? 'R' : 'D', (uint8_t)space, 0, (uint8_t)address, (uint8_t)(address >> 8)};
    memcpy(list + list_length, head, 6);
    memset(list + list_length + 6, 0, 4);
    list_length += write ? 10 : 6;
}

/* Lists of so many records: 0 and 1 rising reads and writes, 2 both by turns, 3 writes of the EEPROM and of the status by
 * turns, 4 and 5 reads and writes of one cell, 6 reads of two spaces by turns. */
enum { LISTS = 7 };

static void make(uint32_t which, uint32_t records)
{
    list_length = 0;
    for (uint32_t k = 0; k < records; k++) {
        uint32_t odd = k & 1, rising = which < 2 ? 4 * k : 64;
        if (which == 3)
            record(1, odd ? 2 : 6, odd ? 0x20 : 4);
        else if (which == 6)
            record(0, odd ? 7 : 6, 4);
        else
            record(which == 2 ? odd : which & 1, 0, rising);
    }
}

/* The most instructions that a record adds, over the lists, and those of an empty list. */
static void records(const char *name, void (*call)(void))
{
    uint32_t most_added = 0, which_most = 0;
    for (uint32_t which = 0; which < LISTS; which++) {
        uint32_t taken[2];
        for (uint32_t k = 0; k < 2; k++) {
            make(which, RECORDS / (2 - k));
            compile();
            out_length = (uint32_t)value;
            taken[k] = count(call, 3);
        }
        uint32_t added = (taken[1] - taken[0]) / (RECORDS / 2);
        if (!refused && added > most_added) {
            most_added = added;
            which_most = which;
        }
    }
    list_length = out_length = 0;
    uint32_t none = count(call, 10);
    say(name);
    say(": a record takes at most ");
    say_number(most_added);
    say(" (list ");
    say_number(which_most);
    say("), an empty list ");
    say_number(none);
    say("\n");
}

int program(const uint8_t *file)
{
    (void)file;
    start_ticks();
    empty = count(run, 100);
    for (uint32_t class = 0; class < 3; class++)
        for (uint32_t mode = 0; mode < 4; mode++)
            kinds(class, mode);
    bound();
    int well = mixed();
    records("head_compile", compile);
    records("head_tighten", tighten);
    records("head_tight_check", tight_check);
    records("head_independent", independent);
    records("head_part, in one part", whole_parts);
    records("head_part, byte by byte", byte_parts);
    return well;
}
