/* Every function of include/head.h called from C, or C++, on the examples of docs/RULES.md and README.md. Ends with 1 where an
 * answer, or a byte that was lent, is not what they have. tools/header compiles, links and runs it. */
#include "head.h"

#include <stdio.h>
#include <string.h>

static unsigned long checked, wrong;

static void is(int line, const char *what, uint64_t found, uint64_t expected)
{
    checked++;
    if (found != expected) {
        wrong++;
        printf("tests/head.c:%d: %s is %llu, expected %llu\n", line, what, (unsigned long long)found, (unsigned long long)expected);
    }
}

static void same(int line, const char *what, const void *found, const void *expected, size_t n)
{
    const uint8_t *a = (const uint8_t *)found, *b = (const uint8_t *)expected;
    size_t k = 0;
    checked++;
    while (k < n && a[k] == b[k])
        k++;
    if (k < n) {
        wrong++;
        printf("tests/head.c:%d: byte %lu of %s is %02X, expected %02X\n", line, (unsigned long)k, what, a[k], b[k]);
    }
}

#define IS(found, expected) is(__LINE__, #found, (uint64_t)(found), (uint64_t)(expected))
#define SAME(found, expected, n) same(__LINE__, #found, found, expected, n)

/* The card: all 0 when fresh. `before` is a copy of the store, to see what a call changed. */
static uint8_t store[HEAD_STORE_BYTES], before[HEAD_STORE_BYTES], reply[HEAD_REPLY_BYTES];
static uint32_t pointers[HEAD_POINTERS];

/* Cue lists: P7, with the output that document 01 gives; one that is refused with 24 at 1; one register read three times. */
static const uint8_t p7[] = { 'W', 'R', 2, 0, 0x20, 0, 0x20, 0, 0, 0, 'W', 'R', 2, 0, 0x22, 0, 0xA8, 0xC0, 0, 0 };
static const uint8_t p7_output[] = { 'L', 'B', 14, 0, 1, 0xD9, 0x1A, 0, 2, 0x5A, 0x82, 0xC9, 0x20, 0, 0x20, 0, 0xA8, 0xC0 };
static const uint8_t too_wide[] = { 'R', 'D', 0, 0, 0, 0, 'W', 'R', 2, 0, 0x20, 0, 0, 0, 1, 0 };
static const uint8_t same_cell[] = { 'R', 'D', 0, 0, 0, 0x10, 'R', 'D', 0, 0, 0, 0x10, 'R', 'D', 0, 0, 0, 0x10 };

/* The packet of README, "A packet, byte by byte": whole, and without the unlock. */
#define UNLOCKED (p7_output + 4), sizeof p7_output - 4
#define LOCKED (p7_output + 10), sizeof p7_output - 10

static void packets(void)
{
    static const uint8_t read_back[] = { 0x82, 0x49, 0x20, 0, 1, 0x59, 0x0A, 0 };
    static const uint8_t values[] = { 0x20, 0, 0xA8, 0xC0, 1, 0 };
    static const uint8_t zeros[HEAD_REPLY_BYTES] = { 0 };
    static const uint32_t moved[HEAD_POINTERS] = { 0, 0x24, 0x1A, 0, 0, 0, 0, 0 };
    static const uint32_t unmoved[HEAD_POINTERS] = { 0 };
    uint64_t value = 99, elements = 99;

    IS(head_check(LOCKED, store, sizeof store, pointers, HEAD_POINTERS, &value), 10);
    IS(value, 0);
    IS(head_run(LOCKED, store, sizeof store, pointers, HEAD_POINTERS, reply, sizeof reply, &value, &elements), 10);
    IS(value, 0);
    IS(elements, 0);
    SAME(store, before, sizeof store);
    SAME(pointers, unmoved, sizeof pointers);

    IS(head_check(UNLOCKED, store, sizeof store, pointers, HEAD_POINTERS, &value), 0);
    IS(value, 0);
    SAME(store, before, sizeof store);
    IS(head_run(UNLOCKED, store, sizeof store, pointers, HEAD_POINTERS, reply, sizeof reply, &value, &elements), 0);
    IS(value, 0);
    IS(elements, 3);
    memcpy(before + HEAD_EEPROM_AT + 0x20, values, 4);
    before[HEAD_COUNT_AT] = 1;
    SAME(store, before, sizeof store);
    SAME(pointers, moved, sizeof pointers);

    IS(head_run(read_back, sizeof read_back, store, sizeof store, pointers, HEAD_POINTERS, reply, sizeof reply, &value, &elements), 0);
    IS(value, 6);
    IS(elements, 3);
    SAME(reply, values, 6);
    SAME(reply + 6, zeros, sizeof reply - 6);
    before[HEAD_COUNT_AT] = 2;
    SAME(store, before, sizeof store);

    IS(head_run(LOCKED, store, sizeof store - 1, pointers, HEAD_POINTERS, reply, sizeof reply, &value, &elements), 1);
    IS(head_run(LOCKED, store, sizeof store, pointers, HEAD_POINTERS - 1, reply, sizeof reply, &value, &elements), 1);
    IS(head_check(zeros, sizeof zeros, store, sizeof store, pointers, HEAD_POINTERS, &value), 6);
    IS(head_check(store, HEAD_REPLY_BYTES + 1, before, sizeof before, pointers, HEAD_POINTERS, &value), 2);
}

static void places(void)
{
    /* The first element of each space, read by its address 0. */
    static const uint8_t firsts[] = { 0x01, 0x42, 0, 0, 0x01, 0x49, 0, 0, 0x01, 0x59, 0, 0, 0x01, 0x5D, 0, 0 };
    static const uint8_t values[] = { 10, 11, 12, 13, 20, 21, 60, 61, 70, 71 };
    uint64_t value = 99, elements = 99;

    memset(store, 0, sizeof store);
    memset(pointers, 0, sizeof pointers);
    memcpy(store + HEAD_REGISTERS_AT, values, 4);
    memcpy(store + HEAD_EEPROM_AT, values + 4, 2);
    memcpy(store + HEAD_STATUS_AT, values + 6, 2);
    memcpy(store + HEAD_INFORMATION_AT, values + 8, 2);
    IS(head_run(firsts, sizeof firsts, store, sizeof store, pointers, HEAD_POINTERS, reply, sizeof reply, &value, &elements), 0);
    IS(value, sizeof values);
    SAME(reply, values, sizeof values);
    memset(store, 0, sizeof store);
    memset(before, 0, sizeof before);
}

static void reasons(void)
{
    /* Document 01: the last cell, and then the next by the pointer. */
    static const uint8_t past[] = { 0x81, 0x42, 0xFC, 0xFF, 0x81, 0x02 };
    static const uint8_t past_fields[HEAD_FIELDS] = { 0, 0, 0, 0, 2, 1, 1 };
    static const uint8_t none[HEAD_FIELDS] = { 0 };
    uint8_t fields[HEAD_FIELDS] = { 9, 9, 9, 9, 9, 9, 9 };
    uint64_t place = 99, index = 99;

    IS(head_why(past, sizeof past, store, sizeof store, pointers, HEAD_POINTERS, &place, &index, fields, HEAD_FIELDS), 8);
    IS(place, 4);
    IS(index, 1);
    SAME(fields, past_fields, HEAD_FIELDS);
    IS(head_why(past, 4, store, sizeof store, pointers, HEAD_POINTERS, &place, &index, fields, HEAD_FIELDS), 0);
    IS(place, 0);
    IS(index, 0);
    SAME(fields, none, HEAD_FIELDS);
    IS(head_why(past, sizeof past, store, sizeof store, pointers, HEAD_POINTERS, &place, &index, fields, HEAD_FIELDS - 1), 13);
}

static void words(void)
{
    /* P1: read, address, space 0, 4 bytes, increment, 5. */
    static const uint8_t p1[HEAD_FIELDS] = { 0, 1, 0, 0, 2, 1, 5 };
    static const uint8_t too_many[HEAD_FIELDS] = { 0, 1, 0, 0, 2, 1, 128 };
    uint8_t fields[HEAD_FIELDS] = { 0 };
    uint16_t word = 7;

    IS(head_fields(0x4285, fields, HEAD_FIELDS), 0);
    SAME(fields, p1, HEAD_FIELDS);
    IS(head_fields(0xFFFF, fields, HEAD_FIELDS - 1), 13);
    SAME(fields, p1, HEAD_FIELDS);
    IS(head_word(too_many, HEAD_FIELDS, &word), 13);
    IS(word, 7);
    IS(head_word(p1, HEAD_FIELDS, &word), 0);
    IS(word, 0x4285);
}

static void headers(void)
{
    /* P5: read 0x1000, increment, 3; and a count that no header has. */
    static const uint32_t p5[] = { 0x1000, 0xA, 1, 3 };
    static const uint32_t too_many[] = { 0x1000, 0xA, 1, 128 };
    static const uint32_t unknown[] = { 0x1000, 0xC, 1, 128 };
    uint32_t fields[] = { 9, 9, 9, 9 }, word = 7;

    IS(head_header(0x1000A83F, fields, 4), 0);
    SAME(fields, p5, sizeof p5);
    IS(head_header(0, fields, 3), 13);
    SAME(fields, p5, sizeof p5);
    IS(head_header_word(too_many, 4, &word), 33);
    IS(head_header_word(unknown, 4, &word), 32);
    IS(head_header_word(unknown, 3, &word), 13);
    IS(word, 7);
    IS(head_header_word(p5, 4, &word), 0);
    IS(word, 0x1000A830);
}

static void bursts(void)
{
    /* P5's and P6's words with other counts, and a header alone. */
    static const uint32_t sent[] = { 0x1000B820, 0x11223344, 0x55667788 };
    static const uint32_t asked[] = { 0x1000A820, 0, 0 };
    static const uint32_t read[] = { 0, 0x11223344, 0x55667788 };
    static const uint32_t nothing[] = { 0, 0, 0 };
    static const uint8_t cells[] = { 0x44, 0x33, 0x22, 0x11, 0x88, 0x77, 0x66, 0x55 };
    static const uint32_t past[] = { 0xFFFCA820, 0 };
    uint32_t answer[] = { 9, 9, 9 };
    uint64_t value = 99;

    IS(head_spi(sent, 3, store, sizeof store, answer, 3, &value), 0);
    IS(value, 2);
    SAME(answer, nothing, sizeof nothing);
    memcpy(before + 0x1000, cells, sizeof cells);
    SAME(store, before, sizeof store);
    IS(head_spi(asked, 3, store, sizeof store, answer, 3, &value), 0);
    IS(value, 2);
    SAME(answer, read, sizeof read);
    IS(head_spi(asked, 1, store, sizeof store, answer, 1, &value), 0);
    IS(value, 0);
    IS(head_spi(past, 2, store, sizeof store, answer, 2, &value), 35);
    IS(head_spi(past, 2, store, sizeof store, answer, 3, &value), 1);
    IS(head_spi(sent, 0, store, sizeof store, answer, 0, &value), 31);
    IS(value, 0);
    SAME(store, before, sizeof store);
}

static void lists(void)
{
    static const uint8_t one_command[] = { 'L', 'B', 4, 0, 3, 0x42, 0, 0x10 };
    uint8_t out[64];
    uint64_t bytes = 99, packets = 99, value = 99;

    memset(out, 0xEE, sizeof out);
    IS(head_compile(p7, sizeof p7, out, sizeof p7_output - 1, &bytes, &packets), 26);
    IS(bytes, sizeof p7_output);
    IS(packets, 0);
    IS(out[0], 0xEE);
    IS(head_compile(p7, sizeof p7, out, sizeof out, &bytes, &packets), 0);
    IS(bytes, sizeof p7_output);
    IS(packets, 1);
    SAME(out, p7_output, sizeof p7_output);
    IS(out[sizeof p7_output], 0xEE);
    IS(head_compile(too_wide, sizeof too_wide, out, sizeof out, &bytes, &packets), 24);
    IS(bytes, 1);
    IS(head_compile(p7, 0, out, sizeof out, &bytes, &packets), 0);
    IS(bytes, 0);
    IS(packets, 0);

    IS(head_tighten(same_cell, sizeof same_cell, out, sizeof out, &bytes, &packets), 0);
    IS(bytes, sizeof one_command);
    IS(packets, 1);
    SAME(out, one_command, sizeof one_command);
    IS(head_tighten(too_wide, sizeof too_wide, out, sizeof out, &bytes, &packets), 24);
    IS(bytes, 1);

    IS(head_tight_check(same_cell, sizeof same_cell, one_command, sizeof one_command, &value), 0);
    IS(value, 1);
    IS(head_tight_check(p7, sizeof p7, p7_output, sizeof p7_output, &value), 0);
    IS(head_tight_check(p7, sizeof p7, one_command, sizeof one_command, &value), 50);
    IS(value, 0);
    IS(head_tight_check(too_wide, sizeof too_wide, p7_output, sizeof p7_output, &value), 24);
    IS(value, 1);
}

static void damaged(void)
{
    uint8_t list[3 + sizeof p7], out[sizeof list];
    uint64_t log[] = { 99, 99, 99, 99 }, bytes = 99, entries = 99;

    memcpy(list, p7, 10);
    memset(list + 10, 0xFF, 3);
    memcpy(list + 13, p7 + 10, 10);
    memset(out, 0xEE, sizeof out);
    IS(head_salvage(list, sizeof list, out, sizeof out - 1, log, 4, &bytes, &entries), 26);
    IS(bytes, sizeof list);
    IS(head_salvage(list, sizeof list, out, sizeof out, log, 1, &bytes, &entries), 27);
    IS(bytes, 1);
    IS(entries, 0);
    IS(head_salvage(list, sizeof list, out, sizeof out, log, 4, &bytes, &entries), 0);
    IS(bytes, sizeof p7);
    IS(entries, 1);
    SAME(out, p7, sizeof p7);
    IS(out[sizeof p7], 0xEE);
    IS(log[0], 10);
    IS(log[1], 3);
    IS(log[2], 99);
}

static void wrong_lists(void)
{
    /* P7's first record, then one of each kind that is wrong. */
    static const uint8_t read_only[] = { 'W', 'R', 2, 0, 0x20, 0, 0x20, 0, 0, 0, 'W', 'R', 2, 0, 0x10, 0, 0xA8, 0xC0, 0, 0 };
    uint64_t place = 99, offset = 99, cause = 99;

    IS(head_list_why(p7, sizeof p7, &place, &offset, &cause), 0);
    IS(place, 0);
    IS(offset, 0);
    IS(cause, 0);
    IS(head_list_why(p7, sizeof p7 - 1, &place, &offset, &cause), 22);
    IS(place, 1);
    IS(offset, 10);
    IS(cause, 2);
    IS(head_list_why(p7 + 1, sizeof p7 - 1, &place, &offset, &cause), 22);
    IS(place, 0);
    IS(offset, 0);
    IS(cause, 1);
    IS(head_list_why(read_only, sizeof read_only, &place, &offset, &cause), 23);
    IS(place, 1);
    IS(offset, 10);
    IS(cause, 4);
    IS(head_list_why(too_wide, sizeof too_wide, &place, &offset, &cause), 24);
    IS(place, 1);
    IS(offset, 6);
    IS(cause, 2);
}

static void packet_texts(void)
{
    static const uint8_t packet[] = {0x81, 0xC2, 0x10, 0x00, 0x01, 0x00, 0x00, 0x00, 0x01, 0x02};
    static const char text[] =
        "  0: write registers 0x0010, 1 element, increment: 0x00000001\n"
        "  8: read registers from the pointer (0x0014), 1 element, no increment\n";
    static const char cut[] =
        "  refused 3 at 0: command word or its address cut off\n"
        "  command 0, bytes 0 to 0, 81: word cut off\n";
    uint32_t moved[8] = {0};
    uint8_t out[sizeof text];
    uint64_t bytes = 99;

    memset(out, 0xEE, sizeof out);
    IS(head_packet_text(packet, sizeof packet, moved, 7, out, sizeof out, &bytes), 1);
    IS(bytes, 0);
    IS(head_packet_text(packet, sizeof packet, moved, 8, out, sizeof text - 2, &bytes), 26);
    IS(bytes, sizeof text - 1);
    IS(out[0], 0xEE);
    IS(moved[0], 0);
    IS(head_packet_text(packet, sizeof packet, moved, 8, out, sizeof out, &bytes), 0);
    IS(bytes, sizeof text - 1);
    SAME(out, text, sizeof text - 1);
    IS(out[sizeof text - 1], 0xEE);
    IS(moved[0], 0x14);
    IS(head_packet_text(packet, 1, moved, 8, out, sizeof out, &bytes), 0);
    IS(bytes, sizeof cut - 1);
    SAME(out, cut, sizeof cut - 1);
    IS(moved[0], 0x14);
    moved[4] = 17;
    IS(head_packet_text(packet, sizeof packet, moved, 8, out, sizeof out, &bytes), 1);
}

static void sentences(void)
{
    static const char cut[] = "mark unknown, or record cut", none[] = "no refusal has this number";
    uint8_t out[HEAD_SENTENCE_BYTES];
    uint64_t bytes = 99;

    memset(out, 0xEE, sizeof out);
    IS(head_sentence(22, out, sizeof cut - 2, &bytes), 26);
    IS(bytes, sizeof cut - 1);
    IS(out[0], 0xEE);
    IS(head_sentence(22, out, sizeof cut - 1, &bytes), 0);
    IS(bytes, sizeof cut - 1);
    SAME(out, cut, sizeof cut - 1);
    IS(out[sizeof cut - 1], 0xEE);
    IS(head_sentence(4294967295u, out, sizeof out, &bytes), 0);
    IS(bytes, sizeof none - 1);
    SAME(out, none, sizeof none - 1);
    IS(head_sentence(0, out, sizeof out, &bytes), 0);
    SAME(out, "accepted", 8);
}

static void texts(void)
{
    static const uint8_t text[] = "name lamp eeprom 0x20 # the lamp\nwrite lamp 32\n\nwrite 2 0x0022 0xc0a8";
    static const uint8_t written[] = "write eeprom 0x0020 0x0020\nwrite eeprom 0x0022 0xC0A8\n";
    static const uint8_t not_yet[] = "read 0 0\r\nread lamp\r\nname lamp 0 0\r\n";
    static const uint8_t no_form[] = "\n# read\nread 0 0 0\n";
    static const uint8_t too_large[] = "write registers 0 4294967296";
    static const uint8_t misplaced[] = "read eeprom 1";
    uint8_t out[sizeof written];
    uint64_t bytes = 99, count = 99;

    memset(out, 0xEE, sizeof out);
    IS(head_assemble(no_form, sizeof no_form - 1, out, 0, &bytes, &count), 81);
    IS(bytes, 3);
    IS(count, 0);
    IS(head_assemble(too_large, sizeof too_large - 1, out, 0, &bytes, &count), 82);
    IS(bytes, 1);
    IS(head_assemble(not_yet, sizeof not_yet - 1, out, sizeof out, &bytes, &count), 83);
    IS(bytes, 2);
    IS(head_assemble(misplaced, sizeof misplaced - 1, out, sizeof out, &bytes, &count), 23);
    IS(bytes, 1);
    IS(head_assemble(text, sizeof text - 1, out, sizeof p7 - 1, &bytes, &count), 26);
    IS(bytes, sizeof p7);
    IS(count, 0);
    IS(out[0], 0xEE);
    IS(head_assemble(text, sizeof text - 1, out, sizeof p7 + 1, &bytes, &count), 0);
    IS(bytes, sizeof p7);
    IS(count, 2);
    SAME(out, p7, sizeof p7);
    IS(out[sizeof p7], 0xEE);

    IS(head_list_text(too_wide, sizeof too_wide, out, sizeof out, &bytes, &count), 24);
    IS(bytes, 1);
    IS(count, 0);
    IS(head_list_text(p7, sizeof p7, out, sizeof written - 2, &bytes, &count), 26);
    IS(bytes, sizeof written - 1);
    SAME(out, p7, sizeof p7);
    IS(head_list_text(p7, sizeof p7, out, sizeof out, &bytes, &count), 0);
    IS(bytes, sizeof written - 1);
    IS(count, 2);
    SAME(out, written, sizeof written - 1);
    IS(out[sizeof written - 1], 0xEE);
}

static void in_parts(void)
{
    static uint8_t state[HEAD_PART_BYTES];
    uint8_t out[HEAD_PART_ROOM];
    uint64_t taken = 99, value = 99;

    memset(out, 0xEE, sizeof out);
    IS(head_part(state, sizeof state, p7, 13, 0, out, sizeof out - 1, &taken, &value), 26);
    IS(value, HEAD_PART_ROOM);
    IS(taken, 0);
    IS(head_part(state, sizeof state, p7, 13, 0, out, sizeof out, &taken, &value), 0);
    IS(taken, 13);
    IS(value, 0);
    IS(head_part(state, sizeof state, p7 + 13, sizeof p7 - 13, 1, out, sizeof out, &taken, &value), 0);
    IS(taken, sizeof p7 - 13);
    IS(value, sizeof p7_output);
    SAME(out, p7_output, sizeof p7_output);
    IS(out[sizeof p7_output], 0xEE);
    IS(head_part(state, sizeof state, p7, 0, 1, out, sizeof out, &taken, &value), 0);
    IS(value, 0);

    memset(state, 0, sizeof state);
    IS(head_part(state, sizeof state, too_wide, sizeof too_wide, 1, out, sizeof out, &taken, &value), 24);
    IS(value, 1);
    IS(taken, sizeof too_wide);
    IS(head_part(state, sizeof state, p7, sizeof p7, 1, out, sizeof out, &taken, &value), 24);
    IS(taken, 0);
}

static void two_lists(void)
{
    uint64_t list = 99, place = 99;

    IS(head_independent(p7, sizeof p7, same_cell, sizeof same_cell, &list, &place), 0);
    IS(list, 0);
    IS(place, 0);
    IS(head_independent(p7, 10, p7, sizeof p7, &list, &place), 51);
    IS(place, 0);
    IS(head_independent(p7 + 10, 10, p7, sizeof p7, &list, &place), 51);
    IS(list, 1);
    IS(place, 1);
    IS(head_independent(p7, sizeof p7, too_wide, sizeof too_wide, &list, &place), 24);
    IS(list, 1);
    IS(place, 1);
}

static void recordings(void)
{
    /* P7's packet and its empty reply; then both cells read, the second wrong in its high byte. */
    uint8_t show[sizeof p7_output + 4 + 8 + 8];
    static const uint8_t rest[] = { 'L', 'B', 0, 0, 'L', 'B', 4, 0, 0x82, 0x49, 0x20, 0, 'L', 'B', 4, 0, 0x20, 0, 0xA8, 0xC1 };
    uint64_t index = 99, place = 99;

    memcpy(show, p7_output, sizeof p7_output);
    memcpy(show + sizeof p7_output, rest, sizeof rest);
    memset(store, 0, sizeof store);
    memset(pointers, 0, sizeof pointers);
    IS(head_judge(show, sizeof show, store, sizeof store, pointers, HEAD_POINTERS, &index, &place), 63);
    IS(index, 1);
    IS(place, 3);
    IS(store[HEAD_COUNT_AT], 2);
    show[sizeof show - 1] = 0xC0;
    IS(head_judge(show, sizeof show, store, sizeof store, pointers, HEAD_POINTERS, &index, &place), 0);
    IS(index, 2);
    IS(place, 0);
    IS(head_judge(show, sizeof show - 1, store, sizeof store, pointers, HEAD_POINTERS, &index, &place), 64);
    IS(index, 3);
    IS(head_judge(show, sizeof show, store, sizeof store, pointers, HEAD_POINTERS - 1, &index, &place), 1);
    IS(store[HEAD_UNLOCK_AT], 0);
}

static void captures(void)
{
    /* Raw IP, low byte first: AA BB to the card, and CC back. The second reply is one too many. */
    static const uint8_t file[] = {
        0xD4, 0xC3, 0xB2, 0xA1, 2, 0, 4, 0, 0, 0, 0, 0, 0, 0, 0, 0, 0xFF, 0xFF, 0, 0, 101, 0, 0, 0,
        0, 0, 0, 0, 0, 0, 0, 0, 30, 0, 0, 0, 30, 0, 0, 0,
        0x45, 0, 0, 30, 0, 0, 0, 0, 64, 17, 0, 0, 10, 0, 0, 1, 10, 0, 0, 2, 0xC3, 0x50, 0x6A, 0x2D, 0, 10, 0, 0, 0xAA, 0xBB,
        0, 0, 0, 0, 0, 0, 0, 0, 29, 0, 0, 0, 29, 0, 0, 0,
        0x45, 0, 0, 29, 0, 0, 0, 0, 64, 17, 0, 0, 10, 0, 0, 2, 10, 0, 0, 1, 0x6A, 0x2D, 0xC3, 0x50, 0, 9, 0, 0, 0xCC,
        0, 0, 0, 0, 0, 0, 0, 0, 29, 0, 0, 0, 29, 0, 0, 0,
        0x45, 0, 0, 29, 0, 0, 0, 0, 64, 17, 0, 0, 10, 0, 0, 2, 10, 0, 0, 1, 0x6A, 0x2D, 0xC3, 0x50, 0, 9, 0, 0, 0xCC
    };
    static const uint8_t show[] = { 'L', 'B', 2, 0, 0xAA, 0xBB, 'L', 'B', 1, 0, 0xCC };
    static const uint64_t good = sizeof file - 45;
    uint8_t out[sizeof show + 1];
    uint32_t frames[] = { 99, 99 };
    uint64_t bytes = 99, packets = 99;

    memset(out, 0xEE, sizeof out);
    IS(head_capture(file, 23, out, sizeof out, frames, 2, &bytes, &packets), 91);
    IS(bytes, 0);
    IS(packets, 0);
    IS(head_capture(file, good - 1, out, sizeof out, frames, 2, &bytes, &packets), 92);
    IS(bytes, 2);
    IS(head_capture(file, sizeof file, out, sizeof out, frames, 2, &bytes, &packets), 94);
    IS(bytes, 3);
    IS(head_capture(file, good, out, sizeof show - 1, frames, 2, &bytes, &packets), 26);
    IS(bytes, sizeof show);
    IS(head_capture(file, good, out, sizeof out, frames, 0, &bytes, &packets), 27);
    IS(bytes, 1);
    IS(packets, 0);
    IS(out[0], 0xEE);
    IS(frames[0], 99);
    IS(head_capture(file, good, out, sizeof out, frames, 2, &bytes, &packets), 0);
    IS(bytes, sizeof show);
    IS(packets, 1);
    SAME(out, show, sizeof show);
    IS(out[sizeof show], 0xEE);
    IS(frames[0], 1);
    IS(frames[1], 99);
}

static void daughter_cards(void)
{
    /* A table at 0: a signed input of 12 bits, and an unsigned output of 8 from 0 to 100. */
    static const uint8_t memory[] = {
        6, 0, 23, 0, 0, 0,
        0xA0, 12, 3, 0x00, 0, 0, 0x80, 0xBF, 0, 0, 0x80, 0x3F, 0, 0, 0, 'T', 0,
        0xA0, 8, 2, 0x80, 0, 0, 0, 0, 0, 0, 0xC8, 0x42, 0, 0, '%', 0, 'L', 0
    };
    static const uint32_t lamp[HEAD_FIELD_WORDS] = { 8, 2, 0x80, 0, 0x42C80000, 37, 39 };
    static const uint64_t tilt[] = { UINT64_MAX };
    static const uint64_t too_large[] = { 2048 };
    uint32_t registers[HEAD_REGISTERS], field[HEAD_FIELD_WORDS] = { 0 };
    uint64_t inputs = 99, outputs = 99, value[] = { 99 };

    memset(registers, 0xFF, sizeof registers);
    IS(head_table(memory, sizeof memory, 0, &inputs, &outputs), 0);
    IS(inputs, 1);
    IS(outputs, 1);
    IS(head_table(memory, sizeof memory - 1, 0, &inputs, &outputs), 41);
    IS(inputs, 0);
    IS(head_field(memory, sizeof memory, 0, 1, field, HEAD_FIELD_WORDS), 0);
    SAME(field, lamp, sizeof lamp);
    IS(head_field(memory, sizeof memory, 0, 2, field, HEAD_FIELD_WORDS), 40);
    SAME(field, lamp, sizeof lamp);

    IS(head_pack(memory, sizeof memory, 0, 0, 7, too_large, 1, registers, HEAD_REGISTERS), 40);
    IS(registers[21], 0xFFFFFFFF);
    IS(head_pack(memory, sizeof memory, 0, 0, 7, tilt, 1, registers, HEAD_REGISTERS), 0);
    IS(registers[20], 0xFFFFFFFF);
    IS(registers[21], 0xFFF);
    IS(registers[22], 0);
    IS(registers[23], 0);
    IS(head_unpack(memory, sizeof memory, 0, 0, 7, registers, HEAD_REGISTERS, value, 1), 0);
    IS(value[0], UINT64_MAX);
    IS(head_unpack(memory, sizeof memory, 0, 1, 0, registers, HEAD_REGISTERS, value, 1), 0);
    IS(value[0], 255);
    IS(head_unpack(memory, sizeof memory, 0, 0, 8, registers, HEAD_REGISTERS, value, 1), 40);
    IS(value[0], 255);
}

static void lamp_panel(void)
{
    uint8_t mask = 9, asked = 9, failed = 9, lowest = 9;
    uint32_t bits = 9;

    IS(head_panel_start(0x14, 0x06, &mask), 43);
    IS(mask, 9);
    IS(head_panel_start(0x14, 0x16, &mask), 0);
    IS(mask, 0x14);
    head_panel_report(0x34, 0x33, &asked, &failed, &lowest);
    IS(asked, 3);
    IS(failed, 2);
    IS(lowest, 4);
    head_panel_report(0x34, 0x03, &asked, &failed, &lowest);
    IS(failed, 0);
    IS(lowest, 8);

    /* 255 times 100 by 255 is 100. */
    IS(head_panel_reading(2, 8, 255, 0, 0x42C80000, &bits), 0);
    IS(bits, 0x42C80000);
    IS(head_panel_reading(4, 8, 255, 0, 0x42C80000, &bits), 44);
    IS(head_panel_reading(2, 8, 255, 0x42C80000, 0x42C80000, &bits), 45);
    IS(head_panel_reading(2, 8, 255, 0, 0x7F7FFFFF, &bits), 46);
    IS(bits, 0x42C80000);
}

static void guards(void)
{
    /* The EEPROM's cell 0x22, a register's last byte, and a range of no bytes in the unlock cell. */
    static const uint32_t guard[] = { HEAD_EEPROM_AT + 0x22, 2, 0x1007, 1, HEAD_UNLOCK_AT, 0 };
    static const uint32_t past[] = { 0, 4, 0xFFFFFFFF, 1 };
    static const uint32_t count[] = { HEAD_COUNT_AT + 1, 1 };
    static const uint32_t none[2 * HEAD_GUARD_RANGES + 2] = { 0 };
    uint64_t value = 99;

    IS(head_guard(guard, 6, &value), 0);
    IS(value, 3);
    IS(head_guard(guard, 0, &value), 0);
    IS(value, 0);
    IS(head_guard(guard, 5, &value), 70);
    IS(value, 2);
    IS(head_guard(past, 4, &value), 70);
    IS(value, 1);
    IS(head_guard(count, 2, &value), 70);
    IS(value, 0);
    IS(head_guard(none, 2 * HEAD_GUARD_RANGES, &value), 0);
    IS(value, HEAD_GUARD_RANGES);
    IS(head_guard(none, 2 * HEAD_GUARD_RANGES + 2, &value), 70);
    IS(value, HEAD_GUARD_RANGES);
}

static void guarded(void)
{
    static const uint32_t cell[] = { HEAD_EEPROM_AT + 0x22, 2 }, beside[] = { HEAD_EEPROM_AT + 0x24, 2, 0x1008, 4 };
    static const uint32_t unmoved[HEAD_POINTERS] = { 0 };
    static const uint32_t words[] = { 0x1000B830, 1, 2 };
    uint32_t answer[] = { 9, 9, 9 };
    uint64_t value = 99, elements = 99;

    /* P7's packet writes the cell with its second command; without the unlock it is refused as without the guard. */
    memset(store, 0, sizeof store);
    memset(before, 0, sizeof before);
    memset(pointers, 0, sizeof pointers);
    IS(head_guarded_check(UNLOCKED, store, sizeof store, pointers, HEAD_POINTERS, cell, 2, &value), 71);
    IS(value, 6);
    IS(head_guarded_run(UNLOCKED, store, sizeof store, pointers, HEAD_POINTERS, reply, sizeof reply, cell, 2, &value, &elements), 71);
    IS(value, 6);
    IS(elements, 0);
    IS(head_guarded_check(LOCKED, store, sizeof store, pointers, HEAD_POINTERS, cell, 2, &value), 10);
    IS(head_guarded_run(UNLOCKED, store, 0, pointers, HEAD_POINTERS, reply, sizeof reply, cell, 1, &value, &elements), 70);
    IS(value, 0);
    SAME(store, before, sizeof store);
    SAME(pointers, unmoved, sizeof pointers);
    IS(head_guarded_run(UNLOCKED, store, sizeof store, pointers, HEAD_POINTERS, reply, sizeof reply, beside, 4, &value, &elements), 0);
    IS(elements, 3);
    memcpy(before + HEAD_EEPROM_AT + 0x20, p7_output + 14, 4);
    before[HEAD_COUNT_AT] = 1;
    SAME(store, before, sizeof store);

    /* Three registers are promised and two came. */
    IS(head_guarded_spi(words, 3, store, sizeof store, answer, 3, beside, 4, &value), 71);
    IS(value, 0);
    IS(answer[1], 9);
    SAME(store, before, sizeof store);
    IS(head_guarded_spi(words, 3, store, sizeof store, answer, 3, cell, 2, &value), 0);
    IS(value, 2);
    IS(answer[1], 0);
    before[0x1000] = 1;
    before[0x1004] = 2;
    SAME(store, before, sizeof store);

    IS(head_guarded_list(p7, sizeof p7, beside, 4, &value), 0);
    IS(value, 2);
    IS(head_guarded_list(p7, sizeof p7, cell, 2, &value), 71);
    IS(value, 1);
    IS(head_guarded_list(too_wide, sizeof too_wide, cell, 2, &value), 24);
    IS(value, 1);
}

int main(void)
{
    packets();
    places();
    reasons();
    words();
    headers();
    bursts();
    lists();
    damaged();
    wrong_lists();
    packet_texts();
    sentences();
    texts();
    in_parts();
    two_lists();
    recordings();
    captures();
    daughter_cards();
    lamp_panel();
    guards();
    guarded();
    printf("%lu answers, %lu wrong\n", checked, wrong);
    return wrong != 0;
}
