/* Makes the calls of a file of rust/compare/src/vectors.rs, which says how it is laid out, and compares all that they leave. */
#include <string.h>

#include "head.h"
#include "machine.h"

enum { PLAIN = 5, ANSWERS = 3, LENT = 5, NUMBERS = 95, MARGIN = 64, SHOWN = 10, EMPTY = 0xC3 };

/* A call as it is made: what is given, answered and lent. */
struct call {
    uint64_t plain[PLAIN], answer[ANSWERS];
    struct {
        void *at;
        uint64_t length;
    } lent[LENT];
};

/* A room as C wants it, and a plain argument. */
#define LENT_(k) c->lent[k].at, c->lent[k].length
#define PLAIN_(k, type) ((type)c->plain[k])

static uint32_t check(struct call *c)
{
    return head_check(LENT_(0), LENT_(1), LENT_(2), &c->answer[0]);
}

static uint32_t run(struct call *c)
{
    return head_run(LENT_(0), LENT_(1), LENT_(2), LENT_(3), &c->answer[0], &c->answer[1]);
}

static uint32_t why(struct call *c)
{
    return head_why(LENT_(0), LENT_(1), LENT_(2), &c->answer[0], &c->answer[1], LENT_(3));
}

static uint32_t packet_text(struct call *c)
{
    return head_packet_text(LENT_(0), LENT_(1), LENT_(2), &c->answer[0]);
}

static uint32_t spi(struct call *c)
{
    return head_spi(LENT_(0), LENT_(1), LENT_(2), &c->answer[0]);
}

static uint32_t fields(struct call *c)
{
    return head_fields(PLAIN_(0, uint16_t), LENT_(0));
}

static uint32_t word(struct call *c)
{
    uint16_t word = (uint16_t)c->answer[0];
    uint32_t number = head_word(LENT_(0), &word);
    c->answer[0] = word;
    return number;
}

static uint32_t header(struct call *c)
{
    return head_header(PLAIN_(0, uint32_t), LENT_(0));
}

static uint32_t header_word(struct call *c)
{
    uint32_t word = (uint32_t)c->answer[0];
    uint32_t number = head_header_word(LENT_(0), &word);
    c->answer[0] = word;
    return number;
}

static uint32_t compile(struct call *c)
{
    return head_compile(LENT_(0), LENT_(1), &c->answer[0], &c->answer[1]);
}

static uint32_t tighten(struct call *c)
{
    return head_tighten(LENT_(0), LENT_(1), &c->answer[0], &c->answer[1]);
}

static uint32_t tight_check(struct call *c)
{
    return head_tight_check(LENT_(0), LENT_(1), &c->answer[0]);
}

static uint32_t salvage(struct call *c)
{
    return head_salvage(LENT_(0), LENT_(1), LENT_(2), &c->answer[0], &c->answer[1]);
}

static uint32_t list_why(struct call *c)
{
    return head_list_why(LENT_(0), &c->answer[0], &c->answer[1], &c->answer[2]);
}

static uint32_t sentence(struct call *c)
{
    return head_sentence(PLAIN_(0, uint32_t), LENT_(0), &c->answer[0]);
}

static uint32_t table(struct call *c)
{
    return head_table(LENT_(0), PLAIN_(0, uint16_t), &c->answer[0], &c->answer[1]);
}

static uint32_t field(struct call *c)
{
    return head_field(LENT_(0), PLAIN_(0, uint16_t), c->plain[1], LENT_(1));
}

static uint32_t pack(struct call *c)
{
    return head_pack(LENT_(0), PLAIN_(0, uint16_t), PLAIN_(1, uint32_t), PLAIN_(2, uint32_t), LENT_(1), LENT_(2));
}

static uint32_t unpack(struct call *c)
{
    return head_unpack(LENT_(0), PLAIN_(0, uint16_t), PLAIN_(1, uint32_t), PLAIN_(2, uint32_t), LENT_(1), LENT_(2));
}

static uint32_t panel_start(struct call *c)
{
    uint8_t mask = (uint8_t)c->answer[0];
    uint32_t number = head_panel_start(PLAIN_(0, uint8_t), PLAIN_(1, uint8_t), &mask);
    c->answer[0] = mask;
    return number;
}

static uint32_t panel_report(struct call *c)
{
    uint8_t found[3];
    memset(found, (int)(c->answer[0] & 0xFF), sizeof found);
    head_panel_report(PLAIN_(0, uint8_t), PLAIN_(1, uint8_t), &found[0], &found[1], &found[2]);
    for (int k = 0; k < 3; k++)
        c->answer[k] = found[k];
    return 0;
}

static uint32_t panel_reading(struct call *c)
{
    uint32_t bits = (uint32_t)c->answer[0];
    uint32_t number = head_panel_reading(PLAIN_(0, uint32_t), PLAIN_(1, uint32_t), c->plain[2], PLAIN_(3, uint32_t),
                                         PLAIN_(4, uint32_t), &bits);
    c->answer[0] = bits;
    return number;
}

static uint32_t part(struct call *c)
{
    return head_part(LENT_(0), LENT_(1), PLAIN_(0, uint32_t), LENT_(2), &c->answer[0], &c->answer[1]);
}

static uint32_t independent(struct call *c)
{
    return head_independent(LENT_(0), LENT_(1), &c->answer[0], &c->answer[1]);
}

static uint32_t judge(struct call *c)
{
    return head_judge(LENT_(0), LENT_(1), LENT_(2), &c->answer[0], &c->answer[1]);
}

static uint32_t guard(struct call *c)
{
    return head_guard(LENT_(0), &c->answer[0]);
}

static uint32_t guarded_check(struct call *c)
{
    return head_guarded_check(LENT_(0), LENT_(1), LENT_(2), LENT_(3), &c->answer[0]);
}

static uint32_t guarded_run(struct call *c)
{
    return head_guarded_run(LENT_(0), LENT_(1), LENT_(2), LENT_(3), LENT_(4), &c->answer[0], &c->answer[1]);
}

static uint32_t guarded_spi(struct call *c)
{
    return head_guarded_spi(LENT_(0), LENT_(1), LENT_(2), LENT_(3), &c->answer[0]);
}

static uint32_t guarded_list(struct call *c)
{
    return head_guarded_list(LENT_(0), LENT_(1), &c->answer[0]);
}

static uint32_t capture(struct call *c)
{
    return head_capture(LENT_(0), LENT_(1), LENT_(2), &c->answer[0], &c->answer[1]);
}

static uint32_t assemble(struct call *c)
{
    return head_assemble(LENT_(0), LENT_(1), &c->answer[0], &c->answer[1]);
}

static uint32_t list_text(struct call *c)
{
    return head_list_text(LENT_(0), LENT_(1), &c->answer[0], &c->answer[1]);
}

/* The exports, in the file's order. */
static const struct {
    const char *name;
    uint32_t (*call)(struct call *);
} exports[] = {
    {"head_check", check}, {"head_run", run}, {"head_why", why}, {"head_packet_text", packet_text}, {"head_spi", spi}, {"head_fields", fields},
    {"head_word", word}, {"head_header", header}, {"head_header_word", header_word}, {"head_compile", compile},
    {"head_tighten", tighten}, {"head_tight_check", tight_check},
    {"head_salvage", salvage}, {"head_list_why", list_why}, {"head_sentence", sentence}, {"head_table", table}, {"head_field", field}, {"head_pack", pack},
    {"head_unpack", unpack}, {"head_panel_start", panel_start}, {"head_panel_report", panel_report},
    {"head_panel_reading", panel_reading}, {"head_part", part}, {"head_independent", independent}, {"head_judge", judge},
    {"head_guard", guard}, {"head_guarded_check", guarded_check}, {"head_guarded_run", guarded_run},
    {"head_guarded_spi", guarded_spi}, {"head_guarded_list", guarded_list}, {"head_capture", capture},
    {"head_assemble", assemble}, {"head_list_text", list_text},
};
enum { EXPORTS = sizeof exports / sizeof exports[0] };

/* A room: what is lent, and what it must hold after the call. Bytes are lent at odd addresses, where SHIFT is odd. */
#ifndef SHIFT
#define SHIFT 0
#endif
#define ROOM(name, bytes) \
    _Alignas(8) static uint8_t name[2][MARGIN + (bytes) + MARGIN] __attribute__((section(".bss.rooms")))
ROOM(input, 901000);
ROOM(second, 700000);
ROOM(output, 700000);
ROOM(store, HEAD_STORE_BYTES + 64);
ROOM(reply, HEAD_PART_ROOM + 64);
ROOM(state, HEAD_PART_BYTES + 64);
ROOM(pointers, 512);
ROOM(words, 4096);
ROOM(answer, 4096);
ROOM(numbers, 65536);
ROOM(guards, 2048);

#define ROOM_(name, shift) {name[0] + (shift), name[1] + (shift), sizeof name[0] - 2 * MARGIN}
static const struct room {
    uint8_t *lent, *expected;
    uint32_t bytes;
} rooms[] = {
    ROOM_(input, SHIFT), ROOM_(second, SHIFT), ROOM_(output, SHIFT), ROOM_(store, SHIFT), ROOM_(reply, SHIFT),
    ROOM_(state, SHIFT), ROOM_(pointers, 0), ROOM_(words, 0), ROOM_(answer, 0), ROOM_(numbers, 0),
    ROOM_(guards, 0),
};
enum { ROOMS = sizeof rooms / sizeof rooms[0] };

/* How often each export returned which number, and the most stack that it and its caller here used. */
static uint32_t met[EXPORTS][NUMBERS], deepest[EXPORTS], calls, differences;

/* The file, up to what was read of it. */
static const uint8_t *at;

static uint32_t next(void)
{
    uint32_t number = at[0] | (uint32_t)at[1] << 8 | (uint32_t)at[2] << 16 | (uint32_t)at[3] << 24;
    at += 4;
    return number;
}

static uint64_t next_long(void)
{
    uint64_t low = next();
    return low | (uint64_t)next() << 32;
}

static void differs(uint32_t export, const char *what, uint32_t place)
{
    if (differences++ >= SHOWN)
        return;
    say("difference in call ");
    say_number(calls);
    say(", ");
    say(exports[export].name);
    say(": ");
    say(what);
    say(" ");
    say_number(place);
    say("\n");
}

/* Makes some changes of a room, in what it must hold, and in what is lent too if they stand before the call. */
static void change(const struct room *room, uint32_t count, int before)
{
    while (count--) {
        uint32_t offset = next(), length = next(), period = next();
        for (uint32_t k = 0; period && k < length; k += period) {
            uint32_t some = length - k < period ? length - k : period;
            memcpy(room->expected + MARGIN + offset + k, at, some);
            if (before)
                memcpy(room->lent + MARGIN + offset + k, at, some);
        }
        at += (period + 3) / 4 * 4;
    }
}

/* A room of the call: it is made ready, and its changes by the call are kept for later. */
struct lending {
    const struct room *room;
    const uint8_t *changes;
    uint32_t number, bytes, count;
};

static void skip(uint32_t count)
{
    while (count--) {
        at += 8;
        uint32_t period = next();
        at += (period + 3) / 4 * 4;
    }
}

static int lend(struct lending *lending, struct call *c, uint32_t k)
{
    uint32_t number = next(), elements = next(), element = next(), before = next();
    lending->count = next();
    lending->number = number;
    lending->bytes = elements * element;
    if (number >= ROOMS || lending->bytes > rooms[number].bytes)
        return 0;
    lending->room = &rooms[number];
    change(lending->room, before, 1);
    lending->changes = at;
    skip(lending->count);
    c->lent[k].at = lending->room->lent + MARGIN;
    c->lent[k].length = elements;
    return 1;
}

/* Compares a room with its margins, and makes it equal again where it is not. */
static void compare_room(const struct lending *lending, uint32_t export)
{
    const struct room *room = lending->room;
    uint32_t bytes = lending->bytes + 2 * MARGIN - SHIFT;
    at = lending->changes;
    change(room, lending->count, 0);
    if (memcmp(room->lent, room->expected, bytes)) {
        differs(export, "room", lending->number);
        memcpy(room->lent, room->expected, bytes);
    }
}

static void compare(const struct lending *lent, uint32_t count, const struct call *c, const uint64_t *answers, uint32_t export,
                    uint32_t number, uint32_t expected)
{
    if (number != expected)
        differs(export, "it returns", number);
    for (uint32_t k = 0; k < ANSWERS; k++)
        if (c->answer[k] != answers[k])
            differs(export, "answer", k);
    for (uint32_t k = 0; k < count; k++)
        compare_room(&lent[k], export);
    met[export][number < NUMBERS ? number : 0]++;
}

/* Makes the call, where STACK is set with the stack below painted, so that it shows how much was used. */
__attribute__((noinline)) static uint32_t made(uint32_t export, struct call *c)
{
#ifdef STACK
    const int deep = exports[export].call == independent || exports[export].call == assemble || exports[export].call == packet_text;
    const uint32_t paint = 0xC0DEC0DE, area = deep ? 70000 : 4096;
    uint32_t *top;
    __asm__ volatile("mov %0, sp" : "=r"(top));
    volatile uint32_t *low = top - area / 4;
    for (volatile uint32_t *word = low; word < top; word++)
        *word = paint;
    uint32_t number = exports[export].call(c);
    while (low < top && *low == paint)
        low++;
    uint32_t used = 4 * (uint32_t)(top - low);
    deepest[export] = used > deepest[export] ? used : deepest[export];
    return number;
#else
    return exports[export].call(c);
#endif
}

/* Makes one call; 0 where the file cannot be read. */
static int one(void)
{
    static struct call c;
    struct lending lent[LENT];
    uint64_t answers[ANSWERS];
    uint32_t export = next(), expected = next(), count = next();
    if (export >= EXPORTS || count > LENT)
        return 0;
    for (uint32_t k = 0; k < PLAIN; k++)
        c.plain[k] = next_long();
    for (uint32_t k = 0; k < ANSWERS; k++) {
        answers[k] = next_long();
        c.answer[k] = UINT64_C(0xA5A5A5A5A5A5A5A5);
    }
    for (uint32_t k = 0; k < count; k++)
        if (!lend(&lent[k], &c, k))
            return 0;
    calls++;
    uint32_t number = made(export, &c);
    compare(lent, count, &c, answers, export, number, expected);
    return 1;
}

static void report(void)
{
    for (uint32_t export = 0; export < EXPORTS; export++) {
        say(exports[export].name);
        for (uint32_t number = 0; number < NUMBERS; number++)
            if (met[export][number]) {
                say(" ");
                say_number(number);
                say(":");
                say_number(met[export][number]);
            }
        say("\n");
    }
    for (uint32_t export = 0; export < EXPORTS; export++)
        if (deepest[export]) {
            say("stack ");
            say(exports[export].name);
            say(" ");
            say_number(deepest[export]);
            say("\n");
        }
    say_number(calls);
    say(" calls, ");
    say_number(differences);
    say(" differences\n");
}

int program(const uint8_t *file)
{
    const uint8_t *start = file;
    for (uint32_t k = 0; k < ROOMS; k++) {
        memset(rooms[k].lent, EMPTY, rooms[k].bytes + 2 * MARGIN - SHIFT);
        memset(rooms[k].expected, EMPTY, rooms[k].bytes + 2 * MARGIN - SHIFT);
    }
    for (;;) {
        at = start;
        uint32_t size = next();
        if (!size)
            break;
        if (!one()) {
            say("the file is not one of calls\n");
            return 0;
        }
        start += size;
    }
    report();
    return calls > 0 && differences == 0;
}
