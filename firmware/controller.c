/* What the card answers depends on two things alone: the store and the pointers. */
#include "controller.h"

#include "config.h"
#include "counters.h"
#include "hostmot2.h"
#include "text.h"

static uint8_t store[HEAD_STORE_BYTES];
static uint32_t pointers[HEAD_POINTERS];

#ifdef GUARD
static const uint32_t guard[] = {GUARD};
enum { GUARD_NUMBERS = sizeof guard / sizeof guard[0] };
#endif

_Static_assert(HEAD_SENTENCE_BYTES + sizeof "refused 4294967295 at 4294967295: \n" <= LINE_BYTES, "a refusal fits a line");

static void say_refusal(uint32_t number, uint32_t place)
{
    uint8_t sentence[HEAD_SENTENCE_BYTES + 1] = {0};
    uint64_t bytes = 0;
    struct line line = {.length = 0};
    add(&line, "refused ");
    add_number(&line, number);
    add(&line, " at ");
    add_number(&line, place);
    add(&line, ": ");
    if (head_sentence(number, sentence, HEAD_SENTENCE_BYTES, &bytes) == 0)
        add(&line, (const char *)sentence);
    say(&line);
}

static void say_start(void)
{
    static const uint8_t ip[] = {OWN_IP};
    struct line line = {.length = 0};
    add(&line, "card on ");
    for (uint32_t k = 0; k < sizeof ip; k++) {
        add_number(&line, ip[k]);
        add(&line, k + 1 < sizeof ip ? "." : ", port ");
    }
    add_number(&line, PORT);
#ifdef HOSTMOT2
    add(&line, ", HostMot2 cells");
#endif
#ifdef GUARD
    add(&line, ", protected ranges: ");
    add_number(&line, GUARD_NUMBERS / 2);
#endif
    say(&line);
}

int controller_start(void)
{
#ifdef GUARD
    uint64_t value = 0;
    uint32_t refused = head_guard(guard, GUARD_NUMBERS, &value);
    if (refused) {
        say_refusal(refused, (uint32_t)value);
        return 0;
    }
#endif
#ifdef HOSTMOT2
    hostmot2_fill(store);
#endif
    say_start();
    return 1;
}

static uint32_t run(const uint8_t *packet, uint32_t length, uint8_t *reply, uint64_t *value)
{
    uint64_t elements = 0;
#ifdef GUARD
    return head_guarded_run(packet, length, store, sizeof store, pointers, HEAD_POINTERS, reply, HEAD_REPLY_BYTES, guard,
                            GUARD_NUMBERS, value, &elements);
#else
    return head_run(packet, length, store, sizeof store, pointers, HEAD_POINTERS, reply, HEAD_REPLY_BYTES, value, &elements);
#endif
}

uint32_t controller_answer(const uint8_t *packet, uint32_t length, uint8_t reply[HEAD_REPLY_BYTES])
{
    uint64_t value = 0;
#ifdef HOSTMOT2
    uint32_t flash = hostmot2_flash(packet, length, reply);
    if (flash) {
        struct line line = {.length = 0};
        counters[OUTSIDE]++;
        add(&line, "answered outside the library: the flash chip's id");
        say(&line);
        return flash;
    }
#endif
    uint32_t refused = run(packet, length, reply, &value);
    if (refused) {
        counters[REFUSED]++;
        say_refusal(refused, (uint32_t)value);
        return 0;
    }
    return (uint32_t)value;
}
