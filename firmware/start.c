/* From reset to main on a Cortex-M. No interrupt is ever turned on. */
#include <stdint.h>

#include "board.h"

/* What unused stack holds, so that its deepest use can be read out; the painter itself stands on the last bytes. */
#define PAINT 0xA5A5A5A5u
enum { PAINTER_BYTES = 64 };

extern uint32_t stack_bottom[], stack_top[], bss_start[], bss_end[];
int main(void);
void reset(void);

/* There is nothing to go on with; a line that is on its way is brought out. */
static _Noreturn void stop(void)
{
    for (;;)
        (void)line_out("", 0);
}

/* The store may be half written. */
static void fault(void)
{
    static const char line[] = "a fault of the processor\n";
    while (!line_out(line, sizeof line - 1))
        ;
    stop();
}

static void fill(uintptr_t first, uintptr_t end, uint32_t word)
{
    for (uintptr_t at = first; at < end; at += sizeof word)
        *(volatile uint32_t *)at = word;
}

void reset(void)
{
    fill((uintptr_t)stack_bottom, (uintptr_t)stack_top - PAINTER_BYTES, PAINT);
    fill((uintptr_t)bss_start, (uintptr_t)bss_end, 0);
    (void)main();
    stop();
}

/* What the processor calls: at reset, at the non-maskable interrupt and at the four faults; nothing else can occur. The linker
 * script puts the stack's top before them. */
__attribute__((section(".vectors"), used)) static void (*const vectors[])(void) = {reset, fault, fault, fault, fault, fault};
