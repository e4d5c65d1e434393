/* For measuring, where TICKS is defined: the instructions from the look at the chip that finds a frame to the last word of the
 * reply. QEMU's -icount shift=0 makes an instruction a nanosecond, and SysTick, at 25 MHz, counts down one for 40 of them. */
#ifndef TICKS_H
#define TICKS_H

#include <stdint.h>

#ifdef TICKS
#include "text.h"

#define SYSTICK ((volatile uint32_t *)0xE000E010u)

static inline uint32_t ticks(void)
{
    if (SYSTICK[0] == 0) {
        SYSTICK[1] = 0xFFFFFF;
        SYSTICK[2] = 0;
        SYSTICK[0] = 5;
    }
    return SYSTICK[2];
}

static inline void say_ticks(uint32_t before)
{
    uint32_t passed = (before - ticks()) & 0xFFFFFF;
    struct line line = {.length = 0};
    add(&line, "instructions ");
    add_number(&line, 40 * passed);
    say(&line);
}
#else
static inline uint32_t ticks(void)
{
    return 0;
}

static inline void say_ticks(uint32_t before)
{
    (void)before;
}
#endif

#endif
