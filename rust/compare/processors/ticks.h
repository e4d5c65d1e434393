/* Instructions on an emulated Cortex-M: QEMU's -icount shift=0 makes an instruction a nanosecond, and SysTick counts one for
 * 40 of them, so a call is made often enough to lose that rounding. */
#ifndef TICKS_H
#define TICKS_H

#include <stdint.h>

#define SYSTICK ((volatile uint32_t *)0xE000E010)

static inline void start_ticks(void)
{
    SYSTICK[1] = 0xFFFFFF;
    SYSTICK[2] = 0;
    SYSTICK[0] = 5;
}

/* Instructions of one call. All calls together may take 671 million. */
static inline uint32_t count(void (*call)(void), uint32_t times)
{
    uint32_t before = SYSTICK[2];
    for (uint32_t i = 0; i < times; i++)
        call();
    return (uint32_t)((uint64_t)((before - SYSTICK[2]) & 0xFFFFFF) * 40 / times);
}

#endif
