/* The machine's part on QEMU's boards mps2-an386 (Cortex-M4) and mps2-an385 (Cortex-M3). The console is QEMU's own, by
 * semihosting; QEMU loads the file to FILE_AT, and clears the memory. */
#include "machine.h"

#define FILE_AT ((const uint8_t *)0x21000000)
#define CONFIGURATION (*(volatile uint32_t *)0xE000ED14)
#define COPROCESSORS (*(volatile uint32_t *)0xE000ED88)

enum { WRITE0 = 0x04, EXIT = 0x18, WELL = 0x20026, FAILED = 0x20023, UNALIGNED_TRAPS = 1 << 3 };

static void semihost(uint32_t operation, const void *argument)
{
    register uint32_t r0 __asm__("r0") = operation;
    register const void *r1 __asm__("r1") = argument;
    __asm__ volatile("bkpt 0xab" : "+r"(r0) : "r"(r1) : "memory");
}

void say(const char *text)
{
    semihost(WRITE0, text);
}

static _Noreturn void end(int well)
{
    semihost(EXIT, (const void *)(uintptr_t)(well ? WELL : FAILED));
    for (;;)
        ;
}

#ifdef TRAP
/* That unaligned accesses trap is tried once: the fault handler passes over the load, which has 2 bytes. */
static volatile int trying, trapped;

__attribute__((used)) static void fault_at(uint32_t *frame)
{
    if (!trying) {
        say("a fault of the processor\n");
        end(0);
    }
    trapped = 1;
    frame[6] += 2;
}

__attribute__((naked)) static void fault(void)
{
    __asm__ volatile("mov r0, sp\n push {r4, lr}\n bl fault_at\n pop {r4, pc}");
}

static void prepare(void)
{
    static const uint32_t words[2];
    uint32_t loaded;
    CONFIGURATION |= UNALIGNED_TRAPS;
    __asm__ volatile("dsb\n isb");
    trying = 1;
    __asm__ volatile("ldr %0, [%1]" : "=l"(loaded) : "l"((const uint8_t *)words + 1));
    trying = 0;
    if (!trapped) {
        say("unaligned accesses do not trap here\n");
        end(0);
    }
}
#else
static void fault(void)
{
    say("a fault of the processor\n");
    end(0);
}

/* The floating point unit is off after a reset. */
static void prepare(void)
{
    COPROCESSORS = 0xF << 20;
    __asm__ volatile("dsb\n isb");
}
#endif

static void start(void)
{
    prepare();
    end(program(FILE_AT));
}

extern char stack_top;
__attribute__((section(".vectors"), used)) static const void *const vectors[] = {
    &stack_top, (const void *)start, (const void *)fault, (const void *)fault,
    (const void *)fault, (const void *)fault, (const void *)fault,
};
