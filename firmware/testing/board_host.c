/* A board that is this machine, for gcc's sanitizers. Frames come from standard input, each behind its length in two bytes, low
 * byte first; a length of DAMAGED or BUSY stands alone. Each is answered on standard output by the reply behind its length, 0 if
 * there is none; lines go to standard error. At the end of the input the counters are written. */
#include <sanitizer/asan_interface.h>
#include <stdio.h>
#include <stdlib.h>

#include "../board.h"
#include "../counters.h"

/* A damaged frame came; for the reply to the frame that follows, and for its line, there is no room. */
enum { DAMAGED = 0xFFFF, BUSY = 0xFFFE };

static int answered = 1;
static uint32_t busy;

static void put_length(uint32_t length)
{
    putchar((int)(length & 0xFF));
    putchar((int)(length >> 8));
}

static _Noreturn void finish(void)
{
    for (uint32_t k = 0; k < COUNTERS; k++)
        for (uint32_t byte = 0; byte < 4; byte++)
            putchar((int)(counters[k] >> 8 * byte & 0xFF));
    exit(fflush(stdout) != 0);
}

static uint32_t next_length(void)
{
    int low = getchar(), high = getchar();
    if (high == EOF)
        finish();
    return (uint32_t)low | (uint32_t)high << 8;
}

/* What stands behind the frame may not be touched. */
int32_t frame_in(uint8_t frame[FRAME_ROOM])
{
    if (!answered)
        put_length(0);
    answered = 0;
    uint32_t length = next_length();
    busy = length == BUSY;
    if (busy)
        length = next_length();
    if (length == DAMAGED)
        return FRAME_DAMAGED;
    ASAN_UNPOISON_MEMORY_REGION(frame, FRAME_ROOM);
    for (uint32_t k = 0; k < length; k++) {
        int byte = getchar();
        if (k < FRAME_BYTES)
            frame[k] = (uint8_t)byte;
    }
    if (length < FRAME_ROOM)
        ASAN_POISON_MEMORY_REGION(frame + length, FRAME_ROOM - length);
    return (int32_t)length;
}

int frame_out(const uint8_t frame[FRAME_ROOM], uint32_t length)
{
    if (busy)
        return 0;
    put_length(length);
    answered = 1;
    return fwrite(frame, 1, length, stdout) == length;
}

int line_out(const char *line, uint32_t length)
{
    return !busy && fwrite(line, 1, length, stderr) == length;
}
