/* Takes a frame, answers it, and so on for ever. */
#include "board.h"
#include "controller.h"
#include "counters.h"
#include "net.h"
#include "ticks.h"

static _Alignas(uint32_t) uint8_t frame[FRAME_ROOM], answer[FRAME_ROOM];

/* One turn: whether a frame was answered. */
static int turn(void)
{
    int32_t length = frame_in(frame);
    if (length == 0)
        return 0;
    counters[FRAMES]++;
    if (length == FRAME_DAMAGED) {
        counters[DROPPED_DAMAGED]++;
        return 0;
    }
    uint32_t bytes = net_answer(frame, (uint32_t)length, answer);
    if (bytes == 0)
        return 0;
    if (!frame_out(answer, bytes)) {
        counters[UNSENT]++;
        return 0;
    }
    counters[REPLIES]++;
    return 1;
}

int main(void)
{
    if (!controller_start())
        return 1;
    (void)frame_out(answer, net_announcement(answer));
    for (;;) {
        uint32_t before = ticks();
        if (turn())
            say_ticks(before);
    }
}
