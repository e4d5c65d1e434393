/* ARP, ICMP echo, IPv4 and UDP. */
#ifndef NET_H
#define NET_H

#include <stdint.h>

#include "board.h"

/* Looks at a frame, has its packet answered, and makes the frame that goes back; answers its bytes, 0 where none goes back. */
uint32_t net_answer(const uint8_t *frame, uint32_t length, uint8_t answer[FRAME_ROOM]);

/* Makes the frame that tells all who keep a table where our address is to be found; answers its bytes. */
uint32_t net_announcement(uint8_t answer[FRAME_ROOM]);

#endif
