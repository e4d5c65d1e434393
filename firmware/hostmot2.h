/* The few cells by which tools recognise a HostMot2 board, here a 7I92. */
#ifndef HOSTMOT2_H
#define HOSTMOT2_H

#include <stdint.h>

#include "head.h"

/* Fills these cells in and leaves all others as they are. */
void hostmot2_fill(uint8_t store[HEAD_STORE_BYTES]);

/* Answers the packet that asks for the flash chip's id, which is no part of the library: the bytes of the reply, 0 where the
 * packet is another one. */
uint32_t hostmot2_flash(const uint8_t *packet, uint32_t length, uint8_t reply[HEAD_REPLY_BYTES]);

#endif
