/* The proved library's part. */
#ifndef CONTROLLER_H
#define CONTROLLER_H

#include <stdint.h>

#include "head.h"

/* Makes a fresh card and says so. Answers 0 where the guard that is built in is not sound: then nothing may be answered. */
int controller_start(void);

/* Runs a packet, and answers the bytes of its reply, 0 where there is none. A refusal is said in a line of text. */
uint32_t controller_answer(const uint8_t *packet, uint32_t length, uint8_t reply[HEAD_REPLY_BYTES]);

#endif
