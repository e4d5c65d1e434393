/* What a board gives the firmware: three functions. None of them waits for the network or for who reads the text, and each starts
 * what it needs when it is first called. */
#ifndef BOARD_H
#define BOARD_H

#include <stdint.h>

/* The most bytes of a frame, from the destination's address to the last of the data; the checksum behind them is the board's. */
#define FRAME_BYTES 1514

/* The room for a frame: whole words, since chips take and give words. What stands behind the frame's bytes means nothing. */
#define FRAME_ROOM 1516

/* The most bytes of a line of text. */
#define LINE_BYTES 160

/* A frame came, and its checksum was wrong or the chip says otherwise that it is damaged. */
#define FRAME_DAMAGED (-1)

/* Takes the next frame that came, and answers its bytes, 0 where none waits, or FRAME_DAMAGED. Of a frame with more than
 * FRAME_BYTES the first ones are taken, the rest is passed over, and the number answered is that of the whole. */
int32_t frame_in(uint8_t frame[FRAME_ROOM]);

/* Sends a frame of at most FRAME_BYTES; one that is short of Ethernet's 60 is padded by the chip. Answers 0 where there is no
 * room for it now. */
int frame_out(const uint8_t frame[FRAME_ROOM], uint32_t length);

/* Writes a line of at most LINE_BYTES, its newline included, or as much of it as can go now; the rest goes at later calls of this
 * function or of frame_in. Answers 0 where the line before is not yet out. */
int line_out(const char *line, uint32_t length);

#endif
