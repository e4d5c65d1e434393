/* Lines of text for whoever watches the board. */
#ifndef TEXT_H
#define TEXT_H

#include <stdint.h>

#include "board.h"

/* A line in the making. What finds no room is left out. */
struct line {
    char text[LINE_BYTES];
    uint32_t length;
};

void add(struct line *line, const char *text);
void add_number(struct line *line, uint32_t number);

/* Ends the line and hands it to the board; a line that finds no room there is counted. */
void say(struct line *line);

#endif
