#include "text.h"

#include "counters.h"

void add(struct line *line, const char *text)
{
    for (const char *at = text; *at && line->length < LINE_BYTES - 1; at++)
        line->text[line->length++] = *at;
}

void add_number(struct line *line, uint32_t number)
{
    char digits[11];
    char *at = digits + sizeof digits - 1;
    uint32_t left = number;
    *at = 0;
    do
        *--at = (char)('0' + left % 10);
    while (left /= 10);
    add(line, at);
}

void say(struct line *line)
{
    line->text[line->length++] = '\n';
    if (!line_out(line->text, line->length))
        counters[LINES_LOST]++;
}
