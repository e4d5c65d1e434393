/* The machine's part on Linux. */
#include <stdio.h>
#include <stdlib.h>

#include "machine.h"

void say(const char *text)
{
    fputs(text, stdout);
}

static uint8_t *contents(const char *path)
{
    FILE *file = fopen(path, "rb");
    if (!file || fseek(file, 0, SEEK_END))
        return NULL;
    long length = ftell(file);
    uint8_t *bytes = length > 0 ? malloc((size_t)length) : NULL;
    rewind(file);
    if (bytes && fread(bytes, 1, (size_t)length, file) != (size_t)length)
        return NULL;
    fclose(file);
    return bytes;
}

int main(int count, char **words)
{
    const uint8_t *file = count == 2 ? contents(words[1]) : NULL;
    if (!file) {
        fputs("usage: play FILE\n", stderr);
        return 1;
    }
    return program(file) ? 0 : 1;
}
