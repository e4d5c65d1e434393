/* What a program of this folder and the machine that it runs on have of each other: board.c is the machine's part on a
 * Cortex-M, host.c on Linux. */
#ifndef MACHINE_H
#define MACHINE_H

#include <stdint.h>

/* Writes text, or a number in digits, to the console. */
void say(const char *text);
void say_number(uint32_t number);

/* The program. It is given the file that the machine was started with, and answers whether all is well. */
int program(const uint8_t *file);

#endif
