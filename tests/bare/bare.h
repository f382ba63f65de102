/* What a test program has on every target, without a C library: lines of output, an end, and a stack that it can paint.
 * The program defines run; bare.c calls it and ends with the status that it returns. */
#ifndef BARE_H
#define BARE_H

#include <stddef.h>
#include <stdint.h>

int run(void);

/* Writes a text, or a number, to standard output. */
void say(const char *text);
void say_decimal(uint64_t number);
void say_hexadecimal(uint64_t number);

/* Ends the program with status 1 and a line, unless the condition holds. */
void must(int holds, const char *what);

/* How much of the library's stack a call uses, in bytes. */
typedef void call(void);
size_t stack_of(call *on);

#endif
