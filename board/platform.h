/* platform.h - what the programs for a board have of the machine that runs them (platform.c). */
#ifndef PLATFORM_H
#define PLATFORM_H

#include <stddef.h>
#include <stdint.h>

/* Prints a text that ends with a zero byte. */
void put_text(const char *text);

/* Ends the program; the emulator's exit status is zero exactly if this is. */
void quit(int status);

/* Runs a function on another stack. */
void run_on(uint8_t *stack, size_t len, void (*run)(void));

#endif
