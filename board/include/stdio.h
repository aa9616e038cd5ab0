/* stdio.h - of small.c. */
#ifndef STDIO_H
#define STDIO_H

#include <stdarg.h>

/* %s, %u, %d, %lu and %zu, with a width and - before it. */
int printf(const char *format, ...);
int vprintf(const char *format, va_list list);

#endif
