/* dump.c - what the service programs share (dump.h). */

#include <errno.h>
#include <stdarg.h>
#include <stdlib.h>
#include <string.h>

#include "dump.h"

uint8_t state[ROUTER_STATE_LEN], memory[ROUTER_MEMORY_LEN];

void stop(const char *format, ...)
{
    va_list list;

    fflush(stdout);
    fprintf(stderr, "%s: ", program);
    va_start(list, format);
    vfprintf(stderr, format, list);
    va_end(list);
    fprintf(stderr, "\n");
    exit(stop_status);
}

FILE *open_file(const char *name)
{
    FILE *file = fopen(name, "rb");

    if (file == NULL)
        stop("%s can't be opened: %s", name, strerror(errno));
    return file;
}

size_t read_some(FILE *file, const char *name, uint8_t *bytes, size_t len)
{
    size_t got = fread(bytes, 1, len, file);

    if (ferror(file))
        stop("%s can't be read: %s", name, strerror(errno));
    return got;
}

void take_dump(const char *name)
{
    FILE *file = open_file(name);
    uint8_t more;
    size_t got = read_some(file, name, state, sizeof state);

    got += read_some(file, name, memory, sizeof memory);
    if (got != sizeof state + sizeof memory)
        stop("%s has %zu bytes, and a dump has %zu", name, got, sizeof state + sizeof memory);
    if (read_some(file, name, &more, 1) != 0)
        stop("%s has more bytes than a dump, which has %zu", name, sizeof state + sizeof memory);
    fclose(file);
}

void end_output(void)
{
    if (fflush(stdout) != 0 || ferror(stdout))
        stop("standard output can't be written: %s", strerror(errno));
}
