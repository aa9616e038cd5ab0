/*
 * small.c - the little of a C library that the programs for a board need, and the memory functions that an archive needs
 * there. Whole words are moved where both ends lie on words, as a board's own library does.
 */
#include <stdint.h>
#include <stdio.h>
#include <string.h>

#include "platform.h"

#define WORD sizeof(uintptr_t)

typedef uintptr_t __attribute__((may_alias)) word;

static int on_words(const void *one, const void *other)
{
    return ((uintptr_t)one | (uintptr_t)other) % WORD == 0;
}

void *memcpy(void *to, const void *from, size_t len)
{
    uint8_t *a = to;
    const uint8_t *b = from;

    for (; on_words(a, b) && len >= WORD; a += WORD, b += WORD, len -= WORD)
        *(word *)a = *(const word *)b;
    for (; len > 0; len--)
        *a++ = *b++;
    return to;
}

void *memmove(void *to, const void *from, size_t len)
{
    uint8_t *a = to;
    const uint8_t *b = from;

    if (a <= b)
        return memcpy(to, from, len);
    while (len-- > 0)
        a[len] = b[len];
    return to;
}

void *memset(void *to, int byte, size_t len)
{
    uint8_t *a = to;
    word all = (uint8_t)byte * (UINTPTR_MAX / 255);

    for (; len > 0 && !on_words(a, a); len--)
        *a++ = (uint8_t)byte;
    for (; len >= WORD; a += WORD, len -= WORD)
        *(word *)a = all;
    for (; len > 0; len--)
        *a++ = (uint8_t)byte;
    return to;
}

int memcmp(const void *one, const void *other, size_t len)
{
    const uint8_t *a = one, *b = other;

    for (; on_words(a, b) && len >= WORD && *(const word *)a == *(const word *)b; a += WORD, b += WORD)
        len -= WORD;
    for (; len > 0; len--, a++, b++) {
        if (*a != *b)
            return *a - *b;
    }
    return 0;
}

int strcmp(const char *one, const char *other)
{
    for (; *one != 0 && *one == *other; one++)
        other++;
    return *one - *other;
}

#if defined __ARM_EABI__
/* The names by which ARM's compilers call the memory functions. */
void __aeabi_memcpy(void *to, const void *from, size_t len)
{
    memcpy(to, from, len);
}

void __aeabi_memmove(void *to, const void *from, size_t len)
{
    memmove(to, from, len);
}

void __aeabi_memclr(void *to, size_t len)
{
    memset(to, 0, len);
}

void __aeabi_memset(void *to, size_t len, int byte)
{
    memset(to, byte, len);
}

#define SAME(name, of) __typeof__(of) name __attribute__((alias(#of)))
SAME(__aeabi_memcpy4, __aeabi_memcpy);
SAME(__aeabi_memcpy8, __aeabi_memcpy);
SAME(__aeabi_memmove4, __aeabi_memmove);
SAME(__aeabi_memmove8, __aeabi_memmove);
SAME(__aeabi_memclr4, __aeabi_memclr);
SAME(__aeabi_memclr8, __aeabi_memclr);
SAME(__aeabi_memset4, __aeabi_memset);
SAME(__aeabi_memset8, __aeabi_memset);
#endif

#if defined __ARM_ARCH && __ARM_ARCH == 6
/* What this processor has no instruction for: of the tests' random numbers a product, of the plain C a quotient. */
uint64_t __aeabi_lmul(uint64_t x, uint64_t y)
{
    uint32_t a = (uint32_t)x, b = (uint32_t)y;
    uint32_t low = (a & 0xffff) * (b & 0xffff), high = (a >> 16) * (b >> 16);
    uint32_t one = (a >> 16) * (b & 0xffff), other = (a & 0xffff) * (b >> 16);
    uint32_t middle = (low >> 16) + (one & 0xffff) + (other & 0xffff);

    high += (one >> 16) + (other >> 16) + (middle >> 16);
    high += (uint32_t)(x >> 32) * b + a * (uint32_t)(y >> 32);
    return (uint64_t)high << 32 | middle << 16 | (low & 0xffff);
}

int __aeabi_idiv(int n, int d)
{
    uint32_t left = n < 0 ? 0u - (uint32_t)n : (uint32_t)n, by = d < 0 ? 0u - (uint32_t)d : (uint32_t)d, quotient = 0;

    for (int bit = 31; bit >= 0; bit--) {
        if (left >> bit >= by) {
            left -= by << bit;
            quotient |= 1u << bit;
        }
    }
    return (int)((n < 0) != (d < 0) ? 0u - quotient : quotient);
}
#endif

/* ---- Text ---- */

static void put_padded(const char *text, int width, int left)
{
    int len = 0;

    while (text[len] != 0)
        len++;
    if (left)
        put_text(text);
    for (; len < width; len++)
        put_text(" ");
    if (!left)
        put_text(text);
}

/* The digits by subtraction, as not every board divides. */
static void put_number(unsigned long n, int negative, int width, int left)
{
    static const unsigned long power[] = {1000000000, 100000000, 10000000, 1000000, 100000,
                                          10000,      1000,      100,      10,      1};
    char text[16];
    unsigned at = 0;

    if (negative)
        text[at++] = '-';
    for (unsigned i = 0; i < sizeof power / sizeof *power; i++) {
        char digit = '0';

        for (; n >= power[i]; n -= power[i])
            digit++;
        if (digit != '0' || power[i] == 1 || at > (unsigned)negative)
            text[at++] = digit;
    }
    text[at] = 0;
    put_padded(text, width, left);
}

int vprintf(const char *format, va_list list)
{
    for (; *format != 0; format++) {
        char plain[2] = {*format, 0};
        int left = 0, width = 0, wide = 0, number;

        if (*format != '%') {
            put_text(plain);
            continue;
        }
        for (format++; *format == '-'; format++)
            left = 1;
        for (; *format >= '0' && *format <= '9'; format++)
            width = 10 * width + *format - '0';
        for (; *format == 'l' || *format == 'z'; format++)
            wide = 1;
        switch (*format) {
        case 's':
            put_padded(va_arg(list, const char *), width, left);
            break;
        case 'd':
            number = va_arg(list, int);
            put_number(number < 0 ? 0ul - (unsigned long)number : (unsigned long)number, number < 0, width, left);
            break;
        default: /* u */
            put_number(wide ? va_arg(list, unsigned long) : va_arg(list, unsigned), 0, width, left);
        }
    }
    return 0;
}

int printf(const char *format, ...)
{
    va_list list;

    va_start(list, format);
    vprintf(format, list);
    va_end(list);
    return 0;
}
