/* Where a program with no C library and no operating system's files begins, for the examples on the bare-metal
 * archives. It is run by an emulator of the processor, which takes two calls: write and exit. */
#include "stdio.h"
#include "string.h"

#include <stdarg.h>

int main(void);

static long call(long number, long a, long b, long c)
{
#if defined(__aarch64__)
    register long r0 __asm__("x0") = a, r1 __asm__("x1") = b, r2 __asm__("x2") = c, n __asm__("x8") = number;
    __asm__ volatile("svc 0" : "+r"(r0) : "r"(r1), "r"(r2), "r"(n) : "memory");
#elif defined(__riscv)
    register long r0 __asm__("a0") = a, r1 __asm__("a1") = b, r2 __asm__("a2") = c, n __asm__("a7") = number;
    __asm__ volatile("ecall" : "+r"(r0) : "r"(r1), "r"(r2), "r"(n) : "memory");
#endif
    return r0;
}

enum { WRITE = 64, EXIT = 93, OUTPUT = 1 };

void _start(void)
{
    call(EXIT, main(), 0, 0);
    for (;;) { }
}

void *memcpy(void *restrict to, const void *restrict from, size_t bytes)
{
    for (size_t i = 0; i < bytes; i++) {
        ((unsigned char *)to)[i] = ((const unsigned char *)from)[i];
    }
    return to;
}

void *memset(void *to, int value, size_t bytes)
{
    for (size_t i = 0; i < bytes; i++) {
        ((unsigned char *)to)[i] = (unsigned char)value;
    }
    return to;
}

int memcmp(const void *one, const void *other, size_t bytes)
{
    for (size_t i = 0; i < bytes; i++) {
        const int difference = ((const unsigned char *)one)[i] - ((const unsigned char *)other)[i];
        if (difference != 0) {
            return difference;
        }
    }
    return 0;
}

static void put(const char *text)
{
    size_t bytes = 0;
    while (text[bytes] != 0) {
        bytes++;
    }
    call(WRITE, OUTPUT, (long)text, (long)bytes);
}

static void put_number(unsigned number)
{
    char digits[12];
    size_t at = sizeof digits - 1;
    digits[at] = 0;
    do {
        digits[--at] = (char)('0' + number % 10);
        number /= 10;
    } while (number != 0);
    put(digits + at);
}

/* %s, and %d of a number that is not negative. */
int printf(const char *format, ...)
{
    va_list given;
    va_start(given, format);
    for (; *format != 0; format++) {
        if (format[0] == '%' && format[1] == 's') {
            put(va_arg(given, const char *));
            format++;
        } else if (format[0] == '%' && format[1] == 'd') {
            put_number((unsigned)va_arg(given, int));
            format++;
        } else {
            const char one[2] = {*format, 0};
            put(one);
        }
    }
    va_end(given);
    return 0;
}
