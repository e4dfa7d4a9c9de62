// support.c: what a C library would give: a printf of a few lines, and the functions that the library calls.
#include "kernel.h"

#include <stdarg.h>

static void put_number(uint32_t number, uint32_t base, uint32_t width) {
    if (number >= base) {
        put_number(number / base, base, width - (width != 0));
        width = 0;
    }
    for (; width > 1; width--) {
        put(' ');
    }
    put("0123456789abcdef"[number % base]);
}

static void put_text(const char *text, uint32_t width) {
    for (; *text != 0 || width != 0; width -= width != 0) {
        put(*text != 0 ? *text++ : ' ');
    }
}

// Knows %s, and %u and %x of 32 bits. A width, of one digit, puts blanks after a text and before a number.
void print(const char *format, ...) {
    va_list given;
    va_start(given, format);
    for (; *format != 0; format++) {
        if (*format != '%') {
            put(*format);
            continue;
        }
        format++;
        uint32_t width = *format >= '0' && *format <= '9' ? (uint32_t)(*format++ - '0') : 0;
        if (*format == 's') {
            put_text(va_arg(given, const char *), width);
        } else {
            put_number(va_arg(given, uint32_t), *format == 'x' ? 16 : 10, width);
        }
    }
    va_end(given);
}

void *memcpy(void *restrict to, const void *restrict from, size_t size) {
    while (size-- != 0) {
        ((volatile uint8_t *)to)[size] = ((const uint8_t *)from)[size]; // volatile: else gcc makes a call of memcpy
    }
    return to;
}

void *memset(void *to, int byte, size_t size) {
    while (size-- != 0) {
        ((volatile uint8_t *)to)[size] = (uint8_t)byte;
    }
    return to;
}

// ---- the heap: lot_kernel_new takes all that the lottery will ever use, and nothing is given back

static _Alignas(16) uint8_t heap[64 * 1024];
static size_t taken;

lot_block rattle_alloc(size_t size, size_t align) {
    lot_block block = {align <= 16 && size <= sizeof heap - taken, heap + taken};
    taken += block.ok ? (size + 15) / 16 * 16 : 0;
    return block;
}

lot_block rattle_realloc(void *at, size_t kept, size_t size, size_t align) {
    lot_block block = rattle_alloc(size, align);
    return block.ok ? (lot_block){true, memcpy(block.at, at, kept)} : block;
}

void rattle_dealloc(void *at) { (void)at; }
