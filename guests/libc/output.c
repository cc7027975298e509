// wasi-libc takes no locks for its files, since it knows no threads: one that printed while another prints would find a line half
// written. The linker puts these in front of the functions that write. A thread that prints alone makes no call more.
#include <stdarg.h>
#include <stdio.h>

#include "threads.h"

static uint8_t is_taken;

static void take(void) {
    while (is_taken)
        liblog_yield();
    is_taken = 1;
}

int __real_vfprintf(FILE *restrict file, const char *restrict format, va_list list);
int __wrap_vfprintf(FILE *restrict file, const char *restrict format, va_list list) {
    take();
    int count = __real_vfprintf(file, format, list);
    is_taken = 0;
    return count;
}

size_t __real_fwrite(const void *restrict bytes, size_t size, size_t count, FILE *restrict file);
size_t __wrap_fwrite(const void *restrict bytes, size_t size, size_t count, FILE *restrict file) {
    take();
    size_t written = __real_fwrite(bytes, size, count, file);
    is_taken = 0;
    return written;
}

// A character for which the file has no room, or that ends a line.
int __real___overflow(FILE *file, int character);
int __wrap___overflow(FILE *file, int character) {
    take();
    int written = __real___overflow(file, character);
    is_taken = 0;
    return written;
}
