#include "runtime.h"

// With build --libc they come from there.
#ifndef LIBLOG_LIBC

void *memcpy(void *to, const void *from, size_t count) {
    uint8_t *target = to;
    const uint8_t *source = from;
    for (size_t i = 0; i < count; i++)
        target[i] = source[i];
    return to;
}

void *memmove(void *to, const void *from, size_t count) {
    uint8_t *target = to;
    const uint8_t *source = from;
    if ((uintptr_t)to < (uintptr_t)from)
        return memcpy(to, from, count);
    for (size_t i = count; i > 0; i--)
        target[i - 1] = source[i - 1];
    return to;
}

// Eight bytes at a time, since each instruction of a guest is interpreted; WebAssembly stores them at any address.
void *memset(void *to, int byte, size_t count) {
    typedef uint64_t eight __attribute__((aligned(1), may_alias));
    uint8_t *target = to;
    size_t i = 0;
    for (; count - i >= sizeof(eight); i += sizeof(eight))
        *(eight *)(target + i) = 0x0101010101010101u * (uint8_t)byte;
    for (; i < count; i++)
        target[i] = (uint8_t)byte;
    return to;
}

int memcmp(const void *left, const void *right, size_t count) {
    const uint8_t *a = left, *b = right;
    for (size_t i = 0; i < count; i++)
        if (a[i] != b[i])
            return a[i] < b[i] ? -1 : 1;
    return 0;
}

size_t strlen(const char *text) {
    size_t count = 0;
    while (text[count] != 0)
        count++;
    return count;
}

#endif

uint32_t number_to_text(char *to, int64_t number) {
    char digits[LONGEST_NUMBER];
    uint32_t at = sizeof digits, count;
    // The least number has no counterpart above 0 but as unsigned.
    uint64_t rest = number < 0 ? 0 - (uint64_t)number : (uint64_t)number;
    do {
        digits[--at] = (char)('0' + rest % 10);
        rest /= 10;
    } while (rest != 0);
    if (number < 0)
        digits[--at] = '-';
    count = sizeof digits - at;
    memcpy(to, digits + at, count);
    return count;
}

int32_t (print_text)(const char *text) {
    return KEEP_STACK((liblog_print)(text, strlen(text)));
}

static void keep_time(int32_t place) {
    struct retry *retry = (struct retry *)place;
    for (;;) {
        int64_t now = liblog_sleep_until(retry->next);
        // The timer may have been set again meanwhile.
        if (now < retry->next)
            continue;
        retry->next = now + retry->period;
        if (retry->left > 0) {
            retry->left--;
            retry->act(retry->with);
        }
    }
}

int32_t (retry_begin)(struct retry *retry) {
    retry->left = 0;
    retry->next = KEEP_STACK((liblog_now)()) + retry->period;
    return (thread_start)(keep_time, (int32_t)retry, retry->stack, sizeof retry->stack) < 0 ? -1 : 0;
}

void (retry_set)(struct retry *retry, uint32_t times) {
    retry->next = KEEP_STACK((liblog_now)()) + retry->period;
    retry->left = times;
}

void retry_stop(struct retry *retry) {
    retry->left = 0;
}
