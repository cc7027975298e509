// Prints numbers as texts, and bytes that are copied, moved, set and compared.
#include "runtime.h"

static const int64_t numbers[] = {0, 7, -1, 1000000000000, INT64_MAX, INT64_MIN};

static void print_number(int64_t number) {
    char text[LONGEST_NUMBER];
    liblog_print(text, number_to_text(text, number));
}

void _start(void) {
    for (uint32_t i = 0; i < sizeof numbers / sizeof numbers[0]; i++)
        print_number(numbers[i]);
    char text[] = "0123456789";
    print_text(text);
    memmove(text + 2, text, 5);
    print_text(text);
    memmove(text, text + 1, 5);
    print_text(text);
    memset(text + 1, 'x', 3);
    memcpy(text + 5, "abc", 3);
    print_text(text);
    print_number(memcmp("ab\x80", "ab\x7F", 3));
    print_number(memcmp("abc", "abd", 2));
    print_number(memcmp("a", "b", 1));
    liblog_exit((int32_t)strlen(text));
}
