// Lines of text for guests with threads.
#ifndef PRINT_TWO_H
#define PRINT_TWO_H

#include "runtime.h"

enum { LONGEST_LINE = 120 };

static char *add_text(char *end, const char *text) {
    size_t length = strlen(text);
    memcpy(end, text, length);
    return end + length;
}

// Prints a line of two words and two numbers, which have to fit into LONGEST_LINE bytes.
static void print_two(const char *first, int64_t one, const char *second, int64_t other) {
    char line[LONGEST_LINE];
    char *end = add_text(line, first);
    end += number_to_text(end, one);
    end = add_text(end, second);
    end += number_to_text(end, other);
    end = add_text(end, "\n");
    liblog_print(line, (uint32_t)(end - line));
}

#endif
