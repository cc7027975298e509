// Formats texts: numbers in base 10 and 16, characters and texts, with widths. Each is noted, and its length.
#include "notes.h"

#include <stdarg.h>

// The text that is made: its room, and how long it would be if there were room for all of it.
struct text {
    char *to;
    uint32_t room;
    uint32_t length;
};

// How one value is laid out.
struct layout {
    uint32_t width;
    char fill;
    int to_the_left;
};

static void put(struct text *text, char character) {
    if (text->length < text->room)
        text->to[text->length] = character;
    text->length++;
}

static void put_times(struct text *text, char character, uint32_t count) {
    for (uint32_t i = 0; i < count; i++)
        put(text, character);
}

static void put_padded(struct text *text, const char *from, uint32_t count, const struct layout *layout) {
    uint32_t missing = layout->width > count ? layout->width - count : 0;
    if (!layout->to_the_left)
        put_times(text, layout->fill, missing);
    for (uint32_t i = 0; i < count; i++)
        put(text, from[i]);
    if (layout->to_the_left)
        put_times(text, ' ', missing);
}

static void put_number(struct text *text, uint64_t value, uint32_t base, int is_negative, const struct layout *layout) {
    char digits[24];
    uint32_t at = sizeof digits;
    do {
        digits[--at] = "0123456789abcdef"[value % base];
        value /= base;
    } while (value != 0);
    // A sign stands before the zeros that fill the width.
    struct layout rest = *layout;
    if (is_negative && layout->fill == '0') {
        put(text, '-');
        rest.width = rest.width > 0 ? rest.width - 1 : 0;
    } else if (is_negative) {
        digits[--at] = '-';
    }
    put_padded(text, &digits[at], sizeof digits - at, &rest);
}

static uint32_t length_of(const char *from) {
    uint32_t count = 0;
    while (from[count] != 0)
        count++;
    return count;
}

// One value: d and u are of 32 bits, D and U of 64, x and X are those in base 16; c, s and % as ever.
static void put_value(struct text *text, char kind, const struct layout *layout, va_list *values) {
    int64_t number;
    char character;
    const char *from;
    switch (kind) {
    case 'd':
    case 'D':
        number = kind == 'd' ? va_arg(*values, int32_t) : va_arg(*values, int64_t);
        put_number(text, number < 0 ? 0 - (uint64_t)number : (uint64_t)number, 10, number < 0, layout);
        break;
    case 'u':
        put_number(text, va_arg(*values, uint32_t), 10, 0, layout);
        break;
    case 'U':
        put_number(text, va_arg(*values, uint64_t), 10, 0, layout);
        break;
    case 'x':
        put_number(text, va_arg(*values, uint32_t), 16, 0, layout);
        break;
    case 'X':
        put_number(text, va_arg(*values, uint64_t), 16, 0, layout);
        break;
    case 'c':
        character = (char)va_arg(*values, int);
        put_padded(text, &character, 1, layout);
        break;
    case 's':
        from = va_arg(*values, const char *);
        put_padded(text, from, length_of(from), layout);
        break;
    default:
        put(text, kind);
    }
}

static uint32_t format(char *to, uint32_t room, const char *form, va_list *values) {
    struct text text = {to, room, 0};
    for (; *form != 0; form++) {
        if (*form != '%') {
            put(&text, *form);
            continue;
        }
        form++;
        struct layout layout = {0, ' ', 0};
        for (; *form == '0' || *form == '-'; form++) {
            if (*form == '0')
                layout.fill = '0';
            else
                layout.to_the_left = 1;
        }
        for (; *form >= '0' && *form <= '9'; form++)
            layout.width = 10 * layout.width + (uint32_t)(*form - '0');
        put_value(&text, *form, &layout, values);
    }
    return text.length;
}

// Notes as much as there is room for, and how long the whole text is.
static void say(uint32_t room, const char *form, ...) {
    char line[256];
    va_list values;
    va_start(values, form);
    uint32_t length = format(line, room < sizeof line ? room : sizeof line, form, &values);
    va_end(values);
    note_bytes(line, length < room ? length : room);
    liblog_note(length);
}

void _start(void) {
    say(256, "plain text, 100%%\n");
    say(256, "%d %d %d %d\n", 0, -1, INT32_MAX, INT32_MIN);
    say(256, "%u %x %x\n", UINT32_MAX, UINT32_MAX, 0u);
    say(256, "%D %D %U %X\n", INT64_MAX, INT64_MIN, UINT64_MAX, (uint64_t)0x0123456789ABCDEFu);
    say(256, "[%6d] [%06d] [%-6d] [%2d]\n", -42, -42, -42, -4242);
    say(256, "[%8s] [%-8s] [%s] [%c%c]\n", "right", "left", "", 'o', 'k');
    say(20, "%s is cut after twenty bytes\n", "this text");
    say(0, "%s", "nothing of this");
    for (int32_t n = 1, power = 1; n <= 9; n++, power *= -7)
        say(256, "-7 to the power %d is %12d, and %08x\n", n - 1, power, (uint32_t)power);
    liblog_exit(0);
}
