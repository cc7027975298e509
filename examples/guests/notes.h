// Notes of bytes.
#ifndef NOTES_H
#define NOTES_H

#include "liblog.h"

// Notes how many bytes there are, and then the bytes, eight to a number, the first of them lowest.
static void note_bytes(const void *bytes, uint32_t count) {
    const uint8_t *byte = bytes;
    liblog_note(count);
    for (uint32_t at = 0; at < count; at += 8) {
        uint64_t number = 0;
        for (uint32_t i = 0; i < 8 && at + i < count; i++)
            number |= (uint64_t)byte[at + i] << (8 * i);
        liblog_note((int64_t)number);
    }
}

#endif
