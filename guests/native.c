// The calls of liblog that the guests make, for a build that runs by itself: each is written as a line.
#include "liblog.h"

#include <inttypes.h>
#include <stdio.h>
#include <stdlib.h>

void guest_start(void);

void liblog_exit(int32_t code) {
    printf("exit %" PRId32 "\n", code);
    exit(0);
}

void liblog_note(int64_t value) {
    printf("note %" PRId64 "\n", value);
}

int32_t liblog_print(const void *bytes, uint32_t count) {
    const uint8_t *byte = bytes;
    printf("print ");
    for (uint32_t i = 0; i < count; i++)
        printf("%02x", byte[i]);
    printf("\n");
    return (int32_t)count;
}

int main(void) {
    guest_start();
    return 0;
}
