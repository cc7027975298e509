// What a guest notes is counted, and the last note kept, in place of friday: in the same module, or natively. With WRITES a note is
// also written to a file, with one call of the system, as `friday record` does.
#include "liblog.h"

static int64_t last;

#ifdef __wasm__

void liblog_note(int64_t value) {
    last = value;
}

__attribute__((export_name("last"))) int64_t last_note(void) {
    return last;
}

#else

#include <fcntl.h>
#include <inttypes.h>
#include <stdio.h>
#include <stdlib.h>
#include <unistd.h>

static uint32_t count;
#ifdef WRITES
static int file;
#endif

void guest_start(void);

void liblog_note(int64_t value) {
    count++;
    last = value;
#ifdef WRITES
    if (write(file, &value, sizeof value) != sizeof value) {
        exit(1);
    }
#endif
}

int main(void) {
#ifdef WRITES
    file = open("notes", O_WRONLY | O_CREAT | O_TRUNC, 0666);
#endif
    guest_start();
    printf("%" PRIu32 " notes, the last %" PRId64 "\n", count, last);
    return 0;
}

#endif
