// A function in a file that a guest includes.
#ifndef LINES_H
#define LINES_H

#include "threads.h"

static void wait_in_header(int32_t thread) {
    liblog_join((uint32_t)thread - 1);
}

#endif
