// The number of the process, from 1 on, as 0 is none.
#include <unistd.h>

#include "threads.h"

pid_t getpid(void) {
    return 1 + liblog_me();
}
