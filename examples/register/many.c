// The register with twelve readers and ten writes: a group of 16 processes that makes thousands of events.
#define READERS 12
#define WRITES 10
#include "register.c"
