// What lwIP asks of the compiler and the C library.
#ifndef ARCH_CC_H
#define ARCH_CC_H

#include <stdlib.h>

#define LWIP_RAND() arc4random()

#endif
