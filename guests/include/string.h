// What the runtime has of the C library's string.h; guests/build --libc has all of it.
#ifndef KIT_STRING_H
#define KIT_STRING_H

#include <stddef.h>

// clang calls the first four also by itself, as where a struct is copied.
void *memcpy(void *to, const void *from, size_t count);
void *memmove(void *to, const void *from, size_t count);
void *memset(void *to, int byte, size_t count);
int memcmp(const void *left, const void *right, size_t count);
size_t strlen(const char *text);

#endif
