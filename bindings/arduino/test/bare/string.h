/* What dcc.c and the sketches need of the C library, for compilers that have none. */
#ifndef STRING_H
#define STRING_H

#include <stddef.h>

#ifdef __cplusplus
extern "C" {
#endif
void *memcpy(void *to, const void *from, size_t len);
void *memmove(void *to, const void *from, size_t len);
void *memset(void *at, int value, size_t len);
size_t strlen(const char *text);
#ifdef __cplusplus
}
#endif

#endif
