/* The functions of a C library that the examples call, for a compiler that has no headers of its own. */
#ifndef FREESTANDING_STDIO_H
#define FREESTANDING_STDIO_H

#include <stddef.h>

typedef struct FILE FILE;
extern FILE *stdout;
size_t fwrite(const void *from, size_t size, size_t count, FILE *to);
int printf(const char *format, ...);

#endif
