#ifndef DECLARED_STDLIB_H
#define DECLARED_STDLIB_H

#include <stddef.h>

extern void *malloc(size_t length) __attribute__((__nothrow__, __leaf__, __malloc__));
extern void *realloc(void *at, size_t length) __attribute__((__nothrow__, __leaf__));
extern void free(void *at) __attribute__((__nothrow__, __leaf__));
extern void exit(int status) __attribute__((__nothrow__, __leaf__, __noreturn__));
extern int mkstemp(char *name);
extern void qsort(void *from, size_t count, size_t length, int (*compare)(const void *, const void *));

#endif
