#ifndef DECLARED_STRING_H
#define DECLARED_STRING_H

#include <stddef.h>

extern int memcmp(const void *a, const void *b, size_t length) __attribute__((__nothrow__, __leaf__));
extern void *memcpy(void *to, const void *from, size_t length) __attribute__((__nothrow__, __leaf__));
extern void *memset(void *to, int byte, size_t length) __attribute__((__nothrow__, __leaf__));
extern int strcmp(const char *a, const char *b) __attribute__((__nothrow__, __leaf__));
extern int strncmp(const char *a, const char *b, size_t length) __attribute__((__nothrow__, __leaf__));
extern size_t strlen(const char *text) __attribute__((__nothrow__, __leaf__));
extern size_t strspn(const char *text, const char *of) __attribute__((__nothrow__, __leaf__));
extern size_t strcspn(const char *text, const char *of) __attribute__((__nothrow__, __leaf__));
extern char *strchr(const char *text, int byte) __attribute__((__nothrow__, __leaf__));
extern char *strrchr(const char *text, int byte) __attribute__((__nothrow__, __leaf__));
extern char *strerror(int number) __attribute__((__nothrow__, __leaf__));

#endif
