#ifndef DECLARED_STDIO_H
#define DECLARED_STDIO_H

#include <stdarg.h>
#include <stddef.h>

typedef struct _IO_FILE FILE;

extern FILE *stdin;
extern FILE *stdout;
extern FILE *stderr;

extern int fprintf(FILE *file, const char *format, ...) __attribute__((__format__(__printf__, 2, 3)));
extern int printf(const char *format, ...) __attribute__((__format__(__printf__, 1, 2)));
extern int puts(const char *text);
extern int vfprintf(FILE *file, const char *format, va_list words);
extern int snprintf(char *out, size_t length, const char *format, ...)
    __attribute__((__nothrow__, __format__(__printf__, 3, 4)));
extern int vsnprintf(char *out, size_t length, const char *format, va_list words) __attribute__((__nothrow__));
extern size_t fwrite(const void *bytes, size_t size, size_t count, FILE *file);
extern size_t fread(void *bytes, size_t size, size_t count, FILE *file);
extern int fflush(FILE *file);
extern FILE *popen(const char *command, const char *mode);
extern int pclose(FILE *file);
extern int rename(const char *from, const char *to) __attribute__((__nothrow__, __leaf__));

#endif
