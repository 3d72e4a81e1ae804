#ifndef DECLARED_UNISTD_H
#define DECLARED_UNISTD_H

#include <stddef.h>
#include <sys/types.h>

#define STDIN_FILENO 0
#define STDOUT_FILENO 1
#define STDERR_FILENO 2
#define W_OK 2

extern ssize_t read(int file, void *bytes, size_t length);
extern ssize_t write(int file, const void *bytes, size_t length);
extern int close(int file);
extern int fsync(int file);
extern int fchown(int file, uid_t owner, gid_t group) __attribute__((__nothrow__, __leaf__));
extern int access(const char *path, int mode) __attribute__((__nothrow__, __leaf__));
extern int unlink(const char *path) __attribute__((__nothrow__, __leaf__));
extern ssize_t readlink(const char *path, char *out, size_t length) __attribute__((__nothrow__, __leaf__));

#endif
