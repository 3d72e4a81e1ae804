#ifndef DECLARED_ERRNO_H
#define DECLARED_ERRNO_H

#define ENOENT 2
#define EINTR 4
#define ENOTDIR 20
#define errno (*__errno_location())

extern int *__errno_location(void) __attribute__((__nothrow__, __leaf__, __const__));

#endif
