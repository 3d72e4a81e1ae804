#ifndef DECLARED_FCNTL_H
#define DECLARED_FCNTL_H

#define O_RDONLY 00
#define O_WRONLY 01
#define F_GETFD 1

extern int fcntl(int file, int command, ...);
extern int open(const char *path, int flags, ...);

#endif
