#ifndef DECLARED_SYS_STAT_H
#define DECLARED_SYS_STAT_H

#include <sys/types.h>

#define S_ISREG(mode) (((mode) & 0170000) == 0100000)
#define S_ISDIR(mode) (((mode) & 0170000) == 0040000)
#define S_ISLNK(mode) (((mode) & 0170000) == 0120000)

// What is known of a file: of its fields those are named that are used.
struct stat {
    unsigned long int st_dev;
    unsigned long int st_ino;
    unsigned long int before;
    mode_t st_mode;
    uid_t st_uid;
    gid_t st_gid;
    unsigned int behind[27];
};

extern int stat(const char *path, struct stat *known) __attribute__((__nothrow__, __leaf__));
extern int lstat(const char *path, struct stat *known) __attribute__((__nothrow__, __leaf__));
extern int fchmod(int file, mode_t mode) __attribute__((__nothrow__, __leaf__));
extern mode_t umask(mode_t mode) __attribute__((__nothrow__, __leaf__));

#endif
