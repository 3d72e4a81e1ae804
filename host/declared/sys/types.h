#ifndef DECLARED_SYS_TYPES_H
#define DECLARED_SYS_TYPES_H

typedef long int ssize_t;
typedef unsigned int mode_t;
typedef unsigned int uid_t;
typedef unsigned int gid_t;

#endif
