#ifndef DECLARED_STDDEF_H
#define DECLARED_STDDEF_H

#define NULL ((void *)0)

typedef unsigned long int size_t;

#endif
