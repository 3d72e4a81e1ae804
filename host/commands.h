// The commands: each takes the words behind its name, up to a NULL, and answers the exit status.
#ifndef HOST_COMMANDS_H
#define HOST_COMMANDS_H

#include <stdio.h>

typedef int command(char **words);

// The one of `hbc index` is called otherwise: the C library has an `index`.
command demo, extract, help, index_strings, list, locate, patch, translate, verify, why;

// What `hbc help` prints.
void print_usage(FILE *to);

#endif
