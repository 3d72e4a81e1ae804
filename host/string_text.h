// Strings in their text form.
#ifndef HOST_STRING_TEXT_H
#define HOST_STRING_TEXT_H

#include "units.h"

#include <stdio.h>

// Prints the first units between quotes, as many as are asked for at most.
void print_quoted(FILE *to, const struct units *units, size_t most);

// Prints units, and their number. What is long is cut.
void print_units(FILE *to, const struct units *units);

// The same of a string of an admitted image, by its row of hbc.h, and of a text, which is UTF-8.
void print_string(FILE *to, struct bytes image, const uint64_t *row);
void print_text(FILE *to, struct bytes text);

#endif
