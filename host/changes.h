// What edits have changed of an image, as lines.
#ifndef HOST_CHANGES_H
#define HOST_CHANGES_H

#include "edits.h"

#include <stdio.h>

// Prints what has changed: a line for each string and body, however often it was edited, and one for the image.
void print_changes(FILE *to, struct bytes before, struct bytes after, uint8_t layout, struct edits edits);

// Prints how many wide strings of an admitted image start at odd places, where there are any: a line.
void print_odd_strings(FILE *to, struct bytes image, uint8_t layout);

#endif
