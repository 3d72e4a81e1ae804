// Plain strings of an image whose texts are near another one.
#ifndef HOST_NEAR_H
#define HOST_NEAR_H

#include "units.h"

#include <stdio.h>

// Prints the nearest few, a line each; none where none is near.
void print_near(FILE *to, struct bytes image, uint8_t layout, const struct units *text);

#endif
