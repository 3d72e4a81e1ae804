// Why the edits of a call are made as they are, pass by pass.
#ifndef HOST_PASS_REASONS_H
#define HOST_PASS_REASONS_H

#include "edits.h"

#include <stdio.h>

// The reasons of edits that are being applied.
struct reasons;
struct reasons *begin_reasons(struct edits edits, uint8_t layout, uint8_t mode);

// Notes the next pass, which was accepted: the image that it got, its number of edits, and how long the image is that it made. Each of its
// string edits is judged by itself on the image that the pass got, and the pass goes by all of them.
void note_pass(struct reasons *reasons, struct bytes image, size_t count, size_t after);

// Prints a line for each edit, in their order, and behind the edits of each pass how long the image was before and after it.
void print_reasons(FILE *to, const struct reasons *reasons);

void end_reasons(struct reasons *reasons);

#endif
