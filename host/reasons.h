// Why an edit of a string is made in place, or by packing all strings anew.
#ifndef HOST_REASONS_H
#define HOST_REASONS_H

#include "../hbc.h"
#include "edits.h"

#include <stdio.h>

// How a string and another that overlaps it lie: all or some of its bytes are the other's too; the other is empty, and within it; or it is
// empty itself, and within the other.
enum overlap { ALL_SHARED, SOME_SHARED, AROUND, WITHIN };

// What hbc.h says of an edit: the number of a refusal, or 0 and the words of the reason, behind an overlap also how the two strings lie.
struct reason {
    unsigned refusal;
    uint32_t words[NEPULADRIM_REASON_WORDS];
    enum overlap overlap;
};

// The reason of a string edit by itself.
struct reason reason_of(struct bytes image, uint8_t layout, uint8_t mode, const struct edit *edit);

// Whether it is no refusal, and has this code.
bool has_code(const struct reason *reason, enum nepuladrim_reason code);

// Prints the reason of an edit that is not refused, as a sentence without its end.
void print_reason(FILE *to, const struct edit *edit, const struct reason *reason);

// Prints how much longer or shorter an image gets where its strings are packed anew: the end of a sentence, and of its line.
void print_growth(FILE *to, size_t before, size_t after);

// Prints both of an edit that is made alone, as a line.
void print_reason_line(FILE *to, const struct edit *edit, const struct reason *reason, size_t before, size_t after);

// Prints the lengths of an image before and after something is done, as a line. WHAT names it, behind a space; or it is empty.
void print_image_lengths(FILE *to, size_t before, const char *what, size_t after);

#endif
