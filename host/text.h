// The text form of 16-bit units: UTF-8 between quotes, with what no terminal shows as escapes. It is a string as JSON has it.
#ifndef HOST_TEXT_H
#define HOST_TEXT_H

#include <stdio.h>

// A text that is being printed: where to, and the first half of a pair that waits for its second, or 0.
struct text {
    FILE *to;
    unsigned high;
};

struct text begin_text(FILE *to);
void put_unit(struct text *text, unsigned unit);
void end_text(struct text *text);

#endif
