// Refusals in words: the number, the name that it has, and what it means.
#ifndef HOST_REFUSALS_H
#define HOST_REFUSALS_H

#include "files.h"

#include <stdbool.h>

// Whether an answer of hbc.h is a refusal, and its number.
bool is_refused(uint64_t answer);
unsigned refusal_of(uint64_t answer);

// The numbers of which more is told than what they mean.
#define NO_SUCH_ID 7
#define NO_TEXT 8
#define OVER_LIMIT 11
#define OVER_FIELD 12
#define NO_ROOM 13
#define NO_SUCH_VALUE 14
#define OUTSIDE 16

// What a number means, its name first.
const char *meaning_of(unsigned number);

// Says WHO is refused, on standard error, without an end of line: more may be said of what was there.
void print_refusal(const char *who, unsigned number);

// Says how many strings or functions there are, with an end of line: behind an id that is refused.
void print_ids(uint64_t count, const char *what);

// Says that a string is refused since there is none of its id, and how many there are.
void print_no_string(uint32_t id, uint64_t count);

// Says that an image is refused, how long it is, and under which other layouts it would be taken.
void print_refused_image(const char *name, struct bytes image, uint8_t layout, unsigned number);

#endif
