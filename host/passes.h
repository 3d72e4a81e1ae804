// String edits of different ids that stand one behind the other: they are made in one pass.
#ifndef HOST_PASSES_H
#define HOST_PASSES_H

#include "edits.h"

// How many of the edits are made at once: the first, and where it is of a string, those behind it up to a body, to a string that is
// edited again, or to more text than an image can hold.
size_t pass_length(const struct edit *edits, size_t count);

// Makes string edits of different ids in one pass. Answers as hbc.h does.
uint64_t apply_pass(struct bytes image, uint8_t layout, uint8_t mode, const struct edit *edits, size_t count, uint8_t *out);

// The first edit of a refused pass that is refused by itself, for its id or its value, and the number; 0 where it is all of them
// together that is refused.
struct fault {
    size_t edit;
    unsigned number;
};
struct fault fault_of(struct bytes image, uint8_t layout, const struct edit *edits, size_t count);

// The first of some string edits of different ids that meets a limit where they are made one by one, and its number; 0 where it is not
// found. `before` has of each edit how many bytes its string has.
struct fault limit_of(struct bytes image, uint8_t layout, uint8_t mode, const struct edit *edits, const size_t *before, size_t count);

#endif
