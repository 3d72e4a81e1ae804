// What the strings of an image would take if each were stored for itself, as a rebuild stores them.
#ifndef HOST_REBUILT_H
#define HOST_REBUILT_H

#include "string_index.h"

// The bytes of storage, with the zeros before wide strings, and the overflow entries.
struct rebuilt {
    uint64_t storage, overflows;
};

// Of the strings of an index, packed in a mode of hbc.h.
struct rebuilt rebuilt_of(const struct string_index *index, uint8_t mode);

// How long the image of these facts of hbc.h would be with such strings: what stands before the small table, and from the tail on, is as
// long as before.
uint64_t rebuilt_length(const uint64_t *facts, const struct rebuilt *rebuilt);

#endif
