// Room for an index of an image's strings, as hbc.h has it.
#ifndef HOST_STRING_INDEX_H
#define HOST_STRING_INDEX_H

#include "files.h"

struct string_index {
    uint32_t *words;
    size_t length;
};

// As much as is asked for: the words of an index for each string that the header of the image counts. The image need not be admitted: of
// a count that its bytes cannot hold, as much as they could. For the caller to free.
struct string_index room_for_index(struct bytes image);

#endif
