// Strings of an image that share a place: the same offset, length and width. In a repacked image these are the equal ones.
#ifndef HOST_SHARING_H
#define HOST_SHARING_H

#include "string_index.h"

#include <stdio.h>

// A group is of two strings or more at one place. Of each string the next one at its place is known, and whether there is one before it.
struct sharing {
    struct string_index index;
    uint32_t *next;
    bool *is_again;
    uint64_t groups, shared, bytes; // how many share the place of a lower id; the bytes of all strings, those of a place once
};

struct sharing sharing_of(struct bytes image, uint8_t layout);
void free_sharing(struct sharing sharing);

// Prints a line for each group, in the order of their lowest ids, with the text of its strings; `storage` is that of the image. Only the
// first groups, and of each the first ids, unless all are asked for.
void print_groups(FILE *to, const struct sharing *sharing, const uint8_t *storage, bool are_all);

#endif
