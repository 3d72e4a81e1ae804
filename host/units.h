// Units of 16 bits as they stand in bytes: those of a string of an image, narrow or wide, and those of a text, low byte first.
#ifndef HOST_UNITS_H
#define HOST_UNITS_H

#include "files.h"

struct units {
    const uint8_t *at;
    size_t count;
    bool is_wide;
};

unsigned unit_at(const struct units *units, size_t place);

// The units of a string of an admitted image, by its row of hbc.h.
struct units units_of_string(struct bytes image, const uint64_t *row);

// The units of a text, which is UTF-8, put where there is room for two bytes for each of its bytes.
struct units units_of_text(struct bytes text, uint8_t *room);

// Below, at or above 0, as the one is before, equal to or behind the other: by count, and then by their units.
int compare_units(const struct units *one, const struct units *other);

// Whether the halves of pairs among units are all in pairs, as in valid UTF-16.
bool are_paired(const struct units *units);

#endif
