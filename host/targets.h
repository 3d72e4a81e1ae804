// The pairs of a translators' file, looked up among the strings of an image.
#ifndef HOST_TARGETS_H
#define HOST_TARGETS_H

#include "edits.h"
#include "po_file.h"
#include "units.h"

// A pair that is applied: the units of its msgid, and whether a plain string has them. Where an identifier has, it is told by its id.
struct target {
    const struct pair *pair;
    struct units units;
    bool is_found, is_identifier;
    uint64_t identifier;
};

// The pairs by their units; and the edits that they are, by id, each with the bytes that the string has before. The values are those of
// the file.
struct targets {
    struct target *at;
    size_t count;
    uint8_t *units;
    struct edits edits;
    size_t *before;
};

struct targets targets_of(struct bytes image, uint8_t layout, const struct po_file *file);
void free_targets(struct targets targets);

#endif
