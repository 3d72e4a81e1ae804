// Edits of an image: applied in order, strings of different ids at once, all of them or none.
#ifndef HOST_EDITS_H
#define HOST_EDITS_H

#include "files.h"

#include <stdbool.h>

struct reasons;

enum edit_kind { STRING, BODY };

struct edit {
    enum edit_kind kind;
    uint32_t id;
    struct bytes value;
};

struct edits {
    struct edit *at;
    size_t count;
};

// The edit of a word: a string by ID=TEXT, and a string or a body by ID=FILE, of which the bytes are read. A wrong word ends the run.
struct edit edit_by_text(const char *word);
struct edit edit_by_file(enum edit_kind kind, const char *word);

void add_edit(struct edits *edits, struct edit edit);
void free_edits(struct edits edits);

// Whether an edit is of the same string or body as one of the edits given.
bool is_among(const struct edit *edits, size_t count, const struct edit *edit);

// Makes one edit of an image, where there is room for every image. Answers as hbc.h does.
uint64_t apply_edit(struct bytes image, uint8_t layout, uint8_t mode, const struct edit *edit, uint8_t *out);

// Says that the edit of this place, from 1, is refused, and what was there in the image, which is admitted.
void print_refused_edit(size_t place, const struct edit *edit, unsigned number, struct bytes image, uint8_t layout);

// The image with the edits, strings packed in the mode of hbc.h; with none, finalized. Where `reasons` is not null, each pass is noted
// there. False where the image, an edit or a pass of edits is refused, which is then said on standard error.
bool apply_edits(const char *name, struct bytes image, uint8_t layout, uint8_t mode, struct edits edits, struct reasons *reasons,
                 struct bytes *made);

#endif
