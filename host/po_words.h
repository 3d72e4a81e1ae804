// What is said of a translators' file: why it is refused, and what was applied of it and what not.
#ifndef HOST_PO_WORDS_H
#define HOST_PO_WORDS_H

#include "targets.h"

#include <stdio.h>

// A file that is tried on an image, and what is known of both.
struct trial {
    const char *name;
    struct bytes image;
    uint8_t layout, mode;
    const struct po_file *file;
    const struct targets *targets;
};

// Says that a file is refused with a number by the proved function, and why, as far as that is found.
void print_refused_file(const struct trial *trial, unsigned number);

// The first pair that is applied and called fuzzy, or NULL, and how many there are.
const struct pair *first_fuzzy(const struct po_file *file, size_t *count);

// Says that a file is not applied, for a pair of it that is called fuzzy.
void print_refused_fuzzy(const char *name, const struct po_file *file);

// What was applied of a file, and what was set aside.
struct tally {
    size_t applied, headers, untranslated, fuzzy, fuzzy_line;
};
struct tally tally_of(const struct po_file *file);
void print_tally(FILE *to, const char *name, const struct tally *tally);

#endif
