// A translators' file, as what is said of it needs it: its pairs with their lines, and the first thing in it that is outside the subset.
// Whether it is taken, and what it makes, the proved function says.
#ifndef HOST_PO_FILE_H
#define HOST_PO_FILE_H

#include "po_lines.h"

// The msgid and the msgstr, unescaped and joined; the line of the msgid; and the line before it that calls it fuzzy, or 0.
struct pair {
    struct bytes id, value;
    size_t line, fuzzy;
};

// The pairs up to the first fault, in the order of the file, and the text that they lie in.
struct po_file {
    struct pair *pairs;
    size_t count;
    struct po_fault fault;
    uint8_t *text;
};

struct po_file po_file_of(struct bytes file);
void free_po_file(struct po_file file);

// A pair is the header, not translated, or applied.
bool is_header(const struct pair *pair);
bool is_untranslated(const struct pair *pair);
bool is_applied(const struct pair *pair);

#endif
