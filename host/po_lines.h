// Lines of a translators' file, and what is wrong with one.
#ifndef HOST_PO_LINES_H
#define HOST_PO_LINES_H

#include "files.h"

// A line without its line feed; lines are numbered from 1.
struct po_line {
    const uint8_t *at;
    size_t length, number;
};

// What is outside the subset: the line, or 0 where nothing is, and what is wrong with it, in words.
struct po_fault {
    size_t line;
    char words[200];
};

// Notes what is wrong with a line, where nothing was wrong before.
__attribute__((format(printf, 3, 4))) void note_fault(struct po_fault *fault, const struct po_line *line, const char *format, ...);

// Whether a line begins with some bytes, and with a keyword, of which no more stands there.
bool begins(const struct po_line *line, const char *with);
bool has_keyword(const struct po_line *line, const char *keyword);

// Whether a line is a comment with flags, and `fuzzy` is one of them.
bool is_fuzzy(const struct po_line *line);

// Every byte of every line is judged, of comments too: UTF-8, no controls, no byte order mark.
void judge_bytes(const struct po_line *line, struct po_fault *fault);

// What is wrong with a line that is no comment, has no keyword that is read, and is no quoted text.
void judge_other(const struct po_line *line, struct po_fault *fault);

// Takes quoted text from its opening quote to the end of its line, unescaped, and the one behind a keyword and one space. Answers how
// many bytes it has.
size_t take_quoted(const struct po_line *line, size_t quote, uint8_t *to, struct po_fault *fault);
size_t take_value(const struct po_line *line, const char *keyword, uint8_t *to, struct po_fault *fault);

#endif
