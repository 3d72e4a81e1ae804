// Files that are written, whole or not at all.
#ifndef HOST_OUTPUTS_H
#define HOST_OUTPUTS_H

#include "files.h"

#include <sys/stat.h>

// Where an output goes: the file that its name leads to through all links, and what was there. No path is standard output.
struct output {
    char *path;
    bool is_there;
    struct stat old;
};

// Judges the name of an output. What is there and is no regular file, or cannot be written, ends the run.
struct output output_of(const char *name);

// Whether an output is the file of a name, which is read.
bool is_that_file(const struct output *output, const char *name);

// Writes an output: a file beside it, with its mode or that of a new file, synced, then renamed. A run ends where that fails. Nothing is
// left behind then, nor where INT, TERM or HUP end it.
void write_output(struct output output, struct bytes bytes);

#endif
