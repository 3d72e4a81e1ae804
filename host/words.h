// The words of a command: its options and names, and what single words mean.
#ifndef HOST_WORDS_H
#define HOST_WORDS_H

#include <stdbool.h>
#include <stdint.h>

// An option of a command, and what its value is called; NULL where it has none. A list of them ends with a NULL name.
struct option {
    const char *name, *value;
};

// The words that are left, and whether `--` was met: all behind it are names.
struct words {
    char **left;
    bool are_names;
};

// A word that was taken: the place of its option in the list and the value, or NAME and the name.
#define NAME (-1)
struct word {
    int option;
    const char *value;
};

// Takes the next word, with its value where it is an option that has one. False at the end. A wrong option ends the run.
bool take_word(struct words *words, const struct option *options, struct word *word);

// The layout byte of a name, and the name of a layout byte. A wrong name ends the run.
uint8_t layout_of(const char *name);
const char *layout_name(uint8_t layout);
#define LAYOUTS 5

// Takes the words of a command that has one image and perhaps a layout: IMAGE [LAYOUT] [--layout LAYOUT], and options of its own that
// have no value. Their list starts with LAYOUT_OPTION; `is_given` tells of each whether it was there.
#define LAYOUT_OPTION {"--layout", "a layout"}
struct request {
    const char *image;
    uint8_t layout;
};
struct request take_request(const char *command, char **words, const struct option *options, bool *is_given);

// A word as an id, and an id from the front of a word ID=REST with the rest. A wrong one ends the run.
uint32_t id_of(const char *word);
uint32_t take_id(const char *word, const char **rest);

#endif
