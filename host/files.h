// Files that are read, whole.
#ifndef HOST_FILES_H
#define HOST_FILES_H

#include <stdbool.h>
#include <stddef.h>
#include <stdint.h>

struct bytes {
    uint8_t *at;
    size_t length;
};

// The most bytes of an image, as document 01 has it, and of a part of a listing.
#define IMAGE_MOST ((size_t)67108864)

// The most bytes of a value or of a translators' file that are read, and of all values of a pass: far more than an image can hold.
#define VALUE_MOST ((size_t)1 << 30)

// Standard streams that are closed become ones that fail, so that no file gets their numbers.
void hold_standard_streams(void);

// Room for so many bytes, and for so many words of 32 bits; never null, be it empty.
uint8_t *room_for(size_t length);
uint32_t *words_for(size_t count);

// Whether a name is `-`: standard input, or output.
bool is_standard(const char *name);

// The file of a name, or standard input where the name is `-`. Of a longer one, `most` + 1 bytes. A run ends where reading fails.
struct bytes read_file(const char *name, size_t most);

// The same of what has at most VALUE_MOST bytes: a longer one ends the run.
struct bytes read_value(const char *name);

// How an input is told of: by its name, or as standard input.
const char *input_name(const char *name);

#endif
