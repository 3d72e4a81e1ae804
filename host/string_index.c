#include "string_index.h"

#include "../hbc.h"

// Where every layout has the number of strings, in 4 bytes; and the bytes of the table that each string has at the least.
#define STRINGS_AT 52
#define ENTRY 4

static size_t stated_strings(struct bytes image) {
    if (image.length < STRINGS_AT + 4) return 0;
    const uint8_t *at = image.at + STRINGS_AT;
    return at[0] | (size_t)at[1] << 8 | (size_t)at[2] << 16 | (size_t)at[3] << 24;
}

struct string_index room_for_index(struct bytes image) {
    size_t strings = stated_strings(image), most = image.length / ENTRY;
    size_t length = NEPULADRIM_INDEX_WORDS * (strings < most ? strings : most);
    return (struct string_index){words_for(length), length};
}
