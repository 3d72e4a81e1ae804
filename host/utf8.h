// UTF-8, as files have it.
#ifndef HOST_UTF8_H
#define HOST_UTF8_H

#include <stddef.h>
#include <stdint.h>

// How many bytes the first character of some bytes has; 0 where they do not begin with one: no half of a pair, no longer form.
size_t character_length(const uint8_t *bytes, size_t length);

// The character of as many bytes.
unsigned character_of(const uint8_t *bytes, size_t length);

#endif
