#include "utf8.h"

// By their number of bytes, from 1: which bits of a first byte are not the character's, what they are, and the first character that
// needs so many bytes.
static const struct {
    unsigned mask, lead, first;
} FORMS[] = {{0x80, 0x00, 0x0}, {0xe0, 0xc0, 0x80}, {0xf0, 0xe0, 0x800}, {0xf8, 0xf0, 0x10000}};
#define LONGEST (sizeof FORMS / sizeof FORMS[0])

// The number of bytes that a first byte asks for; 0 where it is none.
static size_t asked_length(uint8_t byte) {
    for (size_t i = 0; i < LONGEST; i++)
        if ((byte & FORMS[i].mask) == FORMS[i].lead) return i + 1;
    return 0;
}

unsigned character_of(const uint8_t *bytes, size_t length) {
    unsigned c = bytes[0] & ~FORMS[length - 1].mask;
    for (size_t i = 1; i < length; i++) c = c << 6 | (bytes[i] & 0x3f);
    return c;
}

size_t character_length(const uint8_t *bytes, size_t length) {
    size_t asked = length ? asked_length(bytes[0]) : 0;
    if (!asked || asked > length) return 0;
    for (size_t i = 1; i < asked; i++)
        if ((bytes[i] & 0xc0) != 0x80) return 0;
    unsigned c = character_of(bytes, asked);
    return c < FORMS[asked - 1].first || c > 0x10ffff || (c >= 0xd800 && c <= 0xdfff) ? 0 : asked;
}
