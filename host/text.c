#include "text.h"

#include "print.h"

#include <stdbool.h>

struct range {
    unsigned first, last;
};

// What a terminal shows nothing of, or that changes what stands beside it: controls, marks of no width or of direction, ends of
// lines and paragraphs, selectors of another look, halves of pairs, and what is no character at all.
static const struct range HIDDEN[] = {
    {0x0, 0x1f},        {0x7f, 0x9f},       {0xad, 0xad},       {0x34f, 0x34f},     {0x61c, 0x61c},     {0x115f, 0x1160},
    {0x17b4, 0x17b5},   {0x180b, 0x180f},   {0x200b, 0x200f},   {0x2028, 0x202e},   {0x2060, 0x206f},   {0x3164, 0x3164},
    {0xd800, 0xdfff},   {0xfdd0, 0xfdef},   {0xfe00, 0xfe0f},   {0xfeff, 0xfeff},   {0xffa0, 0xffa0},   {0xfff0, 0xfffb},
    {0xe0000, 0xe0fff},
};

static bool is_hidden(unsigned c) {
    for (size_t i = 0; i < sizeof HIDDEN / sizeof HIDDEN[0]; i++)
        if (c >= HIDDEN[i].first && c <= HIDDEN[i].last) return true;
    // the last two of each plane
    return (c & 0xfffe) == 0xfffe;
}

static void put_escape(FILE *to, unsigned unit) {
    if (unit == '\n') print(to, "\\n");
    else if (unit == '\t') print(to, "\\t");
    else print(to, "\\u%04x", unit);
}

static void put_utf8(FILE *to, unsigned c) {
    uint8_t bytes[4];
    size_t length = c < 0x80 ? 1 : c < 0x800 ? 2 : c < 0x10000 ? 3 : 4;
    for (size_t i = length - 1; i > 0; i--, c >>= 6) bytes[i] = (uint8_t)(0x80 | (c & 0x3f));
    static const unsigned lead[] = {0, 0xc0, 0xe0, 0xf0};
    bytes[0] = (uint8_t)(lead[length - 1] | c);
    print_bytes(to, bytes, length);
}

static void put_single(FILE *to, unsigned unit) {
    if (is_hidden(unit)) put_escape(to, unit);
    else if (unit == '"' || unit == '\\') print(to, "\\%c", (int)unit);
    else put_utf8(to, unit);
}

static void put_pair(FILE *to, unsigned high, unsigned low) {
    unsigned c = 0x10000 + ((high - 0xd800) << 10) + (low - 0xdc00);
    if (!is_hidden(c)) {
        put_utf8(to, c);
        return;
    }
    put_escape(to, high);
    put_escape(to, low);
}

struct text begin_text(FILE *to) {
    print(to, "\"");
    return (struct text){to, 0};
}

// A half that found no other half.
static void put_waiting(struct text *text) {
    if (text->high) put_escape(text->to, text->high);
    text->high = 0;
}

void put_unit(struct text *text, unsigned unit) {
    if (text->high && unit >= 0xdc00 && unit <= 0xdfff) {
        put_pair(text->to, text->high, unit);
        text->high = 0;
        return;
    }
    put_waiting(text);
    if (unit >= 0xd800 && unit <= 0xdbff) text->high = unit;
    else put_single(text->to, unit);
}

void end_text(struct text *text) {
    put_waiting(text);
    print(text->to, "\"");
}
