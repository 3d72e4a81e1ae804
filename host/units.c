#include "units.h"

#include "../hbc.h"
#include "utf8.h"

unsigned unit_at(const struct units *units, size_t place) {
    const uint8_t *at = units->at;
    return units->is_wide ? at[2 * place] + 256u * at[2 * place + 1] : at[place];
}

struct units units_of_string(struct bytes image, const uint64_t *row) {
    return (struct units){image.at + row[NEPULADRIM_STRING_AT], row[NEPULADRIM_STRING_UNITS], row[NEPULADRIM_STRING_IS_WIDE] != 0};
}

static void put_unit_at(uint8_t *room, size_t place, unsigned unit) {
    room[2 * place] = (uint8_t)unit;
    room[2 * place + 1] = (uint8_t)(unit >> 8);
}

struct units units_of_text(struct bytes text, uint8_t *room) {
    struct units units = {room, 0, true};
    for (size_t at = 0, length; at < text.length; at += length) {
        length = character_length(text.at + at, text.length - at);
        // what is no UTF-8 is no text: what stands before it is
        if (!length) break;
        unsigned c = character_of(text.at + at, length);
        if (c >= 0x10000) put_unit_at(room, units.count++, 0xd800 + ((c - 0x10000) >> 10));
        put_unit_at(room, units.count++, c >= 0x10000 ? 0xdc00 + (c & 0x3ff) : c);
    }
    return units;
}

int compare_units(const struct units *one, const struct units *other) {
    if (one->count != other->count) return one->count < other->count ? -1 : 1;
    for (size_t i = 0; i < one->count; i++) {
        unsigned a = unit_at(one, i), b = unit_at(other, i);
        if (a != b) return a < b ? -1 : 1;
    }
    return 0;
}

static bool is_high(unsigned unit) { return unit >= 0xd800 && unit <= 0xdbff; }
static bool is_low(unsigned unit) { return unit >= 0xdc00 && unit <= 0xdfff; }

bool are_paired(const struct units *units) {
    bool is_waiting = false;
    for (size_t i = 0; i < units->count; i++) {
        if (is_low(unit_at(units, i)) != is_waiting) return false;
        is_waiting = is_high(unit_at(units, i));
    }
    return !is_waiting;
}
