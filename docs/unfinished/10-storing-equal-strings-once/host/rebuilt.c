#include "rebuilt.h"

#include "../hbc.h"

// The bytes of an entry, and from which offset and from which length on a string has an overflow entry too, as document 01 has it.
#define SMALL_ENTRY 4
#define OVERFLOW_ENTRY 8
#define FAR ((uint64_t)1 << 23)
#define LONG 255

struct rebuilt rebuilt_of(const struct string_index *index, uint8_t mode) {
    struct rebuilt rebuilt = {0, 0};
    for (uint32_t id = 0; id < strings_of(index); id++) {
        const struct stored string = stored_in(index, id);
        if (mode == NEPULADRIM_EVEN && string.is_wide) rebuilt.storage += rebuilt.storage % 2;
        rebuilt.overflows += rebuilt.storage >= FAR || string.units >= LONG;
        rebuilt.storage += string.bytes;
    }
    return rebuilt;
}

uint64_t rebuilt_length(const uint64_t *facts, const struct rebuilt *rebuilt) {
    uint64_t tables = SMALL_ENTRY * facts[NEPULADRIM_STRINGS] + OVERFLOW_ENTRY * rebuilt->overflows;
    uint64_t end = facts[NEPULADRIM_SMALL_AT] + tables + rebuilt->storage;
    // the tail starts at a multiple of 4
    return (end + 3) / 4 * 4 + facts[NEPULADRIM_LENGTH] - facts[NEPULADRIM_TAIL_AT];
}
