// An image that is made here in each layout, and lists of edits, which the tests of string patches share.
#ifndef TESTS_LISTS_H
#define TESTS_LISTS_H

#include "common.h"

// ---- an image

static uint8_t image[512], out[1024];

static inline void put(size_t at, uint32_t word) {
    for (int i = 0; i < 4; i++) image[at + (size_t)i] = (uint8_t)(word >> 8 * i);
}

static inline uint32_t word_of(const uint8_t *bytes) {
    return bytes[0] | (uint32_t)bytes[1] << 8 | (uint32_t)bytes[2] << 16 | (uint32_t)bytes[3] << 24;
}

// Where its sections are.
static size_t kinds_at, hashes_at, small_at, storage_at, tail_at, length;

// "a", the identifiers "bc" and U+00E9, which is wide and at an odd place, "def" and "ef" on the same bytes, the identifier "", "gh"; and
// a function with a body of 4 bytes, whose info place, where the layout has one, and the debug offset are the 4 bytes behind it. File
// length, footer and hashes are stale.
enum { STRINGS = 7 };
static inline void make(uint8_t layout) {
    static const uint32_t small[] = {0x01000000, 0x02000002, 0x01000007, 0x0300000a, 0x0200000c, 0x00000010, 0x02000010};
    static const uint32_t kinds[] = {1, 0x80000002, 2, 0x80000001, 1};
    static const size_t debug[] = {108, 92, 100, 96, 104};
    kinds_at = 128 + (layout ? 16 : 12);
    hashes_at = kinds_at + sizeof kinds;
    small_at = hashes_at + 12;
    storage_at = small_at + sizeof small;
    tail_at = storage_at + 12;
    length = tail_at + 28;
    memset(image, 0, sizeof image);
    memcpy(image, "\306\037\274\003\301\003\031\037", 8);
    put(40, 1);
    put(44, 5);
    put(48, 3);
    put(52, STRINGS);
    put(60, 10);
    put(debug[layout], (uint32_t)tail_at + 4);
    put(128, (uint32_t)tail_at);
    put(132, 4);
    if (layout) put(136, (uint32_t)tail_at + 4);
    for (size_t i = 0; i < 5; i++) put(kinds_at + 4 * i, kinds[i]);
    for (size_t i = 0; i < 3; i++) put(hashes_at + 4 * i, 0xfedcba98);
    for (size_t i = 0; i < STRINGS; i++) put(small_at + 4 * i, small[i]);
    memcpy(image + storage_at, "abc\351\0defgh\1\2" "body" "rest", 20);
    is(nepuladrim_admit(image, length, layout) == 0);
}

// ---- lists

// A string and its value.
struct edit {
    uint32_t id;
    const char *value;
};

// A list as it is lent. The text has room for a value that is longer than any image, and is filled with "a".
enum { MOST = 8, LIMIT = 67108864 };
static struct {
    uint32_t ids[MOST], ends[MOST];
    size_t count, length;
    uint8_t *text;
} list;

static inline void begin_list(void) {
    memset(list.text, 'a', 1024);
    list.count = list.length = 0;
}

// An edit whose value is so many of the bytes that stand next in the text.
static inline void add_bytes(uint32_t id, size_t bytes) {
    list.length += bytes;
    list.ids[list.count] = id;
    list.ends[list.count++] = (uint32_t)list.length;
}

static inline void add(uint32_t id, const char *value) {
    memcpy(list.text + list.length, value, strlen(value));
    add_bytes(id, strlen(value));
}

static inline void take_list(const struct edit *edits, size_t count) {
    begin_list();
    for (size_t i = 0; i < count; i++) add(edits[i].id, edits[i].value);
}

static inline uint64_t pass(uint8_t layout, uint8_t mode, size_t room) {
    memset(out, 0xa5, sizeof out);
    return nepuladrim_patch_strings(image, length, layout, mode, list.ids, list.count, list.text, list.length, list.ends, list.count, out,
                                    room);
}

// A refusal, and nothing is written.
static inline void refuses(uint64_t number, uint64_t answer) {
    is(answer == refused(number));
    is(is_untouched(out, 0, sizeof out));
}

#endif
