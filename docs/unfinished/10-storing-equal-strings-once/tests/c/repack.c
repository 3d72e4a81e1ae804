// Calls nepuladrim_repack from C, in each layout and both modes: against images that are made here, byte for byte, from strings that stand
// apart, backwards, shared or across each other; in every room by one; repacked again; beside the same strings patched to and fro, which
// packs them each for itself; patched afterwards; to each refusal, alone and beside each other one, and at the limits by one. Ends with 1
// at the first answer that is not as it should be.
#include "common.h"

enum { REST = 4, MOST = 16, WORDS = NEPULADRIM_REPACK_WORDS, LIMIT = 67108864, FOOTER = 20 };

// An image, what is made of it, and what has to be; each has room for the longest.
static uint8_t *image, *out, *expected;

// ---- strings, and where they stand

struct string {
    int is_wide;
    const uint8_t *at;
    size_t bytes;
};
#define NARROW(text) {0, BYTES(text)}
#define WIDE(text) {1, BYTES(text)}

struct strings {
    size_t count;
    struct string at[MOST];
};

struct places {
    size_t offsets[MOST], size;
};

static int are_equal(const struct string *one, const struct string *other) {
    return one->is_wide == other->is_wide && one->bytes == other->bytes && memcmp(one->at, other->at, one->bytes) == 0;
}

static size_t lowest_equal(const struct strings *strings, size_t id) {
    size_t lowest = 0;
    while (!are_equal(&strings->at[lowest], &strings->at[id])) lowest++;
    return lowest;
}

static size_t units_of(const struct string *string) { return string->is_wide ? string->bytes / 2 : string->bytes; }

// Equal ones at the place of the lowest, each other one behind those before it, in even mode a wide one at the next even offset.
static struct places packed(const struct strings *strings, uint8_t mode) {
    struct places places = {{0}, 0};
    for (size_t i = 0; i < strings->count; i++) {
        const size_t lowest = lowest_equal(strings, i);
        if (mode == NEPULADRIM_EVEN && strings->at[i].is_wide && lowest == i) places.size += places.size % 2;
        places.offsets[i] = lowest == i ? places.size : places.offsets[lowest];
        if (lowest == i) places.size += strings->at[i].bytes;
    }
    return places;
}

// Each for itself, behind a stray byte, in their order or the other way round.
static struct places apart(const struct strings *strings, int is_backwards) {
    struct places places = {{0}, 1};
    for (size_t i = 0; i < strings->count; i++) {
        const size_t id = is_backwards ? strings->count - 1 - i : i;
        places.offsets[id] = places.size;
        places.size += strings->at[id].bytes;
    }
    return places;
}

// ---- an image of them

// What else it has: kinds of no string; so many bytes more at its end; in a legacy record with a large header bits that no rebuild leaves
// there; no function at all; and functions with no info, and no debug place.
struct frame {
    uint8_t layout;
    size_t kinds, more;
    int has_junk, has_no_function, has_no_info;
};

static void put(uint8_t *at, uint64_t word) {
    for (int i = 0; i < 4; i++) at[i] = (uint8_t)(word >> 8 * i);
}

static size_t debug_at(uint8_t layout) {
    static const size_t places[] = {108, 92, 100, 96, 104};
    return places[layout];
}

static size_t record_size(const struct frame *frame) { return frame->layout ? 16 : 12; }

static int is_identifier(size_t id) { return id % 3 == 1; }

// Two records: one small, with a body where the tail starts, and with the place behind it for its info; one with a large header behind
// that, with the same info, and its body behind the header.
enum { INFO = 4, HEADER = 8, BODY = 28, TAIL = 36 };
static void put_functions(uint8_t *made, const struct frame *frame, size_t tail) {
    uint8_t *small = made + 128, *large = small + record_size(frame), *header = made + tail + HEADER;
    const uint64_t pointer = tail + HEADER, info = frame->has_no_info ? 0 : tail + INFO;
    put(small, tail);
    put(small + 4, 4);
    put(header, tail + BODY);
    if (frame->layout) {
        put(small + 8, info);
        put(large, pointer % 65536 + (frame->has_junk ? 0x01550000 : 0));
        put(large + 8, pointer / 65536);
        put(large + 12, 0x20000000);
        put(header + 8, 8);
        put(header + 16, info);
    } else {
        // bit 24 is no part of the pointer, and stays
        put(large, pointer % (1 << 24) + (1 << 24));
        put(large + 4, pointer >> 24 << 14);
        put(large + 8, 0x20000000);
        put(header + 12, 8);
    }
    put(made + debug_at(frame->layout), info);
    memcpy(made + tail, "bodyrest", 8);
    memcpy(made + tail + BODY, "the body", 8);
}

// Kinds, hashes, which are stale, and the counts of both. Answers where the small table is.
static size_t put_kinds(uint8_t *made, const struct frame *frame, size_t strings) {
    size_t kinds_at = 128 + (frame->has_no_function ? 0 : 2 * record_size(frame)), at = kinds_at + 4 * frame->kinds, identifiers = 0;
    put(made + 40, frame->has_no_function ? 0 : 2);
    put(made + 44, frame->kinds + strings);
    memset(made + kinds_at, 0, 4 * frame->kinds);
    for (size_t i = 0; i < strings; i++, at += 4) put(made + at, is_identifier(i) ? 0x80000001 : 1);
    for (size_t i = 0; i < strings; i++)
        if (is_identifier(i)) put(made + at + 4 * identifiers, 0xfedcba98 + identifiers), identifiers++;
    put(made + 48, identifiers);
    return at + 4 * identifiers;
}

static int overflows(const struct string *string, size_t offset) { return offset >= 1 << 23 || units_of(string) >= 255; }

static size_t count_overflows(const struct strings *strings, const struct places *places) {
    size_t count = 0;
    for (size_t i = 0; i < strings->count; i++) count += (size_t)overflows(&strings->at[i], places->offsets[i]);
    return count;
}

// The tables and storage, of which the bytes that no string has are all the same. Answers where the tail is.
static size_t put_strings(uint8_t *made, size_t small, const struct strings *strings, const struct places *places, int stray) {
    const size_t pairs = count_overflows(strings, places), overflow = small + 4 * strings->count, storage = overflow + 8 * pairs;
    const size_t tail = (storage + places->size + 3) / 4 * 4;
    memset(made + storage, stray, places->size);
    memset(made + storage + places->size, 0, tail - storage - places->size);
    for (size_t i = 0, next = 0; i < strings->count; i++) {
        const struct string *string = &strings->at[i];
        const size_t offset = places->offsets[i], units = units_of(string);
        const int is_far = overflows(string, offset);
        put(made + small + 4 * i, is_far ? 0xff000000 | next << 1 | (size_t)string->is_wide
                                         : units << 24 | offset << 1 | (size_t)string->is_wide);
        if (is_far) put(made + overflow + 8 * next, offset), put(made + overflow + 8 * next++ + 4, units);
        memcpy(made + storage + offset, string->at, string->bytes);
    }
    put(made + 52, strings->count);
    put(made + 56, pairs);
    put(made + 60, places->size);
    return tail;
}

// Answers its length. File length and footer are zeros.
static size_t make(uint8_t *made, const struct frame *frame, const struct strings *strings, const struct places *places, int stray) {
    memset(made, 0, 128 + 2 * 16);
    memcpy(made, "\306\037\274\003\301\003\031\037", 8);
    const size_t small = put_kinds(made, frame, strings->count), tail = put_strings(made, small, strings, places, stray);
    memset(made + tail, 0, TAIL + frame->more + FOOTER);
    if (!frame->has_no_function) put_functions(made, frame, tail);
    return tail + TAIL + frame->more + FOOTER;
}

static size_t length, packed_length;

// The image with the strings at these places, and what it has to be when it is repacked.
static void make_both(const struct frame *frame, const struct strings *strings, const struct places *places, uint8_t mode) {
    struct frame clean = *frame;
    clean.has_junk = 0;
    const struct places shared = packed(strings, mode);
    length = make(image, frame, strings, places, 0xee);
    is(nepuladrim_admit(image, length, frame->layout) == 0);
    packed_length = make(expected, &clean, strings, &shared, 0);
    is(packed_length > LIMIT || nepuladrim_finalize(expected, packed_length) == packed_length);
}

// ---- calls

static uint32_t work[WORDS * MOST + REST];

static int are_zeros(const uint32_t *words, size_t count) {
    for (size_t i = 0; i < count; i++)
        if (words[i]) return 0;
    return 1;
}

// One call. The words that are asked for end as zeros, or, where they are told to stay, as they were; those behind them stay. Of the output
// nothing is written but what is answered.
enum end { STAYS, ZEROS };
static uint64_t repack(enum end end, uint8_t layout, uint8_t mode, size_t bytes, size_t strings, size_t lent, size_t room) {
    const size_t asked = end == ZEROS ? WORDS * strings : 0;
    memset(work, 0xa5, sizeof work);
    memset(out, 0xa5, room + REST);
    uint64_t answer = nepuladrim_repack(image, bytes, layout, mode, work, lent, out, room);
    is(are_zeros(work, asked) && is_untouched((const uint8_t *)work, 4 * asked, sizeof work));
    is(is_untouched(out, answer < NEPULADRIM_REFUSED ? answer : 0, room + REST));
    return answer;
}

static uint64_t repack_all(const struct frame *frame, uint8_t mode, size_t strings) {
    return repack(ZEROS, frame->layout, mode, length, strings, WORDS * strings, packed_length);
}

// What was made is what has to be, and stays so when it is repacked again, in more room.
static void is_repacked(const struct frame *frame, uint8_t mode, size_t strings) {
    is(repack_all(frame, mode, strings) == packed_length && memcmp(out, expected, packed_length) == 0);
    memcpy(image, out, packed_length);
    is(repack(ZEROS, frame->layout, mode, packed_length, strings, WORDS * strings + REST, packed_length + REST) == packed_length);
    is(memcmp(out, expected, packed_length) == 0);
}

// ---- beside patches

static uint8_t once[4096], twice[4096];

static uint64_t patch(const uint8_t *from, size_t bytes, const struct frame *frame, uint8_t mode, uint32_t id, const uint8_t *value,
                      size_t count, uint8_t *to) {
    uint64_t answer = nepuladrim_patch_string_by_id(from, bytes, frame->layout, mode, id, value, count, to, sizeof once);
    is(answer < NEPULADRIM_REFUSED);
    return answer;
}

// String 0, which is narrow and plain, gets an accent and then its text again, so that all strings are packed anew, each for itself. The
// repacked image is no longer, and the same where no two strings are equal.
static void is_no_longer(const struct frame *frame, const struct strings *strings, uint8_t mode) {
    uint64_t rebuilt = patch(image, length, frame, mode, 0, BYTES("\303\251"), once);
    rebuilt = patch(once, rebuilt, frame, mode, 0, strings->at[0].at, strings->at[0].bytes, twice);
    int are_different = 1;
    for (size_t i = 0; i < strings->count; i++) are_different &= lowest_equal(strings, i) == i;
    is(packed_length <= rebuilt);
    is(!are_different || (packed_length == rebuilt && memcmp(expected, twice, rebuilt) == 0));
}

// Why a string of the repacked image gets another of equal length, or itself.
static void is_told(const struct frame *frame, uint8_t mode, uint32_t id, const uint8_t *value, size_t count, uint32_t code,
                    uint32_t first) {
    static uint32_t index[NEPULADRIM_INDEX_WORDS * MOST];
    uint32_t reason[NEPULADRIM_REASON_WORDS];
    is(nepuladrim_why(expected, packed_length, frame->layout, mode, id, value, count, index, sizeof index / sizeof *index, reason,
                      NEPULADRIM_REASON_WORDS) == NEPULADRIM_REASON_WORDS);
    is(reason[NEPULADRIM_REASON_CODE] == code && reason[NEPULADRIM_REASON_FIRST] == first);
}

// ---- texts

// "Sav" and "Save", each twice and more; U+00E9 behind an odd number of bytes; narrow and wide "a", once and twice; empty strings of both
// widths, the wide ones at odd offsets in plain mode; "av", which is a part of others.
static const struct strings TEXTS = {15,
                                     {NARROW("Sav"), WIDE("\351\0"), NARROW(""), NARROW("Save"), NARROW("a"), WIDE("a\0"), NARROW("z"),
                                      WIDE(""), NARROW(""), WIDE("\351\0"), NARROW("Save"), NARROW("av"), WIDE(""), WIDE("a\0"),
                                      NARROW("Sav")}};
enum { NONE, ONE, EMPTY, WIDE_AT_END, DIFFERENT, ALIKE, UNITS, LISTS };
static const struct strings OTHERS[LISTS] = {
    [NONE] = {0, {{0, NULL, 0}}},
    [ONE] = {1, {NARROW("one")}},
    [EMPTY] = {4, {NARROW(""), WIDE(""), NARROW(""), WIDE("")}},
    // in even mode a zero stands before the end of storage
    [WIDE_AT_END] = {3, {NARROW("abc"), NARROW("ab"), WIDE("")}},
    [DIFFERENT] = {5, {NARROW("a"), NARROW("aa"), WIDE("aa"), NARROW(""), WIDE("")}},
    [ALIKE] = {6, {NARROW("OK"), NARROW("OK"), NARROW("OK"), NARROW("OK"), NARROW("OK"), NARROW("OK")}},
    // the same bytes are two units or one, and equal only by the last byte
    [UNITS] = {7, {NARROW("ab"), WIDE("ab"), WIDE("abcd"), NARROW("abcd"), WIDE("abce"), WIDE("abcd"), NARROW("abce")}},
};

// As they may stand: apart, backwards, and as either mode packs them.
enum { WAYS = 4 };
static struct places places_of(const struct strings *strings, int way) {
    return way < 2 ? apart(strings, way == 1) : packed(strings, way == 2 ? NEPULADRIM_PLAIN : NEPULADRIM_EVEN);
}

static void share(const struct frame *frame, const struct strings *strings, uint8_t mode) {
    for (int way = 0; way < WAYS; way++) {
        const struct places places = places_of(strings, way);
        make_both(frame, strings, &places, mode);
        if (strings->count && !strings->at[0].is_wide) is_no_longer(frame, strings, mode);
        is_repacked(frame, mode, strings->count);
    }
}

// In each room for work and for the image.
static void share_in_every_room(const struct frame *frame, uint8_t mode) {
    const struct places places = apart(&TEXTS, 0);
    const size_t asked = WORDS * TEXTS.count;
    make_both(frame, &TEXTS, &places, mode);
    for (size_t lent = 0; lent <= asked + REST; lent++) {
        uint64_t answer = lent < asked ? refused(13) : packed_length;
        is(repack(lent < asked ? STAYS : ZEROS, frame->layout, mode, length, TEXTS.count, lent, packed_length) == answer);
    }
    for (size_t room = 0; room <= packed_length + REST; room++) {
        uint64_t answer = room < packed_length ? refused(13) : packed_length;
        is(repack(ZEROS, frame->layout, mode, length, TEXTS.count, asked + room % REST, room) == answer);
    }
}

// A later patch of a string that shares its place has all strings packed anew, each for itself: it makes what it makes of the image that
// was not repacked. One that shares it with none fits in place, and so does an empty one.
static void patch_afterwards(const struct frame *frame, uint8_t mode) {
    const struct places places = apart(&TEXTS, 0);
    make_both(frame, &TEXTS, &places, mode);
    is_told(frame, mode, 3, BYTES("Kept"), NEPULADRIM_OVERLAP, 10);
    is_told(frame, mode, 10, BYTES("Save"), NEPULADRIM_OVERLAP, 3);
    is_told(frame, mode, 14, BYTES("new"), NEPULADRIM_OVERLAP, 0);
    is_told(frame, mode, 9, BYTES("\303\251"), NEPULADRIM_WIDE, 0);
    is_told(frame, mode, 13, BYTES("a"), NEPULADRIM_WIDE, 0);
    is_told(frame, mode, 4, BYTES("b"), NEPULADRIM_IN_PLACE, 0);
    is_told(frame, mode, 8, BYTES(""), NEPULADRIM_IN_PLACE, 0);
    static const struct {
        uint32_t id;
        const char *value;
    } edits[] = {{3, "Keep it"}, {14, "new\303\251"}, {9, "e"}, {13, ""}, {8, "no"}, {12, "a"}};
    for (size_t i = 0; i < sizeof edits / sizeof edits[0]; i++) {
        const uint8_t *value = (const uint8_t *)edits[i].value;
        const size_t count = strlen(edits[i].value);
        uint64_t apart_then = patch(image, length, frame, mode, edits[i].id, value, count, once);
        is(patch(expected, packed_length, frame, mode, edits[i].id, value, count, twice) == apart_then);
        is(memcmp(once, twice, apart_then) == 0);
    }
}

// ---- strings across each other

static uint32_t drawn = 1;
static uint32_t draw(uint32_t below) {
    drawn = drawn * 1664525 + 1013904223;
    return (drawn >> 16) % below;
}

// Strings at any places of a few bytes of three letters, so that many share bytes, and many are equal. What is made may be longer.
static void share_across(size_t turn) {
    uint8_t storage[12];
    struct strings strings = {draw(MOST + 1), {{0, NULL, 0}}};
    struct places places = {{0}, sizeof storage};
    for (size_t i = 0; i < sizeof storage; i++) storage[i] = (uint8_t)(draw(6) ? 'a' : 'b' + draw(2));
    for (size_t i = 0; i < strings.count; i++) {
        const size_t offset = draw(sizeof storage + 1), left = sizeof storage - offset;
        const int is_wide = draw(3) == 0;
        const size_t units = draw((uint32_t)(is_wide ? left / 2 : left) + 1) % (1 + draw(5));
        strings.at[i] = (struct string){is_wide, storage + offset, is_wide ? 2 * units : units};
        places.offsets[i] = offset;
    }
    const struct frame frame = {(uint8_t)(turn % 5), draw(3), draw(9), turn % 2 == 0, draw(8) == 0, draw(3) == 0};
    const uint8_t mode = turn / 5 % 2;
    make_both(&frame, &strings, &places, mode);
    if (strings.count && !strings.at[0].is_wide) is_no_longer(&frame, &strings, mode);
    is_repacked(&frame, mode, strings.count);
}

// ---- the overflow table

// Shared offsets that are past the small entry's by one or not, and lengths: the pair of each string has them.
static void share_far(uint8_t mode) {
    static uint8_t letters[1 << 23];
    memset(letters, 'a', sizeof letters);
    for (size_t bytes = sizeof letters - 2; bytes <= sizeof letters; bytes++) {
        const struct strings strings = {7,
                                        {{0, letters, bytes}, WIDE("\351\0"), NARROW("x"), {0, letters, 255}, WIDE("\351\0"),
                                         {0, letters, 255}, NARROW("x")}};
        const struct frame frame = {.layout = bytes % 2, .has_junk = 1};
        const struct places places = apart(&strings, 1);
        make_both(&frame, &strings, &places, mode);
        is_repacked(&frame, mode, strings.count);
    }
    const struct strings lengths = {6, {{0, letters, 254}, {0, letters, 255}, {1, letters, 508}, {1, letters, 510}, {0, letters, 255},
                                        {1, letters, 510}}};
    const struct frame frame = {.layout = 2, .kinds = 1};
    share(&frame, &lengths, mode);
}

// ---- each number

// In the order in which they are due: the first 13 is that of the work space, the last that of the output.
static const unsigned ORDER[] = {15, 1, 2, 3, 4, 5, 6, 13, 11, 12, 13};
enum { OF_WORK = 7, NUMBERS = sizeof ORDER / sizeof ORDER[0] };

// Strings that share bytes, and are one multiple of 4 longer when they do not; in even mode the zero before the wide one makes no more.
static const struct strings ACROSS = {3, {NARROW("abcd"), NARROW("bc"), WIDE("cd")}};
static const struct places ACROSS_PLACES = {{0, 1, 2}, 4};
enum { GROWTH = 4 };

// Kinds before, and bytes behind, with which an image of these strings is as long as may be, or its info place is as far back; in a modern
// layout it has none, and the small record's body is.
static struct frame frame_of(uint8_t layout, int is_far, int is_longest) {
    struct frame frame = {.layout = layout};
    const size_t tail = make(image, &frame, &ACROSS, &ACROSS_PLACES, 0) - TAIL - FOOTER;
    if (is_far) frame.kinds = (33554428 - (layout ? INFO : 0) - tail) / 4;
    if (is_longest) frame.more = LIMIT - (tail + 4 * frame.kinds + TAIL + FOOTER);
    return frame;
}

// A call in which each of these numbers is due, and no other.
static uint64_t call(enum end end, const int *due, uint8_t layout, uint8_t mode) {
    const struct frame frame = frame_of(layout, due[9], due[8]);
    const uint8_t stated[] = {due[0] && mode ? layout + 5 : layout, due[0] && !mode ? mode + 2 : mode};
    length = make(image, &frame, &ACROSS, &ACROSS_PLACES, 0);
    if (due[2]) image[0] ^= 1;
    if (due[3]) put(image + 60, LIMIT);
    if (due[4]) put(image + 44, frame.kinds + 2);
    if (due[5]) put(image + 56, 1);
    if (due[6]) put(image + debug_at(layout), 1);
    return repack(end, stated[0], stated[1], due[1] ? 147 : length, ACROSS.count, WORDS * ACROSS.count - (due[OF_WORK] ? 1 : 0),
                  length + GROWTH - (due[10] ? 1 : 0));
}

// Alone, and each two. Up to the 13 of the work space no word of it is written; behind that it is zeros.
static void refuse_in_order(uint8_t layout, uint8_t mode) {
    int due[NUMBERS] = {0};
    is(call(ZEROS, due, layout, mode) == length + GROWTH);
    for (int i = 0; i < NUMBERS; i++)
        for (int j = i; j < NUMBERS; j++) {
            due[i] = due[j] = 1;
            is(call(i <= OF_WORK ? STAYS : ZEROS, due, layout, mode) == refused(ORDER[i]));
            due[i] = due[j] = 0;
        }
}

// As long as may be, and as far back, and one multiple of 4 more.
static void refuse_by_one(uint8_t layout, uint8_t mode) {
    struct frame longest = frame_of(layout, 0, 1), farthest = frame_of(layout, 1, 0);
    make_both(&longest, &ACROSS, &ACROSS_PLACES, mode);
    is(packed_length == LIMIT + GROWTH && repack(ZEROS, layout, mode, length, ACROSS.count, sizeof work / 4, 0) == refused(11));
    longest.more -= GROWTH;
    make_both(&longest, &ACROSS, &ACROSS_PLACES, mode);
    is(packed_length == LIMIT && repack_all(&longest, mode, ACROSS.count) == LIMIT && memcmp(out, expected, LIMIT) == 0);
    make_both(&farthest, &ACROSS, &ACROSS_PLACES, mode);
    is(repack_all(&farthest, mode, ACROSS.count) == refused(12));
    farthest.kinds--;
    make_both(&farthest, &ACROSS, &ACROSS_PLACES, mode);
    is(repack_all(&farthest, mode, ACROSS.count) == packed_length && memcmp(out, expected, packed_length) == 0);
}

// 15 for every other layout and mode byte, before all else.
static void refuse_bytes(void) {
    const struct frame frame = {.layout = 0};
    length = make(image, &frame, &ACROSS, &ACROSS_PLACES, 0);
    for (unsigned byte = 2; byte < 256; byte++) {
        is(repack(STAYS, 0, (uint8_t)byte, length, ACROSS.count, sizeof work / 4, 4096) == refused(15));
        is(repack(STAYS, 0, (uint8_t)byte, 0, ACROSS.count, 0, 0) == refused(15));
        if (byte < 5) continue;
        is(repack(STAYS, (uint8_t)byte, NEPULADRIM_EVEN, length, ACROSS.count, sizeof work / 4, 4096) == refused(15));
        is(repack(STAYS, (uint8_t)byte, (uint8_t)byte, 0, ACROSS.count, 0, 0) == refused(15));
    }
}

int main(void) {
    image = malloc(LIMIT + 64);
    out = malloc(LIMIT + 64);
    expected = malloc(LIMIT + 64);
    is(image && out && expected);
    for (uint8_t layout = 0; layout < 5; layout++)
        for (uint8_t mode = NEPULADRIM_PLAIN; mode <= NEPULADRIM_EVEN; mode++) {
            const struct frame frame = {.layout = layout, .has_junk = 1};
            share(&frame, &TEXTS, mode);
            for (size_t i = 0; i < LISTS; i++) share(&frame, &OTHERS[i], mode);
            share_in_every_room(&frame, mode);
            patch_afterwards(&frame, mode);
            refuse_in_order(layout, mode);
        }
    for (size_t turn = 0; turn < 5000; turn++) share_across(turn);
    for (uint8_t mode = NEPULADRIM_PLAIN; mode <= NEPULADRIM_EVEN; mode++) {
        share_far(mode);
        for (uint8_t layout = 0; layout < 2; layout++) refuse_by_one(layout, mode);
    }
    refuse_bytes();
    free(image);
    free(out);
    free(expected);
    puts("tests/c: a repacked image has equal strings once, all else as it was, is the same when repacked, and is refused as it should be");
    return 0;
}
