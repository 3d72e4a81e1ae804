// Calls nepuladrim_fill_index, nepuladrim_look_up and nepuladrim_list from C, on the image of lists.h in each layout and on one with
// overflow pairs: every string against what is known of it by its place; in every room by one; to each refusal, alone and beside each other
// one; and look-ups in what no image has filled. Ends with 1 at the first answer that is not as it should be.
#include "lists.h"

// ---- what is lent

enum { WORDS = NEPULADRIM_INDEX_WORDS, ASKED = WORDS * STRINGS, REST = 4 };
static uint32_t words[ASKED + REST];

static void lend(void) {
    memset(words, 0xa5, sizeof words);
    memset(out, 0xa5, sizeof out);
}

// The words from a place on hold what they held before a call.
static int are_left(const uint32_t *at, size_t from, size_t count) { return is_untouched((const uint8_t *)at, 4 * from, 4 * count); }

// An index of so many strings is these words, and those behind it are as they were.
static int is_filled(const uint32_t *index, size_t count) {
    return memcmp(words, index, 4 * WORDS * count) == 0 && are_left(words, WORDS * count, ASKED + REST);
}

static void is_nothing_written(void) { is(are_left(words, 0, ASKED + REST) && is_untouched(out, 0, sizeof out)); }

static uint64_t fill(uint8_t layout, size_t bytes, size_t lent) {
    lend();
    return nepuladrim_fill_index(image, bytes, layout, words, lent);
}

static uint64_t list_part(uint8_t layout, size_t bytes, size_t from, size_t lent, size_t room) {
    lend();
    return nepuladrim_list(image, bytes, layout, from, words, lent, out, room);
}

// ---- images

// What an index of the image of lists.h holds.
enum { TEXT, WIDE = NEPULADRIM_INDEX_WIDE, NAME = NEPULADRIM_INDEX_IDENTIFIER };
static const uint32_t INDEX[ASKED] = {0,    1,    3,           5,    6,    8,    8,     // offsets
                                      1,    2,    1,           3,    2,    0,    2,     // lengths
                                      TEXT, NAME, NAME | WIDE, TEXT, TEXT, NAME, TEXT}; // flags

// Four plain strings: at an odd place; wide, by the first overflow pair, up to the end of storage; all of storage, by the second; wide, as
// far as there are whole units behind one byte. It has no function, and so it is an image of every layout.
enum { PAIRED = 4 };
static const uint32_t PAIRS_INDEX[WORDS * PAIRED] = {5, 290, 0, 1, 3, 5, 300, 149, 0, 1, 0, 1};
static void make_pairs(void) {
    static const uint32_t entries[] = {4, 0x0300000a, 0xff000001, 0xff000002, 0x95000003, 290, 5, 0, 300};
    memset(image, 0, sizeof image);
    memcpy(image, "\306\037\274\003\301\003\031\037", 8);
    put(44, 1);
    put(52, PAIRED);
    put(56, 2);
    put(60, 300);
    for (size_t i = 0; i < sizeof entries / sizeof entries[0]; i++) put(128 + 4 * i, entries[i]);
    memset(image + 164, 'a', 300);
    length = 484;
    for (uint8_t layout = 0; layout < 5; layout++) is(nepuladrim_admit(image, length, layout) == 0);
}

// ---- filling

// In as many words as are asked for and in more, and in no fewer.
static void fill_in_every_room(uint8_t layout, const uint32_t *index, size_t count) {
    for (size_t lent = 0; lent <= ASKED + REST; lent++)
        if (lent < WORDS * count) {
            is(fill(layout, length, lent) == refused(13));
            is_nothing_written();
        } else is(fill(layout, length, lent) == count && is_filled(index, count));
}

// Each string, by what the other exports know of it: its offset is its place less that of storage.
static void is_as_known(uint8_t layout, size_t count) {
    uint64_t facts[NEPULADRIM_IMAGE_FACTS], known[NEPULADRIM_STRING_FACTS];
    uint32_t found[WORDS];
    is(nepuladrim_image_facts(image, length, layout, facts, NEPULADRIM_IMAGE_FACTS) == NEPULADRIM_IMAGE_FACTS);
    is(fill(layout, length, ASKED) == count && facts[NEPULADRIM_STRINGS] == count);
    for (uint32_t id = 0; id < count; id++) {
        is(nepuladrim_string_facts(image, length, layout, id, known, NEPULADRIM_STRING_FACTS) == NEPULADRIM_STRING_FACTS);
        is(nepuladrim_look_up(words, ASKED, count, id, found, WORDS) == WORDS);
        is(found[NEPULADRIM_INDEX_OFFSET] == known[NEPULADRIM_STRING_AT] - facts[NEPULADRIM_STORAGE_AT]);
        is(found[NEPULADRIM_INDEX_LENGTH] == known[NEPULADRIM_STRING_UNITS]);
        is(found[NEPULADRIM_INDEX_FLAGS] == known[NEPULADRIM_STRING_IS_WIDE] + 2 * known[NEPULADRIM_STRING_IS_IDENTIFIER]);
    }
}

// An image of no strings asks for no words.
static void fill_of_nothing(uint8_t layout) {
    memset(image, 0, 148);
    memcpy(image, "\306\037\274\003\301\003\031\037", 8);
    is(fill(layout, 148, 0) == 0);
    is_nothing_written();
    is(fill(layout, 148, ASKED) == 0);
    is_nothing_written();
    is(list_part(layout, 148, 0, 0, sizeof out) == 14 && memcmp(out, "image 148 0 0\n", 14) == 0 && are_left(words, 0, ASKED));
}

// ---- look-ups

// One call, in an index of these words. What lies behind the answer stays, and all of it where it is refused.
static uint64_t look_up(size_t lent, size_t count, uint32_t id, size_t room) {
    static uint32_t before[ASKED + REST];
    static uint32_t found[WORDS + REST];
    memcpy(before, words, sizeof words);
    memset(found, 0xa5, sizeof found);
    uint64_t answer = nepuladrim_look_up(words, lent, count, id, found, room);
    is(memcmp(words, before, sizeof words) == 0);
    const size_t told = answer < NEPULADRIM_REFUSED ? answer : 0;
    is(told <= WORDS && are_left(found, told, WORDS + REST));
    for (size_t i = 0; i < told; i++) is(found[i] == words[i * count + id]);
    return answer;
}

// As many strings as the words have room for, and fewer: what the three runs of so many hold, whatever it is.
static void look_up_all(void) {
    for (size_t count = 0; count <= STRINGS; count++)
        for (size_t lent = 0; lent <= ASKED + REST; lent++)
            for (size_t room = 0; room <= WORDS + REST; room++) {
                for (uint32_t id = 0; id < count; id++)
                    is(look_up(lent, count, id, room) == (lent < WORDS * count || room < WORDS ? refused(13) : WORDS));
                // no such id comes before all else
                is(look_up(lent, count, (uint32_t)count, room) == refused(7));
                is(look_up(lent, count, (uint32_t)count + 1, room) == refused(7));
                is(look_up(lent, count, UINT32_MAX, room) == refused(7));
            }
}

// Counts of which three times as many are more than 64 bits tell, or are told as few; and counts past all ids.
static void look_up_in_too_many(void) {
    const size_t third = SIZE_MAX / 3;
    const size_t counts[] = {third,    third + 1,    third + 2,        2 * third,       2 * third + 1, 2 * third + 2,
                             SIZE_MAX, SIZE_MAX / 2, SIZE_MAX / 2 + 1, (size_t)1 << 32, UINT32_MAX,    STRINGS + REST};
    for (size_t i = 0; i < sizeof counts / sizeof counts[0]; i++)
        for (size_t room = 0; room <= WORDS; room++) {
            is(look_up(ASKED + REST, counts[i], 0, room) == refused(13));
            is(look_up(ASKED + REST, counts[i], STRINGS, room) == refused(13));
            is(look_up(0, counts[i], 0, room) == refused(13));
            is(look_up(ASKED, counts[i], UINT32_MAX, room) == refused(counts[i] > UINT32_MAX ? 13 : 7));
        }
}

// What was filled, and what no image fills: each word another, and all bits.
static void look_up_what_is_there(void) {
    look_up_all();
    for (size_t i = 0; i < ASKED + REST; i++) words[i] = 0xfedcba98 + 0x01234567 * (uint32_t)i;
    look_up_all();
    memset(words, 0xff, sizeof words);
    look_up_all();
    look_up_in_too_many();
}

// ---- the listing

static char lines[512];

static size_t listing_of(void) {
    snprintf(lines, sizeof lines,
             "image %zu 7 1\ns 0 n s 1 0061 -\ns 1 n i 2 00620063 fedcba98\ns 2 w i 1 00e9 fedcba98\ns 3 n s 3 006400650066 -\n"
             "s 4 n s 2 00650066 -\ns 5 n i 0 - fedcba98\ns 6 n s 2 00670068 -\nf 0 p %zu 4\n",
             length, tail_at);
    return strlen(lines);
}

// Each part, in some rooms: the index ends as it is filled, also where nothing is left to be listed, or there is no room for it.
static void list_every_part(uint8_t layout) {
    const size_t all = listing_of();
    const size_t rooms[] = {0, 1, 7, all - 1, all, sizeof out};
    for (size_t i = 0; i < sizeof rooms / sizeof rooms[0]; i++)
        for (size_t from = 0; from <= all + 1; from++) {
            const size_t left = from < all ? all - from : 0, part = left < rooms[i] ? left : rooms[i];
            is(list_part(layout, length, from, ASKED + from % REST, rooms[i]) == part && is_filled(INDEX, STRINGS));
            is(memcmp(out, lines + (part ? from : 0), part) == 0 && is_untouched(out, part, sizeof out));
        }
    is(list_part(layout, length, SIZE_MAX, ASKED, sizeof out) == 0 && is_filled(INDEX, STRINGS) && is_untouched(out, 0, sizeof out));
}

// An index that is too short, whatever is asked for.
static void list_in_too_few_words(uint8_t layout) {
    static const size_t froms[] = {0, 1, 100, sizeof lines, SIZE_MAX}, rooms[] = {0, 1, sizeof out};
    for (size_t lent = 0; lent < ASKED; lent++)
        for (size_t i = 0; i < sizeof froms / sizeof froms[0]; i++)
            for (size_t j = 0; j < sizeof rooms / sizeof rooms[0]; j++) {
                is(list_part(layout, length, froms[i], lent, rooms[j]) == refused(13));
                is_nothing_written();
            }
}

// A part does not lean on what the one before it left in the index: words of another image are filled anew.
static void list_over_another_index(uint8_t layout) {
    const size_t all = listing_of();
    lend();
    memset(words, 0xff, sizeof words);
    is(nepuladrim_list(image, length, layout, 0, words, ASKED, out, sizeof out) == all && memcmp(out, lines, all) == 0);
    is(memcmp(words, INDEX, sizeof INDEX) == 0 && words[ASKED] == UINT32_MAX);
    for (size_t i = 0; i < ASKED; i++) words[i] = (uint32_t)i * 1000003;
    is(nepuladrim_list(image, length, layout, 20, words, ASKED, out, sizeof out) == all - 20 && memcmp(out, lines + 20, all - 20) == 0);
    is(memcmp(words, INDEX, sizeof INDEX) == 0 && words[ASKED] == UINT32_MAX);
}

// ---- each number

// In the order in which they are due.
static const unsigned ORDER[] = {15, 1, 2, 3, 4, 5, 6, 13};
enum { NUMBERS = sizeof ORDER / sizeof ORDER[0] };

// A call in which each of these numbers is due, and no other: of filling, or of a part of the listing.
static uint64_t call(const int *due, uint8_t layout, int is_list) {
    make(layout);
    if (due[2]) image[0] ^= 1;
    if (due[3]) put(60, 1000);
    if (due[4]) put(kinds_at, 2);
    if (due[5]) put(small_at, 0x01000100);
    if (due[6]) put(128, 0);
    const uint8_t byte = due[0] ? layout + 5 : layout;
    const size_t bytes = due[1] ? 147 : length, lent = due[7] ? ASKED - 1 : ASKED;
    return is_list ? list_part(byte, bytes, 0, lent, sizeof out) : fill(byte, bytes, lent);
}

// Alone, and each two.
static void refuse_in_order(uint8_t layout, int is_list) {
    int due[NUMBERS] = {0};
    is(call(due, layout, is_list) < NEPULADRIM_REFUSED && is_filled(INDEX, STRINGS));
    for (int i = 0; i < NUMBERS; i++)
        for (int j = i; j < NUMBERS; j++) {
            due[i] = due[j] = 1;
            is(call(due, layout, is_list) == refused(ORDER[i]));
            is_nothing_written();
            due[i] = due[j] = 0;
        }
}

// 15 for every other layout byte, before all else.
static void refuse_bytes(void) {
    make(0);
    for (unsigned byte = 5; byte < 256; byte++) {
        is(fill((uint8_t)byte, length, ASKED) == refused(15) && fill((uint8_t)byte, 0, 0) == refused(15));
        is(list_part((uint8_t)byte, length, 0, ASKED, sizeof out) == refused(15));
        is_nothing_written();
        is(list_part((uint8_t)byte, 0, SIZE_MAX, 0, 0) == refused(15));
    }
}

int main(void) {
    for (uint8_t layout = 0; layout < 5; layout++) {
        make(layout);
        fill_in_every_room(layout, INDEX, STRINGS);
        is_as_known(layout, STRINGS);
        list_every_part(layout);
        list_in_too_few_words(layout);
        list_over_another_index(layout);
        make_pairs();
        fill_in_every_room(layout, PAIRS_INDEX, PAIRED);
        is_as_known(layout, PAIRED);
        fill_of_nothing(layout);
        refuse_in_order(layout, 0);
        refuse_in_order(layout, 1);
    }
    make(0);
    is(fill(0, length, ASKED) == STRINGS);
    look_up_what_is_there();
    refuse_bytes();
    puts("tests/c: an index is what is known of each string, in filling, looking up and listing, and is refused as it should be");
    return 0;
}
