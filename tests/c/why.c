// Calls nepuladrim_why from C, in each layout and both modes: every code, held to what the patch by id then makes; every way in which three
// strings lie to each other in a few bytes; in every room by one; and to each refusal, alone and beside each other one, and at the limits
// by one byte. Ends with 1 at the first answer that is not as it should be.
#include "lists.h"

// ---- what is lent

enum { RUNS = NEPULADRIM_INDEX_WORDS, ASKED = RUNS * STRINGS, WORDS = NEPULADRIM_REASON_WORDS, REST = 4 };
static uint32_t words[ASKED + REST], filled[ASKED + REST], told[WORDS + REST];

static void lend(void) {
    memset(words, 0xa5, sizeof words);
    memset(filled, 0xa5, sizeof filled);
    memset(told, 0xa5, sizeof told);
}

// Words from a place on hold what they held before a call.
static int are_left(const uint32_t *at, size_t from, size_t count) { return is_untouched((const uint8_t *)at, 4 * from, 4 * count); }

// A text, as a value is lent.
struct text {
    const uint8_t *at;
    size_t length;
};
#define TEXT(bytes) ((struct text){BYTES(bytes)})

// One call, of which nothing is told where it is refused. The index ends as filling it leaves it, or, where it is told to stay, as it was.
enum end { STAYS, IS_FILLED };
static uint64_t ask(enum end end, uint8_t layout, uint8_t mode, size_t bytes, uint32_t id, struct text value, size_t lent, size_t room) {
    lend();
    uint64_t answer = nepuladrim_why(image, bytes, layout, mode, id, value.at, value.length, words, lent, told, room);
    is(answer == WORDS || answer > NEPULADRIM_REFUSED);
    is(are_left(told, answer == WORDS ? WORDS : 0, WORDS + REST));
    if (end == IS_FILLED) is(nepuladrim_fill_index(image, bytes, layout, filled, ASKED + REST) < NEPULADRIM_REFUSED);
    is(memcmp(words, filled, sizeof words) == 0);
    return answer;
}

static int is_told(uint32_t code, uint32_t first, uint32_t second) {
    return told[NEPULADRIM_REASON_CODE] == code && told[NEPULADRIM_REASON_FIRST] == first && told[NEPULADRIM_REASON_SECOND] == second;
}

// ---- the path of a patch

// What is known of all strings of an image.
struct rows {
    uint64_t at[STRINGS][NEPULADRIM_STRING_FACTS], storage_at, storage_size, count;
};

static struct rows rows_of(const uint8_t *bytes, size_t count, uint8_t layout) {
    struct rows rows = {0};
    uint64_t facts[NEPULADRIM_IMAGE_FACTS];
    is(nepuladrim_image_facts(bytes, count, layout, facts, NEPULADRIM_IMAGE_FACTS) == NEPULADRIM_IMAGE_FACTS);
    rows.count = facts[NEPULADRIM_STRINGS];
    rows.storage_at = facts[NEPULADRIM_STORAGE_AT];
    rows.storage_size = facts[NEPULADRIM_STORAGE_SIZE];
    is(nepuladrim_string_facts_from(bytes, count, layout, 0, rows.at[0], STRINGS * NEPULADRIM_STRING_FACTS) ==
       rows.count * NEPULADRIM_STRING_FACTS);
    return rows;
}

// Each string starts where the one before it ends, in even mode a wide one at the next even place; storage has nothing else.
static int are_packed(const struct rows *rows, uint8_t mode) {
    uint64_t end = 0;
    for (uint64_t i = 0; i < rows->count; i++) {
        if (mode == NEPULADRIM_EVEN && rows->at[i][NEPULADRIM_STRING_IS_WIDE]) end += end % 2;
        if (rows->at[i][NEPULADRIM_STRING_AT] != rows->storage_at + end) return 0;
        end += rows->at[i][NEPULADRIM_STRING_BYTES];
    }
    return rows->storage_size == end;
}

// The patch by id goes the way that was told. In place nothing is another but the string, hashes, the file length and the footer.
static void is_the_path(uint8_t layout, uint8_t mode, uint32_t id, struct text value) {
    const struct rows old = rows_of(image, length, layout);
    uint64_t made = nepuladrim_patch_string_by_id(image, length, layout, mode, id, value.at, value.length, out, sizeof out);
    is(made < NEPULADRIM_REFUSED);
    const struct rows new = rows_of(out, made, layout);
    if (told[NEPULADRIM_REASON_CODE] != NEPULADRIM_IN_PLACE) {
        is(are_packed(&new, mode));
        return;
    }
    const size_t at = old.at[id][NEPULADRIM_STRING_AT], end = at + value.length;
    is(made == length && memcmp(&new, &old, sizeof new) == 0);
    is(memcmp(out + storage_at, image + storage_at, at - storage_at) == 0 && memcmp(out + at, value.at, value.length) == 0);
    is(memcmp(out + end, image + end, length - 20 - end) == 0);
}

static void gives(uint8_t layout, uint32_t id, struct text value, uint32_t code, uint32_t first, uint32_t second) {
    for (uint8_t mode = NEPULADRIM_PLAIN; mode <= NEPULADRIM_EVEN; mode++)
        for (size_t more = 0; more <= REST; more++) {
            is(ask(IS_FILLED, layout, mode, length, id, value, ASKED + more, WORDS + REST - more) == WORDS);
            is(is_told(code, first, second));
            is_the_path(layout, mode, id, value);
        }
}

// ---- each code, on the image of lists.h

static void give_each(uint8_t layout) {
    gives(layout, 0, TEXT("z"), NEPULADRIM_IN_PLACE, 0, 0);
    gives(layout, 0, TEXT("a"), NEPULADRIM_IN_PLACE, 0, 0);
    gives(layout, 1, TEXT("xy"), NEPULADRIM_IN_PLACE, 0, 0);
    gives(layout, 6, TEXT("\0\177"), NEPULADRIM_IN_PLACE, 0, 0);
    // it is empty, and stands where another one starts
    gives(layout, 5, TEXT(""), NEPULADRIM_IN_PLACE, 0, 0);
    // wide, whatever the value is: its own, ASCII, of as many bytes, empty
    gives(layout, 2, TEXT("\303\251"), NEPULADRIM_WIDE, 0, 0);
    gives(layout, 2, TEXT("e"), NEPULADRIM_WIDE, 0, 0);
    gives(layout, 2, TEXT("ee"), NEPULADRIM_WIDE, 0, 0);
    gives(layout, 2, TEXT(""), NEPULADRIM_WIDE, 0, 0);
    // not ASCII, of as many bytes, of another number, where another one overlaps, at the first and at the last byte over 0x7F
    gives(layout, 1, TEXT("\303\251"), NEPULADRIM_NOT_ASCII, 0, 0);
    gives(layout, 0, TEXT("\302\200"), NEPULADRIM_NOT_ASCII, 0, 0);
    gives(layout, 3, TEXT("a\303\251"), NEPULADRIM_NOT_ASCII, 0, 0);
    gives(layout, 5, TEXT("\364\217\277\277"), NEPULADRIM_NOT_ASCII, 0, 0);
    // lengths, also where another one overlaps
    gives(layout, 0, TEXT("zz"), NEPULADRIM_LENGTHS, 1, 2);
    gives(layout, 0, TEXT(""), NEPULADRIM_LENGTHS, 1, 0);
    gives(layout, 5, TEXT("a"), NEPULADRIM_LENGTHS, 0, 1);
    gives(layout, 3, TEXT("defg"), NEPULADRIM_LENGTHS, 3, 4);
    gives(layout, 4, TEXT("e"), NEPULADRIM_LENGTHS, 2, 1);
    // overlap, also to its own text
    gives(layout, 3, TEXT("def"), NEPULADRIM_OVERLAP, 4, 0);
    gives(layout, 4, TEXT("xy"), NEPULADRIM_OVERLAP, 3, 0);
}

// ---- every way in which strings lie to each other

// A string by its place, and how many bytes it has.
struct place {
    int is_wide;
    size_t at, count;
};

static size_t end_of(const struct place *place) { return place->at + (place->is_wide ? 2 : 1) * place->count; }

// All places in so many bytes.
enum { STORAGE = 4, THREE = 3, PLACES = 24 };
static struct place places[PLACES];

static void find_places(void) {
    size_t next = 0;
    for (int is_wide = 0; is_wide < 2; is_wide++)
        for (size_t at = 0; at <= STORAGE; at++)
            for (size_t count = 0; at + count * (is_wide ? 2 : 1) <= STORAGE; count++) places[next++] = (struct place){is_wide, at, count};
    is(next == PLACES);
}

// An image of three strings at these places, and of no function, so that it is one of every layout.
static void lay_out(const struct place *const *three) {
    memset(image, 0, sizeof image);
    memcpy(image, "\306\037\274\003\301\003\031\037", 8);
    put(44, 1);
    put(52, THREE);
    put(60, STORAGE);
    put(128, THREE);
    for (size_t i = 0; i < THREE; i++)
        put(132 + 4 * i, (uint32_t)(three[i]->count << 24 | three[i]->at << 1) | (uint32_t)three[i]->is_wide);
    storage_at = 144;
    memcpy(image + storage_at, "abcd", STORAGE);
    length = 168;
}

// The lowest other one that overlaps a string, or THREE.
static uint32_t overlapping(const struct place *const *three, uint32_t id) {
    uint32_t other = 0;
    while (other < THREE && (other == id || three[id]->at >= end_of(three[other]) || three[other]->at >= end_of(three[id]))) other++;
    return other;
}

// Each string to a text as long as it is.
static void give_what_overlaps(uint8_t layout, uint8_t mode, const struct place *const *three) {
    lay_out(three);
    for (uint32_t id = 0; id < THREE; id++) {
        const struct text value = {(const uint8_t *)"wxyz", three[id]->count};
        const uint32_t other = overlapping(three, id);
        is(ask(IS_FILLED, layout, mode, length, id, value, RUNS * THREE, WORDS) == WORDS);
        if (three[id]->is_wide) is(is_told(NEPULADRIM_WIDE, 0, 0));
        else if (other == THREE) is(is_told(NEPULADRIM_IN_PLACE, 0, 0));
        else is(is_told(NEPULADRIM_OVERLAP, other, 0));
        is_the_path(layout, mode, id, value);
    }
}

// In turn in the layouts and modes, which read the strings alike.
static void give_every_overlap(void) {
    size_t turn = 0;
    find_places();
    for (size_t i = 0; i < PLACES; i++)
        for (size_t j = 0; j < PLACES; j++)
            for (size_t k = 0; k < PLACES; k++, turn++) {
                const struct place *const three[] = {&places[i], &places[j], &places[k]};
                give_what_overlaps(turn % 5, turn / 5 % 2, three);
            }
}

// ---- what images do not tell

// A wide string of one unit becomes U+BFEB, whose two bytes of UTF-16 are the first two of its three of UTF-8; the string behind it starts
// with the third. Packed anew, storage has the three bytes where the string stands, and the image is the one that writing them over the
// string would make. So the path of a patch is not read off the images before and after it.
static void tell_what_images_do_not(void) {
    static const uint32_t ends[] = {1, 2};
    static uint8_t written[sizeof image];
    const struct text value = TEXT("\353\277\253");
    length = nepuladrim_build(97, BYTES("ab"), ends, 2, BYTES("\1\2\3\4"), image, sizeof image);
    length = nepuladrim_patch_string_by_id(image, length, 0, NEPULADRIM_PLAIN, 0, BYTES("\303\251"), out, sizeof out);
    length = nepuladrim_patch_string_by_id(out, length, 0, NEPULADRIM_PLAIN, 1, BYTES("\302\253"), image, sizeof image);
    const struct rows rows = rows_of(image, length, 0);
    storage_at = rows.storage_at;
    is(memcmp(image + storage_at, "\351\0\253\0", 4) == 0 && are_packed(&rows, NEPULADRIM_PLAIN));
    is(ask(IS_FILLED, 0, NEPULADRIM_PLAIN, length, 0, value, RUNS * 2, WORDS) == WORDS && is_told(NEPULADRIM_WIDE, 0, 0));
    is(nepuladrim_patch_string_by_id(image, length, 0, NEPULADRIM_PLAIN, 0, value.at, value.length, out, sizeof out) == length);
    is(memcmp(out + storage_at, value.at, value.length) == 0);
    memcpy(written, image, length);
    memcpy(written + storage_at, value.at, value.length);
    is(nepuladrim_finalize(written, length) == length && memcmp(written, out, length) == 0);
}

// ---- each number

// In the order in which they are due: the first 13 is that of the index, the last that of what is lent for the reason.
static const unsigned ORDER[] = {15, 1, 2, 3, 4, 5, 6, 13, 7, 8, 11, 12, 13};
enum { OF_INDEX = 7, NUMBERS = sizeof ORDER / sizeof ORDER[0] };

// As long as the longest image, behind a byte that is no text.
static uint8_t *long_text;

// The value in which these numbers are due.
static struct text value_of(const int *due) {
    // a body behind such a string starts past 33,554,431
    struct text value = {long_text + 1, due[10] ? LIMIT : due[11] ? 33554432 : 1};
    return due[9] ? (struct text){long_text, value.length + 1} : value;
}

// A call in which each of these numbers is due, and no other.
static uint64_t call(enum end end, const int *due, uint8_t layout, uint8_t mode) {
    make(layout);
    if (due[2]) image[0] ^= 1;
    if (due[3]) put(60, 1000);
    if (due[4]) put(kinds_at, 2);
    if (due[5]) put(small_at, 0x01000100);
    if (due[6]) put(128, 0);
    return ask(end, due[0] ? layout + 5 : layout, mode, due[1] ? 147 : length, due[8] ? STRINGS : 0, value_of(due),
               due[OF_INDEX] ? ASKED - 1 : ASKED, due[12] ? WORDS - 1 : WORDS);
}

// Alone, and each two. Up to the 13 of the index no word of it is written; behind that it is filled.
static void refuse_in_order(uint8_t layout, uint8_t mode) {
    int due[NUMBERS] = {0};
    is(call(IS_FILLED, due, layout, mode) == WORDS && is_told(NEPULADRIM_IN_PLACE, 0, 0));
    for (int i = 0; i < NUMBERS; i++)
        for (int j = i; j < NUMBERS; j++) {
            due[i] = due[j] = 1;
            is(call(i <= OF_INDEX ? STAYS : IS_FILLED, due, layout, mode) == refused(ORDER[i]));
            due[i] = due[j] = 0;
        }
}

// As the patch by id is, with room for every image, for each id and value; but for its output, for which there is no number.
static void refuse_as_the_patch(uint8_t layout, uint8_t mode) {
    static const uint32_t ids[] = {0, 2, 3, STRINGS - 1, STRINGS, STRINGS + 1, UINT32_MAX};
    static const struct text texts[] = {{BYTES("\377")}, {BYTES("\303")}, {BYTES("a\355\240\200")}, {BYTES("\300\200")}, {BYTES("ok")}};
    make(layout);
    for (size_t i = 0; i < sizeof ids / sizeof ids[0]; i++)
        for (size_t j = 0; j < sizeof texts / sizeof texts[0]; j++) {
            const struct text *value = &texts[j];
            uint64_t answer = nepuladrim_patch_string_by_id(image, length, layout, mode, ids[i], value->at, value->length, out, sizeof out);
            is(ask(IS_FILLED, layout, mode, length, ids[i], *value, ASKED, WORDS) == (answer < NEPULADRIM_REFUSED ? WORDS : answer));
        }
}

// The longest value that string 0, which has one byte, may get, and one byte more, where so much is left for it in plain mode: behind an
// odd number of bytes stands a wide string, so that even mode leaves one byte less.
static void refuse_past(uint8_t layout, uint8_t mode, size_t left, unsigned number) {
    const size_t most = mode == NEPULADRIM_EVEN ? left - 1 : left;
    const struct text longest = {long_text + 1, most}, next = {long_text + 1, most + 1};
    is(left % 2 == 1 && ask(IS_FILLED, layout, mode, length, 0, longest, ASKED, WORDS) == WORDS);
    is(is_told(NEPULADRIM_LENGTHS, 1, (uint32_t)most));
    is(ask(IS_FILLED, layout, mode, length, 0, next, ASKED, WORDS) == refused(number));
}

// Behind so long a string all go to the overflow table, 8 bytes each.
static void refuse_by_one(uint8_t layout, uint8_t mode) {
    // the last multiple of 4 that the record can have for the body, and in a legacy layout 4 bytes behind it for the info place
    make(layout);
    const size_t last = layout ? 33554424 : 33554428;
    refuse_past(layout, mode, last - storage_at - 8 * STRINGS - 11, 12);
    const struct place one = {0, 0, 1}, wide = {1, 0, 1};
    const struct place *const three[] = {&one, &wide, &one};
    lay_out(three);
    refuse_past(layout, mode, LIMIT - 20 - storage_at - 8 * THREE - 3, 11);
}

// In every room by one.
static void refuse_rooms(uint8_t layout) {
    make(layout);
    for (size_t lent = 0; lent <= ASKED + REST; lent++)
        for (size_t room = 0; room <= WORDS + REST; room++) {
            uint64_t answer = lent < ASKED || room < WORDS ? refused(13) : WORDS;
            is(ask(lent < ASKED ? STAYS : IS_FILLED, layout, NEPULADRIM_PLAIN, length, 1, TEXT("xy"), lent, room) == answer);
        }
}

// 15 for every other layout and mode byte, before all else.
static void refuse_bytes(void) {
    make(0);
    for (unsigned byte = 2; byte < 256; byte++) {
        is(ask(STAYS, 0, (uint8_t)byte, length, 0, TEXT("z"), ASKED, WORDS) == refused(15));
        is(ask(STAYS, 0, (uint8_t)byte, 0, STRINGS, TEXT("\377"), 0, 0) == refused(15));
        if (byte < 5) continue;
        is(ask(STAYS, (uint8_t)byte, NEPULADRIM_EVEN, length, 0, TEXT("z"), ASKED, WORDS) == refused(15));
        is(ask(STAYS, (uint8_t)byte, (uint8_t)byte, 0, STRINGS, TEXT("\377"), 0, 0) == refused(15));
    }
}

int main(void) {
    long_text = malloc(LIMIT + 1);
    is(long_text);
    memset(long_text, 'a', LIMIT + 1);
    long_text[0] = 0xff;
    for (uint8_t layout = 0; layout < 5; layout++) {
        make(layout);
        give_each(layout);
        refuse_rooms(layout);
        for (uint8_t mode = NEPULADRIM_PLAIN; mode <= NEPULADRIM_EVEN; mode++) {
            refuse_in_order(layout, mode);
            refuse_as_the_patch(layout, mode);
            refuse_by_one(layout, mode);
        }
    }
    give_every_overlap();
    tell_what_images_do_not();
    refuse_bytes();
    free(long_text);
    puts("tests/c: the reason of a patch is the first that holds, and the path that it takes, and is refused as it should be");
    return 0;
}
