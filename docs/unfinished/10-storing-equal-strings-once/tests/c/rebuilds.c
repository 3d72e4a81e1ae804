// Holds what the front door counts of a rebuild (host/rebuilt.h) to rebuilds: bytes of storage, overflow entries, the image's length. In
// each layout and both modes, where strings share bytes, at the lengths and offsets from which on a string has an overflow entry, by one on
// either side. Ends with 1 at the first that is not as it should be.
#include "../../host/rebuilt.h"
#include "lists.h"

// An image, and the same strings packed anew: string 0, which is narrow, gets an accent and then its text again.
enum { ROOM = 1 << 24 };
static uint8_t *given, *once, *rebuilt_image;

static uint64_t rebuild(size_t bytes, uint8_t layout, uint8_t mode, const uint8_t *text, size_t count) {
    uint64_t answer = nepuladrim_patch_string_by_id(given, bytes, layout, mode, 0, BYTES("\303\251"), once, ROOM);
    is(answer < NEPULADRIM_REFUSED);
    answer = nepuladrim_patch_string_by_id(once, answer, layout, mode, 0, text, count, rebuilt_image, ROOM);
    is(answer < NEPULADRIM_REFUSED);
    return answer;
}

static void facts_of(const uint8_t *at, size_t bytes, uint8_t layout, uint64_t *facts) {
    is(nepuladrim_image_facts(at, bytes, layout, facts, NEPULADRIM_IMAGE_FACTS) == NEPULADRIM_IMAGE_FACTS);
}

// String 0 has this text.
static void is_counted(size_t bytes, uint8_t layout, uint8_t mode, const uint8_t *text, size_t count) {
    uint64_t facts[NEPULADRIM_IMAGE_FACTS], anew[NEPULADRIM_IMAGE_FACTS];
    facts_of(given, bytes, layout, facts);
    uint64_t answer = rebuild(bytes, layout, mode, text, count);
    facts_of(rebuilt_image, answer, layout, anew);
    struct string_index index = index_of((struct bytes){given, bytes}, layout);
    is(strings_of(&index) == facts[NEPULADRIM_STRINGS]);
    const struct rebuilt counted = rebuilt_of(&index, mode);
    is(counted.storage == anew[NEPULADRIM_STORAGE_SIZE] && counted.overflows == anew[NEPULADRIM_OVERFLOWS]);
    is(rebuilt_length(facts, &counted) == answer);
    free(index.words);
}

// The image of lists.h, where strings share bytes; then with strings of so many bytes before, between and behind.
static void count_in(uint8_t layout, uint8_t mode) {
    static const size_t counts[] = {0, 1, 2, 3, 253, 254, 255, 256, 257};
    enum { COUNTS = sizeof counts / sizeof counts[0] };
    static const uint32_t ids[] = {1, 3, 6};
    make(layout);
    memcpy(given, image, length);
    is_counted(length, layout, mode, BYTES("a"));
    for (size_t i = 0; i < COUNTS * 3; i++) {
        begin_list();
        add_bytes(ids[i % 3], counts[i / 3]);
        add(ids[(i + 1) % 3], i % 2 ? "\303\251" : "bc");
        uint64_t answer = nepuladrim_patch_strings(image, length, layout, mode, list.ids, list.count, list.text, list.length, list.ends,
                                                   list.count, given, ROOM);
        is(answer < NEPULADRIM_REFUSED);
        is_counted(answer, layout, mode, BYTES("a"));
    }
}

// A wide string and two others behind so many bytes; in even mode it may start a byte later.
static void count_far(uint8_t mode) {
    static uint8_t text[(1 << 23) + 8];
    static const uint32_t ends[] = {1, 2, 3, 4};
    memset(text, 'a', sizeof text);
    for (size_t count = sizeof text - 12; count < sizeof text; count++) {
        uint64_t answer = nepuladrim_build(97, BYTES("abcd"), ends, 4, BYTES("\1\2\3\4"), given, ROOM);
        answer = nepuladrim_patch_string_by_id(given, answer, 0, mode, 1, BYTES("\303\251"), once, ROOM);
        answer = nepuladrim_patch_string_by_id(once, answer, 0, mode, 0, text, count, given, ROOM);
        is(answer < NEPULADRIM_REFUSED);
        is_counted(answer, 0, mode, text, count);
    }
}

int main(void) {
    given = malloc(ROOM);
    once = malloc(ROOM);
    rebuilt_image = malloc(ROOM);
    list.text = malloc(1024);
    is(given && once && rebuilt_image && list.text);
    for (uint8_t mode = NEPULADRIM_PLAIN; mode <= NEPULADRIM_EVEN; mode++) {
        for (uint8_t layout = 0; layout < 5; layout++) count_in(layout, mode);
        count_far(mode);
    }
    free(given);
    free(once);
    free(rebuilt_image);
    free(list.text);
    puts("tests/c: what the front door counts of a rebuild is what a rebuild makes");
    return 0;
}
