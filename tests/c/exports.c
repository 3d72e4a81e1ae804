// Calls each function of hbc.h from C, to success and to a refusal. Ends with 1 at the first answer that is not as it should be.
#include "common.h"

static uint8_t image[256], out[256];

static int untouched(void) { return is_untouched(out, 0, sizeof out); }

// ---- the modes of a string patch

// "a", "x" and "b", and an image to compare with.
static uint8_t three[256], kept[256];

enum way { BY_ID, BY_VALUE };

// The string "x" gets a value.
static uint64_t patch(enum way way, size_t length, uint8_t layout, uint8_t mode, const char *value, size_t room) {
    const uint8_t *bytes = (const uint8_t *)value;
    return way == BY_ID ? nepuladrim_patch_string_by_id(three, length, layout, mode, 1, bytes, strlen(value), out, room)
                        : nepuladrim_patch_string_replace(three, length, layout, mode, BYTES("x"), bytes, strlen(value), out, room);
}

// Another mode byte comes before all else, as another layout byte does.
static void refuse_modes(enum way way) {
    const uint8_t modes[] = {2, 3, 127, 128, 255};
    memset(out, 0xa5, sizeof out);
    for (size_t i = 0; i < sizeof modes; i++) {
        is(patch(way, 224, 0, modes[i], "\303\251", sizeof out) == refused(15));
        is(patch(way, 224, 0, modes[i], "z", sizeof out) == refused(15));
        is(patch(way, 224, 5, modes[i], "\303\251", sizeof out) == refused(15));
        is(patch(way, 147, 0, modes[i], "\377", 0) == refused(15));
    }
    is(patch(way, 224, 5, NEPULADRIM_EVEN, "\303\251", sizeof out) == refused(15));
    is(patch(way, 147, 0, NEPULADRIM_EVEN, "\377", 0) == refused(1));
    is(patch(way, 224, 0, NEPULADRIM_EVEN, "\377", 0) == refused(8));
    is(patch(way, 224, 0, NEPULADRIM_PLAIN, "\303\251", 223) == refused(13));
    is(patch(way, 224, 0, NEPULADRIM_EVEN, "\303\251", 227) == refused(13));
    is(untouched());
}

// With no wide string and in place the modes make the same.
static void make_same(enum way way, const char *value, size_t length) {
    is(patch(way, 224, 0, NEPULADRIM_PLAIN, value, sizeof out) == length);
    memcpy(kept, out, length);
    is(patch(way, 224, 0, NEPULADRIM_EVEN, value, sizeof out) == length && memcmp(out, kept, length) == 0);
}

static void patch_in_modes(enum way way) {
    uint64_t known[NEPULADRIM_STRING_FACTS];
    refuse_modes(way);
    make_same(way, "z", 224);
    make_same(way, "xyz", 228);
    // U+00E9, which is wide: right behind "a"; and behind a zero, which the storage size and the offset of "b" count
    memset(out, 0xa5, sizeof out);
    is(patch(way, 224, 0, NEPULADRIM_PLAIN, "\303\251", 224) == 224);
    is(memcmp(out + 144, "\0\0\0\1\3\0\0\1\6\0\0\1" "a\351\0b" "\1\2\3\4", 20) == 0 && out[60] == 4 && out[224] == 0xa5);
    is(patch(way, 224, 0, NEPULADRIM_EVEN, "\303\251", 228) == 228);
    is(memcmp(out + 144, "\0\0\0\1\5\0\0\1\10\0\0\1" "a\0\351\0b\0\0\0" "\1\2\3\4", 24) == 0 && out[60] == 5 && out[228] == 0xa5);
    is(nepuladrim_string_facts(out, 228, 0, 1, known, NEPULADRIM_STRING_FACTS) == NEPULADRIM_STRING_FACTS);
    is(known[NEPULADRIM_STRING_AT] == 158 && known[NEPULADRIM_STRING_BYTES] == 2 && known[NEPULADRIM_STRING_IS_WIDE] == 1);
    is(nepuladrim_string(out, 228, 0, 1, kept, sizeof kept) == 2 && memcmp(kept, "\351\0", 2) == 0);
    is(nepuladrim_string(out, 228, 0, 2, kept, sizeof kept) == 1 && kept[0] == 'b');
}

// A wide string at an odd place stays there where another fits in place, and goes where it is patched itself.
static void patch_at_odd_place(void) {
    is(patch(BY_ID, 224, 0, NEPULADRIM_PLAIN, "\303\251", sizeof out) == 224);
    memcpy(kept, out, 224);
    is(nepuladrim_patch_string_by_id(kept, 224, 0, NEPULADRIM_EVEN, 0, BYTES("z"), out, sizeof out) == 224);
    is(memcmp(out + 144, "\0\0\0\1\3\0\0\1\6\0\0\1" "z\351\0b", 16) == 0);
    is(nepuladrim_patch_string_by_id(kept, 224, 0, NEPULADRIM_EVEN, 1, BYTES("\303\251"), out, sizeof out) == 228);
    is(memcmp(out + 144, "\0\0\0\1\5\0\0\1\10\0\0\1" "a\0\351\0b", 17) == 0);
}

int main(void) {
    const uint32_t ends[] = {1, 3}, wrong[] = {3, 1};

    // the example of document 01, rows j and k
    memset(image, 0xa5, sizeof image);
    is(nepuladrim_build(97, BYTES("abc"), wrong, 2, BYTES("\1\2\3\4"), image, sizeof image) == refused(15));
    is(nepuladrim_build(97, BYTES("abc"), ends, 2, BYTES("\1\2\3\4"), image, 219) == refused(13));
    is(image[0] == 0xa5);
    is(nepuladrim_build(97, BYTES("abc"), ends, 2, BYTES("\1\2\3\4"), image, sizeof image) == 220);
    is(memcmp(image + 144, "\0\0\0\1\2\0\0\2", 8) == 0 && memcmp(image + 156, "\1\2\3\4", 4) == 0 && image[220] == 0xa5);

    is(nepuladrim_admit(image, 220, 0) == 0);
    is(nepuladrim_admit(image, 220, 5) == 15);
    is(nepuladrim_admit(image, 147, 0) == 1);

    memset(out, 0xa5, sizeof out);
    is(nepuladrim_patch_string_by_id(image, 220, 0, NEPULADRIM_PLAIN, 2, BYTES("x"), out, sizeof out) == refused(7));
    is(nepuladrim_patch_string_by_id(image, 220, 0, NEPULADRIM_PLAIN, 0, BYTES("\377"), out, sizeof out) == refused(8));
    is(nepuladrim_patch_string_by_id(image, 220, 0, NEPULADRIM_PLAIN, 0, BYTES("aaaaa"), out, 223) == refused(13));
    is(nepuladrim_patch_string_by_id(image, 220, 9, NEPULADRIM_PLAIN, 0, BYTES("aaaaa"), out, sizeof out) == refused(15));
    is(untouched());
    is(nepuladrim_patch_string_by_id(image, 220, 0, NEPULADRIM_PLAIN, 0, BYTES("aaaaa"), out, sizeof out) == 224);
    is(memcmp(out + 144, "\0\0\0\5\12\0\0\2" "aaaaabc\0" "\1\2\3\4", 20) == 0 && out[60] == 7 && out[224] == 0xa5);

    memset(image, 0xa5, sizeof image);
    memcpy(image, out, 224);
    memset(out, 0xa5, sizeof out);
    is(nepuladrim_string(image, 224, 0, 2, out, sizeof out) == refused(7));
    is(nepuladrim_string(image, 224, 0, 0, out, 4) == refused(13));
    is(nepuladrim_body(image, 224, 0, 1, out, sizeof out) == refused(7));
    is(nepuladrim_body(image, 223, 0, 0, out, 3) == refused(13));
    is(untouched());
    is(nepuladrim_string(image, 224, 0, 0, out, sizeof out) == 5 && memcmp(out, "aaaaa\245", 6) == 0);
    is(nepuladrim_body(image, 224, 0, 0, out, sizeof out) == 4 && memcmp(out, "\1\2\3\4a\245", 6) == 0);
    is(nepuladrim_build(97, BYTES("abc"), ends, 2, BYTES("\1\2\3\4"), image, sizeof image) == 220);

    // the listing, whole and in parts
    const char lines[] = "image 220 2 1\ns 0 n s 1 0061 -\ns 1 n s 2 00620063 -\nf 0 o 156 4\n";
    const size_t all = sizeof lines - 1;
    uint32_t strings[3 * 2];
    memset(out, 0xa5, sizeof out);
    is(nepuladrim_list(image, 220, 5, 0, strings, 6, out, sizeof out) == refused(15));
    is(nepuladrim_list(image, 147, 0, 0, strings, 6, out, sizeof out) == refused(1));
    is(nepuladrim_list(image, 220, 0, 0, strings, 5, out, sizeof out) == refused(13));
    is(nepuladrim_list(image, 220, 0, all, strings, 6, out, sizeof out) == 0);
    is(nepuladrim_list(image, 220, 0, SIZE_MAX, strings, 6, out, sizeof out) == 0);
    is(nepuladrim_list(image, 220, 0, 0, strings, 6, out, 0) == 0);
    is(untouched());
    is(nepuladrim_list(image, 220, 0, 0, strings, 6, out, sizeof out) == all && memcmp(out, lines, all) == 0 && out[all] == 0xa5);
    memset(out, 0xa5, sizeof out);
    for (size_t from = 0; from < all; from += 7) {
        const size_t left = all - from < 7 ? all - from : 7;
        is(nepuladrim_list(image, 220, 0, from, strings, 6, out + from, 7) == left);
    }
    is(memcmp(out, lines, all) == 0 && out[all] == 0xa5);

    // an index of the strings, and one of them looked up in it
    const uint32_t filled[] = {0, 1, 1, 2, 0, 0}, second[] = {1, 2, 0};
    uint32_t index[3 * 2 + 1], found[NEPULADRIM_INDEX_WORDS + 1];
    memset(index, 0xa5, sizeof index);
    memset(found, 0xa5, sizeof found);
    is(nepuladrim_fill_index(image, 220, 5, index, 6) == refused(15));
    is(nepuladrim_fill_index(image, 147, 0, index, 6) == refused(1));
    is(nepuladrim_fill_index(image, 220, 0, index, 5) == refused(13));
    is(index[0] == 0xa5a5a5a5);
    is(nepuladrim_fill_index(image, 220, 0, index, 7) == 2 && memcmp(index, filled, sizeof filled) == 0 && index[6] == 0xa5a5a5a5);
    is(memcmp(strings, filled, sizeof filled) == 0);
    is(nepuladrim_look_up(index, 6, 2, 2, found, 3) == refused(7));
    is(nepuladrim_look_up(index, 5, 2, 1, found, 3) == refused(13));
    is(nepuladrim_look_up(index, 6, 2, 1, found, 2) == refused(13));
    is(found[0] == 0xa5a5a5a5);
    is(nepuladrim_look_up(index, 6, 2, 1, found, 4) == 3 && memcmp(found, second, sizeof second) == 0 && found[3] == 0xa5a5a5a5);

    // why a patch of a string is made in place, or by packing all of them anew
    const uint32_t lengths[] = {NEPULADRIM_LENGTHS, 1, 5}, in_place[] = {NEPULADRIM_IN_PLACE, 0, 0};
    uint32_t reason[NEPULADRIM_REASON_WORDS + 1];
    memset(index, 0xa5, sizeof index);
    memset(reason, 0xa5, sizeof reason);
    is(nepuladrim_why(image, 220, 5, NEPULADRIM_PLAIN, 0, BYTES("z"), index, 6, reason, 3) == refused(15));
    is(nepuladrim_why(image, 220, 0, 2, 0, BYTES("z"), index, 6, reason, 3) == refused(15));
    is(nepuladrim_why(image, 147, 0, NEPULADRIM_PLAIN, 0, BYTES("z"), index, 6, reason, 3) == refused(1));
    is(nepuladrim_why(image, 220, 0, NEPULADRIM_PLAIN, 2, BYTES("z"), index, 5, reason, 3) == refused(13));
    is(index[0] == 0xa5a5a5a5);
    is(nepuladrim_why(image, 220, 0, NEPULADRIM_PLAIN, 2, BYTES("z"), index, 7, reason, 3) == refused(7));
    is(memcmp(index, filled, sizeof filled) == 0 && index[6] == 0xa5a5a5a5);
    is(nepuladrim_why(image, 220, 0, NEPULADRIM_PLAIN, 0, BYTES("\377"), index, 6, reason, 2) == refused(8));
    is(nepuladrim_why(image, 220, 0, NEPULADRIM_PLAIN, 0, BYTES("z"), index, 6, reason, 2) == refused(13));
    is(reason[0] == 0xa5a5a5a5);
    is(nepuladrim_why(image, 220, 0, NEPULADRIM_PLAIN, 0, BYTES("aaaaa"), index, 6, reason, 4) == 3);
    is(memcmp(reason, lengths, sizeof lengths) == 0 && reason[3] == 0xa5a5a5a5);
    is(nepuladrim_why(image, 220, 0, NEPULADRIM_EVEN, 0, BYTES("z"), index, 6, reason, 3) == 3);
    is(memcmp(reason, in_place, sizeof in_place) == 0);

    // what is known of the image and of its strings
    uint64_t facts[NEPULADRIM_IMAGE_FACTS + 1], known[NEPULADRIM_STRING_FACTS + 1];
    const uint64_t of_image[] = {220, 220, 1, 1, 1, 1, 0, 2, 0, 3, 128, 140, 144, 144, 152, 152, 156, 200};
    const uint64_t of_string[] = {153, 2, 2, 0, 0, 2, 0};
    is(sizeof of_image == NEPULADRIM_IMAGE_FACTS * sizeof *facts && sizeof of_string == NEPULADRIM_STRING_FACTS * sizeof *known);
    memset(facts, 0xa5, sizeof facts);
    memset(known, 0xa5, sizeof known);
    is(nepuladrim_image_facts(image, 220, 5, facts, NEPULADRIM_IMAGE_FACTS) == refused(15));
    is(nepuladrim_image_facts(image, 147, 0, facts, NEPULADRIM_IMAGE_FACTS) == refused(1));
    is(nepuladrim_image_facts(image, 220, 1, facts, 0) == refused(4));
    is(nepuladrim_image_facts(image, 220, 0, facts, NEPULADRIM_IMAGE_FACTS - 1) == refused(13));
    is(nepuladrim_string_facts(image, 220, 5, 0, known, NEPULADRIM_STRING_FACTS) == refused(15));
    is(nepuladrim_string_facts(image, 147, 0, 0, known, NEPULADRIM_STRING_FACTS) == refused(1));
    is(nepuladrim_string_facts(image, 220, 0, 2, known, 0) == refused(7));
    is(nepuladrim_string_facts(image, 220, 0, 1, known, NEPULADRIM_STRING_FACTS - 1) == refused(13));
    is(facts[0] == UINT64_C(0xa5a5a5a5a5a5a5a5) && known[0] == facts[0]);
    is(nepuladrim_image_facts(image, 220, 0, facts, NEPULADRIM_IMAGE_FACTS + 1) == NEPULADRIM_IMAGE_FACTS);
    is(memcmp(facts, of_image, sizeof of_image) == 0 && facts[NEPULADRIM_IMAGE_FACTS] == UINT64_C(0xa5a5a5a5a5a5a5a5));
    is(nepuladrim_string_facts(image, 220, 0, 1, known, NEPULADRIM_STRING_FACTS + 1) == NEPULADRIM_STRING_FACTS);
    is(memcmp(known, of_string, sizeof of_string) == 0 && known[NEPULADRIM_STRING_FACTS] == facts[NEPULADRIM_IMAGE_FACTS]);
    is(facts[NEPULADRIM_STORAGE_AT] + 1 == known[NEPULADRIM_STRING_AT]);
    is(known[NEPULADRIM_STRING_SMALL_VISITED] == 2 && known[NEPULADRIM_STRING_OVERFLOW_VISITED] == 0);

    // of many strings: as many as there are, and as there is room for
    enum { ROW = NEPULADRIM_STRING_FACTS };
    uint64_t rows[3 * ROW];
    const uint64_t both[] = {152, 1, 1, 0, 0, 1, 0, 153, 2, 2, 0, 0, 2, 0};
    memset(rows, 0xa5, sizeof rows);
    is(nepuladrim_string_facts_from(image, 220, 5, 0, rows, 3 * ROW) == refused(15));
    is(nepuladrim_string_facts_from(image, 147, 0, 0, rows, 3 * ROW) == refused(1));
    is(nepuladrim_string_facts_from(image, 220, 1, 2, rows, 0) == refused(4));
    is(nepuladrim_string_facts_from(image, 220, 0, 0, rows, 0) == 0);
    is(nepuladrim_string_facts_from(image, 220, 0, 0, rows, ROW - 1) == 0);
    is(nepuladrim_string_facts_from(image, 220, 0, 2, rows, 3 * ROW) == 0);
    is(nepuladrim_string_facts_from(image, 220, 0, UINT32_MAX, rows, 3 * ROW) == 0);
    is(rows[0] == facts[NEPULADRIM_IMAGE_FACTS]);
    is(nepuladrim_string_facts_from(image, 220, 0, 0, rows, 2 * ROW - 1) == ROW);
    is(memcmp(rows, both, sizeof both / 2) == 0 && rows[ROW] == facts[NEPULADRIM_IMAGE_FACTS]);
    is(nepuladrim_string_facts_from(image, 220, 0, 1, rows, 3 * ROW) == ROW);
    is(memcmp(rows, both + ROW, sizeof both / 2) == 0 && rows[ROW] == facts[NEPULADRIM_IMAGE_FACTS]);
    is(nepuladrim_string_facts_from(image, 220, 0, 0, rows, 3 * ROW) == 2 * ROW);
    is(memcmp(rows, both, sizeof both) == 0 && rows[2 * ROW] == facts[NEPULADRIM_IMAGE_FACTS]);
    // stale, each by itself: the footer goes over the file length
    image[219] ^= 1;
    is(nepuladrim_image_facts(image, 220, 0, facts, NEPULADRIM_IMAGE_FACTS) == NEPULADRIM_IMAGE_FACTS);
    is(facts[NEPULADRIM_LENGTH_IS_RIGHT] == 1 && facts[NEPULADRIM_FOOTER_IS_RIGHT] == 0);
    image[219] ^= 1;
    image[32] ^= 1;
    is(nepuladrim_image_facts(image, 220, 0, facts, NEPULADRIM_IMAGE_FACTS) == NEPULADRIM_IMAGE_FACTS);
    is(facts[NEPULADRIM_STATED_LENGTH] == 221 && facts[NEPULADRIM_LENGTH_IS_RIGHT] == 0);
    image[32] ^= 1;

    // an accented value of as many bytes: two bytes of a wide string
    memset(out, 0xa5, sizeof out);
    is(nepuladrim_patch_string_replace(image, 220, 0, NEPULADRIM_PLAIN, BYTES("cb"), BYTES("x"), out, sizeof out) == refused(14));
    is(untouched());
    is(nepuladrim_patch_string_replace(image, 220, 0, NEPULADRIM_PLAIN, BYTES("bc"), BYTES("\303\251"), out, sizeof out) == 220);
    is(memcmp(out + 144, "\0\0\0\1\3\0\0\1" "a\351\0\0", 12) == 0);
    is(nepuladrim_string_facts(out, 220, 0, 1, known, NEPULADRIM_STRING_FACTS) == NEPULADRIM_STRING_FACTS);
    is(known[NEPULADRIM_STRING_BYTES] == 2 && known[NEPULADRIM_STRING_UNITS] == 1 && known[NEPULADRIM_STRING_IS_WIDE] == 1);

    const uint32_t each[] = {1, 2, 3};
    is(nepuladrim_build(97, BYTES("axb"), each, 3, BYTES("\1\2\3\4"), three, sizeof three) == 224);
    patch_in_modes(BY_ID);
    patch_in_modes(BY_VALUE);
    patch_at_odd_place();

    memset(out, 0xa5, sizeof out);
    is(nepuladrim_patch_function_bytes(image, 220, 0, 1, BYTES("x"), out, sizeof out) == refused(7));
    is(untouched());
    is(nepuladrim_patch_function_bytes(image, 220, 0, 0, BYTES("\5\6\7\10\11"), out, sizeof out) == 221);
    is(memcmp(out + 156, "\5\6\7\10\11", 5) == 0 && nepuladrim_admit(out, 221, 0) == 0);

    // a stale file length and footer are put right
    memcpy(image, out, 221);
    memset(out + 32, 0, 4);
    memset(out + 201, 0, 20);
    is(nepuladrim_finalize(out, 35) == refused(1));
    is(nepuladrim_finalize(out, 221) == 221 && memcmp(out, image, 221) == 0);

    puts("tests/c: each function of hbc.h answers as it should");
    return 0;
}
