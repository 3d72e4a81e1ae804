// Calls nepuladrim_patch_strings from C, on the image of lists.h in each layout: against single patches by id, in all orders of a
// list, and to each refusal, alone and beside each other one. Ends with 1 at the first answer that is not as it should be.
#include "lists.h"

// ---- single patches

static uint8_t kept[1024], once[1024];

// The list one by one. Answers the last length, or the first refusal; the image is in `once`.
static uint64_t singly(uint8_t layout, uint8_t mode, const struct edit *edits, size_t count, size_t room) {
    uint64_t now = length;
    memcpy(once, image, length);
    for (size_t i = 0; i < count; i++) {
        memcpy(kept, once, sizeof kept);
        now = nepuladrim_patch_string_by_id(kept, now, layout, mode, edits[i].id, (const uint8_t *)edits[i].value,
                                            strlen(edits[i].value), once, room);
        if (now >= NEPULADRIM_REFUSED) break;
    }
    return now;
}

static void is_as_singly(uint8_t layout, uint8_t mode, const struct edit *edits, size_t count) {
    uint64_t answer = singly(layout, mode, edits, count, sizeof once);
    is(answer < NEPULADRIM_REFUSED);
    take_list(edits, count);
    is(pass(layout, mode, sizeof out) == answer && memcmp(out, once, answer) == 0);
    is(is_untouched(out, answer, sizeof out) && nepuladrim_admit(out, answer, layout) == 0);
    // by one byte
    is(pass(layout, mode, answer) == answer && memcmp(out, once, answer) == 0);
    refuses(13, pass(layout, mode, answer - 1));
}

// Every order of the list, by swaps from place `from` on.
static void in_every_order(uint8_t layout, uint8_t mode, struct edit *edits, size_t count, size_t from) {
    if (from == count) is_as_singly(layout, mode, edits, count);
    for (size_t i = from; i < count; i++) {
        struct edit first = edits[from];
        edits[from] = edits[i];
        edits[i] = first;
        in_every_order(layout, mode, edits, count, from + 1);
        edits[i] = edits[from];
        edits[from] = first;
    }
}

// In place; one that is not among those that are; lengths, widths, shared bytes; identifiers; values that stay; nothing left.
static void follow_single_patches(uint8_t layout, uint8_t mode) {
    struct edit lists[][4] = {
        {{0, "z"}, {1, "ab"}, {5, ""}, {6, "xy"}},
        {{0, "z"}, {1, "ab"}, {3, "ghi"}, {6, "xy"}},
        {{0, "z"}, {1, "ab"}, {2, "\303\251"}, {6, "xy"}},
        {{0, "z"}, {1, "\303\251"}, {5, ""}, {6, "xy"}},
        {{0, "zz"}, {1, "abc"}, {5, "a"}, {6, ""}},
        {{0, ""}, {3, "for\303\252t"}, {4, "ef"}, {2, "e"}},
        {{3, ""}, {4, "\360\237\214\262"}, {2, ""}, {0, "abcdefghijklmnopqrstuvwxyz"}},
    };
    for (size_t i = 0; i < sizeof lists / sizeof lists[0]; i++) in_every_order(layout, mode, lists[i], 4, 0);
    struct edit all[STRINGS] = {{6, "g"}, {0, ""}, {5, "x\303\251"}, {3, "abc"}, {1, "b"}, {4, "h"}, {2, "\342\202\254"}};
    is_as_singly(layout, mode, all, STRINGS);
    static const struct edit none[STRINGS] = {{0, ""}, {1, ""}, {2, ""}, {3, ""}, {4, ""}, {5, ""}, {6, ""}};
    is_as_singly(layout, mode, none, STRINGS);
}

// A list of one is the patch by id, also where it is refused, in every room.
static void be_the_patch_by_id(uint8_t layout, uint8_t mode) {
    static const char *const values[] = {"", "a", "bc", "\303\251", "xyz", "for\303\252t", "\377", "\303", "\355\240\200"};
    for (size_t i = 0; i < sizeof values / sizeof values[0]; i++)
        for (uint32_t id = 0; id < STRINGS + 2; id++)
            for (size_t room = length - 8; room < length + 32; room++) {
                const struct edit edit = {id, values[i]};
                uint64_t answer = nepuladrim_patch_string_by_id(image, length, layout, mode, id, (const uint8_t *)edit.value,
                                                                strlen(edit.value), once, room);
                take_list(&edit, 1);
                is(pass(layout, mode, room) == answer);
                if (answer < NEPULADRIM_REFUSED) is(memcmp(out, once, answer) == 0 && is_untouched(out, answer, sizeof out));
                else is(is_untouched(out, 0, sizeof out));
            }
}

// ---- what a pass writes

static void patch_in_place(uint8_t layout) {
    static const struct edit edits[] = {{6, "xy"}, {1, "ab"}, {0, "z"}, {5, ""}};
    take_list(edits, 4);
    for (uint8_t mode = NEPULADRIM_PLAIN; mode <= NEPULADRIM_EVEN; mode++) {
        is(pass(layout, mode, sizeof out) == length);
        // no entry has moved, and no other byte is another
        is(memcmp(out, image, 32) == 0 && word_of(out + 32) == length && memcmp(out + 36, image + 36, hashes_at - 36) == 0);
        is(memcmp(out + small_at, image + small_at, storage_at - small_at) == 0);
        is(memcmp(out + storage_at, "zab\351\0defxy\1\2bodyrest", 20) == 0);
        // the hashes of the three edited identifiers; the third was not edited
        is(word_of(out + hashes_at) == 0x614f9f9 && word_of(out + hashes_at + 4) == 0xfedcba98 && word_of(out + hashes_at + 8) == 0);
    }
}

static void pack_once(uint8_t layout) {
    static const struct edit shared[] = {{6, "xy"}, {0, "z"}, {3, "ghi"}}, edits[] = {{5, "a"}, {2, "\303\251"}, {1, "ab"}};
    // one that shares its bytes, though all have the right lengths: all are packed, and the others keep their bytes
    take_list(shared, 3);
    is(pass(layout, NEPULADRIM_PLAIN, sizeof out) == length);
    is(memcmp(out + storage_at, "zbc\351\0ghiefxybodyrest", 20) == 0 && word_of(out + 60) == 12);
    // one that is wide
    take_list(edits, 3);
    is(pass(layout, NEPULADRIM_PLAIN, sizeof out) == length + 4);
    is(memcmp(out + storage_at, "aab\351\0defefagh\0\0\0bodyrest", 24) == 0 && word_of(out + 60) == 13);
    is(word_of(out + hashes_at) == 0x614f9f9 && word_of(out + hashes_at + 4) == 0x3aa7a && word_of(out + hashes_at + 8) == 0x18270);
    is(pass(layout, NEPULADRIM_EVEN, sizeof out) == length + 4);
    is(memcmp(out + storage_at, "aab\0\351\0defefagh\0\0bodyrest", 24) == 0 && word_of(out + 60) == 14);
    is(word_of(out + hashes_at) == 0x614f9f9 && word_of(out + hashes_at + 4) == 0x3aa7a && word_of(out + hashes_at + 8) == 0x18270);
}

// With no ids the image is only finalized: nothing moves, in neither mode, and no text is looked at.
static void finalize_alone(uint8_t layout) {
    memcpy(once, image, length);
    is(nepuladrim_finalize(once, length) == length && memcmp(once, image, length) != 0);
    for (uint8_t mode = NEPULADRIM_PLAIN; mode <= NEPULADRIM_EVEN; mode++) {
        begin_list();
        is(pass(layout, mode, sizeof out) == length && memcmp(out, once, length) == 0 && is_untouched(out, length, sizeof out));
        is(pass(layout, mode, length) == length);
        refuses(13, pass(layout, mode, length - 1));
        refuses(13, pass(layout, mode, 0));
        list.text[0] = 0xff;
        list.length = 1;
        is(pass(layout, mode, sizeof out) == length && memcmp(out, once, length) == 0);
    }
}

// What lies between is not judged: a room that the first single patch passes, and the end does not.
static void judge_the_end(uint8_t layout) {
    static const struct edit edits[] = {{3, "abcdefghijklmnop"}, {0, ""}, {6, ""}, {1, ""}};
    is(singly(layout, NEPULADRIM_PLAIN, edits, 4, length + 8) == refused(13));
    take_list(edits, 4);
    is(pass(layout, NEPULADRIM_PLAIN, length + 8) == length + 8);
    is(singly(layout, NEPULADRIM_PLAIN, edits, 4, sizeof once) == length + 8 && memcmp(out, once, length + 8) == 0);
}

// ---- lists that are none

static uint64_t pass_of(const uint32_t *ids, size_t ids_count, size_t text, const uint32_t *ends, size_t ends_count) {
    memset(out, 0xa5, sizeof out);
    return nepuladrim_patch_strings(image, length, 0, NEPULADRIM_PLAIN, ids, ids_count, list.text, text, ends, ends_count, out,
                                    sizeof out);
}

static void refuse_lists(void) {
    static const uint32_t ids[] = {0, 1, 6}, ends[] = {1, 3, 5}, falling[] = {1, 3, 2}, falls[] = {3, 1, 5}, ends_late[] = {1, 3, 6};
    static const uint32_t starts_late[] = {6, 6, 6}, equal[] = {0, 0, 0}, last[] = {5, 5, 5}, most[] = {1, 3, UINT32_MAX};
    begin_list();
    is(pass_of(ids, 3, 5, ends, 3) == length);
    is(pass_of(ids, 3, 6, ends, 3) == length);
    refuses(15, pass_of(ids, 3, 4, ends, 3));
    refuses(15, pass_of(ids, 3, 5, ends, 2));
    refuses(15, pass_of(ids, 2, 5, ends, 3));
    refuses(15, pass_of(ids, 3, 5, ends, 0));
    refuses(15, pass_of(ids, 0, 5, ends, 3));
    refuses(15, pass_of(ids, 1, 5, ends, 0));
    refuses(15, pass_of(ids, 0, 5, ends, 1));
    refuses(15, pass_of(ids, 3, 5, falling, 3));
    refuses(15, pass_of(ids, 3, 5, falls, 3));
    refuses(15, pass_of(ids, 3, 5, ends_late, 3));
    refuses(15, pass_of(ids, 3, 5, starts_late, 3));
    refuses(15, pass_of(ids, 3, 5, most, 3));
    refuses(15, pass_of(ids, 3, 0, ends, 3));
    // no text: three values of nothing
    is(pass_of(ids, 3, 0, equal, 3) < NEPULADRIM_REFUSED && word_of(out + small_at) == 0);
    is(pass_of(ids, 3, 5, last, 3) < NEPULADRIM_REFUSED && word_of(out + small_at) == 0x05000000);
    // what is behind the last end is not looked at; a character that an end cuts is none
    list.text[5] = 0xff;
    is(pass_of(ids, 3, 6, ends, 3) == length);
    list.text[2] = 0xc3;
    list.text[3] = 0xa9;
    refuses(8, pass_of(ids, 3, 5, ends, 3));
    // no list comes before all that is wrong with the image or the edits
    image[0] ^= 1;
    refuses(15, pass_of(ids, 3, 4, ends, 3));
    refuses(2, pass_of(ids, 3, 5, ends, 3));
    image[0] ^= 1;
}

// Another layout or mode byte.
static void refuse_bytes(void) {
    static const uint8_t others[] = {2, 3, 127, 128, 255};
    static const struct edit edit = {0, "z"};
    take_list(&edit, 1);
    for (size_t i = 0; i < sizeof others; i++) {
        refuses(15, pass(0, others[i], sizeof out));
        refuses(15, pass(5, others[i], sizeof out));
        if (others[i] > 4) refuses(15, pass(others[i], NEPULADRIM_PLAIN, sizeof out));
    }
    refuses(15, pass(5, NEPULADRIM_EVEN, sizeof out));
    list.count = 0;
    refuses(15, pass(0, 2, sizeof out));
    refuses(15, pass(5, 0, 0));
}

// ---- each number

// In the order in which they are due.
static const unsigned ORDER[] = {15, 1, 2, 3, 4, 5, 6, 7, 17, 8, 11, 12, 13};
enum { NUMBERS = sizeof ORDER / sizeof ORDER[0] };

// A call in a legacy layout in which each of these numbers is due, and no other; the bad edits stand first, or last.
static uint64_t call(const int *due, int are_first) {
    size_t room = due[12] ? length - 1 : sizeof out;
    make(1);
    if (due[2]) image[0] ^= 1;
    if (due[3]) put(60, 1000);
    if (due[4]) put(kinds_at, 2);
    if (due[5]) put(small_at, 0x01000100);
    if (due[6]) put(128, 0);
    begin_list();
    if (!are_first) add(6, "xy");
    if (due[7]) add(STRINGS, "x");
    if (due[8]) add(1, "ab");
    if (due[9]) add(4, "\377");
    add(1, "ab");
    if (are_first) add(6, "xy");
    // a body behind such a string starts past 33,554,431
    if (due[10] || due[11]) add_bytes(0, due[10] ? LIMIT : 33554432);
    if (due[0]) list.ends[list.count - 1] = list.ends[list.count - 2] - 1;
    memset(out, 0xa5, sizeof out);
    return nepuladrim_patch_strings(image, due[1] ? 147 : length, 1, NEPULADRIM_EVEN, list.ids, list.count, list.text, list.length,
                                    list.ends, list.count, out, room);
}

// Alone, each two, and the bad edits in either place.
static void refuse_in_order(void) {
    for (int are_first = 0; are_first < 2; are_first++) {
        int due[NUMBERS] = {0};
        is(call(due, are_first) == length);
        for (int i = 0; i < NUMBERS; i++)
            for (int j = i; j < NUMBERS; j++) {
                due[i] = due[j] = 1;
                refuses(ORDER[i], call(due, are_first));
                due[i] = due[j] = 0;
            }
    }
}

// 17, wherever the two stand, with the same value and with another; but 7 where it is no id.
static void refuse_twice(uint8_t layout) {
    static const struct edit twice[][3] = {
        {{0, "z"}, {0, "z"}, {1, "ab"}}, {{0, "z"}, {1, "ab"}, {0, "z"}},    {{1, "ab"}, {0, "z"}, {0, "y"}},
        {{0, ""}, {0, ""}, {0, ""}},     {{6, "abc"}, {1, "\377"}, {6, "x"}}, {{2, "\303\251"}, {2, "\303\251"}, {3, "\377"}},
    };
    static const struct edit unknown[] = {{STRINGS, "x"}, {STRINGS, "x"}, {0, "\377"}}, most[] = {{0, "x"}, {UINT32_MAX, "x"}};
    for (size_t i = 0; i < sizeof twice / sizeof twice[0]; i++) {
        take_list(twice[i], 3);
        refuses(17, pass(layout, NEPULADRIM_PLAIN, sizeof out));
        refuses(17, pass(layout, NEPULADRIM_EVEN, 0));
    }
    take_list(unknown, 3);
    refuses(7, pass(layout, NEPULADRIM_PLAIN, sizeof out));
    take_list(most, 2);
    refuses(7, pass(layout, NEPULADRIM_EVEN, sizeof out));
}

int main(void) {
    list.text = malloc(LIMIT + 1024);
    is(list.text);
    memset(list.text, 'a', LIMIT + 1024);
    for (uint8_t layout = 0; layout < 5; layout++) {
        make(layout);
        for (uint8_t mode = NEPULADRIM_PLAIN; mode <= NEPULADRIM_EVEN; mode++) {
            follow_single_patches(layout, mode);
            be_the_patch_by_id(layout, mode);
        }
        patch_in_place(layout);
        pack_once(layout);
        finalize_alone(layout);
        judge_the_end(layout);
        refuse_twice(layout);
    }
    make(0);
    refuse_bytes();
    refuse_lists();
    refuse_in_order();
    free(list.text);
    puts("tests/c: a pass is what single patches are, in every order, and is refused as it should be");
    return 0;
}
