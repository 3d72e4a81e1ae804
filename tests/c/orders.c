// Makes two string patches from C in both orders, on the image of lists.h in each layout and both modes: by id, by value and in passes.
// Where no string is set by both and all calls are accepted, both orders end in the same image, which is that of one pass over all
// edits. Ends with 1 at the first pair that does not; and where an example of another end does not have it.
#include "lists.h"

// ---- patches

// By id it has one edit, by value one and the value that the string has, in a pass two.
enum kind { BY_ID, BY_VALUE, PASS };
struct patch {
    enum kind kind;
    const char *old;
    struct edit edits[2];
};

static size_t edits_of(const struct patch *patch) { return patch->kind == PASS ? 2 : 1; }

// One call. The bytes behind what it makes stay, and all of them where it is refused.
static uint64_t make_patch(uint8_t layout, uint8_t mode, const struct patch *patch, const uint8_t *from, size_t from_length, size_t room) {
    const struct edit *edit = patch->edits;
    const uint8_t *value = (const uint8_t *)edit->value;
    uint64_t answer;
    memset(out, 0xa5, sizeof out);
    take_list(edit, edits_of(patch));
    if (patch->kind == BY_ID)
        answer = nepuladrim_patch_string_by_id(from, from_length, layout, mode, edit->id, value, strlen(edit->value), out, room);
    else if (patch->kind == BY_VALUE)
        answer = nepuladrim_patch_string_replace(from, from_length, layout, mode, (const uint8_t *)patch->old, strlen(patch->old), value,
                                                 strlen(edit->value), out, room);
    else
        answer = nepuladrim_patch_strings(from, from_length, layout, mode, list.ids, list.count, list.text, list.length, list.ends,
                                          list.count, out, room);
    is(is_untouched(out, answer < NEPULADRIM_REFUSED ? answer : 0, sizeof out));
    return answer;
}

// The one and then the other. Answers the last length, or the first refusal; the image is in `out`.
static uint64_t in_order(uint8_t layout, uint8_t mode, const struct patch *first, const struct patch *second, size_t room) {
    static uint8_t halfway[sizeof out];
    uint64_t answer = make_patch(layout, mode, first, image, length, room);
    if (answer >= NEPULADRIM_REFUSED) return answer;
    memcpy(halfway, out, answer);
    return make_patch(layout, mode, second, halfway, answer, room);
}

// ---- pairs

static void end_alike(uint8_t layout, uint8_t mode, const struct patch *one, const struct patch *other) {
    static uint8_t end[sizeof out];
    uint64_t answer = in_order(layout, mode, one, other, sizeof out);
    is(answer < NEPULADRIM_REFUSED && nepuladrim_admit(out, answer, layout) == 0);
    memcpy(end, out, answer);
    is(in_order(layout, mode, other, one, sizeof out) == answer && memcmp(out, end, answer) == 0);
    take_list(one->edits, edits_of(one));
    for (size_t i = 0; i < edits_of(other); i++) add(other->edits[i].id, other->edits[i].value);
    is(pass(layout, mode, sizeof out) == answer && memcmp(out, end, answer) == 0);
}

// What the strings of the image are, in the order of their ids.
static const char *const VALUES[STRINGS] = {"a", "bc", "\303\251", "def", "ef", "", "gh"};

// In place, longer, shorter, emptied, wide, narrow, shared, identifiers. No value is an old one of a string behind it, which a patch by
// value would find there.
static const struct edit EDITS[] = {
    {0, "z"}, {0, "\303\251\303\251"}, {1, "xy"}, {1, "x"}, {2, "\303\274"}, {2, "uvw"}, {3, "ghi"},
    {3, "l\303\240"}, {4, "ef"}, {4, "opqrst"}, {5, ""}, {5, "a"}, {6, "xy"}, {6, ""},
};
enum { COUNT = sizeof EDITS / sizeof EDITS[0] };

// All pairs of edits of different strings, each by id and by value. Answers how many.
static size_t end_alike_by_one(uint8_t layout, uint8_t mode) {
    size_t pairs = 0;
    for (size_t i = 0; i < COUNT; i++)
        for (size_t j = i + 1; j < COUNT; j++)
            for (int kinds = 0; kinds < 4 && EDITS[i].id != EDITS[j].id; kinds++, pairs++) {
                const struct patch one = {kinds & 1 ? BY_VALUE : BY_ID, VALUES[EDITS[i].id], {EDITS[i]}};
                const struct patch other = {kinds & 2 ? BY_VALUE : BY_ID, VALUES[EDITS[j].id], {EDITS[j]}};
                end_alike(layout, mode, &one, &other);
            }
    return pairs;
}

static int are_different(const struct edit *one, const struct edit *other) {
    return one[0].id != one[1].id && other[0].id != other[1].id && one[0].id != other[0].id && one[0].id != other[1].id &&
           one[1].id != other[0].id && one[1].id != other[1].id;
}

// All that two passes of two edits each can be, of four different strings.
static size_t end_alike_by_passes(uint8_t layout, uint8_t mode) {
    size_t pairs = 0;
    for (size_t i = 0; i < COUNT; i++)
        for (size_t j = i + 1; j < COUNT; j++)
            for (size_t k = i + 1; k < COUNT; k++)
                for (size_t l = k + 1; l < COUNT; l++) {
                    const struct patch one = {PASS, NULL, {EDITS[j], EDITS[i]}}, other = {PASS, NULL, {EDITS[k], EDITS[l]}};
                    if (!are_different(one.edits, other.edits)) continue;
                    end_alike(layout, mode, &one, &other);
                    pairs++;
                }
    return pairs;
}

// The first makes the image longer than both make it: with a byte less than it takes, the order that it begins is refused, and only that.
static void refuse_one_order(uint8_t layout, uint8_t mode) {
    static const struct patch longer = {BY_ID, NULL, {{0, "abcdefghijklm"}}}, shorter = {PASS, NULL, {{3, ""}, {4, ""}}};
    uint64_t most = make_patch(layout, mode, &longer, image, length, sizeof out);
    uint64_t least = in_order(layout, mode, &longer, &shorter, most);
    is(least < most && most < NEPULADRIM_REFUSED);
    is(in_order(layout, mode, &shorter, &longer, most) == least);
    is(in_order(layout, mode, &longer, &shorter, most - 1) == refused(13));
    is(in_order(layout, mode, &shorter, &longer, most - 1) == least);
    // and with a byte less than the end takes, both
    is(in_order(layout, mode, &longer, &shorter, least - 1) == refused(13));
    is(in_order(layout, mode, &shorter, &longer, least - 1) == refused(13));
}

// ---- what the law does not speak of

static void has_strings(uint64_t answer, const char *letters) {
    is(answer < NEPULADRIM_REFUSED);
    for (uint32_t id = 0; id < 2; id++) {
        uint8_t letter;
        is(nepuladrim_string(out, answer, 0, id, &letter, 1) == 1 && letter == letters[id]);
    }
}

// The examples of docs/FORMAT.md, Merging in any order: a string is set by both, in one of three places, and the ends differ.
static void end_otherwise(void) {
    static const struct {
        const char *strings, *old[2], *new[2], *forth, *back;
    } rows[] = {
        {"pp", {"p", "p"}, {"q", "r"}, "qr", "rq"},
        {"pq", {"p", "q"}, {"q", "r"}, "rq", "qr"},
        {"qp", {"p", "q"}, {"r", "p"}, "pr", "rp"},
    };
    static const uint32_t ends[] = {1, 2};
    for (size_t i = 0; i < sizeof rows / sizeof rows[0]; i++) {
        const struct patch one = {BY_VALUE, rows[i].old[0], {{0, rows[i].new[0]}}};
        const struct patch other = {BY_VALUE, rows[i].old[1], {{0, rows[i].new[1]}}};
        length = nepuladrim_build(98, (const uint8_t *)rows[i].strings, 2, ends, 2, (const uint8_t *)"body", 4, image, sizeof image);
        is(length < sizeof image);
        has_strings(in_order(0, NEPULADRIM_PLAIN, &one, &other, sizeof out), rows[i].forth);
        has_strings(in_order(0, NEPULADRIM_PLAIN, &other, &one, sizeof out), rows[i].back);
    }
}

int main(void) {
    size_t pairs = 0;
    list.text = malloc(1024);
    is(list.text);
    for (uint8_t layout = 0; layout < 5; layout++) {
        make(layout);
        for (uint8_t mode = NEPULADRIM_PLAIN; mode <= NEPULADRIM_EVEN; mode++) {
            pairs += end_alike_by_one(layout, mode) + end_alike_by_passes(layout, mode);
            refuse_one_order(layout, mode);
        }
    }
    end_otherwise();
    free(list.text);
    printf("tests/c: %zu pairs of patches end in the same image in either order\n", pairs);
    return 0;
}
