#include "passes.h"

#include "../hbc.h"
#include "refusals.h"

#include <stdlib.h>
#include <string.h>

size_t pass_length(const struct edit *edits, size_t count) {
    size_t text = edits[0].value.length, length = 1;
    if (edits[0].kind == BODY) return 1;
    for (; length < count; length++) {
        const struct edit *next = &edits[length];
        text += next->value.length;
        if (next->kind == BODY || text > VALUE_MOST || is_among(edits, length, next)) break;
    }
    return length;
}

// ---- edits as hbc.h takes them

// The ids, the values as one text, and where each ends in it.
struct lists {
    uint32_t *ids, *ends;
    struct bytes text;
};

static struct lists lists_of(const struct edit *edits, size_t count) {
    struct lists lists = {words_for(count), words_for(count), {NULL, 0}};
    for (size_t i = 0; i < count; i++) {
        lists.text.length += edits[i].value.length;
        lists.ids[i] = edits[i].id;
        // no text of a pass is longer than VALUE_MOST
        lists.ends[i] = (uint32_t)lists.text.length;
    }
    lists.text.at = room_for(lists.text.length);
    for (size_t i = 0; i < count; i++)
        memcpy(lists.text.at + lists.ends[i] - edits[i].value.length, edits[i].value.at, edits[i].value.length);
    return lists;
}

static void free_lists(struct lists lists) {
    free(lists.ids);
    free(lists.ends);
    free(lists.text.at);
}

// Makes the first edits of the lists.
static uint64_t apply_lists(struct bytes image, uint8_t layout, uint8_t mode, const struct lists *lists, size_t count, uint8_t *out,
                            size_t room) {
    return nepuladrim_patch_strings(image.at, image.length, layout, mode, lists->ids, count, lists->text.at, lists->text.length,
                                    lists->ends, count, out, room);
}

uint64_t apply_pass(struct bytes image, uint8_t layout, uint8_t mode, const struct edit *edits, size_t count, uint8_t *out) {
    struct lists lists = lists_of(edits, count);
    uint64_t answer = apply_lists(image, layout, mode, &lists, count, out, IMAGE_MOST);
    free_lists(lists);
    return answer;
}

// ---- a pass that is refused

// The number with which one of the first edits is refused by itself, or 0: in each mode the same. There is no room, so that nothing is
// made.
static unsigned number_in(struct bytes image, uint8_t layout, const struct lists *lists, size_t count) {
    uint8_t nothing[1];
    unsigned number = refusal_of(apply_lists(image, layout, NEPULADRIM_PLAIN, lists, count, nothing, 0));
    return number == NO_SUCH_ID || number == NO_TEXT ? number : 0;
}

struct fault fault_of(struct bytes image, uint8_t layout, const struct edit *edits, size_t count) {
    struct lists lists = lists_of(edits, count);
    struct fault fault = {count - 1, number_in(image, layout, &lists, count)};
    // the edits before `good` are taken, and one of those up to `fault.edit` is not
    for (size_t good = 0; fault.number && good < fault.edit;) {
        size_t middle = good + (fault.edit - good) / 2;
        unsigned number = number_in(image, layout, &lists, middle + 1);
        if (number) fault = (struct fault){middle, number};
        else good = middle + 1;
    }
    free_lists(lists);
    return fault;
}

// ---- edits that meet a limit one by one

// How often it is asked for at most: an image near its limit is a long one.
#define ASKED_MOST 100

// The number of a limit that the first edits meet together, or 0. There is no room, so that nothing is made.
static unsigned limit_in(struct bytes image, uint8_t layout, uint8_t mode, const struct lists *lists, size_t count) {
    uint8_t nothing[1];
    unsigned number = refusal_of(apply_lists(image, layout, mode, lists, count, nothing, 0));
    return number == NO_ROOM ? 0 : number;
}

// How many of the edits have no more text than is lent at once; that is more than an image can hold, so that no more matter.
static size_t most_in_text(const struct edit *edits, size_t count) {
    size_t most = 0, text = 0;
    while (most < count && edits[most].value.length <= VALUE_MOST - text) text += edits[most++].value.length;
    return most;
}

// How many bytes a value has in an image: one for each unit where all are ASCII, else two.
static size_t stored_length(struct bytes value) {
    size_t units = 0, others = 0;
    for (size_t i = 0; i < value.length; i++) {
        // bytes that continue a character add nothing, and a character of four is two units
        units += ((value.at[i] & 0xc0) != 0x80) + (value.at[i] >= 0xf0);
        others += value.at[i] >= 0x80;
    }
    return others ? 2 * units : units;
}

struct fault limit_of(struct bytes image, uint8_t layout, uint8_t mode, const struct edit *edits, const size_t *before, size_t count) {
    size_t most = most_in_text(edits, count), good = 0, bad = 0, asked = 0;
    struct lists lists = lists_of(edits, most);
    struct fault fault = {count, 0};
    // up to a string that gets shorter the image only grows: what fits there, fits before
    while (!fault.number && bad < most && asked++ < ASKED_MOST) {
        good = bad++;
        while (bad < most && stored_length(edits[bad].value) >= before[bad]) bad++;
        fault.number = limit_in(image, layout, mode, &lists, bad);
    }
    // the first `good` edits fit, and the first `bad` do not
    while (fault.number && bad - good > 1) {
        size_t middle = good + (bad - good) / 2;
        unsigned number = limit_in(image, layout, mode, &lists, middle);
        if (number) bad = middle, fault.number = number;
        else good = middle;
    }
    free_lists(lists);
    return fault.number ? (struct fault){bad - 1, fault.number} : fault;
}
