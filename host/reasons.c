#include "reasons.h"

#include "print.h"
#include "refusals.h"
#include "string_index.h"
#include "string_text.h"
#include "utf8.h"

#include <stdlib.h>

// ---- asking

// Where a string stands in storage.
struct span {
    uint64_t start, end;
};

static struct span span_of(const struct string_index *index, uint32_t id) {
    uint32_t found[NEPULADRIM_INDEX_WORDS] = {0};
    nepuladrim_look_up(index->words, index->length, index->length / NEPULADRIM_INDEX_WORDS, id, found, NEPULADRIM_INDEX_WORDS);
    uint64_t start = found[NEPULADRIM_INDEX_OFFSET], units = found[NEPULADRIM_INDEX_LENGTH];
    return (struct span){start, start + (found[NEPULADRIM_INDEX_FLAGS] & NEPULADRIM_INDEX_WIDE ? 2 * units : units)};
}

static enum overlap overlap_of(struct span one, struct span other) {
    if (one.start == one.end) return WITHIN;
    if (other.start == other.end) return AROUND;
    return other.start <= one.start && one.end <= other.end ? ALL_SHARED : SOME_SHARED;
}

struct reason reason_of(struct bytes image, uint8_t layout, uint8_t mode, const struct edit *edit) {
    struct string_index index = room_for_index(image);
    struct reason reason = {0};
    uint64_t answer = nepuladrim_why(image.at, image.length, layout, mode, edit->id, edit->value.at, edit->value.length, index.words,
                                     index.length, reason.words, NEPULADRIM_REASON_WORDS);
    if (is_refused(answer)) reason.refusal = refusal_of(answer);
    // the index has just been filled
    if (has_code(&reason, NEPULADRIM_OVERLAP))
        reason.overlap = overlap_of(span_of(&index, edit->id), span_of(&index, reason.words[NEPULADRIM_REASON_FIRST]));
    free(index.words);
    return reason;
}

bool has_code(const struct reason *reason, enum nepuladrim_reason code) {
    return !reason->refusal && reason->words[NEPULADRIM_REASON_CODE] == code;
}

// ---- telling

// Prints the first character of a text that is not ASCII.
static void print_accent(FILE *to, struct bytes text) {
    size_t at = 0;
    while (at < text.length && text.at[at] < 0x80) at++;
    uint8_t room[8];
    const struct bytes character = {text.at + at, character_length(text.at + at, text.length - at)};
    const struct units units = units_of_text(character, room);
    print_quoted(to, &units, units.count);
}

static void print_lengths(FILE *to, uint32_t id, const uint32_t *words) {
    print(to, "string %u has ", id);
    print_grouped_count(to, words[NEPULADRIM_REASON_FIRST], "byte");
    print(to, " and its new text ");
    print_grouped(to, words[NEPULADRIM_REASON_SECOND]);
}

static void print_overlap(FILE *to, uint32_t id, uint32_t other, enum overlap overlap) {
    switch (overlap) {
    case ALL_SHARED: print(to, "string %u shares its bytes with string %u", id, other); break;
    case SOME_SHARED: print(to, "string %u shares some of its bytes with string %u", id, other); break;
    case AROUND: print(to, "string %u, which is empty, stands within string %u", other, id); break;
    case WITHIN: print(to, "string %u, which is empty, stands within string %u", id, other); break;
    }
}

void print_reason(FILE *to, const struct edit *edit, const struct reason *reason) {
    const uint32_t *words = reason->words;
    switch (words[NEPULADRIM_REASON_CODE]) {
    case NEPULADRIM_IN_PLACE: print(to, "string %u fits in place: its bytes are written over, and no string moves", edit->id); return;
    case NEPULADRIM_WIDE: print(to, "string %u is stored wide (UTF-16)", edit->id); break;
    case NEPULADRIM_NOT_ASCII:
        print(to, "the new text of string %u has a character that is not ASCII, ", edit->id);
        print_accent(to, edit->value);
        break;
    case NEPULADRIM_LENGTHS: print_lengths(to, edit->id, words); break;
    case NEPULADRIM_OVERLAP: print_overlap(to, edit->id, words[NEPULADRIM_REASON_FIRST], reason->overlap); break;
    }
    print(to, ", so all strings are packed anew");
}

void print_growth(FILE *to, size_t before, size_t after) {
    if (before == after) {
        print(to, ": the image is as long as before\n");
        return;
    }
    print(to, ": ");
    print_grouped_count(to, after > before ? after - before : before - after, "byte");
    print(to, after > before ? " longer\n" : " shorter\n");
}

void print_reason_line(FILE *to, const struct edit *edit, const struct reason *reason, size_t before, size_t after) {
    print_reason(to, edit, reason);
    if (has_code(reason, NEPULADRIM_IN_PLACE)) print(to, "\n");
    else print_growth(to, before, after);
}

void print_image_lengths(FILE *to, size_t before, const char *what, size_t after) {
    print(to, "image: ");
    print_grouped_count(to, before, "byte");
    print(to, " before%s, ", what);
    print_grouped(to, after);
    print(to, " after\n");
}
