#include "changes.h"

#include "../hbc.h"
#include "print.h"
#include "rows.h"
#include "string_text.h"

#include <stdlib.h>
#include <string.h>

// ---- strings and bodies

// A string edit, by its id and its place among all edits.
struct mention {
    uint32_t id;
    size_t edit;
};

static int compare_mentions(const void *one, const void *other) {
    const struct mention *a = one, *b = other;
    if (a->id != b->id) return a->id < b->id ? -1 : 1;
    return a->edit < b->edit ? -1 : 1;
}

// The string edits by id, and those of one id in their order: many edits are not to take many passes over an image.
struct mentions {
    struct mention *at;
    size_t count;
};

static struct mentions mentions_of(struct edits edits) {
    struct mentions mentions = {(struct mention *)(void *)room_for(edits.count * sizeof *mentions.at), 0};
    for (size_t i = 0; i < edits.count; i++)
        if (edits.at[i].kind == STRING) mentions.at[mentions.count++] = (struct mention){edits.at[i].id, i};
    qsort(mentions.at, mentions.count, sizeof *mentions.at, compare_mentions);
    return mentions;
}

// An image, and the rows of its strings that are edited, in the order of the edits. The mentions up to `next` have theirs.
struct known {
    struct bytes image;
    struct edits edits;
    struct mentions mentions;
    size_t next;
    uint64_t *rows;
};

static uint64_t *row_of(const struct known *known, size_t edit) { return known->rows + edit * NEPULADRIM_STRING_FACTS; }

static void keep_row(void *with, uint64_t id, const uint64_t *row) {
    struct known *known = with;
    const struct mentions *mentions = &known->mentions;
    for (; known->next < mentions->count && mentions->at[known->next].id == id; known->next++)
        memcpy(row_of(known, mentions->at[known->next].edit), row, NEPULADRIM_STRING_FACTS * sizeof *row);
}

static struct known known_of(struct bytes image, uint8_t layout, struct edits edits, struct mentions mentions) {
    const size_t length = edits.count * NEPULADRIM_STRING_FACTS * sizeof(uint64_t);
    struct known known = {image, edits, mentions, 0, (uint64_t *)(void *)room_for(length)};
    take_rows(image, layout, keep_row, &known);
    return known;
}

// Of each edit, whether one before it is of the same string or body.
static bool *are_again(struct edits edits, struct mentions mentions) {
    bool *again = (bool *)room_for(edits.count * sizeof *again);
    for (size_t i = 0; i < edits.count; i++) again[i] = edits.at[i].kind == BODY && is_among(edits.at, i, &edits.at[i]);
    for (size_t i = 1; i < mentions.count; i++) again[mentions.at[i].edit] = mentions.at[i - 1].id == mentions.at[i].id;
    return again;
}

static void print_string_change(FILE *to, const struct known *before, const struct known *after, size_t edit) {
    print(to, "string %u: ", before->edits.at[edit].id);
    print_string(to, before->image, row_of(before, edit));
    print(to, " is now ");
    print_string(to, after->image, row_of(after, edit));
    print(to, "\n");
}

static void print_body_change(FILE *to, struct bytes before, struct bytes after, uint8_t layout, uint32_t id) {
    uint8_t *scratch = room_for(IMAGE_MOST);
    uint64_t old = nepuladrim_body(before.at, before.length, layout, id, scratch, IMAGE_MOST);
    uint64_t new = nepuladrim_body(after.at, after.length, layout, id, scratch, IMAGE_MOST);
    print(to, "body %u: %llu bytes are now %llu\n", id, (unsigned long long)old, (unsigned long long)new);
    free(scratch);
}

void print_changes(FILE *to, struct bytes before, struct bytes after, uint8_t layout, struct edits edits) {
    struct mentions mentions = mentions_of(edits);
    struct known old = known_of(before, layout, edits, mentions), new = known_of(after, layout, edits, mentions);
    bool *again = are_again(edits, mentions);
    for (size_t i = 0; i < edits.count; i++) {
        if (again[i]) continue;
        if (edits.at[i].kind == BODY) print_body_change(to, before, after, layout, edits.at[i].id);
        else print_string_change(to, &old, &new, i);
    }
    print(to, "image: %zu bytes are now %zu\n", before.length, after.length);
    free(mentions.at);
    free(old.rows);
    free(new.rows);
    free(again);
}

// ---- wide strings at odd places

static void count_odd(void *with, uint64_t id, const uint64_t *row) {
    (void)id;
    if (row[NEPULADRIM_STRING_IS_WIDE] && row[NEPULADRIM_STRING_AT] % 2) ++*(uint64_t *)with;
}

void print_odd_strings(FILE *to, struct bytes image, uint8_t layout) {
    uint64_t odd = 0;
    take_rows(image, layout, count_odd, &odd);
    if (odd) print(to, "wide strings at odd places: %llu, as no edit has moved the strings\n", (unsigned long long)odd);
}
