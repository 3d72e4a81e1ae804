#include "edits.h"

#include "../hbc.h"
#include "pass_reasons.h"
#include "passes.h"
#include "print.h"
#include "refusals.h"
#include "words.h"

#include <stdlib.h>
#include <string.h>

static struct bytes copy_of(const char *text) {
    struct bytes copy = {room_for(strlen(text)), strlen(text)};
    memcpy(copy.at, text, copy.length);
    return copy;
}

struct edit edit_by_text(const char *word) {
    const char *text;
    uint32_t id = take_id(word, &text);
    return (struct edit){STRING, id, copy_of(text)};
}

struct edit edit_by_file(enum edit_kind kind, const char *word) {
    const char *name;
    uint32_t id = take_id(word, &name);
    return (struct edit){kind, id, read_value(name)};
}

void add_edit(struct edits *edits, struct edit edit) {
    struct edit *grown = realloc(edits->at, (edits->count + 1) * sizeof edit);
    if (!grown) fail("no memory for the edits");
    grown[edits->count++] = edit;
    edits->at = grown;
}

void free_edits(struct edits edits) {
    for (size_t i = 0; i < edits.count; i++) free(edits.at[i].value.at);
    free(edits.at);
}

bool is_among(const struct edit *edits, size_t count, const struct edit *edit) {
    for (size_t i = 0; i < count; i++)
        if (edits[i].kind == edit->kind && edits[i].id == edit->id) return true;
    return false;
}

// ---- an edit that is refused

// How many strings or functions the image has.
static uint64_t count_there(struct bytes image, uint8_t layout, const struct edit *edit) {
    uint64_t facts[NEPULADRIM_IMAGE_FACTS];
    nepuladrim_image_facts(image.at, image.length, layout, facts, NEPULADRIM_IMAGE_FACTS);
    return facts[edit->kind == BODY ? NEPULADRIM_FUNCTIONS : NEPULADRIM_STRINGS];
}

// How long the string or body is that was there. Where an id is not refused, neither is a reading of it.
static uint64_t length_there(struct bytes image, uint8_t layout, const struct edit *edit) {
    uint8_t *scratch = room_for(IMAGE_MOST);
    uint64_t length = edit->kind == BODY ? nepuladrim_body(image.at, image.length, layout, edit->id, scratch, IMAGE_MOST)
                                         : nepuladrim_string(image.at, image.length, layout, edit->id, scratch, IMAGE_MOST);
    free(scratch);
    return length;
}

void print_refused_edit(size_t place, const struct edit *edit, unsigned number, struct bytes image, uint8_t layout) {
    char who[80];
    snprintf(who, sizeof who, "edit %zu (%s %u)", place, edit->kind == BODY ? "the body of function" : "string", edit->id);
    print_refusal(who, number);
    if (number == NO_SUCH_ID) {
        print_ids(count_there(image, layout, edit), edit->kind == BODY ? "function" : "string");
        return;
    }
    print(stderr, " (it has ");
    print_count(stderr, length_there(image, layout, edit), "byte");
    print(stderr, ", what is to replace it ");
    print_count(stderr, edit->value.length, "byte");
    print(stderr, ", the image ");
    print_count(stderr, image.length, "byte");
    print(stderr, ")\n");
}

// Of all edits of a pass together, the first of which has this place.
static void print_refused_pass(size_t place, const struct edit *edits, size_t count, unsigned number, struct bytes image) {
    char who[120];
    uint64_t text = 0;
    for (size_t i = 0; i < count; i++) text += edits[i].value.length;
    snprintf(who, sizeof who, "the pass of edits %zu to %zu (%zu strings)", place, place + count - 1, count);
    print_refusal(who, number);
    print(stderr, " (what is to replace them has ");
    print_count(stderr, text, "byte");
    print(stderr, ", the image ");
    print_count(stderr, image.length, "byte");
    print(stderr, ")\n");
}

// ---- edits that are applied

uint64_t apply_edit(struct bytes image, uint8_t layout, uint8_t mode, const struct edit *edit, uint8_t *out) {
    const uint8_t *value = edit->value.at;
    size_t length = edit->value.length;
    return edit->kind == BODY
               ? nepuladrim_patch_function_bytes(image.at, image.length, layout, edit->id, value, length, out, IMAGE_MOST)
               : nepuladrim_patch_string_by_id(image.at, image.length, layout, mode, edit->id, value, length, out, IMAGE_MOST);
}

// Says which edit is refused, or that those of a pass are, the first of which has this place.
static void print_refused(size_t place, const struct edit *edits, size_t count, unsigned number, struct bytes image, uint8_t layout) {
    struct fault fault = {0, number};
    if (count > 1) fault = fault_of(image, layout, edits, count);
    if (fault.number) print_refused_edit(place + fault.edit, &edits[fault.edit], fault.number, image, layout);
    else print_refused_pass(place, edits, count, number, image);
}

// Applies the edits to an admitted image, which stands in a room as long as the spare one. The two change places with each pass.
static bool apply_all(struct bytes *image, uint8_t layout, uint8_t mode, struct edits edits, struct reasons *reasons, uint8_t **spare) {
    for (size_t i = 0, count; i < edits.count; i += count) {
        const struct edit *next = &edits.at[i];
        count = pass_length(next, edits.count - i);
        uint64_t answer = count == 1 ? apply_edit(*image, layout, mode, next, *spare)
                                     : apply_pass(*image, layout, mode, next, count, *spare);
        if (is_refused(answer)) {
            print_refused(i + 1, next, count, refusal_of(answer), *image, layout);
            return false;
        }
        if (reasons) note_pass(reasons, *image, count, answer);
        uint8_t *made = *spare;
        *spare = image->at;
        *image = (struct bytes){made, answer};
    }
    return true;
}

bool apply_edits(const char *name, struct bytes image, uint8_t layout, uint8_t mode, struct edits edits, struct reasons *reasons,
                 struct bytes *made) {
    unsigned refusal = nepuladrim_admit(image.at, image.length, layout);
    if (refusal) {
        print_refused_image(name, image, layout, refusal);
        return false;
    }
    *made = (struct bytes){room_for(IMAGE_MOST), image.length};
    memcpy(made->at, image.at, image.length);
    uint8_t *spare = room_for(IMAGE_MOST);
    // every patch ends so by itself
    if (!edits.count) nepuladrim_finalize(made->at, made->length);
    bool is_made = apply_all(made, layout, mode, edits, reasons, &spare);
    free(spare);
    if (!is_made) free(made->at);
    return is_made;
}
