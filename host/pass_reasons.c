#include "pass_reasons.h"

#include "print.h"
#include "reasons.h"
#include "refusals.h"

#include <stdlib.h>

// Edits that were made at once, the first of them by its place from 0; the lengths of the image; and whether all strings were packed anew.
struct pass {
    size_t first, count, before, after;
    bool is_packing;
};

// No more passes than edits. A body has no reason.
struct reasons {
    struct edits edits;
    uint8_t layout, mode;
    struct reason *of_edits;
    struct pass *passes;
    size_t noted;
};

struct reasons *begin_reasons(struct edits edits, uint8_t layout, uint8_t mode) {
    struct reasons *reasons = (struct reasons *)(void *)room_for(sizeof *reasons);
    struct reason *of_edits = (struct reason *)(void *)room_for(edits.count * sizeof *of_edits);
    struct pass *passes = (struct pass *)(void *)room_for(edits.count * sizeof *passes);
    *reasons = (struct reasons){edits, layout, mode, of_edits, passes, 0};
    return reasons;
}

void end_reasons(struct reasons *reasons) {
    if (!reasons) return;
    free(reasons->of_edits);
    free(reasons->passes);
    free(reasons);
}

static size_t first_of_next(const struct reasons *reasons) {
    if (!reasons->noted) return 0;
    const struct pass *last = &reasons->passes[reasons->noted - 1];
    return last->first + last->count;
}

void note_pass(struct reasons *reasons, struct bytes image, size_t count, size_t after) {
    struct pass pass = {first_of_next(reasons), count, image.length, after, false};
    for (size_t i = pass.first; i < pass.first + count; i++) {
        const struct edit *edit = &reasons->edits.at[i];
        if (edit->kind == BODY) continue;
        reasons->of_edits[i] = reason_of(image, reasons->layout, reasons->mode, edit);
        // one that does not fit in place by itself has all strings packed
        if (!has_code(&reasons->of_edits[i], NEPULADRIM_IN_PLACE)) pass.is_packing = true;
    }
    reasons->passes[reasons->noted++] = pass;
}

// ---- telling

// Of an edit that is made with others: what it would be by itself is not always what is done.
static void print_among_others(FILE *to, const struct edit *edit, const struct reason *reason, bool is_packing) {
    if (reason->refusal)
        print(to, "string %u by itself would be refused: %u, %s; with the others of its pass it is taken", edit->id, reason->refusal,
              meaning_of(reason->refusal));
    else if (is_packing && has_code(reason, NEPULADRIM_IN_PLACE))
        print(to, "string %u by itself would fit in place, but is packed anew with the others of its pass", edit->id);
    else print_reason(to, edit, reason);
    print(to, "\n");
}

static void print_edit(FILE *to, const struct reasons *reasons, const struct pass *pass, size_t place) {
    const struct edit *edit = &reasons->edits.at[place];
    const struct reason *reason = &reasons->of_edits[place];
    print(to, "edit %zu: ", place + 1);
    if (edit->kind == BODY) print(to, "the body of function %u is replaced, and no string moves\n", edit->id);
    else if (pass->count == 1) print_reason_line(to, edit, reason, pass->before, pass->after);
    else print_among_others(to, edit, reason, pass->is_packing);
}

// What is done with all edits of a pass.
static void print_together(FILE *to, const struct pass *pass) {
    print(to, "edits %zu to %zu are one pass, in which ", pass->first + 1, pass->first + pass->count);
    if (!pass->is_packing) {
        print(to, "no string moves\n");
        return;
    }
    print(to, "all strings are packed anew, once");
    print_growth(to, pass->before, pass->after);
}

static void print_lengths(FILE *to, const struct pass *pass) {
    char what[80];
    if (pass->count == 1) snprintf(what, sizeof what, " edit %zu", pass->first + 1);
    else snprintf(what, sizeof what, " edits %zu to %zu", pass->first + 1, pass->first + pass->count);
    print_image_lengths(to, pass->before, what, pass->after);
}

static void print_pass(FILE *to, const struct reasons *reasons, const struct pass *pass) {
    for (size_t i = pass->first; i < pass->first + pass->count; i++) print_edit(to, reasons, pass, i);
    if (pass->count > 1) print_together(to, pass);
    print_lengths(to, pass);
}

void print_reasons(FILE *to, const struct reasons *reasons) {
    for (size_t i = 0; i < reasons->noted; i++) print_pass(to, reasons, &reasons->passes[i]);
}
