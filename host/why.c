// hbc why: why an edit of a string is made in place, or by packing all strings anew.
#include "../hbc.h"
#include "commands.h"
#include "print.h"
#include "reasons.h"
#include "refusals.h"
#include "string_text.h"
#include "words.h"

#include <stdlib.h>

// What the words ask for: one edit of a string.
struct question {
    const char *image;
    uint8_t layout, mode;
    struct edits edits;
};

static void take_name(struct question *question, const char *name) {
    if (!question->image) question->image = name;
    else add_edit(&question->edits, edit_by_text(name));
}

static struct question take_question(char **left) {
    enum { LAYOUT, TEXT_FROM, EVEN };
    static const struct option OPTIONS[] = {LAYOUT_OPTION, {"--string-from", "ID=FILE"}, {"--even", NULL}, {NULL, NULL}};
    struct words words = {left, false};
    struct question question = {0};
    for (struct word word; take_word(&words, OPTIONS, &word);) {
        switch (word.option) {
        case NAME: take_name(&question, word.value); break;
        case LAYOUT: question.layout = layout_of(word.value); break;
        case TEXT_FROM: add_edit(&question.edits, edit_by_file(STRING, word.value)); break;
        case EVEN: question.mode = NEPULADRIM_EVEN; break;
        }
    }
    if (!question.image || question.edits.count != 1) fail("why takes an image file and one edit, ID=TEXT: hbc help why");
    return question;
}

// ---- the answer

// Prints a string of the image, behind what it is called.
static void print_text_of(const struct question *question, struct bytes image, const char *what, uint32_t id) {
    uint64_t row[NEPULADRIM_STRING_FACTS];
    nepuladrim_string_facts(image.at, image.length, question->layout, id, row, NEPULADRIM_STRING_FACTS);
    print(stdout, "%s of string %u: ", what, id);
    print_string(stdout, image, row);
    print(stdout, "\n");
}

static void print_texts(const struct question *question, struct bytes image, const struct reason *reason) {
    const struct edit *edit = question->edits.at;
    print_text_of(question, image, "old text", edit->id);
    print(stdout, "new text of string %u: ", edit->id);
    print_text(stdout, edit->value);
    print(stdout, "\n");
    if (has_code(reason, NEPULADRIM_OVERLAP)) print_text_of(question, image, "text", reason->words[NEPULADRIM_REASON_FIRST]);
}

static void print_answer(const struct question *question, struct bytes image, const struct reason *reason) {
    const struct edit *edit = question->edits.at;
    uint8_t *out = room_for(IMAGE_MOST);
    size_t after = apply_edit(image, question->layout, question->mode, edit, out);
    free(out);
    print_reason_line(stdout, edit, reason, image.length, after);
    print_texts(question, image, reason);
    print_image_lengths(stdout, image.length, "", after);
}

int why(char **words) {
    struct question question = take_question(words);
    struct bytes image = read_file(question.image, IMAGE_MOST);
    struct reason reason = reason_of(image, question.layout, question.mode, question.edits.at);
    if (!reason.refusal) print_answer(&question, image, &reason);
    else if (reason.refusal < NO_SUCH_ID) print_refused_image(question.image, image, question.layout, reason.refusal);
    else print_refused_edit(1, question.edits.at, reason.refusal, image, question.layout);
    free(image.at);
    free_edits(question.edits);
    finish_printing(stdout);
    return reason.refusal ? REFUSED : 0;
}
