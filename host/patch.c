// hbc patch: an image with edits.
#include "../hbc.h"
#include "changes.h"
#include "commands.h"
#include "edits.h"
#include "outputs.h"
#include "pass_reasons.h"
#include "print.h"
#include "words.h"

#include <stdlib.h>

// What the words ask for.
struct job {
    const char *image, *out;
    uint8_t layout, mode;
    bool is_dry, tells_why;
    struct edits edits;
};

static void take_name(struct job *job, const char *name) {
    if (!job->image) job->image = name;
    else if (!job->out) job->out = name;
    else fail("'%s' is one name too many: patch takes an image file and an output file", name);
}

static struct job take_job(char **left) {
    enum { LAYOUT, TEXT, TEXT_FROM, BODY_FROM, EVEN, DRY_RUN, WHY };
    static const struct option OPTIONS[] = {LAYOUT_OPTION,
                                            {"--string", "ID=TEXT"},
                                            {"--string-from", "ID=FILE"},
                                            {"--body", "ID=FILE"},
                                            {"--even", NULL},
                                            {"--dry-run", NULL},
                                            {"--why", NULL},
                                            {NULL, NULL}};
    struct words words = {left, false};
    struct job job = {0};
    for (struct word word; take_word(&words, OPTIONS, &word);) {
        switch (word.option) {
        case NAME: take_name(&job, word.value); break;
        case LAYOUT: job.layout = layout_of(word.value); break;
        case TEXT: add_edit(&job.edits, edit_by_text(word.value)); break;
        case TEXT_FROM: add_edit(&job.edits, edit_by_file(STRING, word.value)); break;
        case BODY_FROM: add_edit(&job.edits, edit_by_file(BODY, word.value)); break;
        case EVEN: job.mode = NEPULADRIM_EVEN; break;
        case DRY_RUN: job.is_dry = true; break;
        case WHY: job.tells_why = true; break;
        }
    }
    if (!job.image || (!job.out && !job.is_dry)) fail("patch takes an image file, an output file and edits: hbc help patch");
    return job;
}

int patch(char **words) {
    struct job job = take_job(words);
    struct output output = output_of(job.out ? job.out : "-");
    struct bytes image = read_file(job.image, IMAGE_MOST), made;
    struct reasons *reasons = job.tells_why ? begin_reasons(job.edits, job.layout, job.mode) : NULL;
    bool is_made = apply_edits(job.image, image, job.layout, job.mode, job.edits, reasons, &made);
    if (is_made) {
        if (!job.is_dry) write_output(output, made);
        // where the image goes to standard output, what is said of it does not
        FILE *to = job.is_dry || output.path ? stdout : stderr;
        if (reasons) print_reasons(to, reasons);
        print_changes(to, image, made, job.layout, job.edits);
        if (job.mode == NEPULADRIM_EVEN) print_odd_strings(to, made, job.layout);
        if (job.is_dry) print(to, "nothing is written: a dry run\n");
        finish_printing(to);
        free(made.at);
    }
    end_reasons(reasons);
    free(image.at);
    free(output.path);
    free_edits(job.edits);
    return is_made ? 0 : REFUSED;
}
