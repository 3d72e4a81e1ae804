// hbc translate: an image with translators' files.
#include "../hbc.h"
#include "changes.h"
#include "commands.h"
#include "outputs.h"
#include "po_words.h"
#include "print.h"
#include "refusals.h"
#include "words.h"

#include <stdlib.h>
#include <string.h>

// ---- words

// What the words ask for. The names from `first` on are those of the files, which are read.
struct job {
    const char **names;
    size_t count, first;
    struct bytes *files;
    uint8_t layout, mode;
    bool is_dry, is_without_fuzzy;
};

static const char *image_name(const struct job *job) { return job->names[0]; }

// A dry run needs no output: `-` is judged to be right.
static const char *out_name(const struct job *job) { return job->first == 2 ? job->names[1] : "-"; }

static void take_name(struct job *job, const char *name) {
    const char **grown = realloc(job->names, (job->count + 1) * sizeof name);
    if (!grown) fail("no memory for the names");
    grown[job->count++] = name;
    job->names = grown;
}

static bool ends_with(const char *name, const char *end) {
    return strlen(name) >= strlen(end) && strcmp(name + strlen(name) - strlen(end), end) == 0;
}

// A translators' file is days of work: where the name of the output was forgotten, the first one would be written over.
static void judge_output(const struct job *job, const struct output *output) {
    if (ends_with(out_name(job), ".po"))
        fail("'%s' stands where the output is named, and is called as a translators' file: hbc help translate", out_name(job));
    for (size_t i = job->first; i < job->count; i++)
        if (is_that_file(output, job->names[i])) fail("'%s' is the output, and a translators' file", job->names[i]);
}

static struct job take_job(char **left) {
    enum { LAYOUT, EVEN, DRY_RUN, NO_FUZZY };
    static const struct option OPTIONS[] = {LAYOUT_OPTION, {"--even", NULL}, {"--dry-run", NULL}, {"--no-fuzzy", NULL}, {NULL, NULL}};
    struct words words = {left, false};
    struct job job = {0};
    for (struct word word; take_word(&words, OPTIONS, &word);) {
        switch (word.option) {
        case NAME: take_name(&job, word.value); break;
        case LAYOUT: job.layout = layout_of(word.value); break;
        case EVEN: job.mode = NEPULADRIM_EVEN; break;
        case DRY_RUN: job.is_dry = true; break;
        case NO_FUZZY: job.is_without_fuzzy = true; break;
        }
    }
    job.first = job.is_dry && job.count == 2 ? 1 : 2;
    if (job.count <= job.first) fail("translate takes an image file, an output file and translators' files: hbc help translate");
    return job;
}

static void read_files(struct job *job) {
    job->files = (struct bytes *)(void *)room_for(job->count * sizeof *job->files);
    for (size_t i = job->first; i < job->count; i++) job->files[i] = read_value(job->names[i]);
}

static void free_job(struct job job) {
    for (size_t i = job.first; i < job.count; i++) free(job.files[i].at);
    free(job.files);
    free(job.names);
}

// ---- files

// All that the files have changed, and what was applied of each.
struct done {
    struct edits edits;
    struct tally *tallies;
};

// The call, with work space as long as it asks for.
static uint64_t read_po(struct bytes image, const struct job *job, struct bytes file, uint8_t *out) {
    uint64_t facts[NEPULADRIM_IMAGE_FACTS];
    nepuladrim_image_facts(image.at, image.length, job->layout, facts, NEPULADRIM_IMAGE_FACTS);
    size_t words = file.length / 8 + 1, most = 3 * words + facts[NEPULADRIM_STRINGS];
    uint8_t *text = room_for(file.length);
    uint32_t *ends = words_for(words), *work = words_for(most);
    uint64_t answer = nepuladrim_read_po(image.at, image.length, job->layout, job->mode, file.at, file.length, text, file.length, ends,
                                         words, work, most, out, IMAGE_MOST);
    free(text);
    free(ends);
    free(work);
    return answer;
}

// Applies one file to an admitted image. Answers as hbc.h does, or 0 where it is not applied for its fuzzy pairs; why is said.
static uint64_t apply_file(struct bytes image, const struct job *job, size_t place, uint8_t *out, struct done *done) {
    uint64_t answer = read_po(image, job, job->files[place], out);
    struct po_file file = po_file_of(job->files[place]);
    struct targets targets = targets_of(image, job->layout, &file);
    const struct trial trial = {job->names[place], image, job->layout, job->mode, &file, &targets};
    size_t fuzzy;
    if (is_refused(answer)) {
        print_refused_file(&trial, refusal_of(answer));
    } else if (job->is_without_fuzzy && first_fuzzy(&file, &fuzzy)) {
        print_refused_fuzzy(job->names[place], &file);
        answer = 0;
    } else {
        done->tallies[place] = tally_of(&file);
        // of an edit only the id is told, and the values are the file's
        for (size_t i = 0; i < targets.edits.count; i++)
            add_edit(&done->edits, (struct edit){STRING, targets.edits.at[i].id, {NULL, 0}});
    }
    free_targets(targets);
    free_po_file(file);
    return answer;
}

// Applies all files to an admitted image, which stands in a room as long as the spare one. The two change places with each file.
static bool apply_files(struct bytes *image, const struct job *job, uint8_t **spare, struct done *done) {
    for (size_t i = job->first; i < job->count; i++) {
        uint64_t answer = apply_file(*image, job, i, *spare, done);
        if (is_refused(answer) || answer == 0) return false;
        uint8_t *made = *spare;
        *spare = image->at;
        *image = (struct bytes){made, answer};
    }
    return true;
}

// ---- the command

static void print_done(FILE *to, const struct job *job, struct bytes image, struct bytes made, const struct done *done) {
    print_changes(to, image, made, job->layout, done->edits);
    for (size_t i = job->first; i < job->count; i++) print_tally(to, job->names[i], &done->tallies[i]);
    if (job->mode == NEPULADRIM_EVEN) print_odd_strings(to, made, job->layout);
    if (job->is_dry) print(to, "nothing is written: a dry run\n");
    finish_printing(to);
}

// Makes the image of an admitted one, in a room of its own. False where that is refused.
static bool make(const struct job *job, struct bytes image, struct bytes *made, struct done *done) {
    *made = (struct bytes){room_for(IMAGE_MOST), image.length};
    memcpy(made->at, image.at, image.length);
    uint8_t *spare = room_for(IMAGE_MOST);
    bool is_made = apply_files(made, job, &spare, done);
    free(spare);
    return is_made;
}

int translate(char **words) {
    struct job job = take_job(words);
    struct output output = output_of(out_name(&job));
    judge_output(&job, &output);
    read_files(&job);
    struct bytes image = read_file(image_name(&job), IMAGE_MOST), made = {NULL, 0};
    struct done done = {{NULL, 0}, (struct tally *)(void *)room_for(job.count * sizeof *done.tallies)};
    unsigned refusal = nepuladrim_admit(image.at, image.length, job.layout);
    if (refusal) print_refused_image(image_name(&job), image, job.layout, refusal);
    bool is_made = !refusal && make(&job, image, &made, &done);
    if (is_made) {
        if (!job.is_dry) write_output(output, made);
        // where the image goes to standard output, what is said of it does not
        print_done(job.is_dry || output.path ? stdout : stderr, &job, image, made, &done);
    }
    free(made.at);
    free(image.at);
    free(output.path);
    free(done.edits.at);
    free(done.tallies);
    free_job(job);
    return is_made ? 0 : REFUSED;
}
