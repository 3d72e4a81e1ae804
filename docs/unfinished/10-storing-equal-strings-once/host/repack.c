// hbc repack: an image in which equal strings are stored once.
#include "../hbc.h"
#include "commands.h"
#include "outputs.h"
#include "print.h"
#include "rebuilt.h"
#include "refusals.h"
#include "sharing.h"
#include "words.h"

#include <stdlib.h>

// ---- words

// What the words ask for.
struct job {
    const char *image, *out;
    uint8_t layout, mode;
    bool is_dry, are_all;
};

static void take_name(struct job *job, const char *name) {
    if (!job->image) job->image = name;
    else if (!job->out) job->out = name;
    else fail("'%s' is one name too many: repack takes an image file and an output file", name);
}

static struct job take_job(char **left) {
    enum { LAYOUT, EVEN, DRY_RUN, ALL };
    static const struct option OPTIONS[] = {LAYOUT_OPTION, {"--even", NULL}, {"--dry-run", NULL}, {"--all", NULL}, {NULL, NULL}};
    struct words words = {left, false};
    struct job job = {0};
    for (struct word word; take_word(&words, OPTIONS, &word);) {
        switch (word.option) {
        case NAME: take_name(&job, word.value); break;
        case LAYOUT: job.layout = layout_of(word.value); break;
        case EVEN: job.mode = NEPULADRIM_EVEN; break;
        case DRY_RUN: job.is_dry = true; break;
        case ALL: job.are_all = true; break;
        }
    }
    if (!job.image || (!job.out && !job.is_dry)) fail("repack takes an image file and an output file: hbc help repack");
    return job;
}

// ---- the image

// An image, and what is known of it.
struct known {
    struct bytes image;
    uint64_t facts[NEPULADRIM_IMAGE_FACTS];
};

// Answers 0, or the number of the refusal.
static unsigned know(struct known *known, uint8_t layout) {
    const struct bytes image = known->image;
    uint64_t answer = nepuladrim_image_facts(image.at, image.length, layout, known->facts, NEPULADRIM_IMAGE_FACTS);
    return is_refused(answer) ? refusal_of(answer) : 0;
}

// Makes the image of an admitted one, in a room of its own. Answers 0, or the number of the refusal.
static unsigned pack(const struct job *job, const struct known *before, struct bytes *made) {
    const size_t words = NEPULADRIM_REPACK_WORDS * before->facts[NEPULADRIM_STRINGS];
    uint32_t *work = words_for(words);
    made->at = room_for(IMAGE_MOST);
    uint64_t answer = nepuladrim_repack(before->image.at, before->image.length, job->layout, job->mode, work, words, made->at, IMAGE_MOST);
    free(work);
    made->length = is_refused(answer) ? 0 : answer;
    return is_refused(answer) ? refusal_of(answer) : 0;
}

// Only one that gets longer meets a limit.
static void print_refused_packing(const char *name, const struct known *before, unsigned number) {
    print_refusal(input_name(name), number);
    print(stderr, " (it has ");
    print_grouped_count(stderr, before->image.length, "byte");
    print(stderr, " and ");
    print_grouped_count(stderr, before->facts[NEPULADRIM_STRINGS], "string");
    print(stderr, ", and would get longer)\n");
}

// ---- what is told of it

// The strings before and after, those that share a place then, and what they would take if none did.
struct report {
    const struct known *before, *after;
    struct sharing sharing;
    struct rebuilt rebuilt;
};

static void print_strings_line(FILE *to, const struct report *report) {
    print(to, "strings: ");
    print_grouped(to, report->after->facts[NEPULADRIM_STRINGS]);
    if (report->sharing.groups) {
        print(to, ", ");
        print_grouped(to, report->sharing.shared);
        print(to, " of them share%s the place of another; ", report->sharing.shared == 1 ? "s" : "");
        print_grouped_count(to, report->sharing.groups, "group");
        print(to, "\n");
    } else print(to, ", none of them equal to another in text and width: nothing to share\n");
}

static void print_storage_line(FILE *to, const struct report *report) {
    const uint64_t storage = report->after->facts[NEPULADRIM_STORAGE_SIZE], apart = report->rebuilt.storage;
    print(to, "storage: ");
    print_grouped_count(to, storage, "byte");
    if (report->sharing.groups) {
        print(to, ", ");
        print_grouped(to, apart);
        print(to, " if each string were stored for itself (");
        print_grouped(to, apart - storage);
        print(to, " saved)");
    }
    print(to, "\n");
}

static void print_image_line(FILE *to, const struct report *report) {
    const uint64_t rebuilt = rebuilt_length(report->before->facts, &report->rebuilt);
    print(to, "image: ");
    print_grouped_count(to, report->before->image.length, "byte");
    print(to, " before, ");
    print_grouped(to, report->after->image.length);
    print(to, " after");
    if (report->sharing.groups) {
        print(to, "; ");
        print_grouped(to, rebuilt);
        print(to, " if rebuilt without sharing%s", rebuilt > IMAGE_MOST ? ", which is past the limit" : "");
    }
    print(to, "\n");
}

// Why an image can get longer. Where its storage did not hold all strings that are not equal, some of them had bytes in common.
static const char *why_longer(const struct report *report) {
    const uint64_t before = report->before->facts[NEPULADRIM_STORAGE_SIZE];
    if (report->sharing.bytes > before) return "strings that shared bytes without being equal are stored apart now";
    if (report->after->facts[NEPULADRIM_STORAGE_SIZE] > before) return "wide strings start at even places now";
    return "more strings start past the first 8,388,608 bytes of storage now, and have overflow entries";
}

static void print_longer_line(FILE *to, const struct report *report) {
    const size_t before = report->before->image.length, after = report->after->image.length;
    if (after <= before) return;
    print(to, "the image gets ");
    print_grouped_count(to, after - before, "byte");
    print(to, " longer: %s\n", why_longer(report));
}

static void print_report(FILE *to, const struct job *job, const struct known *before, const struct known *after) {
    struct string_index index = index_of(before->image, job->layout);
    struct report report = {before, after, sharing_of(after->image, job->layout), rebuilt_of(&index, job->mode)};
    print_groups(to, &report.sharing, after->image.at + after->facts[NEPULADRIM_STORAGE_AT], job->are_all);
    print_strings_line(to, &report);
    print_storage_line(to, &report);
    print_image_line(to, &report);
    print_longer_line(to, &report);
    free(index.words);
    free_sharing(report.sharing);
}

// ---- the command

// Answers whether it is made; where not, it is said why.
static bool repack_image(const struct job *job, const struct known *before, struct output output) {
    struct known after;
    unsigned refusal = pack(job, before, &after.image);
    if (refusal) print_refused_packing(job->image, before, refusal);
    else {
        if (!job->is_dry) write_output(output, after.image);
        // where the image goes to standard output, what is said of it does not
        FILE *to = job->is_dry || output.path ? stdout : stderr;
        know(&after, job->layout);
        print_report(to, job, before, &after);
        if (job->is_dry) print(to, "nothing is written: a dry run\n");
        finish_printing(to);
    }
    free(after.image.at);
    return !refusal;
}

int repack(char **words) {
    struct job job = take_job(words);
    struct output output = output_of(job.out ? job.out : "-");
    struct known before = {.image = read_file(job.image, IMAGE_MOST)};
    unsigned refusal = know(&before, job.layout);
    if (refusal) print_refused_image(job.image, before.image, job.layout, refusal);
    bool is_made = !refusal && repack_image(&job, &before, output);
    free(before.image.at);
    free(output.path);
    return is_made ? 0 : REFUSED;
}
