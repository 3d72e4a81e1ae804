#include "po_words.h"

#include "../hbc.h"
#include "near.h"
#include "passes.h"
#include "print.h"
#include "refusals.h"
#include "string_text.h"

// ---- a msgid that no plain string has

// The target whose pair is the first in the file of those that are not found, behind a line; NULL where there is none.
static const struct target *next_absent(const struct targets *targets, size_t line) {
    const struct target *first = NULL;
    for (size_t i = 0; i < targets->count; i++) {
        const struct target *target = &targets->at[i];
        if (!target->is_found && target->pair->line > line && (!first || target->pair->line < first->pair->line)) first = target;
    }
    return first;
}

// The lines of the others, of which a few are told.
static void print_others(const struct targets *targets, size_t line) {
    const size_t most = 10;
    size_t count = 0;
    for (size_t i = 0; i < targets->count; i++) count += !targets->at[i].is_found;
    if (count < 2) return;
    print(stderr, "  and no plain string has the msgid");
    print(stderr, count > 2 ? "s of lines" : " of line");
    const struct target *other = next_absent(targets, line);
    for (size_t told = 0; other && told < most; told++, other = next_absent(targets, other->pair->line))
        print(stderr, "%s %zu", told ? "," : "", other->pair->line);
    if (other) print(stderr, " and %zu more", count - 1 - most);
    print(stderr, "\n");
}

static void print_absent(const struct trial *trial) {
    const struct target *absent = next_absent(trial->targets, 0);
    if (!absent) {
        print(stderr, "\n");
        return;
    }
    print(stderr, " (line %zu: msgid ", absent->pair->line);
    print_units(stderr, &absent->units);
    if (absent->is_identifier)
        print(stderr, "; identifier %llu has it, and a file changes plain strings alone", (unsigned long long)absent->identifier);
    print(stderr, ")\n");
    print_near(stderr, trial->image, trial->layout, &absent->units);
    print_others(trial->targets, absent->pair->line);
}

// ---- a string that meets a limit

static void print_limit(const struct trial *trial, unsigned number) {
    const struct edits *edits = &trial->targets->edits;
    struct fault fault = limit_of(trial->image, trial->layout, trial->mode, edits->at, trial->targets->before, edits->count);
    uint64_t row[NEPULADRIM_STRING_FACTS];
    if (fault.number == number) {
        const struct edit *edit = &edits->at[fault.edit];
        nepuladrim_string_facts(trial->image.at, trial->image.length, trial->layout, edit->id, row, NEPULADRIM_STRING_FACTS);
        print(stderr, " (string %u: ", edit->id);
        print_string(stderr, trial->image, row);
        print(stderr, " was to be ");
        print_text(stderr, edit->value);
        print(stderr, "; of the strings of the file it is number %zu by id; the image has ", fault.edit + 1);
        print_count(stderr, trial->image.length, "byte");
        print(stderr, ")");
    }
    print(stderr, "\n");
}

// ---- refusals

void print_refused_file(const struct trial *trial, unsigned number) {
    const struct po_fault *fault = &trial->file->fault;
    print_refusal(input_name(trial->name), number);
    if (number == NO_SUCH_VALUE) print_absent(trial);
    else if (number == OVER_LIMIT || number == OVER_FIELD || number == NO_ROOM) print_limit(trial, number);
    else if (number == OUTSIDE && fault->line) print(stderr, " (line %zu: %s)\n", fault->line, fault->words);
    else print(stderr, "\n");
}

const struct pair *first_fuzzy(const struct po_file *file, size_t *count) {
    const struct pair *first = NULL;
    *count = 0;
    for (size_t i = 0; i < file->count; i++) {
        const struct pair *pair = &file->pairs[i];
        if (!pair->fuzzy || !is_applied(pair)) continue;
        if (!first) first = pair;
        ++*count;
    }
    return first;
}

void print_refused_fuzzy(const char *name, const struct po_file *file) {
    size_t count;
    const struct pair *pair = first_fuzzy(file, &count);
    print(stderr, "hbc: %s is not applied, as --no-fuzzy is given: line %zu calls a pair fuzzy, msgid ", input_name(name), pair->fuzzy);
    print_text(stderr, pair->id);
    if (count > 1) print(stderr, ", and %zu more", count - 1);
    print(stderr, "\n");
}

// ---- what was applied

struct tally tally_of(const struct po_file *file) {
    struct tally tally = {0};
    const struct pair *fuzzy = first_fuzzy(file, &tally.fuzzy);
    tally.fuzzy_line = fuzzy ? fuzzy->fuzzy : 0;
    for (size_t i = 0; i < file->count; i++) {
        tally.applied += is_applied(&file->pairs[i]);
        tally.headers += is_header(&file->pairs[i]);
        tally.untranslated += is_untranslated(&file->pairs[i]);
    }
    return tally;
}

void print_tally(FILE *to, const char *name, const struct tally *tally) {
    print(to, "%s: ", input_name(name));
    print_count(to, tally->applied, "pair");
    print(to, " applied, %zu set aside", tally->headers + tally->untranslated);
    if (tally->headers) print(to, ": the header");
    if (tally->untranslated) print(to, "%s %zu not translated", tally->headers ? "," : ":", tally->untranslated);
    print(to, "\n");
    if (tally->fuzzy)
        print(to, "%s: fuzzy among these: %zu, the first by line %zu; gettext leaves such pairs out, and --no-fuzzy refuses them\n",
              input_name(name), tally->fuzzy, tally->fuzzy_line);
}
