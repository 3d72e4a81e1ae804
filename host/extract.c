// hbc extract: a translators' file of an image.
#include "../hbc.h"
#include "commands.h"
#include "outputs.h"
#include "print.h"
#include "refusals.h"
#include "rows.h"
#include "units.h"
#include "words.h"

#include <stdlib.h>
#include <string.h>

// The header as gettext's tools want it. They warn of a language that is not named: who translates names it.
static const char HEADER[] = "msgid \"\"\n"
                             "msgstr \"\"\n"
                             "\"Project-Id-Version: \\n\"\n"
                             "\"PO-Revision-Date: \\n\"\n"
                             "\"Last-Translator: \\n\"\n"
                             "\"Language-Team: \\n\"\n"
                             "\"Language: \\n\"\n"
                             "\"MIME-Version: 1.0\\n\"\n"
                             "\"Content-Type: text/plain; charset=UTF-8\\n\"\n"
                             "\"Content-Transfer-Encoding: 8bit\\n\"\n"
                             "\n";

// ---- words

// What the words ask for.
struct job {
    const char *image, *out;
    uint8_t layout;
    bool has_header;
};

static struct job take_job(char **left) {
    enum { LAYOUT, WITH_HEADER };
    static const struct option OPTIONS[] = {LAYOUT_OPTION, {"--header", NULL}, {NULL, NULL}};
    struct words words = {left, false};
    struct job job = {0};
    for (struct word word; take_word(&words, OPTIONS, &word);) {
        if (word.option == LAYOUT) job.layout = layout_of(word.value);
        else if (word.option == WITH_HEADER) job.has_header = true;
        else if (!job.image) job.image = word.value;
        else if (!job.out) job.out = word.value;
        else fail("'%s' is one name too many: extract takes an image file and a translators' file", word.value);
    }
    if (!job.out) fail("extract takes an image file and a translators' file, which it writes: hbc help extract");
    return job;
}

// ---- the file

// The longest file that is answered, and the rooms that are tried: one that is too long for the first is rare, and most memory is not
// taken until it is used.
#define FILE_MOST ((size_t)UINT32_MAX)

// Makes the file of an admitted image behind `from` bytes of its room. Answers as hbc.h does.
static uint64_t write_po(struct bytes image, uint8_t layout, size_t strings, size_t from, struct bytes *made) {
    static const size_t ROOMS[] = {IMAGE_MOST, 8 * IMAGE_MOST, FILE_MOST};
    uint32_t *work = words_for(4 * strings);
    uint64_t answer = NEPULADRIM_REFUSED + NO_ROOM;
    for (size_t i = 0; i < sizeof ROOMS / sizeof ROOMS[0] && answer == NEPULADRIM_REFUSED + NO_ROOM; i++) {
        free(made->at);
        made->at = room_for(from + ROOMS[i]);
        answer = nepuladrim_write_po(image.at, image.length, layout, work, 4 * strings, made->at + from, ROOMS[i]);
    }
    free(work);
    made->length = from + (is_refused(answer) ? 0 : answer);
    return answer;
}

// ---- what is in it

// How many strings there are of each kind, of those that are passed over by themselves, and the lowest id of those that a translator
// could miss.
enum kind { WRITABLE, IDENTIFIER, EMPTY, HALVES, CONTROLS, KINDS };
struct census {
    struct bytes image;
    uint64_t counts[KINDS], first[KINDS];
};

static bool has_controls(const struct units *units) {
    for (size_t i = 0; i < units->count; i++) {
        unsigned unit = unit_at(units, i);
        if (unit < 32 && unit != '\n' && unit != '\t') return true;
    }
    return false;
}

static enum kind kind_of(const struct units *units, bool is_identifier) {
    return is_identifier         ? IDENTIFIER
           : units->count == 0   ? EMPTY
           : !are_paired(units)  ? HALVES
           : has_controls(units) ? CONTROLS
                                 : WRITABLE;
}

static void count_string(void *with, uint64_t id, const uint64_t *row) {
    struct census *census = with;
    const struct units units = units_of_string(census->image, row);
    enum kind kind = kind_of(&units, row[NEPULADRIM_STRING_IS_IDENTIFIER] != 0);
    if (!census->counts[kind]++) census->first[kind] = id;
}

// The pairs of a file that was made: a line of each begins so, and no other does.
static uint64_t count_pairs(const uint8_t *at, size_t length) {
    static const char begin[] = "msgid ";
    const size_t most = strlen(begin);
    uint64_t count = 0;
    bool is_first = true;
    for (size_t i = 0; i < length; i++) {
        count += is_first && length - i >= most && memcmp(at + i, begin, most) == 0;
        is_first = at[i] == '\n';
    }
    return count;
}

static void print_passed(FILE *to, const struct census *census, enum kind kind, const char *what) {
    if (!census->counts[kind]) return;
    print(to, "passed over, %s: %llu", what, (unsigned long long)census->counts[kind]);
    if (kind == HALVES || kind == CONTROLS) print(to, ", the first is string %llu", (unsigned long long)census->first[kind]);
    print(to, "\n");
}

static void print_census(FILE *to, struct bytes image, uint8_t layout, uint64_t strings, uint64_t pairs) {
    struct census census = {.image = image};
    take_rows(image, layout, count_string, &census);
    print(to, "strings: %llu\n", (unsigned long long)strings);
    print(to, "written: %llu\n", (unsigned long long)pairs);
    print_passed(to, &census, IDENTIFIER, "identifiers");
    print_passed(to, &census, EMPTY, "empty");
    if (census.counts[WRITABLE] > pairs)
        print(to, "passed over, equal to an earlier one: %llu\n", (unsigned long long)(census.counts[WRITABLE] - pairs));
    print_passed(to, &census, HALVES, "not valid UTF-16");
    print_passed(to, &census, CONTROLS, "with control units that a file cannot have");
}

// ---- the command

static bool extract_from(const struct job *job, struct bytes image, struct output output) {
    uint64_t facts[NEPULADRIM_IMAGE_FACTS];
    uint64_t answer = nepuladrim_image_facts(image.at, image.length, job->layout, facts, NEPULADRIM_IMAGE_FACTS);
    if (is_refused(answer)) {
        print_refused_image(job->image, image, job->layout, refusal_of(answer));
        return false;
    }
    struct bytes file = {NULL, 0};
    size_t header = job->has_header ? strlen(HEADER) : 0;
    answer = write_po(image, job->layout, facts[NEPULADRIM_STRINGS], header, &file);
    if (is_refused(answer)) {
        print_refusal("the file of this image", refusal_of(answer));
        print(stderr, " (a file has at most %zu bytes)\n", FILE_MOST);
    } else {
        memcpy(file.at, HEADER, header);
        write_output(output, file);
        FILE *to = output.path ? stdout : stderr;
        print_census(to, image, job->layout, facts[NEPULADRIM_STRINGS], count_pairs(file.at + header, file.length - header));
        print(to, "file: %zu bytes%s\n", file.length, header ? ", with the header" : "");
        finish_printing(to);
    }
    free(file.at);
    return !is_refused(answer);
}

int extract(char **words) {
    struct job job = take_job(words);
    struct output output = output_of(job.out);
    if (is_that_file(&output, job.image)) fail("'%s' is the image, and a file of it is another", job.out);
    struct bytes image = read_file(job.image, IMAGE_MOST);
    bool is_written = extract_from(&job, image, output);
    free(image.at);
    free(output.path);
    return is_written ? 0 : REFUSED;
}
