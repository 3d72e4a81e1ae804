// hbc under a fuzzer: what an input makes of its words, its files and the listing that it reads. tests/fuzz/run builds it with the
// sources of host/, whose calls of main, exit, malloc, realloc and free become those here, so that a run ends in its caller and leaves
// nothing behind.
//
// An input is words, a line each, up to an empty line, and the file that the word `image` names; with no words, the bytes of a listing.
// Of the file it is also tried, in every layout, whether an index of its strings holds what the walk to each of them finds, and whether
// patches of some of them take the path for the reason that is told.
#include "../../hbc.h"
#include "../../host/listing.h"

#include <setjmp.h>
#include <stdbool.h>
#include <stdio.h>
#include <stdlib.h>
#include <string.h>

int host_main(int count, char **words);

// ---- what a run takes and gives back

static jmp_buf back;

_Noreturn void host_exit(int status) { longjmp(back, status + 1); }

#define MOST_TAKEN 1000
static void *taken[MOST_TAKEN];

static void *note(void *old, void *at) {
    for (int i = 0; i < MOST_TAKEN; i++)
        if (taken[i] == old) {
            taken[i] = at;
            return at;
        }
    abort();
}

void *host_malloc(size_t length) { return note(NULL, malloc(length)); }

void *host_realloc(void *old, size_t length) { return note(old, realloc(old, length)); }

void host_free(void *at) {
    if (at) note(at, NULL);
    free(at);
}

static void free_all(void) {
    for (int i = 0; i < MOST_TAKEN; i++) {
        free(taken[i]);
        taken[i] = NULL;
    }
}

// ---- inputs

#define MOST_WORDS 20

// Cuts words from the front of an input. Answers where the rest starts.
static size_t cut_words(char *text, size_t length, char **words, int *count) {
    size_t at = 0;
    while (at < length && text[at] != '\n' && *count < MOST_WORDS) {
        words[(*count)++] = text + at;
        // no word leads out of the folder
        for (; at < length && text[at] != '\n'; at++)
            if (text[at] == '/') text[at] = '_';
        if (at == length) return at;
        text[at++] = 0;
    }
    return at < length ? at + 1 : at;
}

static void store(const char *bytes, size_t length) {
    FILE *file = fopen("image", "wb");
    if (!file || fwrite(bytes, 1, length, file) != length || fclose(file)) abort();
}

static void run(int count, char **words) {
    if (setjmp(back) == 0) host_main(count, words);
    free_all();
}

static void tell(const uint8_t *listing, size_t length) {
    if (setjmp(back) == 0) {
        struct telling *telling = begin_telling(stdout);
        print_as_text(telling, listing, length);
        end_telling(telling);
    }
    free_all();
}

// ---- an index of the strings

// An input has so many bytes, as tests/fuzz/run has it, and a string takes 4 of them.
#define MOST_BYTES 4096
#define MOST_STRINGS (MOST_BYTES / 4)
#define EMPTY 0xa5a5a5a5

static uint32_t words_of_index[NEPULADRIM_INDEX_WORDS * MOST_STRINGS + 1];

static void expect(bool is_so) {
    if (!is_so) abort();
}

// What an index has of a string is in its row of what is known of all strings.
static void hold_string(const uint32_t *index, uint64_t count, uint32_t id, const uint64_t *row, uint64_t storage_at) {
    uint32_t found[NEPULADRIM_INDEX_WORDS];
    const size_t asked = NEPULADRIM_INDEX_WORDS * count;
    expect(nepuladrim_look_up(index, asked, count, id, found, NEPULADRIM_INDEX_WORDS) == NEPULADRIM_INDEX_WORDS);
    expect(found[NEPULADRIM_INDEX_OFFSET] + storage_at == row[NEPULADRIM_STRING_AT]);
    expect(found[NEPULADRIM_INDEX_LENGTH] == row[NEPULADRIM_STRING_UNITS]);
    expect(found[NEPULADRIM_INDEX_FLAGS] == (row[NEPULADRIM_STRING_IS_WIDE] ? NEPULADRIM_INDEX_WIDE : 0u) +
                                                (row[NEPULADRIM_STRING_IS_IDENTIFIER] ? NEPULADRIM_INDEX_IDENTIFIER : 0u));
    expect(nepuladrim_look_up(index, asked - 1, count, id, found, NEPULADRIM_INDEX_WORDS) == NEPULADRIM_REFUSED + 13);
}

// As many words as are asked for, of which none is written where the bytes are no image.
static void hold_index(const uint8_t *image, size_t length, uint8_t layout) {
    static uint64_t rows[NEPULADRIM_STRING_FACTS * MOST_STRINGS];
    uint64_t facts[NEPULADRIM_IMAGE_FACTS] = {0};
    uint32_t *index = words_of_index;
    unsigned refusal = nepuladrim_admit(image, length, layout);
    nepuladrim_image_facts(image, length, layout, facts, NEPULADRIM_IMAGE_FACTS);
    const size_t asked = NEPULADRIM_INDEX_WORDS * facts[NEPULADRIM_STRINGS];
    index[0] = index[asked] = EMPTY;
    uint64_t count = nepuladrim_fill_index(image, length, layout, index, asked);
    expect(count == (refusal ? NEPULADRIM_REFUSED + refusal : facts[NEPULADRIM_STRINGS]) && index[asked] == EMPTY);
    if (refusal) return;
    if (asked) expect(nepuladrim_fill_index(image, length, layout, index, asked - 1) == NEPULADRIM_REFUSED + 13);
    nepuladrim_string_facts_from(image, length, layout, 0, rows, NEPULADRIM_STRING_FACTS * MOST_STRINGS);
    for (uint32_t id = 0; id < count; id++)
        hold_string(index, count, id, rows + id * NEPULADRIM_STRING_FACTS, facts[NEPULADRIM_STORAGE_AT]);
}

// ---- why a patch takes its path

// What a patch makes of an input in which strings share few bytes.
#define MOST_SHARED 65536
#define MOST_MADE (MOST_BYTES + 3 * MOST_SHARED)

// A patch, and what is known of the strings before it: by their rows, and by an index that was filled.
struct patch {
    const uint8_t *image;
    size_t length;
    uint8_t layout, mode;
    uint32_t id;
    const uint8_t *value;
    size_t value_length, count;
    const uint64_t *rows;
    const uint32_t *filled;
};

static const uint64_t *row_of(const struct patch *patch, size_t id) { return patch->rows + id * NEPULADRIM_STRING_FACTS; }

// Where a string stands in storage, as it is looked up.
struct span {
    uint64_t start, end;
};

static struct span span_of(const struct patch *patch, uint32_t id) {
    uint32_t found[NEPULADRIM_INDEX_WORDS];
    const size_t asked = NEPULADRIM_INDEX_WORDS * patch->count;
    expect(nepuladrim_look_up(patch->filled, asked, patch->count, id, found, NEPULADRIM_INDEX_WORDS) == NEPULADRIM_INDEX_WORDS);
    const uint64_t start = found[NEPULADRIM_INDEX_OFFSET], units = found[NEPULADRIM_INDEX_LENGTH];
    return (struct span){start, start + (found[NEPULADRIM_INDEX_FLAGS] & NEPULADRIM_INDEX_WIDE ? 2 : 1) * units};
}

// The lowest other string that overlaps the one that is patched; the number of strings where there is none.
static uint32_t overlapping(const struct patch *patch) {
    const struct span own = span_of(patch, patch->id);
    for (uint32_t id = 0; id < patch->count; id++) {
        const struct span other = span_of(patch, id);
        if (id != patch->id && own.start < other.end && other.start < own.end) return id;
    }
    return (uint32_t)patch->count;
}

static bool is_ascii(const struct patch *patch) {
    for (size_t i = 0; i < patch->value_length; i++)
        if (patch->value[i] >= 0x80) return false;
    return true;
}

// The reason is the first that holds.
static void hold_reason(const struct patch *patch, const uint32_t *reason) {
    const uint64_t *own = row_of(patch, patch->id);
    const uint32_t bytes = (uint32_t)own[NEPULADRIM_STRING_BYTES], other = overlapping(patch);
    uint32_t due[NEPULADRIM_REASON_WORDS] = {NEPULADRIM_IN_PLACE, 0, 0};
    if (own[NEPULADRIM_STRING_IS_WIDE]) due[0] = NEPULADRIM_WIDE;
    else if (!is_ascii(patch)) due[0] = NEPULADRIM_NOT_ASCII;
    else if (bytes != patch->value_length) due[0] = NEPULADRIM_LENGTHS, due[1] = bytes, due[2] = (uint32_t)patch->value_length;
    else if (other < patch->count) due[0] = NEPULADRIM_OVERLAP, due[1] = other;
    expect(memcmp(reason, due, sizeof due) == 0);
}

// In place nothing has moved, and otherwise all strings stand where their mode has them.
static void hold_path(const struct patch *patch, uint32_t code, const uint8_t *made, uint64_t length) {
    static uint64_t rows[NEPULADRIM_STRING_FACTS * MOST_STRINGS];
    uint64_t facts[NEPULADRIM_IMAGE_FACTS], end;
    const size_t size = patch->count * NEPULADRIM_STRING_FACTS;
    expect(nepuladrim_image_facts(made, length, patch->layout, facts, NEPULADRIM_IMAGE_FACTS) == NEPULADRIM_IMAGE_FACTS);
    expect(nepuladrim_string_facts_from(made, length, patch->layout, 0, rows, size) == size);
    if (code == NEPULADRIM_IN_PLACE) {
        expect(length == patch->length && memcmp(rows, patch->rows, size * sizeof *rows) == 0);
        return;
    }
    end = facts[NEPULADRIM_STORAGE_AT];
    for (const uint64_t *row = rows; row < rows + size; row += NEPULADRIM_STRING_FACTS) {
        if (patch->mode == NEPULADRIM_EVEN && row[NEPULADRIM_STRING_IS_WIDE]) end += end % 2;
        expect(row[NEPULADRIM_STRING_AT] == end);
        end += row[NEPULADRIM_STRING_BYTES];
    }
}

// It is refused as the patch is, else it is told why that takes its path. The index is filled, whatever the answer.
static void hold_patch(const struct patch *patch) {
    static uint8_t made[MOST_MADE];
    uint32_t *index = words_of_index, reason[NEPULADRIM_REASON_WORDS + 1] = {EMPTY, EMPTY, EMPTY, EMPTY};
    const size_t asked = NEPULADRIM_INDEX_WORDS * patch->count;
    memset(index, 0xa5, (asked + 1) * sizeof *index);
    uint64_t why = nepuladrim_why(patch->image, patch->length, patch->layout, patch->mode, patch->id, patch->value, patch->value_length,
                                  index, asked, reason, NEPULADRIM_REASON_WORDS);
    uint64_t length = nepuladrim_patch_string_by_id(patch->image, patch->length, patch->layout, patch->mode, patch->id, patch->value,
                                                    patch->value_length, made, sizeof made);
    expect(memcmp(index, patch->filled, asked * sizeof *index) == 0 && index[asked] == EMPTY && reason[NEPULADRIM_REASON_WORDS] == EMPTY);
    expect(why == (length < NEPULADRIM_REFUSED ? NEPULADRIM_REASON_WORDS : length));
    if (length < NEPULADRIM_REFUSED) {
        hold_reason(patch, reason);
        hold_path(patch, reason[NEPULADRIM_REASON_CODE], made, length);
    } else expect(reason[0] == EMPTY);
}

// A string, or an id that is none, to a value as long as it is, to one that is longer, to an accent, to what is no text.
static void hold_patches(struct patch patch) {
    static uint8_t value[MOST_BYTES + 1];
    const uint64_t bytes = patch.id < patch.count ? row_of(&patch, patch.id)[NEPULADRIM_STRING_BYTES] : 0;
    memset(value, 'q', sizeof value);
    patch.value = value;
    for (patch.value_length = bytes; patch.value_length <= bytes + 1; patch.value_length++) hold_patch(&patch);
    patch.value_length = 2;
    memcpy(value, "\303\251", 2);
    hold_patch(&patch);
    patch.value_length = 1;
    hold_patch(&patch);
}

// Up to eight strings of an image, in both modes.
static void hold_reasons(const uint8_t *image, size_t length, uint8_t layout) {
    static uint64_t rows[NEPULADRIM_STRING_FACTS * MOST_STRINGS];
    static uint32_t filled[NEPULADRIM_INDEX_WORDS * MOST_STRINGS];
    uint64_t count = nepuladrim_fill_index(image, length, layout, filled, NEPULADRIM_INDEX_WORDS * MOST_STRINGS), shared = 0;
    if (count >= NEPULADRIM_REFUSED) return;
    nepuladrim_string_facts_from(image, length, layout, 0, rows, NEPULADRIM_STRING_FACTS * MOST_STRINGS);
    for (uint64_t id = 0; id < count; id++) shared += rows[id * NEPULADRIM_STRING_FACTS + NEPULADRIM_STRING_BYTES];
    struct patch patch = {image, length, layout, NEPULADRIM_PLAIN, 0, NULL, 0, count, rows, filled};
    for (uint64_t id = 0; id <= count && shared <= MOST_SHARED; id += 1 + count / 8) {
        patch.id = (uint32_t)id;
        patch.mode = NEPULADRIM_PLAIN;
        hold_patches(patch);
        patch.mode = NEPULADRIM_EVEN;
        hold_patches(patch);
    }
}

int LLVMFuzzerTestOneInput(const uint8_t *data, size_t length) {
    char *text = malloc(length + 1), *words[MOST_WORDS + 2] = {"hbc"};
    memcpy(text, data, length);
    text[length] = 0;
    int count = 1;
    size_t rest = cut_words(text, length, words, &count);
    store(text + rest, length - rest);
    words[count] = NULL;
    for (uint8_t layout = 0; layout < 5 && length <= MOST_BYTES; layout++) {
        hold_index((uint8_t *)text + rest, length - rest, layout);
        hold_reasons((uint8_t *)text + rest, length - rest, layout);
    }
    if (count == 1) tell(data, length);
    // the demonstration takes nothing of an input, and starts another program
    else if (strcmp(words[1], "demo") != 0) run(count, words);
    free(text);
    return 0;
}
