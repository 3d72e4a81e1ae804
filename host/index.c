// hbc index: what an index of an image's strings holds.
#include "../hbc.h"
#include "commands.h"
#include "print.h"
#include "refusals.h"
#include "string_index.h"
#include "words.h"

#include <stdlib.h>

// ---- words

// What the words ask for. With no ids it is every string.
struct query {
    struct request request;
    uint32_t *ids;
    size_t count;
};

static size_t count_words(char **words) {
    size_t count = 0;
    while (words[count]) count++;
    return count;
}

static struct query take_query(char **left) {
    enum { LAYOUT };
    static const struct option OPTIONS[] = {LAYOUT_OPTION, {NULL, NULL}};
    struct words words = {left, false};
    struct query query = {{NULL, 0}, words_for(count_words(left)), 0};
    for (struct word word; take_word(&words, OPTIONS, &word);) {
        if (word.option == LAYOUT) query.request.layout = layout_of(word.value);
        else if (!query.request.image) query.request.image = word.value;
        else query.ids[query.count++] = id_of(word.value);
    }
    if (!query.request.image) fail("index takes an image file, and the ids of strings, or none for all of them: hbc help index");
    return query;
}

// ---- look-ups

// An index that is filled, and the number of strings that filling answered, or its refusal.
struct filled {
    struct string_index index;
    uint64_t count;
};

static struct filled fill_index(struct bytes image, uint8_t layout) {
    struct string_index index = room_for_index(image);
    return (struct filled){index, nepuladrim_fill_index(image.at, image.length, layout, index.words, index.length)};
}

// Answers as hbc.h does.
static uint64_t look_up(const struct filled *filled, uint32_t id, uint32_t found[NEPULADRIM_INDEX_WORDS]) {
    return nepuladrim_look_up(filled->index.words, filled->index.length, filled->count, id, found, NEPULADRIM_INDEX_WORDS);
}

// Answers 0, or the number of the refusal of the first id that is refused, and says so.
static unsigned judge_ids(const struct filled *filled, const struct query *query) {
    uint32_t found[NEPULADRIM_INDEX_WORDS];
    for (size_t i = 0; i < query->count; i++) {
        uint64_t answer = look_up(filled, query->ids[i], found);
        if (!is_refused(answer)) continue;
        print_no_string(query->ids[i], filled->count);
        return refusal_of(answer);
    }
    return 0;
}

static void print_row(const struct filled *filled, uint32_t id) {
    uint32_t found[NEPULADRIM_INDEX_WORDS];
    look_up(filled, id, found);
    uint32_t flags = found[NEPULADRIM_INDEX_FLAGS];
    print(stdout, "%u %u %u %c %c\n", id, found[NEPULADRIM_INDEX_OFFSET], found[NEPULADRIM_INDEX_LENGTH],
          flags & NEPULADRIM_INDEX_WIDE ? 'w' : 'n', flags & NEPULADRIM_INDEX_IDENTIFIER ? 'i' : 's');
}

// Answers 0, or the number of a refusal, before any line.
static unsigned print_rows(const struct filled *filled, const struct query *query) {
    unsigned refusal = is_refused(filled->count) ? refusal_of(filled->count) : judge_ids(filled, query);
    if (refusal) return refusal;
    print(stdout, "id offset length width kind\n");
    for (size_t i = 0; i < query->count; i++) print_row(filled, query->ids[i]);
    for (uint64_t id = 0; !query->count && id < filled->count; id++) print_row(filled, (uint32_t)id);
    return 0;
}

int index_strings(char **words) {
    struct query query = take_query(words);
    struct request request = query.request;
    struct bytes image = read_file(request.image, IMAGE_MOST);
    struct filled filled = fill_index(image, request.layout);
    unsigned refusal = print_rows(&filled, &query);
    if (refusal && refusal != NO_SUCH_ID) print_refused_image(request.image, image, request.layout, refusal);
    free(filled.index.words);
    free(image.at);
    free(query.ids);
    finish_printing(stdout);
    return refusal ? REFUSED : 0;
}
