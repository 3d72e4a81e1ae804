// hbc locate: where a string stands, and how many table entries are visited to find it.
#include "../hbc.h"
#include "commands.h"
#include "print.h"
#include "refusals.h"
#include "rows.h"
#include "string_text.h"
#include "words.h"

#include <stdlib.h>

// What the words ask for.
struct search {
    struct request request;
    bool is_all;
    const char *id;
};

static struct search take_search(char **left) {
    enum { LAYOUT, ALL };
    static const struct option OPTIONS[] = {LAYOUT_OPTION, {"--all", NULL}, {NULL, NULL}};
    struct words words = {left, false};
    struct search search = {{NULL, 0}, false, NULL};
    for (struct word word; take_word(&words, OPTIONS, &word);) {
        if (word.option == LAYOUT) search.request.layout = layout_of(word.value);
        else if (word.option == ALL) search.is_all = true;
        else if (!search.request.image) search.request.image = word.value;
        else if (!search.id) search.id = word.value;
        else fail("'%s' is one name too many: locate takes an image file and an id, or --all", word.value);
    }
    if (!search.request.image || search.is_all == (search.id != NULL))
        fail("locate takes an image file and an id, or --all: hbc help locate");
    return search;
}

// ---- one string

static void print_located(struct bytes image, uint32_t id, const uint64_t *facts) {
    print(stdout, "string %u: ", id);
    print_string(stdout, image, facts);
    print(stdout, "\n");
    print_number("start", facts[NEPULADRIM_STRING_AT]);
    print_number("bytes", facts[NEPULADRIM_STRING_BYTES]);
    print_number("units", facts[NEPULADRIM_STRING_UNITS]);
    print(stdout, "width: %s\n", facts[NEPULADRIM_STRING_IS_WIDE] ? "wide" : "narrow");
    print(stdout, "kind: %s\n", facts[NEPULADRIM_STRING_IS_IDENTIFIER] ? "identifier" : "plain");
    print_number("small entries visited", facts[NEPULADRIM_STRING_SMALL_VISITED]);
    print_number("overflow entries visited", facts[NEPULADRIM_STRING_OVERFLOW_VISITED]);
}

static void print_not_located(struct bytes image, uint8_t layout, uint32_t id) {
    uint64_t facts[NEPULADRIM_IMAGE_FACTS];
    nepuladrim_image_facts(image.at, image.length, layout, facts, NEPULADRIM_IMAGE_FACTS);
    print_no_string(id, facts[NEPULADRIM_STRINGS]);
}

// Answers 0, or the number of the refusal.
static unsigned locate_one(struct bytes image, uint8_t layout, uint32_t id) {
    uint64_t facts[NEPULADRIM_STRING_FACTS];
    uint64_t answer = nepuladrim_string_facts(image.at, image.length, layout, id, facts, NEPULADRIM_STRING_FACTS);
    if (!is_refused(answer)) {
        print_located(image, id, facts);
        return 0;
    }
    if (refusal_of(answer) == NO_SUCH_ID) print_not_located(image, layout, id);
    return refusal_of(answer);
}

// ---- every string

// The sums of a table: of rows, bytes, units, and entries visited.
struct sums {
    uint64_t rows, bytes, units, small, overflow;
};

static void print_head(void) { print(stdout, "id start bytes units width kind small overflow\n"); }

static void print_row(void *with, uint64_t id, const uint64_t *facts) {
    struct sums *sums = with;
    if (!sums->rows++) print_head();
    print(stdout, "%llu %llu %llu %llu %c %c %llu %llu\n", (unsigned long long)id,
          (unsigned long long)facts[NEPULADRIM_STRING_AT], (unsigned long long)facts[NEPULADRIM_STRING_BYTES],
          (unsigned long long)facts[NEPULADRIM_STRING_UNITS], facts[NEPULADRIM_STRING_IS_WIDE] ? 'w' : 'n',
          facts[NEPULADRIM_STRING_IS_IDENTIFIER] ? 'i' : 's', (unsigned long long)facts[NEPULADRIM_STRING_SMALL_VISITED],
          (unsigned long long)facts[NEPULADRIM_STRING_OVERFLOW_VISITED]);
    sums->bytes += facts[NEPULADRIM_STRING_BYTES];
    sums->units += facts[NEPULADRIM_STRING_UNITS];
    sums->small += facts[NEPULADRIM_STRING_SMALL_VISITED];
    sums->overflow += facts[NEPULADRIM_STRING_OVERFLOW_VISITED];
}

static void print_sums(const struct sums *sums) {
    print(stdout, "sum - %llu %llu - - %llu %llu\n", (unsigned long long)sums->bytes, (unsigned long long)sums->units,
          (unsigned long long)sums->small, (unsigned long long)sums->overflow);
}

// Answers 0, or the number of the refusal, before any line.
static unsigned locate_all(struct bytes image, uint8_t layout) {
    struct sums sums = {0, 0, 0, 0, 0};
    unsigned refusal = take_rows(image, layout, print_row, &sums);
    if (refusal) return refusal;
    if (!sums.rows) print_head();
    print_sums(&sums);
    return 0;
}

int locate(char **words) {
    struct search search = take_search(words);
    uint32_t id = search.is_all ? 0 : id_of(search.id);
    struct bytes image = read_file(search.request.image, IMAGE_MOST);
    unsigned refusal = search.is_all ? locate_all(image, search.request.layout) : locate_one(image, search.request.layout, id);
    if (refusal && refusal != NO_SUCH_ID)
        print_refused_image(search.request.image, image, search.request.layout, refusal);
    free(image.at);
    finish_printing(stdout);
    return refusal ? REFUSED : 0;
}
