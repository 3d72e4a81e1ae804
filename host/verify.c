// hbc verify: what is known of an image.
#include "../hbc.h"
#include "commands.h"
#include "print.h"
#include "refusals.h"
#include "words.h"

#include <stdlib.h>

static void print_seals(const uint64_t *facts) {
    unsigned long long stated = facts[NEPULADRIM_STATED_LENGTH];
    if (facts[NEPULADRIM_LENGTH_IS_RIGHT]) print(stdout, "file length: right\n");
    else print(stdout, "file length: stale, the header says %llu\n", stated);
    if (facts[NEPULADRIM_FOOTER_IS_RIGHT]) print(stdout, "footer: right\n");
    else print(stdout, "footer: stale, it is not the SHA-1 of the bytes before it\n");
}

static void print_counts(const uint64_t *facts) {
    print_number("functions", facts[NEPULADRIM_FUNCTIONS]);
    print_number("strings", facts[NEPULADRIM_STRINGS]);
    print_number("identifiers among them", facts[NEPULADRIM_IDENTIFIERS]);
    print_number("kind runs", facts[NEPULADRIM_KINDS]);
    print_number("overflow entries", facts[NEPULADRIM_OVERFLOWS]);
    print_number("bytes of strings", facts[NEPULADRIM_STORAGE_SIZE]);
}

// A section reaches to the start of the next.
static void print_sections(const uint64_t *facts) {
    static const char *const names[] = {"function records", "kinds",   "identifier hashes", "small table",
                                        "overflow table",   "storage", "tail",              "footer"};
    print(stdout, "section header: %llu bytes from 0\n", (unsigned long long)facts[NEPULADRIM_RECORDS_AT]);
    for (int i = NEPULADRIM_RECORDS_AT; i <= NEPULADRIM_FOOTER_AT; i++) {
        uint64_t end = i < NEPULADRIM_FOOTER_AT ? facts[i + 1] : facts[NEPULADRIM_LENGTH];
        print(stdout, "section %s: %llu bytes from %llu\n", names[i - NEPULADRIM_RECORDS_AT],
              (unsigned long long)(end - facts[i]), (unsigned long long)facts[i]);
    }
}

int verify(char **words) {
    static const struct option OPTIONS[] = {LAYOUT_OPTION, {NULL, NULL}};
    struct request request = take_request("verify", words, OPTIONS, NULL);
    struct bytes image = read_file(request.image, IMAGE_MOST);
    uint64_t facts[NEPULADRIM_IMAGE_FACTS];
    uint64_t answer = nepuladrim_image_facts(image.at, image.length, request.layout, facts, NEPULADRIM_IMAGE_FACTS);
    if (is_refused(answer)) {
        print_refused_image(request.image, image, request.layout, refusal_of(answer));
    } else {
        print(stdout, "admitted as %s: %zu bytes\n", layout_name(request.layout), image.length);
        print_seals(facts);
        print_counts(facts);
        print_sections(facts);
    }
    free(image.at);
    finish_printing(stdout);
    return is_refused(answer) ? REFUSED : 0;
}
