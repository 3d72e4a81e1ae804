#include "refusals.h"

#include "../hbc.h"
#include "print.h"
#include "words.h"

bool is_refused(uint64_t answer) { return answer >= NEPULADRIM_REFUSED; }

unsigned refusal_of(uint64_t answer) { return (unsigned)(answer - NEPULADRIM_REFUSED); }

// By number, from 1.
static const char *const MEANING[] = {
    "size: an image has at least 148 bytes and at most 67,108,864",
    "magic: the first 8 bytes are not those of a Hermes bytecode image",
    "sections: the tables and the strings reach past the end of the file",
    "kinds: the kind runs do not cover the strings, or not as many identifiers as the header says",
    "string: a string leaves the storage, is not ASCII though narrow, or has a wrong overflow entry",
    "function: a body, a large header, an info place or the debug offset lies where it cannot",
    "id: the image has no string or function of that id",
    "value: the text is not valid UTF-8",
    "inside: another body, an info place or the debug offset lies inside the body",
    "empty: the old body is empty and the new one is not",
    "limit: the image would have more than 67,108,864 bytes",
    "field: a moved place or the new size is too large for a function record",
    "room: what would be made has more bytes than there is room for",
    "absent: no string has that value",
    "job: what was given to the proved function is malformed",
    "file: a line is not of the subset of PO that is read, bytes are not UTF-8, or a msgid is given twice",
    "twice: an id is edited twice in one pass",
};
#define MEANINGS (sizeof MEANING / sizeof MEANING[0])

const char *meaning_of(unsigned number) { return number - 1 < MEANINGS ? MEANING[number - 1] : "unknown"; }

void print_refusal(const char *who, unsigned number) {
    print(stderr, "hbc: %s is refused: %u, %s", who, number, meaning_of(number));
}

void print_ids(uint64_t count, const char *what) {
    print(stderr, " (it has ");
    print_count(stderr, count, what);
    if (count) print(stderr, ", ids 0 to %llu", (unsigned long long)(count - 1));
    print(stderr, ")\n");
}

void print_no_string(uint32_t id, uint64_t count) {
    char who[40];
    snprintf(who, sizeof who, "string %u", id);
    print_refusal(who, NO_SUCH_ID);
    print_ids(count, "string");
}

void print_refused_image(const char *name, struct bytes image, uint8_t layout, unsigned number) {
    print_refusal(input_name(name), number);
    print(stderr, " (it has %s%zu bytes, and was read as %s", image.length > IMAGE_MOST ? "over " : "",
          image.length > IMAGE_MOST ? IMAGE_MOST : image.length, layout_name(layout));
    const char *between = "; it would be taken as ";
    for (uint8_t other = 0; other < LAYOUTS; other++) {
        if (nepuladrim_admit(image.at, image.length, other)) continue;
        print(stderr, "%s%s", between, layout_name(other));
        between = " or ";
    }
    print(stderr, ")\n");
}
