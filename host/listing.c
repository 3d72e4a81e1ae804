#include "listing.h"

#include "../hbc.h"
#include "print.h"
#include "refusals.h"
#include "string_index.h"
#include "text.h"

#include <stdbool.h>
#include <stdlib.h>
#include <string.h>

unsigned list_image(struct bytes image, uint8_t layout, part_taker *take, void *with) {
    struct string_index index = room_for_index(image);
    uint8_t *part = room_for(IMAGE_MOST);
    uint64_t length = IMAGE_MOST;
    // a shorter part is the last
    for (size_t from = 0; length == IMAGE_MOST; from += length) {
        length = nepuladrim_list(image.at, image.length, layout, from, index.words, index.length, part, IMAGE_MOST);
        if (is_refused(length)) break;
        take(with, part, length);
    }
    free(part);
    free(index.words);
    return is_refused(length) ? refusal_of(length) : 0;
}

void print_exactly(void *to, const uint8_t *part, size_t length) { print_bytes(to, part, length); }

// ---- as text: a line may be longer than a part, and longer than memory, so it is taken byte by byte

// How far a line has come. Its front is all of it, but for a string, which has its units and its hash slot behind it.
enum place { FRONT, UNITS, SLOT };

// Only the units can be long. A front or a slot is kept until all of it is there.
#define KEPT_MOST 80
#define FIELDS 6

struct telling {
    FILE *to;
    enum place place;
    char kept[KEPT_MOST];
    size_t length;
    struct text text;
    unsigned unit, digits;
};

struct telling *begin_telling(FILE *to) {
    struct telling *telling = (struct telling *)room_for(sizeof *telling);
    *telling = (struct telling){.to = to};
    return telling;
}

void end_telling(struct telling *telling) { free(telling); }

// Goes on to another place of the line or of the next one, of which nothing is kept yet.
static void go_on(struct telling *telling, enum place place) {
    telling->place = place;
    telling->length = 0;
}

// What was kept, as a text of C.
static char *end_kept(struct telling *telling) {
    telling->kept[telling->length] = 0;
    return telling->kept;
}

// Cuts the front of a line at its spaces. A field that is not there is empty.
static void cut(struct telling *telling, const char *fields[FIELDS]) {
    char *next = end_kept(telling);
    for (int i = 0; i < FIELDS; i++) {
        fields[i] = next;
        next += strcspn(next, " ");
        if (*next) *next++ = 0;
    }
}

// `s ID n|w s|i COUNT ` before the units.
static void begin_string(struct telling *telling) {
    const char *fields[FIELDS];
    cut(telling, fields);
    print(telling->to, "%s %s ", strcmp(fields[3], "i") == 0 ? "identifier" : "string", fields[1]);
    telling->text = begin_text(telling->to);
    telling->unit = telling->digits = 0;
    go_on(telling, UNITS);
}

static void end_units(struct telling *telling) {
    end_text(&telling->text);
    go_on(telling, SLOT);
}

// A plain string has a - in place of the slot, of which people are told nothing.
static void tell_slot(struct telling *telling) {
    const char *slot = end_kept(telling);
    if (strcmp(slot, "-") != 0) print(telling->to, ", hash %s", slot);
    print(telling->to, "\n");
}

// `image LENGTH STRINGS FUNCTIONS` or `f ID o|p START SIZE`.
static void tell_line(struct telling *telling) {
    const char *fields[FIELDS];
    cut(telling, fields);
    if (strcmp(fields[0], "f") == 0)
        print(telling->to, "function %s: %s bytes at %s%s\n", fields[1], fields[4], fields[3],
              strcmp(fields[2], "o") == 0 ? ", with a large header" : "");
    else print(telling->to, "image: %s bytes, strings: %s, functions: %s\n", fields[1], fields[2], fields[3]);
}

static void end_line(struct telling *telling) {
    if (telling->place == SLOT) tell_slot(telling);
    else tell_line(telling);
    go_on(telling, FRONT);
}

static void take_digit(struct telling *telling, char digit) {
    // a string of no units has a - there
    if (digit == '-') return;
    telling->unit = telling->unit * 16 + (unsigned)(digit <= '9' ? digit - '0' : digit - 'a' + 10);
    if (++telling->digits < 4) return;
    put_unit(&telling->text, telling->unit);
    telling->unit = telling->digits = 0;
}

// Whether what is kept is the front of a string's line: an s, and five spaces.
static bool is_string_front(const struct telling *telling) {
    int spaces = 0;
    for (size_t i = 0; i < telling->length; i++) spaces += telling->kept[i] == ' ';
    return telling->kept[0] == 's' && spaces == 5;
}

static void keep(struct telling *telling, char byte) {
    if (telling->length + 1 == KEPT_MOST) return;
    telling->kept[telling->length++] = byte;
    if (byte == ' ' && is_string_front(telling)) begin_string(telling);
}

static void take_byte(struct telling *telling, char byte) {
    if (byte == '\n') end_line(telling);
    else if (telling->place != UNITS) keep(telling, byte);
    else if (byte == ' ') end_units(telling);
    else take_digit(telling, byte);
}

void print_as_text(void *with, const uint8_t *part, size_t length) {
    for (size_t i = 0; i < length; i++) take_byte(with, (char)part[i]);
}
