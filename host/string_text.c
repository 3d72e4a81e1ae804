#include "string_text.h"

#include "print.h"
#include "text.h"

#include <stdlib.h>

void print_quoted(FILE *to, const struct units *units, size_t most) {
    struct text text = begin_text(to);
    for (size_t i = 0; i < units->count && i < most; i++) put_unit(&text, unit_at(units, i));
    end_text(&text);
}

void print_units(FILE *to, const struct units *units) {
    const size_t most_units = 100;
    print_quoted(to, units, most_units);
    print(to, "%s (", units->count > most_units ? "..." : "");
    print_count(to, units->count, "unit");
    print(to, ")");
}

void print_string(FILE *to, struct bytes image, const uint64_t *row) {
    const struct units units = units_of_string(image, row);
    print_units(to, &units);
}

void print_text(FILE *to, struct bytes text) {
    uint8_t *room = room_for(2 * text.length);
    const struct units units = units_of_text(text, room);
    print_units(to, &units);
    free(room);
}
