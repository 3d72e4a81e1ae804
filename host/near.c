#include "near.h"

#include "../hbc.h"
#include "print.h"
#include "rows.h"
#include "string_text.h"

// Texts that are longer are not compared, and no more are where so many units were compared with each other: it is a hint, and is not to
// be waited for.
#define UNITS_MOST 500
#define STEPS_MOST ((size_t)200000000)
#define SHOWN 3

struct candidate {
    uint64_t id;
    struct units units;
    size_t distance;
};

// The nearest so far, nearest first.
struct search {
    struct bytes image;
    const struct units *text;
    struct candidate kept[SHOWN];
    size_t count, steps;
};

static size_t least(size_t a, size_t b) { return a < b ? a : b; }

// How many units have to be put in, left out or replaced between two texts; over `most`, any number over it. Only places that are no
// further apart than that are compared.
static size_t distance_of(struct search *search, const struct units *other, size_t most) {
    const struct units *text = search->text;
    size_t rows[2][UNITS_MOST + 2];
    for (size_t j = 0; j <= other->count; j++) rows[0][j] = j;
    for (size_t i = 1; i <= text->count; i++) {
        const size_t *above = rows[(i - 1) % 2];
        size_t *row = rows[i % 2], nearest = i;
        size_t from = i > most ? i - most : 1, to = least(i + most, other->count);
        row[from - 1] = from == 1 ? i : most + 1;
        for (size_t j = from; j <= to; j++) {
            size_t replaced = above[j - 1] + (unit_at(text, i - 1) != unit_at(other, j - 1));
            // above the last place of this row nothing was compared
            size_t left_out = j == i + most ? most + 1 : above[j] + 1;
            row[j] = least(replaced, least(left_out, row[j - 1] + 1));
            nearest = least(nearest, row[j]);
        }
        search->steps += to + 1 - least(from, to);
        if (nearest > most) return nearest;
    }
    return rows[text->count % 2][other->count];
}

// How far a text may be from another to be near it: a quarter of it and one, but not all of it.
static size_t most_distance(const struct search *search, const struct units *other) {
    size_t longest = search->text->count > other->count ? search->text->count : other->count;
    size_t most = least(1 + longest / 4, longest - 1);
    // one that is no nearer than the last that is kept does not get its place
    return search->count == SHOWN ? least(most, search->kept[SHOWN - 1].distance - 1) : most;
}

static void keep_near(struct search *search, const struct candidate *candidate) {
    size_t place = 0;
    for (size_t i = 0; i < search->count; i++)
        if (compare_units(&search->kept[i].units, &candidate->units) == 0) return;
    while (place < search->count && search->kept[place].distance <= candidate->distance) place++;
    if (search->count < SHOWN) search->count++;
    for (size_t i = search->count - 1; i > place; i--) search->kept[i] = search->kept[i - 1];
    search->kept[place] = *candidate;
}

static void try_string(void *with, uint64_t id, const uint64_t *row) {
    struct search *search = with;
    struct candidate candidate = {id, units_of_string(search->image, row), 0};
    if (row[NEPULADRIM_STRING_IS_IDENTIFIER] || candidate.units.count == 0 || candidate.units.count > UNITS_MOST) return;
    if (search->steps > STEPS_MOST || (search->count == SHOWN && search->kept[SHOWN - 1].distance == 0)) return;
    size_t most = most_distance(search, &candidate.units), longer = search->text->count, shorter = candidate.units.count;
    if (longer < shorter) longer = candidate.units.count, shorter = search->text->count;
    if (longer - shorter > most) return;
    candidate.distance = distance_of(search, &candidate.units, most);
    if (candidate.distance <= most) keep_near(search, &candidate);
}

void print_near(FILE *to, struct bytes image, uint8_t layout, const struct units *text) {
    struct search search = {.image = image, .text = text};
    if (text->count > UNITS_MOST) return;
    take_rows(image, layout, try_string, &search);
    for (size_t i = 0; i < search.count; i++) {
        print(to, "  near it is string %llu: ", (unsigned long long)search.kept[i].id);
        print_units(to, &search.kept[i].units);
        print(to, "\n");
    }
}
