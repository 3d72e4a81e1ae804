#include "sharing.h"

#include "print.h"
#include "string_text.h"

#include <stdlib.h>
#include <string.h>

// ---- finding them

struct place {
    uint32_t id;
    struct stored stored;
};

static int compare_numbers(uint32_t one, uint32_t other) { return one < other ? -1 : one > other; }

// By offset, length and width.
static int compare_stored(const struct stored *one, const struct stored *other) {
    int offsets = compare_numbers(one->offset, other->offset), units = compare_numbers(one->units, other->units);
    return offsets ? offsets : units ? units : (int)one->is_wide - (int)other->is_wide;
}

static int compare_places(const void *one, const void *other) {
    const struct place *a = one, *b = other;
    int stored = compare_stored(&a->stored, &b->stored);
    return stored ? stored : compare_numbers(a->id, b->id);
}

static struct place *sorted_places(const struct string_index *index) {
    const size_t count = strings_of(index);
    struct place *places = (struct place *)(void *)room_for(count * sizeof *places);
    for (uint32_t id = 0; id < count; id++) places[id] = (struct place){id, stored_in(index, id)};
    qsort(places, count, sizeof *places, compare_places);
    return places;
}

#define NONE UINT32_MAX

static void link_places(struct sharing *sharing, const struct place *places) {
    for (size_t i = 0; i < strings_of(&sharing->index); i++) {
        const uint32_t id = places[i].id;
        sharing->next[id] = NONE;
        sharing->is_again[id] = i > 0 && compare_stored(&places[i - 1].stored, &places[i].stored) == 0;
        if (!sharing->is_again[id]) {
            sharing->bytes += places[i].stored.bytes;
            continue;
        }
        sharing->shared++;
        // the second of a group makes it one
        sharing->groups += !sharing->is_again[places[i - 1].id];
        sharing->next[places[i - 1].id] = id;
    }
}

struct sharing sharing_of(struct bytes image, uint8_t layout) {
    struct string_index index = index_of(image, layout);
    const size_t count = strings_of(&index);
    struct sharing sharing = {index, words_for(count), (bool *)room_for(count * sizeof(bool)), 0, 0, 0};
    struct place *places = sorted_places(&index);
    link_places(&sharing, places);
    free(places);
    return sharing;
}

void free_sharing(struct sharing sharing) {
    free(sharing.index.words);
    free(sharing.next);
    free(sharing.is_again);
}

// ---- telling

#define GROUPS_MOST 20
#define IDS_MOST 8

static uint64_t count_behind(const struct sharing *sharing, uint32_t id) {
    uint64_t count = 0;
    while ((id = sharing->next[id]) != NONE) count++;
    return count;
}

static void print_ids_behind(FILE *to, const struct sharing *sharing, uint32_t id, uint64_t count, bool are_all) {
    uint64_t left = count;
    for (const char *between = ": "; left && (are_all || count - left < IDS_MOST); between = ", ", left--) {
        id = sharing->next[id];
        print(to, "%s%u", between, id);
    }
    if (!left) return;
    print(to, " and ");
    print_grouped(to, left);
    print(to, " more");
}

static void print_group(FILE *to, const struct sharing *sharing, const uint8_t *storage, uint32_t id, bool are_all) {
    const struct stored stored = stored_in(&sharing->index, id);
    const struct units units = {storage + stored.offset, stored.units, stored.is_wide};
    const uint64_t count = count_behind(sharing, id);
    print(to, "string %u ", id);
    print_cut(to, &units);
    print(to, " (");
    print_grouped_count(to, stored.bytes, "byte");
    print(to, "%s) is stored once for ", stored.is_wide ? ", wide" : "");
    print_grouped(to, count);
    print(to, " more");
    print_ids_behind(to, sharing, id, count, are_all);
    print(to, "\n");
}

void print_groups(FILE *to, const struct sharing *sharing, const uint8_t *storage, bool are_all) {
    uint64_t left = sharing->groups;
    for (uint32_t id = 0; left && (are_all || sharing->groups - left < GROUPS_MOST); id++) {
        if (sharing->is_again[id] || sharing->next[id] == NONE) continue;
        print_group(to, sharing, storage, id, are_all);
        left--;
    }
    if (!left) return;
    print(to, "and ");
    print_grouped_count(to, left, "more group");
    print(to, ": --all lists all of them\n");
}
