#include "targets.h"

#include "../hbc.h"
#include "print.h"
#include "rows.h"

#include <stdlib.h>
#include <string.h>

// ---- the pairs by their units

static int compare_targets(const void *one, const void *other) {
    const struct target *a = one, *b = other;
    return compare_units(&a->units, &b->units);
}

static struct targets sorted(const struct po_file *file) {
    struct targets targets = {0};
    size_t bytes = 0;
    for (size_t i = 0; i < file->count; i++) bytes += file->pairs[i].id.length;
    targets.at = (struct target *)(void *)room_for(file->count * sizeof *targets.at);
    targets.units = room_for(2 * bytes);
    uint8_t *next = targets.units;
    for (size_t i = 0; i < file->count; i++) {
        if (!is_applied(&file->pairs[i])) continue;
        struct target target = {&file->pairs[i], units_of_text(file->pairs[i].id, next), false, false, 0};
        next += 2 * target.units.count;
        targets.at[targets.count++] = target;
    }
    qsort(targets.at, targets.count, sizeof *targets.at, compare_targets);
    return targets;
}

static struct target *target_of(const struct targets *targets, const struct units *units) {
    for (size_t from = 0, to = targets->count; from < to;) {
        size_t middle = from + (to - from) / 2;
        int order = compare_units(&targets->at[middle].units, units);
        if (order == 0) return &targets->at[middle];
        if (order < 0) from = middle + 1;
        else to = middle;
    }
    return NULL;
}

// ---- the strings

struct looking {
    struct bytes image;
    struct targets targets;
    size_t room;
};

static void keep_edit(struct looking *looking, uint64_t id, size_t before, struct bytes value) {
    struct targets *targets = &looking->targets;
    if (targets->edits.count == looking->room) {
        looking->room = 2 * looking->room + 64;
        size_t *grown = realloc(targets->before, looking->room * sizeof *grown);
        if (!grown) fail("no memory for the edits");
        targets->before = grown;
    }
    targets->before[targets->edits.count] = before;
    add_edit(&targets->edits, (struct edit){STRING, (uint32_t)id, value});
}

static void look_up(void *with, uint64_t id, const uint64_t *row) {
    struct looking *looking = with;
    struct units units = units_of_string(looking->image, row);
    struct target *target = target_of(&looking->targets, &units);
    if (!target) return;
    if (!row[NEPULADRIM_STRING_IS_IDENTIFIER]) {
        target->is_found = true;
        keep_edit(looking, id, row[NEPULADRIM_STRING_BYTES], target->pair->value);
    } else if (!target->is_identifier) {
        target->is_identifier = true;
        target->identifier = id;
    }
}

struct targets targets_of(struct bytes image, uint8_t layout, const struct po_file *file) {
    struct looking looking = {image, sorted(file), 0};
    take_rows(image, layout, look_up, &looking);
    return looking.targets;
}

void free_targets(struct targets targets) {
    free(targets.at);
    free(targets.units);
    free(targets.before);
    // the values are the file's
    free(targets.edits.at);
}
