#include "po_file.h"

#include "print.h"

#include <stdlib.h>
#include <string.h>

bool is_header(const struct pair *pair) { return pair->id.length == 0; }
bool is_untranslated(const struct pair *pair) { return !is_header(pair) && pair->value.length == 0; }
bool is_applied(const struct pair *pair) { return !is_header(pair) && !is_untranslated(pair); }

// ---- a file that is being read

// What a line stands behind: no pair that is open, a msgid, a msgstr.
enum place { BETWEEN, IN_ID, IN_VALUE };

// How much of the text is taken, for how many pairs there is room, and the line that called the next pair fuzzy, or 0.
struct reading {
    struct po_file file;
    enum place place;
    size_t used, room, fuzzy;
};

static struct pair *last_pair(struct reading *reading) { return &reading->file.pairs[reading->file.count - 1]; }

static uint8_t *text_end(const struct reading *reading) { return reading->file.text + reading->used; }

static void begin_pair(struct reading *reading, size_t line) {
    struct po_file *file = &reading->file;
    if (file->count == reading->room) {
        reading->room = 2 * reading->room + 64;
        struct pair *grown = realloc(file->pairs, reading->room * sizeof *grown);
        if (!grown) fail("no memory for the pairs");
        file->pairs = grown;
    }
    const struct bytes nothing = {text_end(reading), 0};
    file->pairs[file->count++] = (struct pair){nothing, nothing, line, reading->fuzzy};
    reading->fuzzy = 0;
}

// ---- lines by their kinds

static void take_between(struct reading *reading, const struct po_line *line) {
    if (reading->place == IN_ID)
        note_fault(&reading->file.fault, line, "%s stands where the msgstr for line %zu is due",
                   line->length ? "a comment" : "an empty line", last_pair(reading)->line);
    reading->place = BETWEEN;
    if (is_fuzzy(line)) reading->fuzzy = line->number;
    // what was said of an obsolete entry is not said of the next pair
    if (begins(line, "#~")) reading->fuzzy = 0;
}

static void take_msgid(struct reading *reading, const struct po_line *line) {
    if (reading->place == IN_ID) {
        note_fault(&reading->file.fault, line, "a msgid stands where the msgstr for line %zu is due", last_pair(reading)->line);
        return;
    }
    begin_pair(reading, line->number);
    last_pair(reading)->id.length = take_value(line, "msgid", text_end(reading), &reading->file.fault);
    reading->used += last_pair(reading)->id.length;
    reading->place = IN_ID;
}

static void take_msgstr(struct reading *reading, const struct po_line *line) {
    if (reading->place != IN_ID) {
        note_fault(&reading->file.fault, line, "there is no msgid before this msgstr");
        return;
    }
    struct bytes *value = &last_pair(reading)->value;
    *value = (struct bytes){text_end(reading), take_value(line, "msgstr", text_end(reading), &reading->file.fault)};
    reading->used += value->length;
    reading->place = IN_VALUE;
}

static void take_more(struct reading *reading, const struct po_line *line) {
    if (reading->place == BETWEEN) {
        note_fault(&reading->file.fault, line, "its quoted text continues nothing: an empty line or a comment ends a pair");
        return;
    }
    struct bytes *longer = reading->place == IN_ID ? &last_pair(reading)->id : &last_pair(reading)->value;
    size_t taken = take_quoted(line, 0, text_end(reading), &reading->file.fault);
    longer->length += taken;
    reading->used += taken;
}

static void take_line(struct reading *reading, const struct po_line *line) {
    judge_bytes(line, &reading->file.fault);
    if (reading->file.fault.line) return;
    if (line->length == 0 || begins(line, "#")) take_between(reading, line);
    else if (begins(line, "\"")) take_more(reading, line);
    else if (has_keyword(line, "msgid")) take_msgid(reading, line);
    else if (has_keyword(line, "msgstr")) take_msgstr(reading, line);
    else judge_other(line, &reading->file.fault);
}

// ---- a msgid that is given twice

struct entry {
    struct bytes id;
    size_t pair;
};

static int compare_ids(const struct entry *a, const struct entry *b) {
    if (a->id.length != b->id.length) return a->id.length < b->id.length ? -1 : 1;
    return memcmp(a->id.at, b->id.at, a->id.length);
}

// Equal ones by their order in the file.
static int compare_entries(const void *one, const void *other) {
    const struct entry *a = one, *b = other;
    int order = compare_ids(a, b);
    return order ? order : a->pair < b->pair ? -1 : 1;
}

// The first pair in the file whose msgid stands there before it, with the line of that.
static void judge_twice(struct po_file *file) {
    struct entry *entries = (struct entry *)(void *)room_for(file->count * sizeof *entries);
    for (size_t i = 0; i < file->count; i++) entries[i] = (struct entry){file->pairs[i].id, i};
    qsort(entries, file->count, sizeof *entries, compare_entries);
    size_t second = file->count, first = 0;
    for (size_t i = 1; i < file->count; i++)
        if (compare_ids(&entries[i - 1], &entries[i]) == 0 && entries[i].pair < second) {
            first = entries[i - 1].pair;
            second = entries[i].pair;
        }
    free(entries);
    if (second == file->count) return;
    const struct po_line line = {NULL, 0, file->pairs[second].line};
    note_fault(&file->fault, &line, "%s given twice, at line %zu before",
               is_header(&file->pairs[second]) ? "the empty msgid, that of the header, is" : "its msgid is", file->pairs[first].line);
}

// ---- all lines

struct po_file po_file_of(struct bytes file) {
    struct reading reading = {.file = {.text = room_for(file.length)}};
    struct po_fault *fault = &reading.file.fault;
    struct po_line line = {file.at, 0, 0};
    for (size_t at = 0; at < file.length && !fault->line; at += line.length + 1) {
        line = (struct po_line){file.at + at, 0, line.number + 1};
        while (at + line.length < file.length && line.at[line.length] != '\n') line.length++;
        take_line(&reading, &line);
        if (at + line.length == file.length) note_fault(fault, &line, "it is the last line, and has no line feed at its end");
    }
    if (reading.place == IN_ID) note_fault(fault, &line, "the file ends where the msgstr for line %zu is due", last_pair(&reading)->line);
    if (!fault->line) judge_twice(&reading.file);
    return reading.file;
}

void free_po_file(struct po_file file) {
    free(file.pairs);
    free(file.text);
}
