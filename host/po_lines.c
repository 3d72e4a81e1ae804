#include "po_lines.h"

#include "utf8.h"

#include <stdarg.h>
#include <stdio.h>
#include <string.h>

void note_fault(struct po_fault *fault, const struct po_line *line, const char *format, ...) {
    if (fault->line) return;
    va_list words;
    va_start(words, format);
    fault->line = line->number;
    vsnprintf(fault->words, sizeof fault->words, format, words);
    va_end(words);
}

// ---- how a line begins

bool begins(const struct po_line *line, const char *with) {
    return line->length >= strlen(with) && memcmp(line->at, with, strlen(with)) == 0;
}

// The length of the word that could be a keyword.
static size_t keyword_length(const struct po_line *line) {
    static const char letters[] = "abcdefghijklmnopqrstuvwxyzABCDEFGHIJKLMNOPQRSTUVWXYZ_[]0123456789";
    size_t length = 0;
    while (length < line->length && strchr(letters, line->at[length])) length++;
    return length;
}

bool has_keyword(const struct po_line *line, const char *keyword) {
    return keyword_length(line) == strlen(keyword) && begins(line, keyword);
}

bool is_fuzzy(const struct po_line *line) {
    static const char flag[] = "fuzzy";
    if (!begins(line, "#,") && !begins(line, "#=")) return false;
    for (size_t from = 2, to; from < line->length; from = to + 1) {
        while (from < line->length && line->at[from] == ' ') from++;
        for (to = from; to < line->length && line->at[to] != ',';) to++;
        size_t last = to;
        while (last > from && line->at[last - 1] == ' ') last--;
        if (last - from == strlen(flag) && memcmp(line->at + from, flag, strlen(flag)) == 0) return true;
    }
    return false;
}

void judge_other(const struct po_line *line, struct po_fault *fault) {
    size_t word = keyword_length(line);
    if (line->at[0] == ' ') note_fault(fault, line, "it begins with a space");
    else if (word == 0) note_fault(fault, line, "it is no comment, no quoted text, and has no keyword");
    else
        note_fault(fault, line, "its keyword, %.*s, is neither msgid nor msgstr: no other is read", word > 40 ? 40 : (int)word,
                   (const char *)line->at);
}

// ---- bytes

#define BYTE_ORDER_MARK "\357\273\277"

static void judge_control(const struct po_line *line, size_t at, struct po_fault *fault) {
    if (line->at[at] == '\r' && at + 1 == line->length)
        note_fault(fault, line, "it ends with a carriage return, as in files of Windows; lines end with a line feed alone");
    else if (line->at[at] != '\t') note_fault(fault, line, "byte %zu of it is the control byte 0x%02x", at + 1, line->at[at]);
    else if (begins(line, "msgid\t") || begins(line, "msgstr\t"))
        note_fault(fault, line, "behind its keyword stands a tab, and not one space");
    else note_fault(fault, line, "byte %zu of it is a tab; within quotes that is written \\t", at + 1);
}

static void judge_no_character(const struct po_line *line, size_t at, struct po_fault *fault) {
    if (line->number == 1 && (begins(line, "\377\376") || begins(line, "\376\377")))
        note_fault(fault, line, "the file begins as UTF-16 does, and is to be UTF-8");
    else note_fault(fault, line, "it is not UTF-8 at byte %zu, which is 0x%02x", at + 1, line->at[at]);
}

void judge_bytes(const struct po_line *line, struct po_fault *fault) {
    if (line->number == 1 && begins(line, BYTE_ORDER_MARK))
        note_fault(fault, line, "the file begins with a byte order mark, the bytes ef bb bf; the first line is to begin without it");
    for (size_t at = 0, length; at < line->length && !fault->line; at += length) {
        length = character_length(line->at + at, line->length - at);
        if (!length) judge_no_character(line, at, fault);
        else if (line->at[at] < 32) judge_control(line, at, fault);
    }
}

// ---- quoted text

// What an escape stands for, by the byte behind its backslash; 0 where there is no such escape.
static uint8_t escaped(uint8_t byte) {
    switch (byte) {
    case 'n': return '\n';
    case 't': return '\t';
    case '"':
    case '\\': return byte;
    default: return 0;
    }
}

static void judge_escape(const struct po_line *line, size_t at, struct po_fault *fault) {
    if (at + 1 == line->length) note_fault(fault, line, "it has no closing quote, and ends with a backslash");
    else if (line->at[at + 1] < 127)
        note_fault(fault, line, "the escape \\%c at byte %zu of it is not known; \\n, \\t, \\\" and \\\\ are", line->at[at + 1], at + 1);
    else note_fault(fault, line, "the escape at byte %zu of it is not known; \\n, \\t, \\\" and \\\\ are", at + 1);
}

static void judge_behind(const struct po_line *line, size_t at, struct po_fault *fault) {
    size_t last = line->length;
    while (last > at && line->at[last - 1] == ' ') last--;
    if (last == at) note_fault(fault, line, "there is a space behind its closing quote");
    else note_fault(fault, line, "there is text behind its closing quote, from byte %zu on; a quote within quotes is written \\\"", at + 1);
}

size_t take_quoted(const struct po_line *line, size_t quote, uint8_t *to, struct po_fault *fault) {
    size_t taken = 0;
    for (size_t at = quote + 1; at < line->length; at++) {
        uint8_t byte = line->at[at];
        if (byte == '"') {
            if (at + 1 < line->length) judge_behind(line, at + 1, fault);
            return taken;
        }
        if (byte == '\\') {
            byte = at + 1 < line->length ? escaped(line->at[at + 1]) : 0;
            if (!byte) {
                judge_escape(line, at, fault);
                return taken;
            }
            at++;
        }
        to[taken++] = byte;
    }
    note_fault(fault, line, "it has no closing quote");
    return taken;
}

size_t take_value(const struct po_line *line, const char *keyword, uint8_t *to, struct po_fault *fault) {
    size_t at = strlen(keyword), left = line->length - at;
    const uint8_t *behind = line->at + at;
    if (left >= 2 && behind[0] == ' ' && behind[1] == '"') return take_quoted(line, at + 1, to, fault);
    if (left >= 1 && behind[0] == '"') note_fault(fault, line, "there is no space between %s and its quote", keyword);
    else if (left >= 2 && behind[0] == ' ' && behind[1] == ' ') note_fault(fault, line, "there is more than one space behind %s", keyword);
    else note_fault(fault, line, "there is no quoted text behind %s", keyword);
    return 0;
}
