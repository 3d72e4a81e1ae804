#include "print.h"

#include <errno.h>
#include <stdarg.h>
#include <stdbool.h>
#include <stdlib.h>
#include <string.h>

void fail(const char *format, ...) {
    va_list words;
    va_start(words, format);
    fprintf(stderr, "hbc: ");
    vfprintf(stderr, format, words);
    fprintf(stderr, "\n");
    va_end(words);
    exit(FAILED);
}

void fail_by_system(const char *format, ...) {
    // kept before anything else can change it
    const char *why = strerror(errno);
    va_list words;
    va_start(words, format);
    fprintf(stderr, "hbc: ");
    vfprintf(stderr, format, words);
    fprintf(stderr, ": %s\n", why);
    va_end(words);
    exit(FAILED);
}

static void expect(FILE *to, bool is_done) {
    if (is_done) return;
    if (to == stderr) exit(FAILED);
    fail_by_system("standard output cannot be written");
}

void print(FILE *to, const char *format, ...) {
    va_list words;
    va_start(words, format);
    int printed = vfprintf(to, format, words);
    va_end(words);
    expect(to, printed >= 0);
}

void print_bytes(FILE *to, const uint8_t *bytes, size_t length) {
    expect(to, fwrite(bytes, 1, length, to) == length);
}

void finish_printing(FILE *to) { expect(to, fflush(to) == 0); }

void print_number(const char *name, uint64_t number) { print(stdout, "%s: %llu\n", name, (unsigned long long)number); }

void print_count(FILE *to, uint64_t count, const char *what) {
    print(to, "%llu %s%s", (unsigned long long)count, what, count == 1 ? "" : "s");
}

void print_grouped(FILE *to, uint64_t number) {
    if (number >= 1000) print_grouped(to, number / 1000);
    print(to, number >= 1000 ? ",%03u" : "%u", (unsigned)(number % 1000));
}

void print_grouped_count(FILE *to, uint64_t count, const char *what) {
    print_grouped(to, count);
    print(to, " %s%s", what, count == 1 ? "" : "s");
}
