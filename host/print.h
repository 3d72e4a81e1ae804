// What is printed: lines for people and for programs, every one of them checked, and the ways a run ends.
#ifndef HOST_PRINT_H
#define HOST_PRINT_H

#include <stddef.h>
#include <stdint.h>
#include <stdio.h>

// The exit statuses besides 0.
#define REFUSED 1
#define FAILED 2

// Words that are wrong or a file that fails: says so, and ends the run.
__attribute__((noreturn, format(printf, 1, 2))) void fail(const char *format, ...);

// As fail, with what the system said of it behind a colon.
__attribute__((noreturn, format(printf, 1, 2))) void fail_by_system(const char *format, ...);

// Prints to standard output or standard error. A run ends where that fails.
__attribute__((format(printf, 2, 3))) void print(FILE *to, const char *format, ...);

void print_bytes(FILE *to, const uint8_t *bytes, size_t length);

// Sees that all that was printed has gone out.
void finish_printing(FILE *to);

// A line `NAME: NUMBER` on standard output.
void print_number(const char *name, uint64_t number);

// `1 string`, `2 strings`.
void print_count(FILE *to, uint64_t count, const char *what);

// A number in groups of three digits, as people read it, and the same of a count: `1,204`, `1,204 bytes`.
void print_grouped(FILE *to, uint64_t number);
void print_grouped_count(FILE *to, uint64_t count, const char *what);

#endif
