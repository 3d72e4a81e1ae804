// What the tests from C share: a test ends with 1 at the first answer that is not as it should be.
#ifndef TESTS_COMMON_H
#define TESTS_COMMON_H

#include "../../hbc.h"

#include <stdio.h>
#include <stdlib.h>
#include <string.h>

// What is asked for is there, else the line says what is not.
#define is(what)                                                                                                              \
    do {                                                                                                                      \
        if (!(what)) {                                                                                                        \
            printf("tests/c: not so, %s, line %d: %s\n", __FILE__, __LINE__, #what);                                          \
            exit(1);                                                                                                          \
        }                                                                                                                     \
    } while (0)

#define BYTES(text) (const uint8_t *)(text), sizeof(text) - 1

// A buffer holds what it held before a call, from a place on.
static inline int is_untouched(const uint8_t *buffer, size_t from, size_t length) {
    for (size_t i = from; i < length; i++)
        if (buffer[i] != 0xa5) return 0;
    return 1;
}

static inline uint64_t refused(uint64_t number) { return NEPULADRIM_REFUSED + number; }

#endif
