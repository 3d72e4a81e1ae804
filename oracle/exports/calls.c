// Makes calls of the exports for a judge that cannot link them, since they are built for x86-64 and the judge for its own machine. It
// reads calls from standard input and writes each answer to standard output before it reads on, up to the end of the input. Where a call
// is cut short, or is none, it ends with 1 and a line on standard error.
//
// A call is a head, the bytes of four inputs, and those that four lent buffers hold. An answer is the number that the export gives, in 8
// bytes, and the bytes that the buffers then hold. Numbers have their low byte first.
#include "../../hbc.h"

#include <stdio.h>
#include <stdlib.h>

enum { FINALIZE = 1, BUILD, PATCH_BY_ID, PATCH_BY_VALUE, PATCH_IN_PASS, READ_PO, WRITE_PO, WHY };
enum { INPUTS = 4 };
// The output comes first; what is lent for work, an index too, comes behind it, in the order of hbc.h.
enum { OUT, TEXT, ENDS, WORK, LENT };

// As it comes, with no gap in it. The inputs stand in the order of hbc.h; what an export does not take is 0 or empty.
struct head {
    uint8_t export, layout, mode, unused;
    uint32_t number; // the version, or the id
    uint64_t input_lengths[INPUTS], lent_lengths[LENT]; // in bytes, also for words
};
_Static_assert(sizeof(struct head) == 72, "the head has no gap");

struct bytes {
    uint8_t *at;
    size_t length;
};

__attribute__((noreturn)) static void stop(const char *why) {
    fprintf(stderr, "calls: %s\n", why);
    exit(1);
}

// The next bytes of the input, for the caller to free.
static struct bytes take(size_t length) {
    // one more, since also an empty slice has a pointer that is not null
    uint8_t *at = length < SIZE_MAX ? malloc(length + 1) : NULL;
    if (!at) stop("no memory for a call");
    if (fread(at, 1, length, stdin) != length) stop("a call is cut short");
    return (struct bytes){at, length};
}

static void give(const void *at, size_t length) {
    if (fwrite(at, 1, length, stdout) != length) stop("an answer cannot be written");
}

// A slice as two arguments. The count of words is theirs, and what malloc gives is aligned for them.
#define BYTES(part) (part).at, (part).length
#define WORDS(part) (uint32_t *)(void *)(part).at, (part).length / sizeof(uint32_t)

static uint64_t make(const struct head *head, const struct bytes *in, const struct bytes *lent) {
    const uint8_t layout = head->layout, mode = head->mode;
    switch (head->export) {
    case FINALIZE:
        return nepuladrim_finalize(BYTES(lent[OUT]));
    case BUILD:
        return nepuladrim_build(head->number, BYTES(in[0]), WORDS(in[1]), BYTES(in[2]), BYTES(lent[OUT]));
    case PATCH_BY_ID:
        return nepuladrim_patch_string_by_id(BYTES(in[0]), layout, mode, head->number, BYTES(in[1]), BYTES(lent[OUT]));
    case PATCH_BY_VALUE:
        return nepuladrim_patch_string_replace(BYTES(in[0]), layout, mode, BYTES(in[1]), BYTES(in[2]), BYTES(lent[OUT]));
    case PATCH_IN_PASS:
        return nepuladrim_patch_strings(BYTES(in[0]), layout, mode, WORDS(in[1]), BYTES(in[2]), WORDS(in[3]), BYTES(lent[OUT]));
    case READ_PO:
        return nepuladrim_read_po(BYTES(in[0]), layout, mode, BYTES(in[1]), BYTES(lent[TEXT]), WORDS(lent[ENDS]), WORDS(lent[WORK]),
                                  BYTES(lent[OUT]));
    case WRITE_PO:
        return nepuladrim_write_po(BYTES(in[0]), layout, WORDS(lent[WORK]), BYTES(lent[OUT]));
    case WHY:
        return nepuladrim_why(BYTES(in[0]), layout, mode, head->number, BYTES(in[1]), WORDS(lent[WORK]), WORDS(lent[OUT]));
    }
    stop("no such export");
}

// The whole call is read before a byte is written: the judge reads nothing while it writes.
static void answer(const struct head *head) {
    struct bytes in[INPUTS], lent[LENT];
    for (int i = 0; i < INPUTS; i++) in[i] = take(head->input_lengths[i]);
    for (int i = 0; i < LENT; i++) lent[i] = take(head->lent_lengths[i]);
    uint64_t number = make(head, in, lent);
    give(&number, sizeof number);
    for (int i = 0; i < LENT; i++) give(lent[i].at, lent[i].length);
    if (fflush(stdout) != 0) stop("an answer cannot be written");
    for (int i = 0; i < INPUTS; i++) free(in[i].at);
    for (int i = 0; i < LENT; i++) free(lent[i].at);
}

int main(void) {
    struct head head;
    size_t got;
    while ((got = fread(&head, 1, sizeof head, stdin)) == sizeof head) answer(&head);
    if (got > 0) stop("a call is cut short");
    return 0;
}
