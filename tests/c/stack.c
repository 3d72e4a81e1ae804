// How much stack SHA-1 and finalize take. Each is called on a stack of its own, which is painted before: the answer is how far below
// the pointer at the call the lowest byte is that changed. Two colours, so that a byte that is stored as one of them shows by the
// other. The first call is not counted: it may find the C library's functions. Ends with 1 where either takes more than its limit.
#include "../../hbc.h"

#include <stdio.h>
#include <string.h>

void nepuladrim_sha1(const uint8_t *bytes, size_t length, uint8_t *digest);

enum { STACK = 1 << 16, LONGEST = 1 << 20 };

static uint8_t stack[STACK] __attribute__((aligned(64)));
static uint8_t bytes[LONGEST], digest[20];

// Calls a function of up to three words with the stack pointer at the end of `stack`.
static void call(void (*function)(void), const void *first, size_t second, void *third) {
    register void *top __asm__("rbx") = stack + STACK;
    __asm__ volatile("xchgq %%rsp, %0\n\tcall *%4\n\txchgq %%rsp, %0"
                     : "+r"(top), "+D"(first), "+S"(second), "+d"(third)
                     : "r"(function)
                     : "rax", "rcx", "r8", "r9", "r10", "r11", "memory", "cc", "xmm0", "xmm1", "xmm2", "xmm3", "xmm4", "xmm5", "xmm6",
                       "xmm7", "xmm8", "xmm9", "xmm10", "xmm11", "xmm12", "xmm13", "xmm14", "xmm15");
}

static size_t depth(void (*function)(void), size_t length) {
    size_t deepest = 0;
    call(function, bytes, length, digest);
    for (int colour = 0x5a; colour <= 0xa5; colour += 0x4b) {
        size_t at = 0;
        memset(stack, colour, STACK);
        call(function, bytes, length, digest);
        while (at < STACK && stack[at] == colour) at++;
        if (STACK - at > deepest) deepest = STACK - at;
    }
    return deepest;
}

// The lengths have one and two last blocks, full blocks and none.
static int measure(const char *name, void (*function)(void), size_t limit) {
    const size_t lengths[] = {36, 55, 56, 63, 64, 65, 75, 76, 83, 84, 119, 120, 128, 1000, LONGEST};
    size_t deepest = 0;
    for (size_t i = 0; i < sizeof lengths / sizeof *lengths; i++) {
        size_t deep = depth(function, lengths[i]);
        if (deep > deepest) deepest = deep;
    }
    printf("tests/c: %s takes %zu bytes of stack%s\n", name, deepest, deepest > limit ? ": too many" : "");
    return deepest > limit;
}

int main(void) {
    for (size_t i = 0; i < LONGEST; i++) bytes[i] = (uint8_t)(i * 37 + i / 251);
    int over = measure("nepuladrim_sha1", (void (*)(void))nepuladrim_sha1, 512);
    return measure("nepuladrim_finalize", (void (*)(void))nepuladrim_finalize, 512) | over;
}
