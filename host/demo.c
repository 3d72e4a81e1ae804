// hbc demo: an image is built, patched, and listed before and after.
#include "../hbc.h"
#include "changes.h"
#include "commands.h"
#include "edits.h"
#include "listing.h"
#include "print.h"
#include "refusals.h"

#include <stdlib.h>
#include <string.h>

#define MODERN 0
#define FOOTER 20
#define TEXT(text) ((struct bytes){(uint8_t *)(text), strlen(text)})

// The marked example of document 01: two strings, and one function.
static struct bytes build(void) {
    static uint8_t room[256];
    static const uint32_t ends[] = {1, 3};
    uint64_t length = nepuladrim_build(97, (const uint8_t *)"abc", 3, ends, 2, (const uint8_t *)"\1\2\3\4", 4, room, sizeof room);
    if (is_refused(length)) fail("the example is not built");
    return (struct bytes){room, length};
}

// What sha1sum says of bytes, or nothing where it is not at hand: 40 digits.
static void ask_sha1sum(const uint8_t *bytes, size_t length, char digits[41]) {
    char asked[2048] = "exec 2>/dev/null; printf '", *end = asked + strlen(asked);
    for (size_t i = 0; i < length && end + 40 < asked + sizeof asked; i++) end += snprintf(end, 5, "\\%03o", bytes[i]);
    snprintf(end, 40, "' | sha1sum");
    digits[0] = digits[40] = 0;
    FILE *said = popen(asked, "r");
    if (!said) return;
    if (fread(digits, 1, 40, said) != 40) digits[0] = 0;
    pclose(said);
}

static void check_footer(struct bytes image) {
    char said[41], footer[41];
    size_t end = image.length - FOOTER;
    for (size_t i = 0; i < FOOTER; i++) snprintf(footer + 2 * i, 3, "%02x", image.at[end + i]);
    ask_sha1sum(image.at, end, said);
    if (!said[0]) print(stdout, "its footer is %s; sha1sum is not at hand to say so too\n", footer);
    else if (strcmp(said, footer) == 0) print(stdout, "its footer is what sha1sum says: %s\n", said);
    else fail("the footer of the patched image is %s, and sha1sum says %s", footer, said);
}

int demo(char **words) {
    if (*words) fail("demo takes no words");
    struct bytes image = build(), made;
    print(stdout, "The builder made an image with the strings \"a\" and \"bc\" and one function. Its listing:\n");
    list_image(image, MODERN, print_exactly, stdout);
    print(stdout, "\nIts strings become \"forêt\" and \"é\", which has as many bytes as \"bc\", and its body 5 bytes:\n");
    struct edit edit[] = {{STRING, 0, TEXT("forêt")}, {STRING, 1, TEXT("é")}, {BODY, 0, TEXT("\1\2\3\4\5")}};
    struct edits edits = {edit, sizeof edit / sizeof edit[0]};
    if (!apply_edits("the example", image, MODERN, NEPULADRIM_PLAIN, edits, NULL, &made)) return REFUSED;
    print_changes(stdout, image, made, MODERN, edits);
    finish_printing(stdout);
    check_footer(made);
    print(stdout, "\nThe listing of the patched image:\n");
    list_image(made, MODERN, print_exactly, stdout);
    finish_printing(stdout);
    free(made.at);
    return 0;
}
