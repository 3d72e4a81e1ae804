#include "words.h"

#include "print.h"

#include <string.h>

// The option that a word is or, with `=` and a value behind it, begins with; NAME where there is none.
static int option_of(const char *word, const struct option *options) {
    size_t length = strcspn(word, "=");
    for (int i = 0; options[i].name; i++)
        if (strncmp(word, options[i].name, length) == 0 && options[i].name[length] == 0) return i;
    return NAME;
}

// The value of an option: behind `=`, or the next word.
static const char *take_value(struct words *words, const char *word, const struct option *option) {
    const char *equals = strchr(word, '=');
    if (!option->value) {
        if (equals) fail("'%s' takes no value: hbc help", option->name);
        return NULL;
    }
    if (equals) return equals + 1;
    if (!*words->left) fail("'%s' needs %s behind it", option->name, option->value);
    return *words->left++;
}

bool take_word(struct words *words, const struct option *options, struct word *word) {
    if (!words->are_names && *words->left && strcmp(*words->left, "--") == 0) {
        words->are_names = true;
        words->left++;
    }
    const char *next = *words->left;
    if (!next) return false;
    words->left++;
    // a single - is a name: standard input or output
    bool is_name = words->are_names || next[0] != '-' || next[1] == 0;
    *word = (struct word){is_name ? NAME : option_of(next, options), next};
    if (is_name) return true;
    if (word->option == NAME) fail("no option '%s': hbc help, or -- before a name that begins so", next);
    word->value = take_value(words, next, &options[word->option]);
    return true;
}

static const char *const LAYOUT_NAMES[LAYOUTS] = {"modern", "legacy", "legacy+bigint", "legacy+sources", "legacy+bigint+sources"};

uint8_t layout_of(const char *name) {
    for (uint8_t i = 0; i < LAYOUTS; i++)
        if (strcmp(name, LAYOUT_NAMES[i]) == 0) return i;
    fail("no layout '%s': one of modern, legacy, legacy+bigint, legacy+sources, legacy+bigint+sources", name);
}

const char *layout_name(uint8_t layout) { return LAYOUT_NAMES[layout]; }

struct request take_request(const char *command, char **left, const struct option *options, bool *is_given) {
    struct words words = {left, false};
    struct request request = {NULL, 0};
    int names = 0;
    for (struct word word; take_word(&words, options, &word);) {
        if (word.option > 0) is_given[word.option] = true;
        else if (word.option == 0) request.layout = layout_of(word.value);
        else if (names++ == 0) request.image = word.value;
        else if (names == 2) request.layout = layout_of(word.value);
    }
    if (names < 1 || names > 2) fail("%s takes an image file and perhaps a layout: hbc help %s", command, command);
    return request;
}

// The first characters of a word as an id.
static uint32_t id_in(const char *word, size_t length) {
    if (length == 0 || strspn(word, "0123456789") < length) fail("'%.*s' is no id: a decimal number", (int)length, word);
    uint64_t id = 0;
    for (size_t i = 0; i < length; i++) {
        id = id * 10 + (uint64_t)(word[i] - '0');
        if (id > UINT32_MAX) fail("id %.*s is over 4294967295", (int)length, word);
    }
    return (uint32_t)id;
}

uint32_t id_of(const char *word) { return id_in(word, strlen(word)); }

uint32_t take_id(const char *word, const char **rest) {
    const char *equals = strchr(word, '=');
    if (!equals) fail("'%s' is no edit: an id, =, and a text or a file", word);
    *rest = equals + 1;
    return id_in(word, (size_t)(equals - word));
}
