// hbc: lists, patches and verifies Hermes bytecode images of every size, locates their strings, and brings these to translators and back.
// It reads files and words, lends them to the proved functions of hbc.h, and writes what came back. Which image, edit or file is refused,
// what is listed, what is made and why, those functions say.
#include "commands.h"
#include "files.h"
#include "print.h"

#include <string.h>

static const struct {
    const char *name;
    command *run;
} COMMANDS[] = {
    {"demo", demo},   {"extract", extract},     {"help", help},     {"index", index_strings}, {"list", list},   {"locate", locate},
    {"patch", patch}, {"translate", translate}, {"verify", verify}, {"why", why},             {"--help", help}, {"-h", help},
};

int main(int count, char **words) {
    hold_standard_streams();
    if (count < 2) {
        print_usage(stderr);
        return FAILED;
    }
    for (size_t i = 0; i < sizeof COMMANDS / sizeof COMMANDS[0]; i++)
        if (strcmp(words[1], COMMANDS[i].name) == 0) return COMMANDS[i].run(words + 2);
    fail("no command '%s': hbc help", words[1]);
}
