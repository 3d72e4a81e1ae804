// hbc list: the strings and functions of an image.
#include "commands.h"
#include "listing.h"
#include "print.h"
#include "refusals.h"
#include "words.h"

#include <stdlib.h>

int list(char **words) {
    enum { TEXT = 1 };
    static const struct option OPTIONS[] = {LAYOUT_OPTION, {"--text", NULL}, {NULL, NULL}};
    bool is_given[] = {false, false};
    struct request request = take_request("list", words, OPTIONS, is_given);
    struct bytes image = read_file(request.image, IMAGE_MOST);
    struct telling *telling = begin_telling(stdout);
    unsigned refusal = is_given[TEXT] ? list_image(image, request.layout, print_as_text, telling)
                                      : list_image(image, request.layout, print_exactly, stdout);
    end_telling(telling);
    if (refusal) print_refused_image(request.image, image, request.layout, refusal);
    free(image.at);
    finish_printing(stdout);
    return refusal ? REFUSED : 0;
}
