// The listing of an image, as the proved functions make it, and as people read it.
#ifndef HOST_LISTING_H
#define HOST_LISTING_H

#include "files.h"

#include <stdio.h>

// A taker of a listing, part by part.
typedef void part_taker(void *with, const uint8_t *part, size_t length);

// Hands the listing of an image on in parts. Answers 0, or the number of the refusal, before any part.
unsigned list_image(struct bytes image, uint8_t layout, part_taker *take, void *with);

// Prints the exact listing.
part_taker print_exactly;

// Prints the listing for people, a line of the exact one as a line: `string ID "TEXT"` or `identifier ID "TEXT", hash SLOT`.
struct telling;
struct telling *begin_telling(FILE *to);
part_taker print_as_text;
void end_telling(struct telling *telling);

#endif
