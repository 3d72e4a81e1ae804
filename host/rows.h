// What is known of every string of an image: a row of the NEPULADRIM_STRING_FACTS numbers of hbc.h for each.
#ifndef HOST_ROWS_H
#define HOST_ROWS_H

#include "files.h"

// A taker of rows, one by one.
typedef void row_taker(void *with, uint64_t id, const uint64_t *row);

// Hands the rows of an image on, by id. Answers 0, or the number of the refusal, before any row.
unsigned take_rows(struct bytes image, uint8_t layout, row_taker *take, void *with);

#endif
