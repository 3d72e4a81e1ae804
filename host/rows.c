#include "rows.h"

#include "../hbc.h"
#include "refusals.h"

#include <stdlib.h>

// The rows come in parts; one that does not fill its room is the last.
unsigned take_rows(struct bytes image, uint8_t layout, row_taker *take, void *with) {
    const size_t most = IMAGE_MOST / sizeof(uint64_t) / NEPULADRIM_STRING_FACTS;
    uint64_t *rows = (uint64_t *)(void *)room_for(IMAGE_MOST);
    uint64_t answer = 0, told = most;
    for (uint64_t id = 0; told == most; id += told) {
        answer = nepuladrim_string_facts_from(image.at, image.length, layout, (uint32_t)id, rows, most * NEPULADRIM_STRING_FACTS);
        if (is_refused(answer)) break;
        told = answer / NEPULADRIM_STRING_FACTS;
        for (uint64_t i = 0; i < told; i++) take(with, id + i, rows + i * NEPULADRIM_STRING_FACTS);
    }
    free(rows);
    return is_refused(answer) ? refusal_of(answer) : 0;
}
