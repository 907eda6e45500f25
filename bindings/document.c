/* The example of document 01, through the C header: prints what `dustmap` prints for it. */
#include "dustmap.h"

#include <stdio.h>

enum { WORDS = DUSTMAP_WORDS(128), PLACES = 64 };

static int32_t pool[WORDS], work[WORDS];

/* A batch of one, and its lines. */
static int one(int place, struct dustmap_request request) {
    struct dustmap_answer answer;
    struct dustmap_found found[PLACES];
    int32_t number = dustmap_call(pool, WORDS, work, WORDS, &request, 1, &answer, 1, found, PLACES);
    if (number != DUSTMAP_ACCEPTED) return number;
    printf("%d %u %u %u\n", place, (unsigned)answer.number, (unsigned)answer.found, (unsigned)answer.opened);
    /* A search refused 8 reports how many there are, and lists none. */
    for (uint32_t k = 0; answer.number == DUSTMAP_ACCEPTED && k < answer.found; k++) {
        struct dustmap_rect r = found[k].rect;
        printf("%d %d %d %d %d\n", (int)found[k].number, (int)r.low_x, (int)r.low_y, (int)r.high_x, (int)r.high_y);
    }
    return 0;
}

int main(void) {
    const struct dustmap_request requests[] = {
        {DUSTMAP_INSERT, 7, {0, 0, 10, 10}, {0, 0, 0, 0}},
        {DUSTMAP_INSERT, 7, {0, 0, 10, 10}, {0, 0, 0, 0}},
        {DUSTMAP_SEARCH, 0, {10, 10, 20, 20}, {0, 0, 0, 0}},
        {DUSTMAP_DELETE, 7, {0, 0, 10, 11}, {0, 0, 0, 0}},
    };
    if (dustmap_blank(pool, WORDS) != 0 || dustmap_check(pool, WORDS) != 0) return 1;
    for (int k = 0; k < 4; k++) {
        if (one(k + 1, requests[k]) != 0) return 1;
    }
    return 0;
}
