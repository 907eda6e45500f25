/* How a planner closes a block, through the C header: zones are inserted, and the block is searched in the three modes, all in one call.
 * Prints what `dustmap` prints for examples/modes.frames. */
#include "dustmap.h"

#include <stdio.h>

enum { WORDS = DUSTMAP_WORDS(128), PLACES = 64, ZONES = 7, MODES = 3, REQUESTS = ZONES + MODES };

static int32_t pool[WORDS], work[WORDS];
static struct dustmap_request requests[REQUESTS];
static struct dustmap_answer answers[REQUESTS];
static struct dustmap_found found[PLACES];

static const struct dustmap_rect block = {100000, 50000, 300000, 200000};

/* records 1 to 7 */
static const struct dustmap_rect zones[ZONES] = {
    {140000, 80000, 180000, 120000},  /* a stockpile inside the block */
    {100000, 50000, 300000, 58000},   /* a haul road along its south side, which touches three sides from within */
    {100000, 50000, 300000, 200000},  /* the same block on an older plan: equal */
    {0, 0, 400000, 250000},           /* the quarry, which encloses it */
    {250000, 150000, 350000, 150000}, /* a conveyor, which its east side cuts */
    {300000, 60000, 340000, 90000},   /* a stockpile that touches it from outside */
    {310000, 20000, 330000, 30000},   /* the gate, apart from it */
};

static const int32_t modes[MODES] = {DUSTMAP_SEARCH, DUSTMAP_SEARCH_INSIDE, DUSTMAP_SEARCH_ENCLOSING};

/* The line of an answer, and those of the records that a search has listed: the found list has them from the answer's start on. */
static void show(int place, struct dustmap_answer answer) {
    printf("%d %u %u %u\n", place, (unsigned)answer.number, (unsigned)answer.found, (unsigned)answer.opened);
    for (uint32_t k = 0; answer.number == DUSTMAP_ACCEPTED && k < answer.found; k++) {
        struct dustmap_found record = found[answer.start + k];
        struct dustmap_rect r = record.rect;
        printf("%d %d %d %d %d\n", (int)record.number, (int)r.low_x, (int)r.low_y, (int)r.high_x, (int)r.high_y);
    }
}

int main(void) {
    for (int k = 0; k < ZONES; k++) {
        requests[k].kind = DUSTMAP_INSERT;
        requests[k].number = k + 1;
        requests[k].first = zones[k];
    }
    for (int k = 0; k < MODES; k++) {
        requests[ZONES + k].kind = modes[k];
        requests[ZONES + k].first = block;
    }
    if (dustmap_blank(pool, WORDS) != DUSTMAP_ACCEPTED) return 1;
    int32_t number = dustmap_call(pool, WORDS, work, WORDS, requests, REQUESTS, answers, REQUESTS, found, PLACES);
    if (number != DUSTMAP_ACCEPTED) return 1;
    for (int k = 0; k < REQUESTS; k++) show(k + 1, answers[k]);
    return 0;
}
