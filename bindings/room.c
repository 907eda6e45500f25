/* How a crew at a remote pit tells from the map whether an insert will fit, through the C header: asked before each insert, the map says how
 * many slots it needs and how many are free, and then answers as it has told. Two inserts in one batch were told of the same free slot, and the
 * first takes it. Prints what the map tells and answers, in a pool of two slots and in one of four. */
#include "dustmap.h"

#include <stdio.h>

enum { ZONES = 19, FEW = 2, MORE = 4 };

static int32_t few[DUSTMAP_WORDS(FEW)], more[DUSTMAP_WORDS(MORE)], work[DUSTMAP_WORDS(MORE)];

/* records 1 to 19 */
static const struct dustmap_rect zones[ZONES] = {
    {0, 0, 10000, 10000},                                       /* a row of eight stockpiles */
    {10000, 0, 20000, 10000},
    {20000, 0, 30000, 10000},
    {30000, 0, 40000, 10000},
    {40000, 0, 50000, 10000},
    {50000, 0, 60000, 10000},
    {60000, 0, 70000, 10000},
    {70000, 0, 80000, 10000},
    {1000000, 0, 1010000, 10000},                               /* one far away in the east */
    {15000, 5000, 15000, 5000}, {25000, 5000, 25000, 5000},     /* two sensors in the west */
    {200000, 5000, 200000, 5000}, {300000, 5000, 300000, 5000}, /* and five in the east */
    {400000, 5000, 400000, 5000}, {500000, 5000, 500000, 5000}, {600000, 5000, 600000, 5000},
    {5000, 5000, 5000, 5000}, {900000, 5000, 900000, 5000},     /* one more in the west, and one in the east */
    {10000, 0, 0, 10000},                                       /* no rectangle: low above high */
};

static struct dustmap_request insert_of(int record) {
    struct dustmap_request request = {DUSTMAP_INSERT, 0, {0, 0, 0, 0}, {0, 0, 0, 0}};
    request.number = record;
    request.first = zones[record - 1];
    return request;
}

/* What an insert of the record would need, and what is free; whether that can be told. */
static int tell(const int32_t *pool, size_t words, int record) {
    uint32_t slots[2];
    int32_t number = dustmap_room(pool, words, (const int32_t *)&zones[record - 1], slots);
    if (number != DUSTMAP_ACCEPTED) {
        printf("record %d refused %d\n", record, (int)number);
        return 0;
    }
    printf("record %d needs %u, %u free", record, (unsigned)slots[0], (unsigned)slots[1]);
    return 1;
}

/* Inserts of one or two records from the first on, as one batch; prints the answers. */
static int insert(int32_t *pool, size_t words, int first, size_t count) {
    struct dustmap_request requests[2];
    struct dustmap_answer answers[2];
    struct dustmap_found found[1];
    for (size_t k = 0; k < count; k++) requests[k] = insert_of(first + (int)k);
    if (dustmap_call(pool, words, work, words, requests, count, answers, count, found, 0) != DUSTMAP_ACCEPTED) return 0;
    printf(", answered");
    for (size_t k = 0; k < count; k++) printf(" %u", (unsigned)answers[k].number);
    printf("\n");
    return 1;
}

/* Records 1 to the last, one by one: what the map tells, and what it answers. */
static int fill(int32_t *pool, int slots, int last) {
    size_t words = DUSTMAP_WORDS(slots);
    if (dustmap_blank(pool, words) != DUSTMAP_ACCEPTED) return 0;
    printf("%d slots\n", slots);
    for (int record = 1; record <= last; record++) {
        if (!tell(pool, words, record) || !insert(pool, words, record, 1)) return 0;
    }
    return 1;
}

int main(void) {
    if (!fill(few, FEW, 9) || !fill(more, MORE, 16)) return 1;
    for (int record = 17; record <= 18; record++) {
        if (!tell(more, DUSTMAP_WORDS(MORE), record)) return 1;
        printf("\n");
    }
    printf("both in one batch");
    if (!insert(more, DUSTMAP_WORDS(MORE), 17, 2)) return 1;
    if (!tell(more, DUSTMAP_WORDS(MORE), 18) || !insert(more, DUSTMAP_WORDS(MORE), 18, 1)) return 1;
    return tell(more, DUSTMAP_WORDS(MORE), 19);
}
