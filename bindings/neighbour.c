/* How two neighbours share one map, through the C header: each inserts its zones into a pool of edition 2, one of them the same pair, and each sees
 * its own. The neighbour deletes the pair, and ours stays. The file carries the owners to another office. Last, what one can tell of the other:
 * the slots are shared, so that an insert may be refused 7. Prints whose batch it is, and then what `dustmap` prints for its requests; and the
 * file, a frame a line, with what comes of it. */
#include "dustmap.h"

#include <stdio.h>
#include <string.h>

enum { SITE = 8, OFFICE = 4, PLACES = 64, MOST = 8 };

#define WORDS(slots) DUSTMAP_WORDS_AS(DUSTMAP_EDITION_2, slots)
#define BYTES(slots) DUSTMAP_FILE_BYTES_AS(DUSTMAP_EDITION_2, slots)
#define INSERT(number, ...) {DUSTMAP_INSERT, number, {__VA_ARGS__}, {0, 0, 0, 0}}
#define DELETE(number, ...) {DUSTMAP_DELETE, number, {__VA_ARGS__}, {0, 0, 0, 0}}
#define SEARCH(...) {DUSTMAP_SEARCH, 0, {__VA_ARGS__}, {0, 0, 0, 0}}

static int32_t site[WORDS(SITE)], office[WORDS(OFFICE)], plain[DUSTMAP_WORDS(OFFICE)], small[WORDS(1)], work[WORDS(SITE)];
static uint8_t file[BYTES(SITE)], again[BYTES(OFFICE)];

static const struct dustmap_request ours[] = {
    INSERT(1, 0, 50000, 400000, 60000),        /* the road along the boundary */
    INSERT(10, 60000, 20000, 90000, 45000),    /* a stockpile */
    INSERT(105, 100000, 55000, 100000, 55000), /* a sensor at the road */
    SEARCH(0, 0, 400000, 120000),
};
static const struct dustmap_request theirs[] = {
    INSERT(1, 0, 50000, 400000, 60000), /* the same pair, which they hold for themselves */
    INSERT(1, 0, 50000, 400000, 60000), /* and cannot hold twice */
    INSERT(10, 60000, 70000, 95000, 100000),   /* a stockpile across the boundary */
    INSERT(20, 200000, 80000, 230000, 110000), /* the crusher */
    SEARCH(0, 0, 400000, 120000),
};
static const struct dustmap_request given_up[] = {
    DELETE(1, 0, 50000, 400000, 60000),
    DELETE(1, 0, 50000, 400000, 60000), /* ours is not theirs to delete */
    SEARCH(0, 0, 400000, 120000),
};
static const struct dustmap_request all[] = {SEARCH(0, 0, 400000, 120000)};
static const struct dustmap_request eight[] = {
    INSERT(1, 0, 0, 1, 1), INSERT(2, 0, 0, 1, 1), INSERT(3, 0, 0, 1, 1), INSERT(4, 0, 0, 1, 1),
    INSERT(5, 0, 0, 1, 1), INSERT(6, 0, 0, 1, 1), INSERT(7, 0, 0, 1, 1), INSERT(8, 0, 0, 1, 1),
};
static const struct dustmap_request ninth[] = {SEARCH(0, 0, 1, 1), INSERT(9, 0, 0, 1, 1)};

#define COUNT(requests) (sizeof(requests) / sizeof(requests)[0])

/* The lines of the records that a search has listed. */
static void show(struct dustmap_answer answer, const struct dustmap_found *found) {
    for (uint32_t k = 0; answer.number == DUSTMAP_ACCEPTED && k < answer.found; k++) {
        struct dustmap_found record = found[answer.start + k];
        struct dustmap_rect r = record.rect;
        printf("%d %d %d %d %d\n", (int)record.number, (int)r.low_x, (int)r.low_y, (int)r.high_x, (int)r.high_y);
    }
}

/* A batch of that owner, and its lines. */
static int ask(int32_t *pool, size_t words, int32_t owner, const struct dustmap_request *requests, size_t count) {
    struct dustmap_answer answers[MOST];
    struct dustmap_found found[PLACES];
    int32_t number = dustmap_call_as(pool, words, work, words, requests, count, answers, count, found, PLACES, owner);
    if (number != DUSTMAP_ACCEPTED) return 0;
    printf("owner %d\n", (int)owner);
    for (size_t k = 0; k < count; k++) {
        printf("%u %u %u %u\n", (unsigned)k + 1, (unsigned)answers[k].number, (unsigned)answers[k].found, (unsigned)answers[k].opened);
        show(answers[k], found);
    }
    return 1;
}

/* Both sides of the boundary, in one pool. */
static int share(void) {
    return dustmap_blank_as(site, WORDS(SITE), DUSTMAP_EDITION_2, DUSTMAP_QUADRATIC) == DUSTMAP_ACCEPTED
        && ask(site, WORDS(SITE), DUSTMAP_OWNER_1, ours, COUNT(ours))
        && ask(site, WORDS(SITE), DUSTMAP_OWNER_2, theirs, COUNT(theirs))
        && ask(site, WORDS(SITE), DUSTMAP_OWNER_2, given_up, COUNT(given_up))
        && ask(site, WORDS(SITE), DUSTMAP_OWNER_1, all, COUNT(all));
}

/* A frame a line: its first two bytes say how many follow. */
static void show_file(size_t length) {
    printf("written %u\n", (unsigned)length);
    for (size_t at = 0, next; at < length; at = next) {
        next = at + 2 + file[at] + 256 * (size_t)file[at + 1];
        for (size_t k = at; k < next; k++) printf("%02x", (unsigned)file[k]);
        printf("\n");
    }
}

static int32_t read_file(size_t length) {
    return dustmap_read_as(office, WORDS(OFFICE), work, WORDS(OFFICE), file, length, DUSTMAP_EDITION_2, DUSTMAP_QUADRATIC);
}

/* The map at another office; and what is refused there. */
static int carry(void) {
    uint64_t length, length_again;
    if (dustmap_write(site, WORDS(SITE), file, sizeof file, &length) != DUSTMAP_ACCEPTED) return 0;
    show_file((size_t)length);
    printf("read %d\n", (int)read_file((size_t)length));
    if (!ask(office, WORDS(OFFICE), DUSTMAP_OWNER_1, all, COUNT(all))) return 0;
    if (!ask(office, WORDS(OFFICE), DUSTMAP_OWNER_2, all, COUNT(all))) return 0;
    if (dustmap_write(office, WORDS(OFFICE), again, sizeof again, &length_again) != DUSTMAP_ACCEPTED) return 0;
    printf("written again %s\n", length_again == length && memcmp(again, file, (size_t)length) == 0 ? "the same" : "other bytes");
    int32_t number = dustmap_read(plain, DUSTMAP_WORDS(OFFICE), work, DUSTMAP_WORDS(OFFICE), file, (size_t)length);
    printf("into a pool of edition 1 %d\n", (int)number);
    file[16] = 3; /* the owner of the first record, after the frame of 12 bytes, a length and a kind */
    printf("a record of owner 3 %d\n", (int)read_file((size_t)length));
    return 1;
}

int main(void) {
    if (!share() || !carry()) return 1;
    if (dustmap_blank_as(small, WORDS(1), DUSTMAP_EDITION_2, DUSTMAP_QUADRATIC) != DUSTMAP_ACCEPTED) return 1;
    printf("one slot\n");
    if (!ask(small, WORDS(1), DUSTMAP_OWNER_2, eight, COUNT(eight))) return 1;
    return !ask(small, WORDS(1), DUSTMAP_OWNER_1, ninth, COUNT(ninth));
}
