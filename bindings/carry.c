/* How a map is carried between offices, through the C header: the pit's map is filled and written to a file, and head office reads that into
 * a pool of its own and searches there. Prints what `dustmap` prints for a search at the pit; the file, a frame a line; the same search at
 * head office; and what comes of a file that lacks a byte, and of a pool that is too small. */
#include "dustmap.h"

#include <stdio.h>
#include <string.h>

/* Four slots take every file of up to nine records. */
enum { ZONES = 9, PIT = 128, OFFICE = 4, PLACES = 64 };

static int32_t pit[DUSTMAP_WORDS(PIT)], office[DUSTMAP_WORDS(OFFICE)], small[DUSTMAP_WORDS(1)], work[DUSTMAP_WORDS(PIT)];
static uint8_t file[DUSTMAP_FILE_BYTES(PIT)], again[DUSTMAP_FILE_BYTES(OFFICE)];
static struct dustmap_found found[PLACES];

/* in the order in which they were surveyed, which is not that of the file */
static const struct dustmap_found zones[ZONES] = {
    {105, {440000, 110000, 440000, 110000}}, /* a sensor, which is a point */
    {50, {330000, 150000, 352000, 176000}},  /* the crusher */
    {1, {408000, 72000, 420000, 300000}},    /* a haul road, its north leg */
    {1, {40000, 60000, 420000, 72000}},      /* and its south leg, under the same number */
    {10, {60000, 80000, 89000, 115000}},     /* a stockpile */
    {11, {107000, 80000, 142000, 112000}},   /* another one */
    {53, {352000, 160000, 380000, 160000}},  /* a conveyor, which is flat */
    {2, {0, 20000, 40000, 30000}},           /* the gate */
    {106, {60000, 250000, 60000, 250000}},   /* another sensor */
};

static int insert(struct dustmap_found zone) {
    struct dustmap_request request = {DUSTMAP_INSERT, 0, {0, 0, 0, 0}, {0, 0, 0, 0}};
    struct dustmap_answer answer;
    request.number = zone.number;
    request.first = zone.rect;
    int32_t number = dustmap_call(pit, DUSTMAP_WORDS(PIT), work, DUSTMAP_WORDS(PIT), &request, 1, &answer, 1, found, PLACES);
    return number == DUSTMAP_ACCEPTED && answer.number == DUSTMAP_ACCEPTED;
}

/* A search of the same place in either map, and its lines. */
static int search(int place, int32_t *pool, size_t words) {
    const struct dustmap_request request = {DUSTMAP_SEARCH, 0, {330000, 60000, 440000, 170000}, {0, 0, 0, 0}};
    struct dustmap_answer answer;
    int32_t number = dustmap_call(pool, words, work, words, &request, 1, &answer, 1, found, PLACES);
    if (number != DUSTMAP_ACCEPTED || answer.number != DUSTMAP_ACCEPTED) return 0;
    printf("%d %u %u %u\n", place, (unsigned)answer.number, (unsigned)answer.found, (unsigned)answer.opened);
    for (uint32_t k = 0; k < answer.found; k++) {
        struct dustmap_rect r = found[k].rect;
        printf("%d %d %d %d %d\n", (int)found[k].number, (int)r.low_x, (int)r.low_y, (int)r.high_x, (int)r.high_y);
    }
    return 1;
}

/* A frame a line: its first two bytes say how many follow. */
static void show(size_t length) {
    for (size_t at = 0, next; at < length; at = next) {
        next = at + 2 + file[at] + 256 * (size_t)file[at + 1];
        for (size_t k = at; k < next; k++) printf("%02x", (unsigned)file[k]);
        printf("\n");
    }
}

int main(void) {
    uint64_t length, length_again;
    int32_t number;
    if (dustmap_blank(pit, DUSTMAP_WORDS(PIT)) != DUSTMAP_ACCEPTED) return 1;
    for (int k = 0; k < ZONES; k++) {
        if (!insert(zones[k])) return 1;
    }
    if (!search(1, pit, DUSTMAP_WORDS(PIT))) return 1;

    if (dustmap_write(pit, DUSTMAP_WORDS(PIT), file, sizeof file, &length) != DUSTMAP_ACCEPTED) return 1;
    printf("written %u\n", (unsigned)length);
    show((size_t)length);

    number = dustmap_read(office, DUSTMAP_WORDS(OFFICE), work, DUSTMAP_WORDS(OFFICE), file, (size_t)length);
    printf("read %d\n", (int)number);
    if (!search(2, office, DUSTMAP_WORDS(OFFICE))) return 1;
    if (dustmap_write(office, DUSTMAP_WORDS(OFFICE), again, sizeof again, &length_again) != DUSTMAP_ACCEPTED) return 1;
    printf("written again %s\n", length_again == length && memcmp(again, file, (size_t)length) == 0 ? "the same" : "other bytes");

    number = dustmap_read(office, DUSTMAP_WORDS(OFFICE), work, DUSTMAP_WORDS(OFFICE), file, (size_t)length - 1);
    printf("a byte missing %d\n", (int)number);
    number = dustmap_read(small, DUSTMAP_WORDS(1), work, DUSTMAP_WORDS(1), file, (size_t)length);
    printf("one slot %d\n", (int)number);
    return !search(3, office, DUSTMAP_WORDS(OFFICE));
}
