/* How dispatch uses doubles, through the C header: a surveyor's boxes are inserted, and searched by a point, a box and a disc. Prints each
 * rectangle that comes of them, then what `dustmap` prints for the request. */
#include "dustmap.h"

#include <stdio.h>

enum { WORDS = DUSTMAP_WORDS(128), PLACES = 64, BOXES = 3 };

static int32_t pool[WORDS], work[WORDS];

static const double boxes[BOXES][4] = {
    {-1250.5, -300.25, 1000.75, 200.0}, /* fractions go outward, below zero too */
    {2000.25, 480.0, 2600.5, 480.0},    /* a conveyor: flat, and it stays so */
    {1500.0, 900.0, 1800.0, 1200.0},    /* whole millimetres stay as they are */
};

static void show(struct dustmap_rect r) {
    printf(" %d %d %d %d\n", (int)r.low_x, (int)r.low_y, (int)r.high_x, (int)r.high_y);
}

/* Makes the request, a batch of one, where the doubles of its rectangle were accepted; `number` is what came back for them. */
static int ask(int32_t number, const struct dustmap_request *request) {
    static int place = 0;
    struct dustmap_answer answer;
    struct dustmap_found found[PLACES];
    if (number != DUSTMAP_ACCEPTED) {
        printf("refused %d\n", (int)number);
        return 0;
    }
    if (dustmap_call(pool, WORDS, work, WORDS, request, 1, &answer, 1, found, PLACES) != DUSTMAP_ACCEPTED) return 1;
    printf("%s", request->kind == DUSTMAP_SEARCH ? "window" : "rectangle");
    show(request->first);
    printf("%d %u %u %u\n", ++place, (unsigned)answer.number, (unsigned)answer.found, (unsigned)answer.opened);
    for (uint32_t k = 0; answer.number == DUSTMAP_ACCEPTED && k < answer.found; k++) {
        printf("%d", (int)found[k].number);
        show(found[k].rect);
    }
    return 0;
}

int main(void) {
    struct dustmap_request zone = {DUSTMAP_INSERT, 0, {0, 0, 0, 0}, {0, 0, 0, 0}};
    struct dustmap_request search = {DUSTMAP_SEARCH, 0, {0, 0, 0, 0}, {0, 0, 0, 0}};
    int32_t *rect = (int32_t *)&zone.first, *window = (int32_t *)&search.first;
    if (dustmap_blank(pool, WORDS) != DUSTMAP_ACCEPTED) return 1;
    for (int k = 0; k < BOXES; k++) {
        const double *box = boxes[k];
        zone.number = k + 1;
        if (ask(dustmap_box(box[0], box[1], box[2], box[3], rect), &zone) != 0) return 1;
    }
    if (ask(dustmap_point(-1250.25, 0.5, window), &search) != 0) return 1;
    if (ask(dustmap_box(900.5, -50.0, 2000.0, 480.5, window), &search) != 0) return 1;
    if (ask(dustmap_disc(1900.0, 700.0, 250.5, window), &search) != 0) return 1;
    return ask(dustmap_disc(1900.0, 700.0, -1.0, window), &search);
}
