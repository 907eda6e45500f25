/* The map of dust sensors, haul roads and stockpiles, for C and C++: link libmap.a or libdustmap.so, which `tools/library` writes.
 *
 * A pool is 8 + 42N words for N slots, N from 1 to 4,096; one of edition 2, which two owners share, is 8 + 50N. The caller lends
 * every list and keeps it: nothing is allocated, and the pool is all that one call leaves to the next.
 *
 * The lists may hold any words: every input has an answer. The caller has to see to what C cannot check: each pointer is
 * valid for its length, even where that is 0, `rect[4]` for four words, `slots[2]` for two and `length` for one number; nothing that
 * is written overlaps another list; and nothing else writes to a list, or reads one that is written, during a call.
 */
#ifndef DUSTMAP_H
#define DUSTMAP_H

#include <stddef.h>
#include <stdint.h>

#ifdef __cplusplus
extern "C" {
#endif

/* A closed rectangle in whole millimetres, each from -1,000,000,000 to 1,000,000,000. Low may equal high. */
struct dustmap_rect {
    int32_t low_x, low_y, high_x, high_y;
};

/* A search carries one of three modes, by its kind. Sides may touch in each of them. A record that is equal to the window counts as
 * inside and as enclosing. All modes open the nodes whose cover meets the window: `opened` is the same in every mode. */
enum dustmap_kind {
    DUSTMAP_INSERT = 1,
    DUSTMAP_DELETE = 2,
    DUSTMAP_UPDATE = 3,
    DUSTMAP_SEARCH = 4,          /* lists the records that meet the window */
    DUSTMAP_SEARCH_INSIDE = 5,   /* lists those alone that lie inside it */
    DUSTMAP_SEARCH_ENCLOSING = 6 /* lists those alone that enclose it */
};

/* The editions of a pool. In edition 1 a record has no owner. In edition 2 each has one, 1 or 2, in a word of its own, and the
 * slots are longer by eight words. Every call but blanking and reading goes by word 0 of the pool: 2 is edition 2, and any other
 * pool is measured as edition 1. Blanking and reading are told the edition, and do not look at word 0. */
enum dustmap_edition {
    DUSTMAP_EDITION_1 = 1,
    DUSTMAP_EDITION_2 = 2
};

/* Whose a batch is. In a pool of edition 2 it sees and changes that owner's records only; a pool of edition 1 serves both owners
 * alike.
 *
 * The owners share the tree and its slots. So that a request is refused 7 may be due to the other owner's records, and it is all
 * that an owner's answers and found lists tell of them: where no request is refused 7, they are the same whatever the other
 * owner's batches are. That is said of what the calls for a batch give back. Whoever is lent the pool can read every word of it,
 * and dustmap_room and dustmap_write tell of both owners' records: do not hand their answers on to an owner who is not to know. */
enum dustmap_owner {
    DUSTMAP_OWNER_1 = 1,
    DUSTMAP_OWNER_2 = 2
};

/* The rules there are for a split. */
enum dustmap_rule {
    DUSTMAP_QUADRATIC = 0
};

/* Ten words. Fields that the kind does not use are not looked at. */
struct dustmap_request {
    int32_t kind;               /* one of the six above */
    int32_t number;             /* the record number, 1 or more; a search has none */
    struct dustmap_rect first;  /* inserted, deleted, to be replaced, or the window */
    struct dustmap_rect second; /* an update's new rectangle */
};

/* What comes back, from a call or in an answer, in the order of checks; only that 13 of a file's record comes after 4, and -1 for
 * an edition or a rule before all else. */
/* Written by `tools/numbers` from bindings/numbers.txt: do not edit by hand. */
enum dustmap_number {
    /* Accepted: as defined. What to do: nothing; the change is made, the search is answered, or the file is written or read. */
    DUSTMAP_ACCEPTED = 0,
    /* Call refused: more than 1,024 requests, or answer list of another length than the request list. What to do: hand over at
     * most 1,024 requests in one call, and an answer list with one place for each; where there are more, make several calls. */
    DUSTMAP_BAD_LISTS = 9,
    /* Call refused: another owner than 1 or 2, of a batch or of a record in a file. What to do: make the call for owner 1 or
     * owner 2, whatever the edition of the pool; a file with another owner has been changed: get the whole file again from the
     * office that wrote it. The pool is as it was. */
    DUSTMAP_BAD_OWNER = 13,
    /* Call refused: pool length wrong, or workspace length differs from the pool's. What to do: lend a pool of 8 + 42N words for
     * N slots, or of 8 + 50N where its word 0 is 2 or edition 2 is told, N from 1 to 4,096, and a workspace of the same length; a
     * file of another length is cut, or is no pool. */
    DUSTMAP_BAD_LENGTH = 1,
    /* Call refused: pool not sound. What to do: do not use this pool; it is damaged, or is no pool. Take the last good copy and
     * make the later changes again, or insert every record into a blank one. */
    DUSTMAP_NOT_SOUND = 2,
    /* Call refused: a request is of none of the six kinds; or blanking or reading is told an edition or a rule that there is none
     * of. What to do: give each request the kind 1 insert, 2 delete, 3 update, 4 search, 5 search inside or 6 search enclosing;
     * tell the edition 1 or 2, and the rule 0. */
    DUSTMAP_NO_REQUEST = -1,
    /* Call refused: a NaN, an infinity, low above high, a negative radius, or a centre, radius or finished coordinate beyond
     * 1,000,000,000 in size. What to do: give finite numbers in millimetres, no low above its high and no radius below 0; the
     * rectangle that comes of them, with a disc's one millimetre more, has to lie from -1,000,000,000 to 1,000,000,000. */
    DUSTMAP_BAD_SURVEY = 12,
    /* Call refused: a wrong frame, edition or count, or bytes after kind 18. What to do: get the whole file again from the office
     * that wrote it; this one is cut, has been changed, is of another edition than told, or is no map's file. The pool is as it
     * was. */
    DUSTMAP_BAD_FRAME = 10,
    /* Request or call refused: window, old or new rectangle: a coordinate out of range, or low above high. What to do: give low
     * x, low y, high x, high y, in this order, in whole millimetres from -1,000,000,000 to 1,000,000,000, no low above high. */
    DUSTMAP_BAD_RECTANGLE = 3,
    /* Request or call refused: record number below 1. What to do: give a record number from 1 to 2,147,483,647. */
    DUSTMAP_BAD_NUMBER = 4,
    /* Call refused: a record not after its predecessor. What to do: put the file's records in order of number, low x, low y, high
     * x, high y, each pair once, in edition 2 owner 1's first, as a written file has them. The pool is as it was. */
    DUSTMAP_NOT_AFTER = 11,
    /* Request refused: delete or update: old pair not held. What to do: give the record number with the rectangle exactly as it
     * is held; a search of that place lists what is there. In edition 2 each owner holds its own pairs. */
    DUSTMAP_NOT_HELD = 5,
    /* Request refused: insert: pair held; update: new pair held and not the old pair. What to do: insert: nothing, if this pair
     * is meant; it is in force already. Update: both pairs are in force; delete the old one if it is to go. In edition 2 the
     * other owner's pairs do not count. */
    DUSTMAP_HELD = 6,
    /* Request or call refused: the rules call for a slot at a moment when none is free. What to do: delete what is no longer
     * needed (in edition 2 both owners' records take slots) and ask again, or blank a pool with more slots (4,096 at most) and
     * insert every record there; N slots are enough for every file of up to 2N + 1 records, and room (dustmap_room in C) tells
     * beforehand whether an insert fits. */
    DUSTMAP_NO_SLOT = 7,
    /* Request or call refused: search: more found than places left in the found list; file: its buffer is short. What to do: ask
     * again with a longer found list (the answer says how many records this search finds), or with a smaller window; for a search
     * enclosing, with a larger one; for a file, with a longer buffer (16 + 192N bytes are enough for N slots, and 16 + 224N in
     * edition 2). */
    DUSTMAP_NO_ROOM = 8
};
/* End of what `tools/numbers` writes. */

/* Four words. The number is 0 or one of 3 to 8, which are checked in that order; a request that is refused changes neither pool
 * nor found list. The other three are zero for all but a search; 8 reports found and opened as they would have been. */
struct dustmap_answer {
    uint32_t number;
    uint32_t found;  /* records found */
    uint32_t start;  /* where they start in the found list, counted from 0 */
    uint32_t opened; /* nodes opened; 0 in a pool of edition 2, also beside 8 */
};

/* A record found, five words. In edition 2 its owner is that of the batch. */
struct dustmap_found {
    int32_t number;
    struct dustmap_rect rect;
};

/* The words of a pool of so many slots, of edition 1 or of the edition given. */
#define DUSTMAP_WORDS(slots) DUSTMAP_WORDS_AS(DUSTMAP_EDITION_1, slots)
#define DUSTMAP_WORDS_AS(edition, slots) ((size_t)8 + (size_t)((edition) == DUSTMAP_EDITION_2 ? 50 : 42) * (size_t)(slots))

/* Bytes that are always enough for the file of such a pool, which holds at most eight records for each slot. */
#define DUSTMAP_FILE_BYTES(slots) DUSTMAP_FILE_BYTES_AS(DUSTMAP_EDITION_1, slots)
#define DUSTMAP_FILE_BYTES_AS(edition, slots) ((size_t)16 + (size_t)((edition) == DUSTMAP_EDITION_2 ? 28 : 24) * 8 * (size_t)(slots))

/* Makes a pool blank, of edition 1 and rule 0, and returns 0; or returns 1 for a wrong length, and then nothing is written. */
int32_t dustmap_blank(int32_t *pool, size_t pool_len);

/* The same for an edition and a rule: one of the enums above, and -1 comes back, before 1, for any other number. The length is
 * measured by the edition told. What the pool held before is not looked at, its word 0 neither. */
int32_t dustmap_blank_as(int32_t *pool, size_t pool_len, int32_t edition, int32_t rule);

/* What a call with no request would return: 1 for a wrong length, 2 for a pool that is not sound, else 0. Nothing is written. A
 * pool of edition 2 is not sound where a record's owner is neither 1 nor 2. */
int32_t dustmap_check(const int32_t *pool, size_t pool_len);

/* Does each request in turn, for owner 1. Its answer goes to the same place in the answer list; accepted searches fill the found
 * list one after another, in order of record number, low x, low y, high x, high y, and places beyond stay.
 *
 * Returns 9, 1, 2 or -1, checked in that order, and then nothing at all is written; otherwise 0, and the workspace equals the pool. */
int32_t dustmap_call(int32_t *pool, size_t pool_len, int32_t *work, size_t work_len,
                     const struct dustmap_request *requests, size_t n_requests,
                     struct dustmap_answer *answers, size_t n_answers,
                     struct dustmap_found *found, size_t n_found);

/* The same as a batch of that owner. In a pool of edition 2 it sees and changes that owner's records only: a pair is held (5, 6)
 * by each owner for itself, searches list that owner's alone, and a record that is inserted is that owner's.
 *
 * Returns 9, 13, 1, 2 or -1, checked in that order: 13 for an owner that is neither 1 nor 2, whatever the edition of the pool.
 * Then nothing at all is written. */
int32_t dustmap_call_as(int32_t *pool, size_t pool_len, int32_t *work, size_t work_len,
                        const struct dustmap_request *requests, size_t n_requests,
                        struct dustmap_answer *answers, size_t n_answers,
                        struct dustmap_found *found, size_t n_found, int32_t owner);

/* Tells beforehand whether an insert of that rectangle fits: sets `slots[0]` to the slots that it would need and `slots[1]` to those that
 * are free, and returns 0. An insert that nothing else is wrong with (its number is 1 or more, and the pair is not held) is refused 7
 * exactly where it needs more than are free.
 *
 * It needs one for each node of the run of full nodes from the leaf that it would go to upward, and one more where the run includes the
 * root: none where that leaf is not full, and never more than the height plus one.
 *
 * Or it returns, checked in this order, 1 for a wrong length of the pool, 2 for a pool that is not sound, or 3 for a bad rectangle: then
 * `slots` is as it was. The pool is never changed. The words of `rect` lie as in struct dustmap_rect.
 *
 * It tells of the pool as it is, in edition 2 for an insert by either owner. A change that is made before the insert, in the same
 * batch or by the other owner too, may take slots or free them, and fill nodes or part them: then ask again. */
int32_t dustmap_room(const int32_t *pool, size_t pool_len, const int32_t rect[4], uint32_t slots[2]);

/* The next three make a rectangle of doubles, in millimetres: a surveyor's box, or the window of a query. Each writes low x, low y,
 * high x, high y to `rect` and returns 0, and no request is refused 3 for that rectangle; or it returns 12, and then nothing is
 * written. The four words lie as in struct dustmap_rect, so that a request's own can be written:
 *
 *     number = dustmap_box(low_x, low_y, high_x, high_y, (int32_t *)&request.first);
 *
 * A box: a low becomes the largest whole number not above it, a high the smallest not below. */
int32_t dustmap_box(double low_x, double low_y, double high_x, double high_y, int32_t rect[4]);

/* A point: a box with low equal to high. */
int32_t dustmap_point(double x, double y, int32_t rect[4]);

/* A disc: the centre less and plus the radius in doubles, rounded outward, then one millimetre further. The window holds the exact
 * box of the disc and is less than 3 mm beyond it on each side. */
int32_t dustmap_disc(double x, double y, double radius, int32_t rect[4]);

/* The last three carry a map between offices, as one file of its records. A file is frames such as `dustmap` reads: two bytes
 * length of what follows, two bytes kind, then words of 32 bits, all little-endian. Kind 16 comes first (edition, record count),
 * then kind 17 for each record (number, low x, low y, high x, high y) in the order in which searches list them, and kind 18, with
 * no words, comes last. So a file of R records has 16 + 24R bytes.
 *
 * The file of a pool of edition 2 has kind 19 in the place of 17: the record's owner, then as 17. Owner 1's records come first,
 * then owner 2's, each in the order in which searches list them; the count is of both. It has 16 + 28R bytes.
 *
 * The writer fills the front of `file`, sets `length` to the bytes of the file, and returns 0; bytes beyond stay. A pair that the
 * pool holds twice, in edition 2 for one owner, is written once. Or it returns, checked in this order, 1 for a wrong length of
 * the pool, 2 for a pool that is not sound, or 8 for a `file` that is too short: then `length` is 0, and `file` is as it was.
 * DUSTMAP_FILE_BYTES, in edition 2 DUSTMAP_FILE_BYTES_AS, is always enough.
 *
 * It keeps 512 KiB on the stack while it works, where the other calls keep little: see to it in threads with small stacks. */
int32_t dustmap_write(const int32_t *pool, size_t pool_len, uint8_t *file, size_t file_len, uint64_t *length);

/* The reader of a file of edition 1. It blanks the pool, inserts the records of the file in their order, and returns 0; the
 * workspace then equals the pool. What the pool held before is not looked at: it may be any words. The file has to be whole and
 * to have no byte more.
 *
 * It returns 1 for a wrong length of the pool, or another length of the workspace, and then nothing is written. Otherwise the first
 * frame at fault decides, and in it what is named first here:
 *
 *     10  it is not the frame that is due: cut, missing, of another kind or length, of another edition, or with a count below 0;
 *         a frame of kind 17 beyond the count, or of kind 18 before it; bytes after kind 18
 *      3  the record's rectangle has a coordinate out of range, or low above high
 *      4  its number is below 1
 *     11  it does not come after the record before it, in the order in which searches list them; one equal to it does not either
 *      7  its insert calls for a slot, and none is free
 *
 * Then the pool is as it was, and the workspace is made equal to it.
 *
 * A pool of N slots takes every file of up to 2N + 1 records, and none of more than 8N. Where a read of a written file is accepted,
 * writing again gives the same bytes. */
int32_t dustmap_read(int32_t *pool, size_t pool_len, int32_t *work, size_t work_len, const uint8_t *file, size_t file_len);

/* The reader of a file of the edition told, into a pool of that edition and of the rule told; dustmap_read is edition 1 and rule
 * 0. The lengths are measured by that edition. -1 comes back, before 1 and with nothing written, for an edition or a rule that
 * there is none of.
 *
 * In edition 2 each record is inserted for its owner, and of the frame at fault is named first what comes first here: 10, 3, 4,
 * then 13 for an owner that is neither 1 nor 2, 11, 7. A file of another edition than told is refused 10, in its first frame; so
 * is a record of kind 17 in a file of edition 2, and one of kind 19 in a file of edition 1. The records of both owners count
 * alike towards the 2N + 1 that always fit, and the 8N that may. */
int32_t dustmap_read_as(int32_t *pool, size_t pool_len, int32_t *work, size_t work_len, const uint8_t *file, size_t file_len,
                        int32_t edition, int32_t rule);

#if defined(__STDC_VERSION__) && __STDC_VERSION__ >= 201112L
_Static_assert(sizeof(struct dustmap_rect) == 16, "a rectangle is four words");
_Static_assert(sizeof(struct dustmap_request) == 40, "a request is ten words");
_Static_assert(sizeof(struct dustmap_answer) == 16, "an answer is four words");
_Static_assert(sizeof(struct dustmap_found) == 20, "a place of the found list is five words");
#endif

#ifdef __cplusplus
}
#endif

#endif
