/* An engine with one fault in what it makes of the allocation vector. WRONG chooses the fault; those who are to see it
   are compiled to call wrong_call for mpm_call, wrong_singly for mpm_singly and wrong_vector for mpm_vector. The plain
   side has the same fault, so that only what the engine is compared with can tell. */

#include "wrong_call.h"

#define LOW_BIT_FIRST 1
#define SETS_BITS_FROM_N_ON 2
#define DELETE_LEAVES_A_BIT 3
#define WRITE_SETS_ANOTHER_BIT 4
#define WRITE_SETS_NO_BIT 5
#define STOPPED_RUN_SETS_NO_BIT 6
#define REFUSAL_MENDS_IT 7
#define JUDGED_BEFORE_THE_LIST 8
#define JUDGED_AFTER_THE_DRIVE 9
#define NOT_JUDGED 10
#define DIRECTORY_NOT_JUDGED 11
#define TAKES_A_LONGER_ONE 12
/* Of building: */
#define KEEPS_OLD_BITS 13
#define FORGETS_THE_DIRECTORY 14
#define CLEARS_AT_REFUSAL 15
#define IMAGE_BEFORE_LENGTH 16
#define TAKES_AN_UNKNOWN_KIND 17

#ifndef WRONG
#define WRONG LOW_BIT_FIRST
#endif

enum { DELETE = 19, WRITE = 34, WRITE_ZEROS = 40, FREE_SPACE = 46, TERMINATE = 143 };
enum { BAD_IMAGE = 255 + 256, BAD_DRIVE = 255 + 256 * 4, BAD_LIST = 255 + 256 * 12 };
enum { BAD_CALL = 255 + 256 * 13, BAD_VECTOR = 255 + 256 * 14 };
enum { SMALL = 32, LARGE = 512, LIST = 1316, RULE = 1315 };

/* What a call was lent, and the vector as it was. */
struct lent {
    u32 kind, rule, function;
    const u8 *fcb, *image;
    size image_len;
    u8 *vector;
    size vector_len; /* what the engine takes for its length */
    size lent_len;
    u8 before[LARGE];
};

static size length_of(u32 kind) { return kind == 1 ? LARGE : SMALL; }

static size blocks_of(u32 kind, size image_len) { return image_len / (kind == 1 ? 2048 : 1024); }

static u8 bit(size block) { return (u8)(0x80 >> block % 8); }

static void copy(u8 *to, const u8 *from, size length) {
    for (size i = 0; i < length; i++) to[i] = from[i];
}

static int is_same(const u8 *one, const u8 *other, size length) {
    size i = 0;
    while (i < length && one[i] == other[i]) i++;
    return i == length;
}

static void reverse(u8 *vector, size length) {
    for (size i = 0; i < length; i++) {
        u8 reversed = 0;
        for (u32 k = 0; k < 8; k++) reversed = (u8)(reversed << 1 | (vector[i] >> k & 1));
        vector[i] = reversed;
    }
}

static void fill_from(u8 *vector, size length, size block, int set) {
    for (; block < 8 * length; block++)
        vector[block / 8] = (u8)(set ? vector[block / 8] | bit(block) : vector[block / 8] & ~bit(block));
}

/* The vector that is due, in a buffer of its own; 0 where there is none, or where the lent one has another length. */
static int is_due(const struct lent *c, u8 due[LARGE]) {
    if (c->kind > 1 || c->vector_len != length_of(c->kind)) return 0;
    return mpm_vector(c->kind, c->rule, c->image, c->image_len, due, c->vector_len) == 0;
}

/* Whether the call was accepted, or was refused by a record: those that the plain side has done before are not told. */
static int may_be_done(u32 answer) { return answer % 256 != 255 || answer == 255; }

/* What the engine takes for the vector. */
static void take(struct lent *c) {
    u8 due[LARGE];
    (void)due, (void)reverse, (void)fill_from, (void)blocks_of, (void)copy;
#if WRONG == LOW_BIT_FIRST
    reverse(c->vector, c->vector_len);
#elif WRONG == SETS_BITS_FROM_N_ON
    if (c->kind <= 1 && c->vector_len == length_of(c->kind))
        fill_from(c->vector, c->vector_len, blocks_of(c->kind, c->image_len), 0);
#elif WRONG == NOT_JUDGED
    if (is_due(c, due)) copy(c->vector, due, c->vector_len);
#elif WRONG == DIRECTORY_NOT_JUDGED
    if (is_due(c, due)) c->vector[0] |= 0xC0;
#elif WRONG == TAKES_A_LONGER_ONE
    if (c->kind <= 1 && c->vector_len > length_of(c->kind)) c->vector_len = length_of(c->kind);
#endif
    (void)c;
}

/* The answer that the engine gives in place of this one. */
static u32 answered(const struct lent *c, u32 answer) {
    u8 due[LARGE];
    (void)due, (void)is_same, (void)c;
#if WRONG == JUDGED_BEFORE_THE_LIST
    if (answer == BAD_LIST && is_due(c, due) && !is_same(due, c->before, c->vector_len)) return BAD_VECTOR;
#elif WRONG == JUDGED_AFTER_THE_DRIVE
    int of_drive = c->function != FREE_SPACE && c->function != TERMINATE;
    if (answer == BAD_VECTOR && of_drive && c->fcb[0] > 1) return BAD_DRIVE;
#endif
    return answer;
}

/* The lowest or the highest block whose bit the call has turned; as many as there are bits where none was. */
static size turned(const struct lent *c, int highest) {
    size found = 8 * c->vector_len;
    for (size block = 0; block < 8 * c->vector_len; block++)
        if ((c->vector[block / 8] ^ c->before[block / 8]) & bit(block)) {
            found = block;
            if (!highest) break;
        }
    return found;
}

/* What the engine leaves of the vector after a call that may have been done, whole or in part. */
static void spoil(struct lent *c, u32 answer) {
    size first = turned(c, 0), last = turned(c, 1), none = 8 * c->vector_len;
    int writes = c->function == WRITE || c->function == WRITE_ZEROS;
    (void)first, (void)last, (void)none, (void)writes, (void)answer;
#if WRONG == SETS_BITS_FROM_N_ON
    fill_from(c->vector, c->vector_len, blocks_of(c->kind, c->image_len), 1);
#elif WRONG == DELETE_LEAVES_A_BIT
    if (c->function == DELETE && last < none) c->vector[last / 8] |= bit(last);
#elif WRONG == WRITE_SETS_ANOTHER_BIT
    if (!writes || first + 1 >= none) return;
    c->vector[first / 8] ^= bit(first);
    c->vector[(first + 1) / 8] |= bit(first + 1);
#elif WRONG == WRITE_SETS_NO_BIT
    if (writes) copy(c->vector, c->before, c->vector_len);
#elif WRONG == STOPPED_RUN_SETS_NO_BIT
    if (writes && answer != 0) copy(c->vector, c->before, c->vector_len);
#endif
}

static void leave(struct lent *c, u32 answer) {
    u8 due[LARGE];
    (void)due;
#if WRONG == LOW_BIT_FIRST
    reverse(c->vector, c->vector_len);
#else
    if (c->lent_len > LARGE) return;
    if (may_be_done(answer)) {
        spoil(c, answer);
        return;
    }
    copy(c->vector, c->before, c->vector_len);
    if (WRONG == REFUSAL_MENDS_IT && answer == BAD_VECTOR && is_due(c, due)) copy(c->vector, due, c->vector_len);
#endif
    (void)spoil, (void)may_be_done, (void)is_due, (void)answer;
}

static u32 make(call *real, u32 kind, u32 function, u32 process, u32 count, u8 *fcb, size fcb_len, u8 *dma,
                size dma_len, u8 *list, size list_len, u8 *image, size image_len, u8 *vector, size vector_len) {
    u32 rule = list_len == LIST ? list[RULE] : 0;
    struct lent c = {kind, rule, function, fcb, image, image_len, vector, vector_len, vector_len, {0}};
    if (vector_len <= LARGE) copy(c.before, vector, vector_len);
    take(&c);
    u32 answer = real(kind, function, process, count, fcb, fcb_len, dma, dma_len, list, list_len, image, image_len,
                      vector, c.vector_len);
    answer = answered(&c, answer);
    leave(&c, answer);
    return answer;
}

u32 wrong_vector(u32 kind, u32 rule, const u8 *image, size image_len, u8 *vector, size vector_len) {
    u8 before[LARGE];
    if (WRONG == TAKES_AN_UNKNOWN_KIND && kind > 1) kind = vector_len == LARGE;
    if (vector_len <= LARGE) copy(before, vector, vector_len);
    u32 answer = mpm_vector(kind, rule, image, image_len, vector, vector_len);
#if WRONG == IMAGE_BEFORE_LENGTH
    u8 due[LARGE];
    if (answer == BAD_CALL && kind <= 1 && mpm_vector(kind, rule, image, image_len, due, length_of(kind)) == BAD_IMAGE)
        return BAD_IMAGE;
#elif WRONG == CLEARS_AT_REFUSAL
    if (answer == BAD_IMAGE) fill_from(vector, vector_len, 0, 0);
#endif
    if (answer != 0) return answer;
#if WRONG == LOW_BIT_FIRST
    reverse(vector, vector_len);
#elif WRONG == SETS_BITS_FROM_N_ON
    fill_from(vector, vector_len, blocks_of(kind, image_len), 1);
#elif WRONG == KEEPS_OLD_BITS
    for (size i = 0; i < vector_len; i++) vector[i] |= before[i];
#elif WRONG == FORGETS_THE_DIRECTORY
    vector[0] &= 0x3F;
#endif
    return answer;
}
