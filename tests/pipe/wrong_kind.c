/* An engine with one fault in what it makes of the kind of drive. WRONG chooses the fault; pipe.c is
   compiled to call these for the engine's functions, the plain side too, so that only the reference
   can tell. */

#include "wrong_call.h"

#define TAKES_AN_UNKNOWN_KIND_AS_1 1
#define TAKES_THE_KIND_FROM_THE_LENGTH 2
#define CUTS_THE_KIND_TO_A_BYTE 3
#define TAKES_4097_BLOCKS 4
#define TELLS_EIGHT_RECORDS_TO_A_BLOCK 5
#define CLEARS_SEVEN_RECORDS 6
#define LOOKS_AT_THE_LOW_BYTE 7
#define STARTS_FOR_AN_UNKNOWN_KIND 8
#define CHECKS_AN_UNKNOWN_KIND 9
#define SPOILS_A_FAR_BLOCK 10
#define STARTS_SEARCHES_AT_64 11
#define ENDS_SEARCHES_AT_64 12

#ifndef WRONG
#define WRONG TAKES_AN_UNKNOWN_KIND_AS_1
#endif

enum { SEARCH_FIRST = 17, SEARCH_NEXT = 18, NO_MATCH = 255, POSITIONS = 1299 };
enum { WRITE_ZEROS = 40, FREE_SPACE = 46, BLOCK = 2048, RECORD = 128, LEAST = 257, MOST = 4096 };

/* The kind and the length that the engine takes for those told. */
static u32 taken_kind(u32 kind, size image_len) {
    (void)image_len;
#if WRONG == TAKES_AN_UNKNOWN_KIND_AS_1
    return kind == 0 ? 0 : 1;
#elif WRONG == TAKES_THE_KIND_FROM_THE_LENGTH
    if (kind > 1) return kind;
    return image_len >= (size)BLOCK * LEAST;
#elif WRONG == CUTS_THE_KIND_TO_A_BYTE
    return kind % 256;
#else
    return kind;
#endif
}

static size taken_length(u32 kind, size image_len) {
#if WRONG == TAKES_4097_BLOCKS
    if (kind == 1 && image_len == (size)BLOCK * (MOST + 1)) return (size)BLOCK * MOST;
#endif
    (void)kind;
    return image_len;
}

#if WRONG == CLEARS_SEVEN_RECORDS
/* A record of zeros in the upper half of the last block gets back what an empty drive has. */
static void spoil_zeros(u8 *image, size image_len) {
    for (size at = image_len - BLOCK / 2; at < image_len; at++)
        if (image[at] == 0) image[at] = 0xE5;
}
#endif

#if WRONG == ENDS_SEARCHES_AT_64
static void end_search_at_64(u32 kind, u32 function, u32 process, u32 answer, u8 *list) {
    if (kind != 1 || (function != SEARCH_FIRST && function != SEARCH_NEXT)) return;
    if (answer == NO_MATCH) list[POSITIONS + process] = 64;
}
#endif

/* Of 40 and 46, of which 0 is the only answer that is no refusal. */
static void do_wrong(u32 kind, u32 function, u32 answer, u8 *dma, u8 *image, size image_len) {
    (void)dma, (void)image, (void)image_len;
    if (kind != 1 || answer != 0) return;
#if WRONG == TELLS_EIGHT_RECORDS_TO_A_BLOCK
    if (function == FREE_SPACE) {
        u32 records = dma[0] + 256u * dma[1] + 65536u * dma[2];
        for (u32 i = 0; i < 3; i++) dma[i] = (u8)(records / 2 >> (8 * i));
    }
#elif WRONG == CLEARS_SEVEN_RECORDS
    if (function == WRITE_ZEROS) spoil_zeros(image, image_len);
#elif WRONG == SPOILS_A_FAR_BLOCK
    if (function == FREE_SPACE) image[image_len - 1] ^= 1;
#endif
    (void)function;
}

static u32 make(call *real, u32 kind, u32 function, u32 process, u32 count, u8 *fcb, size fcb_len,
                u8 *dma, size dma_len, u8 *list, size list_len, u8 *image, size image_len, u8 *vector,
                size vector_len) {
    size length = taken_length(kind, image_len);
    u32 answer = real(taken_kind(kind, image_len), function, process, count, fcb, fcb_len, dma,
                      dma_len, list, list_len, image, length, vector, vector_len);
    do_wrong(kind, function, answer, dma, image, length);
#if WRONG == ENDS_SEARCHES_AT_64
    end_search_at_64(kind, function, process, answer, list);
#endif
    return answer;
}

u32 wrong_start(u32 kind, u32 capacity, u32 open_limit, u32 lock_limit, u32 rule,
                const u8 *users, size users_len, u8 *list, size list_len) {
#if WRONG == STARTS_FOR_AN_UNKNOWN_KIND
    if (kind > 1) kind = 0;
#elif WRONG == STARTS_SEARCHES_AT_64
    if (kind == 1) kind = 0;
#endif
    return mpm_start(kind, capacity, open_limit, lock_limit, rule, users, users_len, list,
                     list_len);
}

u32 wrong_check(u32 kind, u32 rule, const u8 *image, size image_len) {
#if WRONG == CHECKS_AN_UNKNOWN_KIND
    if (kind > 1) kind = image_len >= (size)BLOCK * LEAST;
#endif
    return mpm_check(kind, rule, image, image_len);
}

u32 wrong_look(u32 kind, u32 rule, u32 user, const u8 *name, size name_len, u32 record,
               const u8 *image, size image_len) {
    u32 at = mpm_look(kind, rule, user, name, name_len, record, image, image_len);
#if WRONG == LOOKS_AT_THE_LOW_BYTE
    if (kind == 1) at %= 256u * BLOCK;
#endif
    return at;
}
