/* An engine with one fault in what it makes of the rule of where a file ends. WRONG chooses the fault; those who are to
   see it are compiled to call wrong_call for mpm_call, wrong_singly for mpm_singly, wrong_start for mpm_start,
   wrong_check for mpm_check, wrong_look for mpm_look and wrong_vector for mpm_vector. The plain side has the same
   fault, so that only what the engine is compared with can tell. */

#include "wrong_call.h"

#define ALWAYS_MPM 1
#define LOCKS_BY_MPM 2
#define TAKES_A_BYTE_OF_2 3
#define LIST_BEFORE_IMAGE 4
#define STARTS_WITH_ANY_RULE 5
#define FORGETS_THE_RULE 6
#define CHECK_CUTS_THE_RULE 7
#define LOOKS_BY_MPM 8
#define BUILDS_BY_MPM 9

#ifndef WRONG
#define WRONG ALWAYS_MPM
#endif

enum { LOCK = 42, UNLOCK = 43, LIST = 1316, RULE = 1315, BAD_IMAGE = 255 + 256, BAD_LIST = 255 + 256 * 12 };

/* The byte that the engine takes for the list's. */
static u8 taken(u32 function, u8 byte) {
    if (WRONG == ALWAYS_MPM && byte == 1) return 0;
    if (WRONG == LOCKS_BY_MPM && byte == 1 && (function == LOCK || function == UNLOCK)) return 0;
    return WRONG == TAKES_A_BYTE_OF_2 && byte == 2 ? 0 : byte;
}

static u32 make(call *real, u32 kind, u32 function, u32 process, u32 count, u8 *fcb, size fcb_len, u8 *dma,
                size dma_len, u8 *list, size list_len, u8 *image, size image_len, u8 *vector, size vector_len) {
    u8 byte = list_len == LIST ? list[RULE] : 0;
    if (list_len == LIST) list[RULE] = taken(function, byte);
    u32 answer = real(kind, function, process, count, fcb, fcb_len, dma, dma_len, list, list_len, image, image_len,
                      vector, vector_len);
    if (list_len == LIST) list[RULE] = byte;
    return WRONG == LIST_BEFORE_IMAGE && answer == BAD_IMAGE && byte > 1 ? BAD_LIST : answer;
}

u32 wrong_start(u32 kind, u32 capacity, u32 open_limit, u32 lock_limit, u32 rule, const u8 *users, size users_len,
                u8 *list, size list_len) {
    if (WRONG == STARTS_WITH_ANY_RULE && rule > 1) rule = 0;
    if (WRONG == FORGETS_THE_RULE && rule == 1) rule = 0;
    return mpm_start(kind, capacity, open_limit, lock_limit, rule, users, users_len, list, list_len);
}

u32 wrong_check(u32 kind, u32 rule, const u8 *image, size image_len) {
    return mpm_check(kind, WRONG == CHECK_CUTS_THE_RULE ? rule % 256 : rule, image, image_len);
}

u32 wrong_look(u32 kind, u32 rule, u32 user, const u8 *name, size name_len, u32 record, const u8 *image,
               size image_len) {
    return mpm_look(kind, WRONG == LOOKS_BY_MPM ? 0 : rule, user, name, name_len, record, image, image_len);
}

u32 wrong_vector(u32 kind, u32 rule, const u8 *image, size image_len, u8 *vector, size vector_len) {
    return mpm_vector(kind, WRONG == BUILDS_BY_MPM ? 0 : rule, image, image_len, vector, vector_len);
}
