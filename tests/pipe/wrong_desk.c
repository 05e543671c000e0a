/* An engine with one fault in a function of the desk. WRONG chooses the fault; those who are to see it are compiled to
   call wrong_salvage for mpm_salvage, wrong_pack for mpm_pack and wrong_same for mpm_same. */

typedef unsigned char u8;
typedef unsigned int u32;
typedef __SIZE_TYPE__ size;

#define DOES_NOTHING 1
#define REPORT_ONE_OFF 2
#define BYTE_1_TOO 3
#define WRONG_LENGTH_TOUCHED 4
#define WRITES_BEHIND_THE_REPORT 5
#define WRITES_BEFORE_THE_IMAGE 6
#define LAST_ENTRY_LEFT_OUT 7
#define CRASHES 8
/* Of packing: */
#define PACKS_NOTHING 9
#define LAST_BLOCK_LEFT 10
#define EMPTY_IN_BYTE_0 11
#define CHANGES_THE_IMAGE 12
#define WRITES_BEHIND_THE_PACKED 13
#define PACKS_WHILE_OPEN 14
#define ENDS_SEARCHES 15
#define POSITIONS_FREE 16
/* Of two images: */
#define ALL_THE_SAME 17
#define LENGTHS_COUNT 18
#define SECOND_FIRST 19
#define FIRST_RECORD_FREE 20
#define ATTRIBUTES_FREE 21

#ifndef WRONG
#define WRONG DOES_NOTHING
#endif

enum { ENTRY = 32, EMPTIED = 255, EMPTY = 0xE5 };
enum { BAD_FIRST = 1, BAD_SECOND = 2, DIFFERENT = 3 };
enum { LIST = 1316, HEAD = 19, POSITIONS = 1299 };
enum { IN_USE = 255 + 256 * 5, BAD_LIST = 255 + 256 * 12, REFUSED = 255 + 256 * 13 };

u32 mpm_salvage(u32 kind, u32 rule, u8 *image, size image_len, u8 *report, size report_len);
u32 wrong_salvage(u32 kind, u32 rule, u8 *image, size image_len, u8 *report, size report_len);
u32 mpm_pack(u32 kind, const u8 *image, size image_len, const u8 *list, size list_len, u8 *packed,
             size packed_len);
u32 wrong_pack(u32 kind, const u8 *image, size image_len, const u8 *list, size list_len, u8 *packed,
               size packed_len);

u32 mpm_same(u32 kind, const u8 *first, size first_len, const u8 *second, size second_len);
u32 wrong_same(u32 kind, const u8 *first, size first_len, const u8 *second, size second_len);

static void spoil(u8 *image, u8 *report, size entries) {
    (void)image, (void)report, (void)entries;
#if WRONG == REPORT_ONE_OFF
    for (size i = 0; i + 1 < entries; i++) report[i] = report[i + 1];
#elif WRONG == BYTE_1_TOO
    for (size i = 0; i < entries; i++)
        if (report[i] == EMPTIED) image[ENTRY * i + 1] = ' ';
#elif WRONG == WRITES_BEHIND_THE_REPORT
    report[entries] = 0;
#elif WRONG == WRITES_BEFORE_THE_IMAGE
    image[-1] ^= 1;
#elif WRONG == CRASHES
    __builtin_trap();
#endif
}

u32 wrong_salvage(u32 kind, u32 rule, u8 *image, size image_len, u8 *report, size report_len) {
    if (WRONG == DOES_NOTHING) return image_len % 1024 != 0;
    u8 last = report_len == 64 && image_len >= 2048 ? image[2016] : 0;
    u32 answer = mpm_salvage(kind, rule, image, image_len, report, report_len);
    if (answer == 0) spoil(image, report, report_len);
    if (answer == 0 && WRONG == LAST_ENTRY_LEFT_OUT && report_len == 64) image[2016] = last;
    if (answer == 1 && WRONG == WRONG_LENGTH_TOUCHED && image_len > 0) image[0] ^= 1;
    return answer;
}

static void spoil_packed(u32 kind, u8 *image, u8 *list, u8 *packed, size packed_len) {
    (void)kind, (void)image, (void)list, (void)packed, (void)packed_len;
#if WRONG == LAST_BLOCK_LEFT
    packed[packed_len - 1] = 0x55;
#elif WRONG == EMPTY_IN_BYTE_0
    for (size at = 0; at < 2048; at += ENTRY)
        for (size i = 1; i < ENTRY && packed[at] == EMPTY; i++) packed[at + i] = image[at + i];
#elif WRONG == CHANGES_THE_IMAGE
    for (size i = 0; i < 2048; i++) image[i] = packed[i];
#elif WRONG == WRITES_BEHIND_THE_PACKED
    packed[packed_len] = 0;
#elif WRONG == ENDS_SEARCHES
    for (size i = POSITIONS; i < LIST; i++) list[i] = kind == 0 ? 64 : 128;
#endif
}

/* The list with zeros from one byte on to another: no items, or every search at its beginning. */
static const u8 *cleared(const u8 *list, size from, size to) {
    static u8 copy[LIST];
    for (size i = 0; i < LIST; i++) copy[i] = i >= from && i < to ? 0 : list[i];
    return copy;
}

u32 wrong_pack(u32 kind, const u8 *image, size image_len, const u8 *list, size list_len, u8 *packed,
               size packed_len) {
    if (WRONG == PACKS_NOTHING) return image_len == packed_len && list_len == LIST ? 0 : (u32)REFUSED;
    u32 answer = mpm_pack(kind, image, image_len, list, list_len, packed, packed_len);
    if (answer == IN_USE && WRONG == PACKS_WHILE_OPEN)
        answer = mpm_pack(kind, image, image_len, cleared(list, HEAD, POSITIONS), list_len, packed, packed_len);
    if (answer == BAD_LIST && WRONG == POSITIONS_FREE)
        answer = mpm_pack(kind, image, image_len, cleared(list, POSITIONS, LIST), list_len, packed, packed_len);
    if (answer == 0) spoil_packed(kind, (u8 *)image, (u8 *)list, packed, packed_len);
    return answer;
}

/* A copy of an image without what the bad ones do not look at: the first data record of each block, or the high bits of
   names. */
static const u8 *blurred(u8 *copy, const u8 *image, size length, size block) {
    size directory = 2 * block;
    for (size i = 0; i < length; i++) copy[i] = image[i];
    for (size i = directory; i < length && WRONG == FIRST_RECORD_FREE; i++)
        if (i % block < 128) copy[i] = 0;
    for (size i = 0; i < directory && i < length && WRONG == ATTRIBUTES_FREE; i++)
        if (i % ENTRY >= 1 && i % ENTRY <= 11 && image[i - i % ENTRY] != EMPTY) copy[i] &= 0x7F;
    return copy;
}

u32 wrong_same(u32 kind, const u8 *first, size first_len, const u8 *second, size second_len) {
    static u8 one[4098 * 2048], other[4098 * 2048];
    u32 answer = mpm_same(kind, first, first_len, second, second_len);
    size block = kind == 0 ? 1024 : 2048;
    switch (WRONG) {
    case ALL_THE_SAME: return answer == DIFFERENT ? 0 : answer;
    case LENGTHS_COUNT: return answer == 0 && first_len != second_len ? DIFFERENT : answer;
    case SECOND_FIRST:
        return answer == BAD_FIRST && mpm_same(kind, second, second_len, second, second_len) != 0 ? BAD_SECOND : answer;
    case FIRST_RECORD_FREE: case ATTRIBUTES_FREE:
        if (answer != DIFFERENT) return answer;
        return mpm_same(kind, blurred(one, first, first_len, block), first_len,
                        blurred(other, second, second_len, block), second_len);
    default: return answer;
    }
}
