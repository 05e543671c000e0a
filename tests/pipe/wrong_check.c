/* An engine whose image check is wrong about the bad entry. WRONG chooses the fault; pipe.c is compiled to call
   wrong_check for mpm_check. */

typedef unsigned char u8;
typedef unsigned int u32;
typedef __SIZE_TYPE__ size;

#define CHARGES_THE_EARLIER_ENTRY 1
#define TELLS_6_BEFORE_5 2
#define TELLS_8_IN_TURN 3
#define TELLS_ENTRY_1_FOR_A_LENGTH 4
#define TELLS_ONE_CODE 5

#ifndef WRONG
#define WRONG CHARGES_THE_EARLIER_ENTRY
#endif

enum { ENTRY = 32, MAP = 16, EMPTY = 0xE5 };
enum { LENGTH = 1, RANGE = 5, BLOCK_TWICE = 6, EXTENT_TWICE = 7, NO_EXTENT_0 = 8 };

u32 mpm_check(u32 kind, u32 rule, const u8 *image, size image_len);
u32 wrong_check(u32 kind, u32 rule, const u8 *image, size image_len);

static u32 numbers(u32 kind) { return kind == 0 ? 16 : 8; }

static u32 number(u32 kind, const u8 *entry, u32 k) {
    return kind == 0 ? entry[MAP + k] : entry[MAP + 2 * k] + 256u * entry[MAP + 2 * k + 1];
}

static int same_file(const u8 *a, const u8 *b) {
    for (u32 i = 1; i < 12; i++)
        if ((a[i] ^ b[i]) & 0x7F) return 0;
    return a[0] == b[0];
}

/* One of the numbers of the two is the same; of an entry and itself, two of its own are. */
static int share_a_block(u32 kind, const u8 *a, const u8 *b) {
    for (u32 i = 0; i < numbers(kind); i++)
        for (u32 k = 0; k < (a == b ? i : numbers(kind)); k++)
            if (number(kind, a, i) != 0 && number(kind, a, i) == number(kind, b, k)) return 1;
    return 0;
}

/* What it tells in place of a code, 2 to 8, and an entry. */
static u32 told(u32 kind, const u8 *image, u32 code, u32 bad) {
    for (u32 e = 0; e <= bad; e++) {
        const u8 *at = image + ENTRY * e, *of = image + ENTRY * bad;
        if (at[0] == EMPTY) continue;
#if WRONG == CHARGES_THE_EARLIER_ENTRY
        if (code == BLOCK_TWICE && share_a_block(kind, at, of)) return code + 256u * e;
        if (code == EXTENT_TWICE && same_file(at, of) && at[12] == of[12] && at[14] == of[14])
            return code + 256u * e;
#elif WRONG == TELLS_6_BEFORE_5
        if (code == RANGE && share_a_block(kind, at, of)) return BLOCK_TWICE + 256u * bad;
#elif WRONG == TELLS_8_IN_TURN
        u32 entries = kind == 0 ? 64 : 128, first = 0;
        while (first < entries && !(same_file(image + ENTRY * first, at) && image[ENTRY * first + 12] == 0 &&
                                    image[ENTRY * first + 14] == 0))
            first++;
        if (e < bad && first == entries) return NO_EXTENT_0 + 256u * e;
#endif
        (void)of, (void)same_file, (void)share_a_block, (void)kind;
    }
    return WRONG == TELLS_ONE_CODE ? 2 : code + 256u * bad;
}

u32 wrong_check(u32 kind, u32 rule, const u8 *image, size image_len) {
    u32 check = mpm_check(kind, rule, image, image_len);
    if (check == LENGTH) return WRONG == TELLS_ENTRY_1_FOR_A_LENGTH ? LENGTH + 256u : LENGTH;
    return check == 0 ? 0 : told(kind, image, check % 256, check / 256);
}
