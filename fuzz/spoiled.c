/* The engine with one fault, chosen by SPOILED, for the fuzz test, the host's story and the desk's program to see:
   mpm_call is another name of spoiled_call, mpm_singly of spoiled_singly and mpm_check of spoiled_check, where they are
   compiled for it. */
#include <stdbool.h>
#include <string.h>

#include "mpm.h"

/* SHORT_FCB lends the engine an FCB without its last byte: AddressSanitizer in the engine's own code has to see it.
   Those from HIGH_BYTE_DROPPED on are faults of the kinds of drive, those from FIRST_ALONE on of runs: 33, 34 and 40 of
   more than one record; those from EARLIER_ENTRY on of the image check. */
enum {
    WRITES_AT_REFUSAL,
    LEAVES_LOCKS,
    NO_ZERO_FILL,
    SHORT_LOCK,
    WRONG_CODE,
    SHORT_FCB,
    OTHER_SINGLY,
    KEEPS_OWN_OPEN,    /* 19 leaves the caller's open and locks where they were */
    REFUSES_OWN_OPEN,  /* 19 refuses the caller's own open too */
    SIZE_OF_LAST,      /* 35 takes the file's highest entry for its highest extent */
    SIZE_BY_EX,        /* 35 leaves the module out */
    SIZE_BY_COUNT_0,   /* 35 takes the count of extent 0 */
    SIZE_IN_TWO_BYTES, /* 35 leaves FCB byte 35 as it was */
    NEXT_THE_SAME,     /* a search goes on at the entry that it has found */
    OTHER_USERS,       /* a search finds entries of every user */
    NO_FIRST_MARK,     /* "?" stands for nothing else in the first byte of a name */
    NEXT_RECORD,       /* a search gives the directory record behind the entry's */
    NOT_AT_THE_END,    /* a search in vain leaves the position as it was */
    ANOTHERS_POSITION, /* a search sets the next process's position */
    SEARCH_OUTLIVES,   /* 143 leaves the position as it was */
    EX_ALONE,          /* byte 12 not "?" admits each extent with an ex of 0 */
    POSITION_65,       /* takes a position of one more than the entries as the end */
    HIGH_BYTE_DROPPED, /* stores a block number of two bytes without the second */
    BLOCK_4097,        /* takes a large drive of 4,097 blocks */
    SIXTEEN_NUMBERS,   /* 33 reads a large drive's eight block numbers as sixteen of one byte */
    FREE_BY_EIGHT,     /* 46 tells eight times the free blocks of a large drive too */
    CLEARS_SEVEN,      /* 40 clears the other seven of the record's half of a large block */
    UNKNOWN_AS_LARGE,  /* takes an unknown kind as the large one */
    FIRST_ALONE,    /* does the first record and answers for it alone */
    NO_NUMBER,      /* does not tell how many were done */
    GOES_ON,        /* leaves out a refused record and does those after it */
    ALL_OR_NONE,    /* takes back what was done before a refused record */
    ONE_DMA_RECORD, /* has every record in DMA bytes 0 to 127 */
    CLEARS_AGAIN,   /* 40 clears a block at each record */
    MOVES_FCB,      /* leaves the FCB behind the last record done */
    EARLIER_ENTRY,     /* charges what is named twice to the first that names it */
    REPEAT_FIRST,      /* tells a block named before, where the entry has a number out of range too */
    EXTENT_0_IN_TURN,  /* tells a file lacking extent 0 in its entry's turn */
    LENGTH_OF_ENTRY_1  /* tells entry 1 for a wrong length */
};

/* The words of a call. */
struct lent {
    uint32_t kind, function, process, count;
    uint8_t *fcb;
    size_t fcb_len;
    uint8_t *dma;
    size_t dma_len;
    uint8_t *list;
    size_t list_len;
    uint8_t *image;
    size_t image_len;
    uint8_t *vector;
    size_t vector_len;
};

typedef uint32_t engine(uint32_t kind, uint32_t function, uint32_t process, uint32_t count, uint8_t *fcb,
                        size_t fcb_len, uint8_t *dma, size_t dma_len, uint8_t *list, size_t list_len, uint8_t *image,
                        size_t image_len, uint8_t *vector, size_t vector_len);
engine spoiled_call, spoiled_singly;

static uint32_t call(const struct lent *c) {
    return mpm_call(c->kind, c->function, c->process, c->count, c->fcb, c->fcb_len, c->dma, c->dma_len, c->list,
                    c->list_len, c->image, c->image_len, c->vector, c->vector_len);
}

static bool goes_by_records(uint32_t function) {
    return function == MPM_FN_READ || function == MPM_FN_WRITE || function == MPM_FN_WRITE_ZEROS;
}

static bool is_run(const struct lent *c) {
    return goes_by_records(c->function) && c->count > 1 && c->count <= MPM_MAX_COUNT && c->fcb_len == MPM_FCB_LEN &&
           c->dma_len == MPM_DMA_LEN && c->image_len <= MPM_LARGE_MAX_BLOCKS * MPM_LARGE_BLOCK_LEN;
}

static uint32_t record_of(const uint8_t *fcb) {
    const uint8_t *at = fcb + MPM_FCB_RECORD;
    return at[0] + 256u * at[1] + 65536u * at[2];
}

static void set_record(uint8_t *fcb, uint32_t record) {
    for (size_t i = 0; i < 3; i++) fcb[MPM_FCB_RECORD + i] = (uint8_t)(record >> (8 * i));
}

/* Where a record of the call's file is in the image, or 0. */
static uint32_t look(const struct lent *c, uint32_t record) {
    return mpm_look(c->kind, mpm_rule_of(c->list, c->list_len), c->list[MPM_LIST_USERS + c->process],
                    c->fcb + MPM_FCB_NAME, MPM_NAME_LEN, record, c->image, c->image_len);
}

/* ---- Faults of calls ---- */

static uint8_t *short_copy(const uint8_t *fcb) {
    static uint8_t copy[MPM_FCB_LEN - 1];
    return memcpy(copy, fcb, sizeof copy);
}

static void put_locks_back(uint8_t *list, const uint8_t *old) {
    for (size_t at = MPM_LIST_PLACES; at < MPM_LIST_POSITIONS; at += MPM_PLACE_LEN)
        if (old[at] == MPM_MARK_LOCK % 256u) memcpy(list + at, old + at, MPM_PLACE_LEN);
}

/* A Delete that would take the caller's open away: on copies, a Close goes through before it, and then the Delete. */
static bool refuses_own(struct lent c) {
    static uint8_t list[MPM_LIST_LEN], image[MPM_LARGE_MAX_BLOCKS * MPM_LARGE_BLOCK_LEN];
    static uint8_t vector[MPM_LARGE_VECTOR_LEN];
    if (c.function != MPM_FN_DELETE || c.list_len != sizeof list || c.image_len > sizeof image) return false;
    if (c.vector_len > sizeof vector) return false;
    memcpy(list, c.list, sizeof list);
    memcpy(image, c.image, c.image_len);
    memcpy(vector, c.vector, c.vector_len);
    c.list = list;
    c.image = image;
    c.vector = vector;
    c.function = MPM_FN_CLOSE;
    if (call(&c) != MPM_OK) return false;
    c.function = MPM_FN_DELETE;
    return call(&c) == MPM_OK;
}

static const uint8_t *entry_at(const uint8_t *image, uint32_t e) { return image + MPM_ENTRY_LEN * e; }

static bool is_named(const struct lent *c, const uint8_t *entry) {
    for (size_t i = 1; i <= MPM_NAME_LEN; i++)
        if ((entry[i] ^ c->fcb[i]) & 0x7F) return false;
    return entry[0] == c->list[MPM_LIST_USERS + c->process];
}

static uint32_t extent_of(const uint8_t *entry) { return entry[12] + 32u * entry[14]; }

/* What the bad ones make of an accepted 35. */
static uint32_t bad_size(const struct lent *c, uint8_t old) {
    const uint8_t *highest = 0, *last = 0, *first = 0;
    for (uint32_t e = 0; e < mpm_entries(c->kind); e++) {
        const uint8_t *entry = entry_at(c->image, e);
        if (!is_named(c, entry)) continue;
        last = entry;
        if (extent_of(entry) == 0) first = entry;
        if (!highest || extent_of(entry) > extent_of(highest)) highest = entry;
    }
    switch (SPOILED) {
    case SIZE_OF_LAST: return MPM_EXTENT_RECORDS * extent_of(last) + last[15];
    case SIZE_BY_EX: return MPM_EXTENT_RECORDS * highest[12] + highest[15];
    case SIZE_BY_COUNT_0: return MPM_EXTENT_RECORDS * extent_of(highest) + first[15];
    case SIZE_IN_TWO_BYTES: return record_of(c->fcb) % 65536u + 65536u * old;
    default: return record_of(c->fcb);
    }
}

/* ---- Faults of searches ---- */

static bool searches(uint32_t function) {
    return function == MPM_FN_SEARCH_FIRST || function == MPM_FN_SEARCH_NEXT;
}

static bool is_asked(const struct lent *c, const uint8_t *entry) {
    for (size_t i = 1; i <= MPM_NAME_LEN; i++) {
        bool any = (c->fcb[i] & 0x7F) == MPM_ANY && !(SPOILED == NO_FIRST_MARK && i == 1);
        if (!any && ((entry[i] ^ c->fcb[i]) & 0x7F)) return false;
    }
    return true;
}

static bool is_found(const struct lent *c, const uint8_t *entry) {
    uint32_t extent = SPOILED == EX_ALONE ? entry[12] : extent_of(entry);
    bool of_user = entry[0] == c->list[MPM_LIST_USERS + c->process] || SPOILED == OTHER_USERS;
    bool admitted = c->fcb[MPM_FCB_EXTENTS] == MPM_ANY || extent == 0;
    return entry[0] != MPM_EMPTY && of_user && admitted && is_asked(c, entry);
}

/* The search that was made well, made badly from what was there before. */
static uint32_t bad_search(const struct lent *c, const uint8_t *old_list, const uint8_t *old_dma) {
    uint8_t *position = c->list + MPM_LIST_POSITIONS + c->process;
    uint8_t old = old_list[MPM_LIST_POSITIONS + c->process];
    uint32_t entries = mpm_entries(c->kind), e = c->function == MPM_FN_SEARCH_NEXT ? old : 0;
    while (e < entries && !is_found(c, entry_at(c->image, e))) e++;
    memcpy(c->dma, old_dma, MPM_RECORD_LEN);
    *position = (uint8_t)(e < entries ? e + (SPOILED != NEXT_THE_SAME) : entries);
    if (SPOILED == NOT_AT_THE_END && e == entries) *position = old;
    if (SPOILED == ANOTHERS_POSITION) {
        c->list[MPM_LIST_POSITIONS + (c->process + 1) % MPM_PROCESSES] = *position;
        *position = old;
    }
    if (e == entries) return MPM_NO_MATCH;
    uint32_t record = e / MPM_RECORD_ENTRIES + (SPOILED == NEXT_RECORD);
    memcpy(c->dma, c->image + MPM_RECORD_LEN * record, MPM_RECORD_LEN);
    return MPM_FOUND(e % MPM_RECORD_ENTRIES);
}

/* A position of one too many is as good as the end; it stays where the call is refused for another reason. */
static uint32_t with_position_65(struct lent c) {
    uint8_t old[MPM_PROCESSES];
    if (c.kind >= MPM_KINDS || c.list_len != MPM_LIST_LEN) return call(&c);
    uint8_t *positions = c.list + MPM_LIST_POSITIONS;
    memcpy(old, positions, sizeof old);
    for (size_t p = 0; p < MPM_PROCESSES; p++)
        if (positions[p] == mpm_entries(c.kind) + 1) positions[p]--;
    uint32_t answer = call(&c);
    if (mpm_refused(c.function, answer)) memcpy(positions, old, sizeof old);
    return answer;
}

static uint32_t bad_call(struct lent c) {
    uint8_t old_dma[MPM_RECORD_LEN];
    uint8_t old[MPM_LIST_LEN], highest_byte = c.fcb_len == MPM_FCB_LEN ? c.fcb[MPM_FCB_LEN - 1] : 0;
    if (c.list_len == sizeof old) memcpy(old, c.list, sizeof old);
    if (c.dma_len == MPM_DMA_LEN) memcpy(old_dma, c.dma, sizeof old_dma);
    if (SPOILED == POSITION_65) return with_position_65(c);
    if (SPOILED == REFUSES_OWN_OPEN && refuses_own(c)) return MPM_ERR_IN_USE;
    if (SPOILED == NO_ZERO_FILL && c.function == MPM_FN_WRITE_ZEROS) c.function = MPM_FN_WRITE;
    if (SPOILED == SHORT_LOCK && c.function == MPM_FN_LOCK && c.count == MPM_MAX_COUNT) c.count--;
    if (SPOILED == SHORT_FCB && c.function == MPM_FN_READ && c.fcb_len == MPM_FCB_LEN) c.fcb = short_copy(c.fcb);
    uint32_t answer = call(&c);
    if (SPOILED == WRITES_AT_REFUSAL && answer == MPM_ERR_LOCKED) c.dma[MPM_DMA_LEN - 1] ^= 1;
    if (searches(c.function) && !mpm_refused(c.function, answer)) answer = bad_search(&c, old, old_dma);
    if (SPOILED == SEARCH_OUTLIVES && c.function == MPM_FN_TERMINATE && answer == MPM_OK)
        c.list[MPM_LIST_POSITIONS + c.process] = old[MPM_LIST_POSITIONS + c.process];
    if (c.function == MPM_FN_SIZE && answer == MPM_OK) set_record(c.fcb, bad_size(&c, highest_byte));
    if (SPOILED == LEAVES_LOCKS && c.function == MPM_FN_CLOSE && answer == MPM_OK) put_locks_back(c.list, old);
    if (SPOILED == KEEPS_OWN_OPEN && c.function == MPM_FN_DELETE && answer == MPM_OK) memcpy(c.list, old, sizeof old);
    if (SPOILED == WRONG_CODE && c.function == MPM_FN_READ && answer == MPM_ERR_PAST_END) answer = MPM_ERR_NO_EXTENT;
    return answer;
}

/* ---- Faults of the kinds, each in place of a call ---- */

/* What is good in a call but for the image and the list: then the record and the user can be read. */
static bool is_readable(const struct lent *c) {
    return c->fcb_len == MPM_FCB_LEN && c->dma_len == MPM_DMA_LEN && c->list_len == MPM_LIST_LEN &&
           c->process < MPM_PROCESSES && c->count >= 1 && c->count <= MPM_MAX_COUNT;
}

static bool is_sound_large(const struct lent *c) {
    return c->kind == MPM_KIND_LARGE && mpm_check(c->kind, MPM_RULE_MPM, c->image, c->image_len) == MPM_CHECK_SOUND;
}

/* Of the numbers that the call has given. */
static uint32_t high_byte_dropped(struct lent c) {
    static uint8_t old[MPM_DIRECTORY_BLOCKS * MPM_LARGE_BLOCK_LEN];
    if (!is_sound_large(&c)) return call(&c);
    memcpy(old, c.image, sizeof old);
    uint32_t answer = call(&c);
    if (c.function != MPM_FN_WRITE && c.function != MPM_FN_WRITE_ZEROS) return answer;
    for (size_t at = 0; at < sizeof old; at += MPM_LARGE_NUMBER_LEN)
        if (at % MPM_ENTRY_LEN >= MPM_ENTRY_LEN - MPM_MAP_LEN && c.image[at + 1] != old[at + 1]) c.image[at + 1] = 0;
    return answer;
}

static uint32_t block_4097(struct lent c) {
    if (c.kind == MPM_KIND_LARGE && c.image_len == (MPM_LARGE_MAX_BLOCKS + 1) * MPM_LARGE_BLOCK_LEN)
        c.image_len -= MPM_LARGE_BLOCK_LEN;
    return call(&c);
}

/* A record in the second half of a block has the number's high byte for its own: 0, no block, below 256. */
static bool has_no_byte(const struct lent *c, uint32_t record) {
    uint32_t at = look(c, record);
    return at != 0 && record % MPM_LARGE_BLOCK_RECORDS >= MPM_SMALL_BLOCK_RECORDS && at / MPM_LARGE_BLOCK_LEN < 256;
}

static uint32_t sixteen_numbers(struct lent c) {
    uint8_t old[MPM_RECORD_LEN];
    uint32_t i = 0;
    if (!is_readable(&c) || !is_sound_large(&c) || c.function != MPM_FN_READ) return call(&c);
    while (i < c.count && !has_no_byte(&c, record_of(c.fcb) + i)) i++;
    if (i == c.count) return call(&c);
    memcpy(old, c.dma + MPM_DMA_AT(i), sizeof old);
    c.count = i + 1;
    uint32_t answer = call(&c);
    if (answer != MPM_OK) return answer;
    memcpy(c.dma + MPM_DMA_AT(i), old, sizeof old);
    return MPM_ERR_NO_BLOCK + MPM_ANSWER(0u, 16u * i);
}

static uint32_t free_by_eight(struct lent c) {
    uint32_t answer = call(&c);
    if (answer != MPM_OK || c.kind != MPM_KIND_LARGE || c.function != MPM_FN_FREE_SPACE) return answer;
    uint32_t records =
        (c.dma[0] + 256u * c.dma[1] + 65536u * c.dma[2]) / MPM_LARGE_BLOCK_RECORDS * MPM_SMALL_BLOCK_RECORDS;
    for (size_t i = 0; i < 3; i++) c.dma[MPM_DMA_FREE + i] = (uint8_t)(records >> (8 * i));
    return answer;
}

/* Of one record: 34 in place of 40, and then the half of a block that it took. */
static uint32_t clears_seven(struct lent c) {
    enum { HALF = MPM_LARGE_BLOCK_LEN / 2 };
    if (c.function != MPM_FN_WRITE_ZEROS || c.count != 1 || !is_readable(&c) || !is_sound_large(&c)) return call(&c);
    bool was_there = look(&c, record_of(c.fcb)) != 0;
    c.function = MPM_FN_WRITE;
    uint32_t answer = call(&c);
    if (was_there || answer != MPM_OK) return answer;
    uint32_t at = look(&c, record_of(c.fcb));
    uint8_t *half = c.image + at - at % HALF;
    for (uint32_t i = 0; i < HALF; i++)
        if (i / MPM_RECORD_LEN != at % HALF / MPM_RECORD_LEN) half[i] = 0;
    return answer;
}

static uint32_t unknown_as_large(struct lent c) {
    if (c.kind >= MPM_KINDS) c.kind = MPM_KIND_LARGE;
    return call(&c);
}

/* ---- Faults of runs, each in place of a run's call ---- */

static uint32_t first_alone(struct lent c) {
    c.count = 1;
    return call(&c);
}

/* The run's records from one of them on, by a call of their own. Gives how many were done. */
static uint32_t do_from(struct lent c, uint32_t i) {
    uint8_t fcb[MPM_FCB_LEN], dma[MPM_DMA_LEN] = {0}, *lent = c.dma;
    memcpy(fcb, c.fcb, sizeof fcb);
    set_record(fcb, record_of(fcb) + i);
    memcpy(dma, lent + MPM_DMA_AT(i), sizeof dma - MPM_DMA_AT(i));
    c.fcb = fcb;
    c.dma = dma;
    c.count -= i;
    uint32_t done = mpm_done(call(&c), c.count);
    memcpy(lent + MPM_DMA_AT(i), dma, sizeof dma - MPM_DMA_AT(i));
    return done;
}

static uint32_t goes_on(struct lent c) {
    uint32_t answer = call(&c), i = mpm_done(answer, c.count) + 1;
    while (i < c.count) i += do_from(c, i) + 1;
    return answer;
}

static uint32_t all_or_none(struct lent c) {
    static uint8_t dma[MPM_DMA_LEN], image[MPM_LARGE_MAX_BLOCKS * MPM_LARGE_BLOCK_LEN];
    static uint8_t vector[MPM_LARGE_VECTOR_LEN];
    if (c.vector_len > sizeof vector) return call(&c);
    memcpy(dma, c.dma, c.dma_len);
    memcpy(image, c.image, c.image_len);
    memcpy(vector, c.vector, c.vector_len);
    uint32_t answer = call(&c);
    if (answer == MPM_OK) return answer;
    memcpy(c.dma, dma, c.dma_len);
    memcpy(c.image, image, c.image_len);
    memcpy(c.vector, vector, c.vector_len);
    return answer;
}

static uint32_t one_dma_record(struct lent c) {
    uint8_t dma[MPM_DMA_LEN], *lent = c.dma;
    for (uint32_t i = 0; i < MPM_MAX_COUNT; i++) memcpy(dma + MPM_DMA_AT(i), lent, MPM_RECORD_LEN);
    c.dma = dma;
    uint32_t answer = call(&c), done = mpm_done(answer, c.count);
    if (done > 0) memcpy(lent, dma + MPM_DMA_AT(done - 1), MPM_RECORD_LEN);
    return answer;
}

/* Of the records done in a block the last one stays. */
static uint32_t clears_again(struct lent c) {
    uint8_t kept[MPM_RECORD_LEN];
    uint32_t answer = call(&c), done = mpm_done(answer, c.count), first = record_of(c.fcb);
    if (c.function != MPM_FN_WRITE_ZEROS) return answer;
    for (uint32_t i = 0; i < done; i++) {
        if (i + 1 < done && (first + i + 1) % mpm_block_records(c.kind) != 0) continue;
        uint32_t at = look(&c, first + i);
        memcpy(kept, c.image + at, sizeof kept);
        memset(c.image + at - at % mpm_block_len(c.kind), 0, mpm_block_len(c.kind));
        memcpy(c.image + at, kept, sizeof kept);
    }
    return answer;
}

static uint32_t moves_fcb(struct lent c) {
    uint32_t answer = call(&c);
    set_record(c.fcb, record_of(c.fcb) + mpm_done(answer, c.count));
    return answer;
}

static uint32_t bad_kind(const struct lent *c) {
    switch (SPOILED) {
    case HIGH_BYTE_DROPPED: return high_byte_dropped(*c);
    case BLOCK_4097: return block_4097(*c);
    case SIXTEEN_NUMBERS: return sixteen_numbers(*c);
    case FREE_BY_EIGHT: return free_by_eight(*c);
    case CLEARS_SEVEN: return clears_seven(*c);
    case UNKNOWN_AS_LARGE: return unknown_as_large(*c);
    default: return bad_call(*c);
    }
}

static uint32_t bad_run(const struct lent *c) {
    switch (SPOILED) {
    case FIRST_ALONE: return first_alone(*c);
    case NO_NUMBER: return mpm_code(call(c));
    case GOES_ON: return goes_on(*c);
    case ALL_OR_NONE: return all_or_none(*c);
    case ONE_DMA_RECORD: return one_dma_record(*c);
    case CLEARS_AGAIN: return clears_again(*c);
    case MOVES_FCB: return moves_fcb(*c);
    default: return bad_kind(c);
    }
}

/* ---- Faults of the image check ---- */

static uint32_t number_at(uint32_t kind, const uint8_t *entry, uint32_t k) {
    const uint8_t *map = entry + MPM_ENTRY_LEN - MPM_MAP_LEN;
    return kind == MPM_KIND_SMALL ? map[k] : map[2 * k] + 256u * map[2 * k + 1];
}

static bool is_same_file(const uint8_t *a, const uint8_t *b) {
    for (size_t i = 1; i <= MPM_NAME_LEN; i++)
        if ((a[i] ^ b[i]) & 0x7F) return false;
    return a[0] == b[0];
}

static bool is_same_extent(const uint8_t *a, const uint8_t *b) { return a[12] == b[12] && a[14] == b[14]; }

/* An entry names a block of the other one's; of itself, twice. */
static bool shares_block(uint32_t kind, const uint8_t *a, const uint8_t *b) {
    for (uint32_t i = 0; i < mpm_numbers(kind); i++)
        for (uint32_t k = 0; k < (a == b ? i : mpm_numbers(kind)); k++)
            if (number_at(kind, a, i) != 0 && number_at(kind, a, i) == number_at(kind, b, k)) return true;
    return false;
}

static uint32_t earlier_entry(uint32_t kind, const uint8_t *image, uint32_t check) {
    uint32_t code = mpm_check_code(check);
    const uint8_t *bad = entry_at(image, mpm_check_entry(check));
    for (uint32_t e = 0; e < mpm_check_entry(check); e++) {
        const uint8_t *at = entry_at(image, e);
        bool first = code == MPM_CHECK_BLOCK_TWICE    ? shares_block(kind, at, bad)
                     : code == MPM_CHECK_EXTENT_TWICE ? is_same_file(at, bad) && is_same_extent(at, bad)
                                                      : false;
        if (at[0] != MPM_EMPTY && first) return code + 256u * e;
    }
    return check;
}

static uint32_t repeat_first(uint32_t kind, const uint8_t *image, uint32_t check) {
    uint32_t bad = mpm_check_entry(check);
    if (mpm_check_code(check) != MPM_CHECK_BLOCK_RANGE) return check;
    for (uint32_t e = 0; e <= bad; e++)
        if (entry_at(image, e)[0] != MPM_EMPTY && shares_block(kind, entry_at(image, bad), entry_at(image, e)))
            return MPM_CHECK_BLOCK_TWICE + 256u * bad;
    return check;
}

static uint32_t extent_0_in_turn(uint32_t kind, const uint8_t *image, uint32_t check) {
    for (uint32_t e = 0; e < mpm_check_entry(check); e++) {
        const uint8_t *at = entry_at(image, e), *first = image;
        const uint8_t *end = entry_at(image, mpm_entries(kind));
        while (first < end && !(is_same_file(first, at) && first[12] == 0 && first[14] == 0)) first += MPM_ENTRY_LEN;
        if (at[0] != MPM_EMPTY && first == end) return MPM_CHECK_NO_EXTENT_0 + 256u * e;
    }
    return check;
}

uint32_t spoiled_check(uint32_t kind, uint32_t rule, const uint8_t *image, size_t image_len);

uint32_t spoiled_check(uint32_t kind, uint32_t rule, const uint8_t *image, size_t image_len) {
    uint32_t check = mpm_check(kind, rule, image, image_len);
    if (check == MPM_CHECK_SOUND) return check;
    if (check == MPM_CHECK_WRONG_LENGTH) return SPOILED == LENGTH_OF_ENTRY_1 ? check + 256u : check;
    switch (SPOILED) {
    case EARLIER_ENTRY: return earlier_entry(kind, image, check);
    case REPEAT_FIRST: return repeat_first(kind, image, check);
    case EXTENT_0_IN_TURN: return extent_0_in_turn(kind, image, check);
    default: return check;
    }
}

/* ---- The two engines ---- */

uint32_t spoiled_call(uint32_t kind, uint32_t function, uint32_t process, uint32_t count, uint8_t *fcb, size_t fcb_len,
                      uint8_t *dma, size_t dma_len, uint8_t *list, size_t list_len, uint8_t *image, size_t image_len,
                      uint8_t *vector, size_t vector_len) {
    struct lent c = {kind,    function, process,  count, fcb,       fcb_len, dma,
                     dma_len, list,     list_len, image, image_len, vector,  vector_len};
    return is_run(&c) ? bad_run(&c) : bad_kind(&c);
}

/* As bad as the other, so that nothing is seen by holding the two together; with OTHER_SINGLY it alone is bad. */
uint32_t spoiled_singly(uint32_t kind, uint32_t function, uint32_t process, uint32_t count, uint8_t *fcb,
                        size_t fcb_len, uint8_t *dma, size_t dma_len, uint8_t *list, size_t list_len, uint8_t *image,
                        size_t image_len, uint8_t *vector, size_t vector_len) {
    uint32_t answer = spoiled_call(kind, function, process, count, fcb, fcb_len, dma, dma_len, list, list_len, image,
                                   image_len, vector, vector_len);
    return goes_by_records(function) && SPOILED != OTHER_SINGLY ? mpm_code(answer) : answer;
}
