/* mpm.h by itself, as C and as C++: it can be included first and twice, its functions have the types that a host relies
   on, its sizes fit together for each kind of drive, no length of an image is one of both kinds, no two kinds,
   functions or answers have the same number but Make's 255/0, no two codes of the image check have and no two answers
   of salvage or of comparing, what salvage's report says is no number of block numbers, and the answers leave the high
   four bits of H free.
   Compiled, never run; what the helpers do is tried by helpers.c. */

#include "mpm.h"
#include "mpm.h"

#if MPM_VERSION != 8
#error "the checks below are those of version 8"
#endif

typedef uint32_t call_type(uint32_t, uint32_t, uint32_t, uint32_t, uint8_t *, size_t, uint8_t *, size_t, uint8_t *,
                           size_t, uint8_t *, size_t, uint8_t *, size_t);
typedef uint32_t vector_type(uint32_t, uint32_t, const uint8_t *, size_t, uint8_t *, size_t);
typedef uint32_t start_type(uint32_t, uint32_t, uint32_t, uint32_t, uint32_t, const uint8_t *, size_t, uint8_t *,
                            size_t);
typedef uint32_t check_type(uint32_t, uint32_t, const uint8_t *, size_t);
typedef uint32_t look_type(uint32_t, uint32_t, uint32_t, const uint8_t *, size_t, uint32_t, const uint8_t *, size_t);
typedef uint32_t salvage_type(uint32_t, uint32_t, uint8_t *, size_t, uint8_t *, size_t);
typedef uint32_t pack_type(uint32_t, const uint8_t *, size_t, const uint8_t *, size_t, uint8_t *, size_t);
typedef uint32_t same_type(uint32_t, const uint8_t *, size_t, const uint8_t *, size_t);
typedef uint32_t book_call_type(struct mpm_book *, uint32_t, uint32_t, uint32_t, uint8_t *, uint8_t *);
typedef uint32_t book_vector_type(struct mpm_book *);

extern call_type *const header_call;
extern call_type *const header_singly;
extern vector_type *const header_vector;
extern start_type *const header_start;
extern check_type *const header_check;
extern look_type *const header_look;
extern salvage_type *const header_salvage;
extern pack_type *const header_pack;
extern same_type *const header_same;
extern book_call_type *const header_book_call;
extern book_vector_type *const header_book_vector;
call_type *const header_call = mpm_call;
call_type *const header_singly = mpm_singly;
vector_type *const header_vector = mpm_vector;
start_type *const header_start = mpm_start;
check_type *const header_check = mpm_check;
look_type *const header_look = mpm_look;
salvage_type *const header_salvage = mpm_salvage;
pack_type *const header_pack = mpm_pack;
same_type *const header_same = mpm_same;
book_call_type *const header_book_call = mpm_book_call;
book_vector_type *const header_book_vector = mpm_book_vector;

/* An array type cannot have a negative size. */
#define HOLDS(name, condition) typedef char name[(condition) ? 1 : -1]

HOLDS(byte_is_one, sizeof(uint8_t) == 1 && sizeof(uint32_t) == 4 && sizeof(size_t) == sizeof(void *));
HOLDS(places_fit, MPM_LIST_PLACES + MPM_PLACES * MPM_PLACE_LEN == MPM_LIST_POSITIONS);
HOLDS(list_is_whole, MPM_LIST_POSITIONS + MPM_PROCESSES == MPM_LIST_RULE && MPM_LIST_RULE + 1u == MPM_LIST_LEN);
HOLDS(rules_are_all, MPM_RULE_MPM == 0u && MPM_RULE_CPM == 1u && MPM_RULES == 2u && MPM_LIST_LEN == 1316u);
HOLDS(users_fit, MPM_LIST_USERS + MPM_USERS_LEN == MPM_LIST_PLACES && MPM_USERS_LEN == MPM_PROCESSES);
HOLDS(place_is_whole, MPM_PLACE_NAME + MPM_NAME_LEN == MPM_PLACE_MODE && MPM_PLACE_RECORD + 4u == MPM_PLACE_LEN);
HOLDS(fcb_is_whole, MPM_FCB_RECORD + 3u == MPM_FCB_LEN && MPM_FCB_NEW_NAME + MPM_NAME_LEN <= MPM_FCB_RECORD);
HOLDS(fcb_has_the_extents, MPM_FCB_NAME + MPM_NAME_LEN == MPM_FCB_EXTENTS);
HOLDS(fcb_has_the_map, MPM_FCB_COUNT + 1u == MPM_FCB_MAP && MPM_FCB_MAP + MPM_MAP_LEN == MPM_ENTRY_LEN);
HOLDS(dma_is_whole, MPM_DMA_AT(0u) == MPM_DMA_RECORD && MPM_DMA_AT(MPM_MAX_COUNT) == MPM_DMA_LEN);
HOLDS(new_record_fits, MPM_DMA_NEW == MPM_DMA_RECORD + MPM_RECORD_LEN && MPM_DMA_NEW + MPM_RECORD_LEN <= MPM_DMA_LEN);
HOLDS(answer_is_a_and_256_h, MPM_ERR_BAD_CALL == 3583u && MPM_ERR_LOCK_LIST_FULL == 14u && MPM_OK == 0u);
HOLDS(record_has_entries, MPM_RECORD_ENTRIES * MPM_ENTRY_LEN == MPM_RECORD_LEN);
HOLDS(finds_are_places, MPM_FOUND(0u) == 0u && MPM_FOUND(MPM_RECORD_ENTRIES - 1u) == 3u && MPM_NO_MATCH == 255u);
HOLDS(entry_is_whole, MPM_ENTRY_NAME + MPM_NAME_LEN == MPM_ENTRY_EX && MPM_ENTRY_MAP + MPM_MAP_LEN == MPM_ENTRY_LEN);
HOLDS(make_shares_a_number, MPM_ERR_NO_EMPTY_ENTRY == MPM_ERR_NOT_FOUND);
HOLDS(highest_answer_leaves_four_bits, MPM_ERR_BAD_VECTOR < MPM_ANSWER(0u, 16u) && MPM_MAX_COUNT - 1u <= 15u);

/* Of each kind: its directory, a block and an entry's map are filled exactly, every block has a number and a bit of the
   vector, and the figure of 46 has room. */
#define HOLDS_OF(KIND)                                                                                                 \
    HOLDS(KIND##_directory_is_whole,                                                                                   \
          MPM_##KIND##_ENTRIES * MPM_ENTRY_LEN == MPM_DIRECTORY_BLOCKS * MPM_##KIND##_BLOCK_LEN);                      \
    HOLDS(KIND##_block_is_whole, MPM_##KIND##_BLOCK_RECORDS * MPM_RECORD_LEN == MPM_##KIND##_BLOCK_LEN);               \
    HOLDS(KIND##_map_is_whole, MPM_##KIND##_NUMBERS * MPM_##KIND##_NUMBER_LEN == MPM_MAP_LEN &&                        \
                                   MPM_##KIND##_NUMBERS * MPM_##KIND##_BLOCK_RECORDS == MPM_EXTENT_RECORDS);           \
    HOLDS(KIND##_numbers_have_room, MPM_##KIND##_MAX_BLOCKS - 1u < 1u << (8u * MPM_##KIND##_NUMBER_LEN));              \
    HOLDS(KIND##_vector_has_room, 8u * MPM_##KIND##_VECTOR_LEN == MPM_##KIND##_MAX_BLOCKS);                            \
    HOLDS(KIND##_figure_has_room, MPM_##KIND##_MAX_BLOCKS * MPM_##KIND##_BLOCK_RECORDS < 1u << 24u);                   \
    HOLDS(KIND##_has_a_data_block, MPM_##KIND##_MIN_BLOCKS > MPM_DIRECTORY_BLOCKS &&                                   \
                                       MPM_##KIND##_MIN_BLOCKS <= MPM_##KIND##_MAX_BLOCKS)

HOLDS_OF(SMALL);
HOLDS_OF(LARGE);
HOLDS(kinds_are_apart, MPM_SMALL_MAX_BLOCKS * MPM_SMALL_BLOCK_LEN < MPM_LARGE_MIN_BLOCKS * MPM_LARGE_BLOCK_LEN);
HOLDS(kinds_are_all, MPM_KIND_SMALL < MPM_KINDS && MPM_KIND_LARGE < MPM_KINDS && MPM_KINDS == 2u);

HOLDS(report_has_room, MPM_SALVAGE_UNTOUCHED == 0u && MPM_SMALL_NUMBERS < MPM_SALVAGE_EMPTIED &&
                           MPM_LARGE_NUMBERS < MPM_SALVAGE_EMPTIED && MPM_SALVAGE_EMPTIED < 256u);

uint32_t header_kind(uint32_t kind, size_t image_len);
uint32_t header_free(uint32_t kind, size_t image_len, const uint8_t *vector);
uint32_t header_function(uint32_t number);
uint32_t header_answer(uint32_t answer);
uint32_t header_searched(uint32_t answer);
uint32_t header_records(uint32_t answer);
uint32_t header_capacity(uint32_t processes);
uint32_t header_checked(uint32_t check);
uint32_t header_salvaged(uint32_t answer);
uint32_t header_compared(uint32_t answer);

uint32_t header_kind(uint32_t kind, size_t image_len) {
    switch (kind) {
    case MPM_KIND_SMALL: case MPM_KIND_LARGE:
        return mpm_blocks(kind, image_len) + mpm_block_records(kind) + mpm_entries(kind) + mpm_numbers(kind) +
               mpm_vector_len(kind);
    default: return 0u;
    }
}

uint32_t header_free(uint32_t kind, size_t image_len, const uint8_t *vector) {
    return mpm_block_used(vector, 0) ? mpm_free_records(kind, image_len, vector) : 0u;
}

uint32_t header_function(uint32_t number) {
    switch (number) {
    case MPM_FN_OPEN: case MPM_FN_CLOSE: case MPM_FN_SEARCH_FIRST: case MPM_FN_SEARCH_NEXT: case MPM_FN_DELETE:
    case MPM_FN_MAKE: case MPM_FN_RENAME: case MPM_FN_READ: case MPM_FN_WRITE: case MPM_FN_SIZE:
    case MPM_FN_WRITE_ZEROS: case MPM_FN_TEST_WRITE: case MPM_FN_LOCK: case MPM_FN_UNLOCK: case MPM_FN_FREE_SPACE:
    case MPM_FN_TERMINATE: return 1u;
    default: return 0u;
    }
}

uint32_t header_answer(uint32_t answer) {
    switch (answer) {
    case MPM_OK: case MPM_ERR_BAD_CALL: case MPM_ERR_BAD_IMAGE: case MPM_ERR_BAD_LIST: case MPM_ERR_BAD_VECTOR:
    case MPM_ERR_BAD_DRIVE:
    case MPM_ERR_NOT_FOUND: case MPM_ERR_READ_ONLY: case MPM_ERR_IN_USE: case MPM_ERR_CLOSE_NOT_OPEN:
    case MPM_ERR_EXISTS: case MPM_ERR_BAD_NAME: case MPM_ERR_OPEN_LIMIT: case MPM_ERR_OPEN_LIST_FULL:
    case MPM_ERR_NO_BLOCK: case MPM_ERR_DISK_FULL: case MPM_ERR_NO_EXTENT: case MPM_ERR_DIRECTORY_FULL:
    case MPM_ERR_PAST_END: case MPM_ERR_DIFFERS: case MPM_ERR_LOCKED: case MPM_ERR_NOT_OPEN: case MPM_ERR_LOCK_LIMIT:
    case MPM_ERR_BAD_FILE_ID: case MPM_ERR_LOCK_LIST_FULL:
        return mpm_a(answer) + mpm_h(answer);
    default: return 0u;
    }
}

uint32_t header_searched(uint32_t answer) {
    return mpm_refused(MPM_FN_SEARCH_NEXT, answer) || !mpm_found(answer) ? 0u : answer + 1u;
}

uint32_t header_records(uint32_t answer) { return mpm_done(answer, MPM_MAX_COUNT) + mpm_code(answer); }

uint32_t header_capacity(uint32_t processes) { return mpm_capacity_for(processes, MPM_PLACES, MPM_PLACES); }

uint32_t header_checked(uint32_t check) {
    switch (mpm_check_code(check)) {
    case MPM_CHECK_SOUND: case MPM_CHECK_WRONG_LENGTH: case MPM_CHECK_BAD_USER: case MPM_CHECK_BAD_NAME:
    case MPM_CHECK_BAD_NUMBER: case MPM_CHECK_BLOCK_RANGE: case MPM_CHECK_BLOCK_TWICE: case MPM_CHECK_EXTENT_TWICE:
    case MPM_CHECK_NO_EXTENT_0: return mpm_check_entry(check);
    default: return 0u;
    }
}

uint32_t header_salvaged(uint32_t answer) {
    switch (answer) {
    case MPM_SALVAGE_DONE: case MPM_SALVAGE_WRONG_LENGTH: case MPM_SALVAGE_WRONG_REPORT: return 1u;
    default: return 0u;
    }
}

uint32_t header_compared(uint32_t answer) {
    switch (answer) {
    case MPM_SAME_BOOK: case MPM_SAME_BAD_FIRST: case MPM_SAME_BAD_SECOND: case MPM_SAME_DIFFERENT: return 1u;
    default: return 0u;
    }
}
