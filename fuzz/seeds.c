/* seeds FOLDER: the inputs (steps.h) that the fuzz test begins with. */
#include <stdio.h>
#include <stdlib.h>
#include <string.h>

#include "mpm.h"
#include "steps.h"

enum { MAX_STEPS = 96, PATH_LEN = 4096, NOTHING_RISES = 255 };

/* Three names, a mark for any, and the first as an FCB asks for unlocked and for read-only mode. */
#define A "ORDERS  DAT"
#define B "STOCK   DAT"
#define C "NEW        "
#define ANY "???????????"
#define B_READ_ONLY "STOCK   \304AT"
#define A_UNLOCKED "ORDE\322S  DAT"
#define A_READ_ONLY "ORDER\323  DAT"

static uint8_t input[MAX_STEPS][STEP_LEN];
static size_t steps, inputs;
static const char *folder;

static void save(void) {
    char path[PATH_LEN];
    int length = snprintf(path, sizeof path, "%s/seed-%u", folder, (unsigned)inputs++);
    FILE *file = length < PATH_LEN ? fopen(path, "wb") : NULL;
    if (file == NULL || fwrite(input, STEP_LEN, steps, file) != steps || fclose(file) != 0) {
        perror(path);
        exit(2);
    }
    steps = 0;
}

static void put_number(uint8_t *at, size_t length, uint32_t number) {
    for (size_t i = 0; i < length; i++) at[i] = (uint8_t)(number >> (8 * i));
}

static uint8_t *step(int kind, unsigned what, uint32_t first, uint32_t second, uint32_t third) {
    if (steps == MAX_STEPS) exit(2);
    uint8_t *bytes = input[steps++];
    memset(bytes, 0, STEP_LEN);
    bytes[0] = (uint8_t)kind;
    bytes[1] = (uint8_t)what;
    put_number(bytes + 4, 4, first);
    put_number(bytes + 8, 4, second);
    put_number(bytes + 12, 4, third);
    return bytes;
}

static void set_length(int buffer, int flags, uint32_t length) {
    step(LENGTH, (unsigned)buffer, length, 0, 0)[2] = (uint8_t)flags;
}

/* An empty drive: where the image is longer than it was, the new bytes are E5h. */
static void set_drive(uint32_t kind, uint32_t blocks) {
    uint8_t *length = step(LENGTH, IMAGE, blocks, 0, 0);
    length[2] = MANY;
    length[3] = (uint8_t)kind;
}

/* The fewest blocks of the kind, but for a small drive, which has so many. */
static uint32_t fewest(uint32_t kind, uint32_t small_blocks) {
    return mpm_of_kind(kind, small_blocks, MPM_LARGE_MIN_BLOCKS);
}

#define PUT(buffer, at, times, length, rising, bytes) patch(buffer, at, times, length, rising, bytes, sizeof bytes - 1)

static void patch(int buffer, uint32_t at, uint32_t times, int length, int rising, const char *bytes, size_t given) {
    uint8_t *patch = step(PATCH, (unsigned)buffer, at, times, 0);
    patch[2] = (uint8_t)length;
    patch[3] = (uint8_t)rising;
    memcpy(patch + CONTENT, bytes, given);
}

#define ENTRY(e, times, bytes) PUT(IMAGE, MPM_ENTRY_LEN * (e), times, MPM_ENTRY_LEN, 12, bytes)
#define ITEM(i, times, bytes) PUT(LIST, MPM_LIST_PLACES + MPM_PLACE_LEN * (i), times, MPM_PLACE_LEN, 16, bytes)
#define LIMITS(bytes) PUT(LIST, 0, 1, 3, NOTHING_RISES, bytes)

/* A call on a file. B is always the new name; the File ID goes into the DMA. */
static uint8_t *call(uint32_t process, uint32_t function, const char *name, uint32_t record, uint32_t count, int id) {
    uint8_t *bytes = step(CALL, 0, function, process, count), *fcb = bytes + CONTENT;
    memcpy(fcb + MPM_FCB_NAME, name, MPM_NAME_LEN);
    memcpy(fcb + MPM_FCB_NEW_NAME, B, MPM_NAME_LEN);
    put_number(fcb + MPM_FCB_RECORD, 3, record);
    fcb[FCB_GIVEN] = (uint8_t)id;
    return bytes;
}

/* An entry of file A with rising block numbers, as many as are below the end. */
static void put_full_entry(uint32_t kind, uint32_t e, uint32_t extent, uint32_t first, uint32_t end) {
    char bytes[MPM_ENTRY_LEN] = "\000" A;
    size_t number_len = MPM_MAP_LEN / mpm_numbers(kind);
    bytes[12] = (char)(extent % 32);
    bytes[14] = (char)(extent / 32);
    bytes[15] = (char)MPM_EXTENT_RECORDS;
    for (uint32_t k = 0; k < mpm_numbers(kind) && first + k < end; k++)
        put_number((uint8_t *)bytes + MPM_ENTRY_LEN - MPM_MAP_LEN + k * number_len, number_len, first + k);
    patch(IMAGE, MPM_ENTRY_LEN * e, 1, MPM_ENTRY_LEN, NOTHING_RISES, bytes, sizeof bytes);
}

/* Entries of file A that name all blocks from 2 on below the end. Gives how many they are. */
static uint32_t put_full_entries(uint32_t kind, uint32_t end) {
    uint32_t e = 0;
    for (uint32_t first = MPM_DIRECTORY_BLOCKS; first < end; first += mpm_numbers(kind), e++)
        put_full_entry(kind, e, e, first, end);
    return e;
}

static void two_clerks(uint32_t kind) {
    set_drive(kind, fewest(kind, 4));
    LIMITS("\003\002\002");
    call(1, MPM_FN_MAKE, A_UNLOCKED, 0, 1, 0);
    call(2, MPM_FN_OPEN, A_UNLOCKED, 0, 1, 0);
    call(1, MPM_FN_WRITE, A, 0, 1, 0);
    call(1, MPM_FN_LOCK, A, 0, 1, 0);
    call(2, MPM_FN_WRITE, A, 0, 1, 1);
    call(2, MPM_FN_WRITE_ZEROS, A, 8, 1, 1);
    call(2, MPM_FN_LOCK, A, 8, 1, 1);
    call(2, MPM_FN_WRITE, A, 16, 1, 1);
    call(1, MPM_FN_FREE_SPACE, A, 0, 1, 0);
    call(1, MPM_FN_LOCK, A, 0, 1, 0);
    call(1, MPM_FN_LOCK, A, 0, 2, 0);
    call(1, MPM_FN_TERMINATE, A, 0, 1, 0);
    call(2, MPM_FN_LOCK, A, 8, 1, 1);
    call(2, MPM_FN_DELETE, A, 0, 1, 1);
    save();
}

static void all_functions(uint32_t kind) {
    set_drive(kind, fewest(kind, 4));
    call(0, MPM_FN_MAKE, A, 0, 1, 0);
    call(0, MPM_FN_WRITE_ZEROS, A, 262143, 1, 0);
    call(0, MPM_FN_READ, A, 262143, 1, 0);
    call(0, MPM_FN_TEST_WRITE, A, 262143, 1, 0)[1] = KEEP_DMA;
    call(0, MPM_FN_SIZE, A, 0, 1, 0);
    call(0, MPM_FN_SEARCH_FIRST, ANY, 0, 1, 0);
    call(0, MPM_FN_SEARCH_NEXT, ANY, 0, 1, 0);
    call(0, MPM_FN_LOCK, A, 0, 1, 0);
    call(0, MPM_FN_CLOSE, A, 0, 1, 0);
    call(0, MPM_FN_OPEN, A_UNLOCKED, 0, 1, 0);
    call(0, MPM_FN_LOCK, A, 262143, 1, 0);
    call(0, MPM_FN_UNLOCK, A, 262143, 1, 0);
    call(0, MPM_FN_CLOSE, A, 0, 1, 0);
    call(0, MPM_FN_OPEN, A_READ_ONLY, 0, 1, 0);
    call(0, MPM_FN_TERMINATE, A, 0, 1, 0);
    call(0, MPM_FN_RENAME, A, 0, 1, 0);
    call(0, MPM_FN_DELETE, B, 0, 1, 0);
    save();
}

/* A file deleted by the one who has it open: locked, read-only, and unlocked with locks, alone and beside another. */
static void own_files_deleted(uint32_t kind) {
    set_drive(kind, fewest(kind, 4));
    call(0, MPM_FN_MAKE, A, 0, 1, 0);
    call(0, MPM_FN_WRITE_ZEROS, A, 3, 1, 0);
    call(1, MPM_FN_DELETE, A, 0, 1, 0);
    call(0, MPM_FN_DELETE, A, 0, 1, 0);
    call(0, MPM_FN_MAKE, A_UNLOCKED, 0, 1, 0);
    call(0, MPM_FN_WRITE_ZEROS, A, 3, 1, 0);
    call(0, MPM_FN_MAKE, C, 0, 1, 0);
    call(0, MPM_FN_LOCK, A, 2, 3, 0);
    call(1, MPM_FN_OPEN, A_UNLOCKED, 0, 1, 0);
    call(0, MPM_FN_DELETE, A, 0, 1, 0);
    call(1, MPM_FN_CLOSE, A, 0, 1, 0);
    call(0, MPM_FN_RENAME, A, 0, 1, 0);
    call(0, MPM_FN_DELETE, A, 0, 1, 0);
    call(0, MPM_FN_FREE_SPACE, A, 0, 1, 0);
    call(0, MPM_FN_TERMINATE, A, 0, 1, 0);
    call(1, MPM_FN_OPEN, C, 0, 1, 0);
    call(1, MPM_FN_DELETE, C, 0, 1, 0);
    save();
}

/* Extents in any order, a module, a count of 0, the last record; another user's file, a missing and a bad name. */
static void file_sizes(uint32_t kind) {
    set_drive(kind, fewest(kind, 16));
    PUT(LIST, MPM_LIST_USERS + 4, 12, 1, 0, "\004");
    ENTRY(0, 1, "\000" A "\002\000\000\005");
    ENTRY(1, 1, "\000" A "\037\000\000\200");
    ENTRY(2, 1, "\000" A "\001\000\002\003");
    ENTRY(3, 1, "\000" A "\000\000\000\177\002");
    ENTRY(4, 1, "\000" B "\000\000\000\200\003");
    ENTRY(5, 1, "\000" B "\001");
    ENTRY(6, 1, "\000" C "\037\000\077\200");
    ENTRY(7, 1, "\000" C);
    ENTRY(8, 1, "\004" A "\000\000\000\007");
    call(0, MPM_FN_SIZE, A, 262143, 1, 0);
    call(1, MPM_FN_SIZE, A_UNLOCKED, 65535, 16, 0);
    call(0, MPM_FN_SIZE, B, 70000, 1, 0);
    call(0, MPM_FN_SIZE, C, 1, 1, 0);
    call(4, MPM_FN_SIZE, A, 0, 1, 0);
    call(4, MPM_FN_SIZE, B, 0, 1, 0);
    call(0, MPM_FN_SIZE, "?RDERS  DAT", 0, 1, 0);
    call(2, MPM_FN_OPEN, A, 0, 1, 0);
    call(3, MPM_FN_SIZE, A, 0, 1, 0);
    save();
}

/* A search that admits all extents. */
static void search_all(uint32_t process, uint32_t function, const char *name) {
    call(process, function, name, 0, 1, 0)[CONTENT + MPM_FCB_EXTENTS] = MPM_ANY;
}

/* Entries at each place of a record, of three users and several extents, at both ends of the directory; searches of two
   processes that go on after Make, Delete, Rename and 143; names with marks, with high bits and illegal ones; positions
   at both ends and behind them. */
static void searches(uint32_t kind) {
    uint32_t last = mpm_entries(kind) - 1;
    const char one_too_many[] = {(char)(last + 2)};
    set_drive(kind, fewest(kind, 16));
    PUT(LIST, MPM_LIST_USERS + 4, 12, 1, 0, "\004");
    ENTRY(0, 1, "\000" A);
    ENTRY(1, 1, "\000" A "\001");
    ENTRY(2, 1, "\000" B_READ_ONLY);
    ENTRY(3, 1, "\000" A "\000\000\001");
    ENTRY(5, 1, "\000" "STOCK   DAU");
    ENTRY(6, 1, "\004" A);
    ENTRY(last - 1, 1, "\004" B);
    ENTRY(last, 1, "\000" "ORDERT  DAT");
    for (int i = 0; i < 6; i++) search_all(0, i == 0 ? MPM_FN_SEARCH_FIRST : MPM_FN_SEARCH_NEXT, ANY);
    for (int i = 0; i < 4; i++) call(1, i == 0 ? MPM_FN_SEARCH_FIRST : MPM_FN_SEARCH_NEXT, ANY, 0, 1, 0);
    for (int i = 0; i < 3; i++) call(5, i == 0 ? MPM_FN_SEARCH_FIRST : MPM_FN_SEARCH_NEXT, ANY, 0, 16, 0);
    call(0, MPM_FN_SEARCH_FIRST, "STOCK   DA?", 0, 1, 0);
    call(0, MPM_FN_SEARCH_FIRST, "STOCK   DAU", 0, 1, 0);
    call(0, MPM_FN_SEARCH_FIRST, "ORDERT  ???", 0, 1, 0);
    search_all(0, MPM_FN_SEARCH_FIRST, "?RDERS  DAT");
    search_all(0, MPM_FN_SEARCH_NEXT, "\277RDERS  DA\277");
    search_all(0, MPM_FN_SEARCH_NEXT, "O\322DERS  D\301T");
    call(0, MPM_FN_SEARCH_FIRST, "ORDER?  DA?", 0, 1, 0)[CONTENT + MPM_FCB_EXTENTS] = 0xBF;
    call(0, MPM_FN_SEARCH_NEXT, "ORDER?  DA?", 0, 1, 0)[CONTENT + MPM_FCB_EXTENTS] = 1;
    call(0, MPM_FN_SEARCH_FIRST, " RDERS  DAT", 0, 1, 0);
    call(0, MPM_FN_SEARCH_FIRST, ANY, 0, 1, 0)[CONTENT] = MPM_ANY;
    search_all(1, MPM_FN_SEARCH_FIRST, ANY);
    search_all(2, MPM_FN_SEARCH_FIRST, ANY);
    call(0, MPM_FN_MAKE, C, 0, 1, 0);
    call(0, MPM_FN_DELETE, A, 0, 1, 0);
    search_all(1, MPM_FN_SEARCH_NEXT, ANY);
    call(3, MPM_FN_RENAME, "ORDERT  DAT", 0, 1, 0);
    call(1, MPM_FN_TERMINATE, A, 0, 1, 0);
    search_all(1, MPM_FN_SEARCH_NEXT, ANY);
    search_all(2, MPM_FN_SEARCH_NEXT, ANY);
    PUT(LIST, MPM_LIST_POSITIONS, 16, 1, 0, "\060");
    search_all(15, MPM_FN_SEARCH_NEXT, ANY);
    call(2, MPM_FN_SEARCH_NEXT, ANY, 0, 1, 0);
    patch(LIST, MPM_LIST_POSITIONS + 7, 1, 1, NOTHING_RISES, one_too_many, sizeof one_too_many);
    search_all(0, MPM_FN_SEARCH_NEXT, ANY);
    call(7, MPM_FN_TERMINATE, ANY, 0, 1, 0);
    PUT(LIST, MPM_LIST_POSITIONS, 16, 1, 0, "\071");
    search_all(0, MPM_FN_SEARCH_NEXT, ANY);
    PUT(LIST, MPM_LIST_POSITIONS, 16, 1, 0, "\171");
    search_all(0, MPM_FN_SEARCH_NEXT, ANY);
    save();
}

/* A directory and a list as they may stand after a while, each process from 4 on with a user of its own. */
static void put_files_in_use(uint32_t kind) {
    set_drive(kind, fewest(kind, 16));
    PUT(LIST, MPM_LIST_USERS + 4, 12, 1, 0, "\004");
    ENTRY(0, 1, "\000" A "\000\000\000\010\002");
    ENTRY(5, 3, "\000" A "\001");
    ENTRY(9, 1, "\000STOCK   \304AT\000\000\000\010\003");
    ENTRY(10, 1, "\004" A);
    ENTRY(11, 1, "\000" C);
    ITEM(1, 1, "OF\003" A "\001");
    ITEM(2, 3, "LR\003" A "\001\000\002");
    ITEM(5, 1, "OF\001" A "\001");
    ITEM(6, 1, "OF\004" A "\001");
    ITEM(7, 1, "OF\003" C);
}

static void files_in_use(uint32_t kind) {
    put_files_in_use(kind);
    call(1, MPM_FN_LOCK, A, 0, 4, 5);
    call(3, MPM_FN_LOCK, A, 7, 1, 1);
    call(3, MPM_FN_UNLOCK, A, 3, 16, 1);
    call(3, MPM_FN_READ, A, 130, 1, 1);
    call(1, MPM_FN_WRITE_ZEROS, A, 130, 1, 5);
    call(3, MPM_FN_DELETE, B, 0, 1, 0);
    call(3, MPM_FN_RENAME, B, 0, 1, 0);
    call(3, MPM_FN_OPEN, B, 0, 1, 0);
    call(3, MPM_FN_WRITE, B, 0, 1, 0);
    call(3, MPM_FN_WRITE_ZEROS, B, 0, 2, 0);
    call(3, MPM_FN_TEST_WRITE, B, 0, 1, 0);
    call(3, MPM_FN_CLOSE, A, 0, 1, 0);
    call(4, MPM_FN_TEST_WRITE, A, 0, 1, 6);
    save();
}

/* The same with one byte altered, in turn each of the first entry, the list's head and its first three places. */
static void broken_bytes(uint32_t kind) {
    static const char values[] = {0, 1, 'z'};
    for (uint32_t at = 0; at < MPM_ENTRY_LEN + MPM_LIST_PLACES + 3 * MPM_PLACE_LEN; at++)
        for (size_t i = 0; i < sizeof values; i++) {
            put_files_in_use(kind);
            if (at < MPM_ENTRY_LEN) {
                patch(IMAGE, at, 1, 1, NOTHING_RISES, values + i, 1);
            } else {
                patch(LIST, at - MPM_ENTRY_LEN, 1, 1, NOTHING_RISES, values + i, 1);
            }
            call(0, MPM_FN_FREE_SPACE, A, 0, 1, 0);
            save();
        }
}

/* Other bytes for each record of the DMA. */
static void fill_dma(void) { PUT(DMA, 0, MPM_DMA_LEN / 32, 32, 0, "0 crates of plums, salt and soap"); }

static void run(uint32_t process, uint32_t function, uint32_t record, uint32_t count) {
    call(process, function, A, record, count, 0)[1] = KEEP_DMA;
}

/* Into new blocks and a new extent, to another's lock, to a missing block and extent, and over the last record. */
static void runs(uint32_t kind) {
    set_drive(kind, fewest(kind, 16));
    call(1, MPM_FN_MAKE, A_UNLOCKED, 0, 1, 0);
    call(2, MPM_FN_OPEN, A_UNLOCKED, 0, 1, 0);
    fill_dma();
    run(1, MPM_FN_WRITE_ZEROS, 122, 16);
    run(1, MPM_FN_WRITE, 0, 16);
    run(2, MPM_FN_READ, 0, 16);
    run(2, MPM_FN_READ, 8, 16);
    run(1, MPM_FN_READ, 124, 16);
    call(1, MPM_FN_LOCK, A, 4, 3, 0);
    fill_dma();
    run(2, MPM_FN_WRITE, 1, 16);
    run(2, MPM_FN_WRITE_ZEROS, 2, 8);
    run(2, MPM_FN_WRITE_ZEROS, 4, 2);
    run(2, MPM_FN_TEST_WRITE, 5, 1);
    run(1, MPM_FN_WRITE, 1, 8);
    run(1, MPM_FN_WRITE_ZEROS, 248, 8);
    run(2, MPM_FN_READ, 250, 16);
    run(1, MPM_FN_WRITE, 262136, 16);
    run(1, MPM_FN_WRITE_ZEROS, 262140, 16);
    run(2, MPM_FN_READ, 262140, 16);
    run(2, MPM_FN_READ, 262144, 2);
    save();
}

/* All entries but none for A's extent 1; its extent 0 has the last block of its map. */
static void fill_directory(uint32_t kind) {
    if (kind == MPM_KIND_LARGE) {
        ENTRY(0, 1, "\000" A "\000\000\000\200\000\000\000\000\000\000\000\000\000\000\000\000\000\000\002\000");
    } else {
        ENTRY(0, 1, "\000" A "\000\000\000\200\000\000\000\000\000\000\000\000\000\000\000\000\000\000\000\002");
    }
    ENTRY(1, 30, "\000" A "\002");
    ENTRY(31, 32, "\000" A "\000\000\001");
    if (kind == MPM_KIND_LARGE) {
        ENTRY(63, 32, "\000" A "\000\000\002");
        ENTRY(95, 32, "\000" A "\000\000\003");
    }
    ENTRY(mpm_entries(kind) - 1, 1, "\000" B);
}

/* To the last free block. */
static void run_to_last_block(uint32_t kind, uint32_t function) {
    uint32_t blocks = fewest(kind, 16);
    set_drive(kind, blocks);
    fill_dma();
    uint32_t extent = put_full_entries(kind, blocks - 1);
    call(0, MPM_FN_OPEN, A, 0, 1, 0);
    run(0, function, MPM_EXTENT_RECORDS * extent + 4, 16);
    run(0, function, MPM_EXTENT_RECORDS * extent + 60, 16);
    call(0, MPM_FN_FREE_SPACE, A, 0, 1, 0);
    save();
}

/* To the last free block and to the last empty entry. */
static void full_runs(uint32_t kind) {
    run_to_last_block(kind, MPM_FN_WRITE);
    run_to_last_block(kind, MPM_FN_WRITE_ZEROS);
    set_drive(kind, fewest(kind, 16));
    fill_dma();
    fill_directory(kind);
    call(0, MPM_FN_OPEN, A, 0, 1, 0);
    run(0, MPM_FN_WRITE, 124, 16);
    run(0, MPM_FN_WRITE_ZEROS, 125, 16);
    save();
}

static void all_full(uint32_t kind) {
    set_drive(kind, fewest(kind, 16));
    LIMITS("\100\001\100");
    put_full_entry(kind, 0, 0, MPM_DIRECTORY_BLOCKS, MPM_DIRECTORY_BLOCKS + 8);
    ENTRY(1, 31, "\000" A "\001");
    ENTRY(32, 31, "\000" A "\000\000\001");
    if (kind == MPM_KIND_LARGE) {
        ENTRY(63, 32, "\000" A "\000\000\002");
        ENTRY(95, 32, "\000" A "\000\000\003");
    }
    ENTRY(mpm_entries(kind) - 1, 1, "\000" B);
    ITEM(0, 1, "OF\000" A "\001");
    ITEM(1, 63, "LR\000" A "\001");
    call(0, MPM_FN_LOCK, A, 63, 1, 0);
    call(0, MPM_FN_OPEN, B, 0, 1, 0);
    call(1, MPM_FN_OPEN, B, 0, 1, 0);
    call(0, MPM_FN_UNLOCK, A, 15, 16, 0);
    call(0, MPM_FN_WRITE, A, 128 * 200, 1, 0);
    call(0, MPM_FN_WRITE_ZEROS, A, 128 * 200, 1, 0);
    call(1, MPM_FN_MAKE, C, 0, 1, 0);
    call(0, MPM_FN_LOCK, A, 15, 16, 0);
    save();
}

/* The number of blocks of each kind at its edges and between, told as what it is and as the other kind. */
static void sizes(void) {
    static const uint32_t small[] = {2, 3, 256, 257}, large[] = {256, 257, 258, 1027, 4096, 4097};
    for (size_t i = 0; i < sizeof small / sizeof small[0]; i++) {
        set_drive(MPM_KIND_SMALL, small[i]);
        call(0, MPM_FN_FREE_SPACE, A, 0, 1, 0);
        call(0, MPM_FN_FREE_SPACE, A, 0, 1, 0)[1] = OTHER_KIND;
    }
    save();
    for (size_t i = 0; i < sizeof large / sizeof large[0]; i++) {
        set_drive(MPM_KIND_LARGE, large[i]);
        call(0, MPM_FN_FREE_SPACE, A, 0, 1, 0);
        call(0, MPM_FN_FREE_SPACE, A, 0, 1, 0)[1] = OTHER_KIND;
        save();
    }
    set_drive(MPM_KIND_LARGE, MPM_LARGE_MIN_BLOCKS / 2);
    call(0, MPM_FN_FREE_SPACE, A, 0, 1, 0)[1] = OTHER_KIND;
    save();
}

/* Numbers that are no kind, among them such as are one when cut to a byte. */
static void unknown_kinds(void) {
    static const uint32_t unknown[] = {2, 255, 256, 257, 65535};
    for (uint32_t kind = 0; kind < MPM_KINDS; kind++) {
        put_files_in_use(kind);
        for (size_t i = 0; i < sizeof unknown / sizeof unknown[0]; i++) {
            uint8_t *told = call(3, MPM_FN_OPEN, B, 0, 1, 0);
            told[1] = WILD_KIND;
            put_number(told + 2, 2, unknown[i]);
        }
        call(3, MPM_FN_OPEN, B, 0, 1, 0)[1] = OTHER_KIND;
        call(3, MPM_FN_OPEN, B, 0, 1, 0);
        save();
    }
}

/* The lowest free block has a number of two bytes: all below 257 are used. */
static void high_free_block(uint32_t blocks) {
    set_drive(MPM_KIND_LARGE, blocks);
    fill_dma();
    uint32_t extent = put_full_entries(MPM_KIND_LARGE, 257);
    call(0, MPM_FN_OPEN, A_UNLOCKED, 0, 1, 0);
    run(0, MPM_FN_WRITE_ZEROS, MPM_EXTENT_RECORDS * extent + 5, 1);
    run(0, MPM_FN_READ, MPM_EXTENT_RECORDS * extent + 14, 2);
    run(0, MPM_FN_WRITE, MPM_EXTENT_RECORDS * extent + 16, 16);
    run(0, MPM_FN_READ, MPM_EXTENT_RECORDS * extent, 16);
    call(0, MPM_FN_LOCK, A, MPM_EXTENT_RECORDS * extent + 8, 2, 0);
    call(0, MPM_FN_FREE_SPACE, A, 0, 1, 0);
    save();
}

/* Block numbers at the ends of one byte, of what the directory can name, and of the drive; one past it; block 1. */
static void high_numbers(uint32_t blocks) {
    const uint32_t numbers[] = {255, 256, 1023, 1025, 1026, 4095, blocks - 1, blocks, 1};
    for (size_t i = 0; i < sizeof numbers / sizeof numbers[0]; i++) {
        set_drive(MPM_KIND_LARGE, blocks);
        fill_dma();
        put_full_entry(MPM_KIND_LARGE, 127, 0, numbers[i], numbers[i] + 1);
        call(0, MPM_FN_OPEN, A, 0, 1, 0);
        run(0, MPM_FN_WRITE, 0, 16);
        run(0, MPM_FN_READ, 8, 8);
        run(0, MPM_FN_WRITE_ZEROS, 16, 1);
        call(0, MPM_FN_FREE_SPACE, A, 0, 1, 0);
        save();
    }
}

static void put_entry(uint32_t kind, uint32_t e, const char *head, uint32_t first, uint32_t second) {
    char bytes[MPM_ENTRY_LEN] = {0};
    size_t number_len = MPM_MAP_LEN / mpm_numbers(kind), map = MPM_ENTRY_LEN - MPM_MAP_LEN;
    memcpy(bytes, head, map);
    put_number((uint8_t *)bytes + map, number_len, first);
    put_number((uint8_t *)bytes + map + number_len, number_len, second);
    patch(IMAGE, MPM_ENTRY_LEN * e, 1, MPM_ENTRY_LEN, NOTHING_RISES, bytes, sizeof bytes);
}

/* Behind a good entry two that are bad, each for a reason of its own; the fourth has another besides. */
static void bad_entries(uint32_t kind) {
    static const struct {
        const char *head;
        uint32_t first, second;
    } bad[] = {
        {"\020" B "\000\000\000\001", 4, 0}, {"\000" "S?OCK   DAT" "\000\000\000\001", 4, 0},
        {"\000" B "\000\000\000\201", 4, 0}, {"\000" B "\000\000\000\001", 2, 1},
        {"\000" B "\000\000\000\001", 4, 2}, {"\000" A "\000\000\000\001", 4, 0},
        {"\000" C "\001\000\000\001", 5, 0},
    };
    enum { BAD = sizeof bad / sizeof bad[0] };
    for (size_t i = 0; i < BAD; i++)
        for (size_t k = 0; k < BAD; k++) {
            set_drive(kind, fewest(kind, 16));
            put_entry(kind, 0, "\000" A "\000\000\000\001", 2, 3);
            put_entry(kind, 1, bad[i].head, bad[i].first, bad[i].second);
            put_entry(kind, 2, bad[k].head, bad[k].first, bad[k].second);
            call(0, MPM_FN_FREE_SPACE, A, 0, 1, 0);
            save();
        }
}

/* One bit of the vector is wrong for each call: of the directory, of a used block, of a free one, past the drive. Then
   its length. The vector goes on from call to call. */
static void wrong_bits(uint32_t kind) {
    static const uint32_t functions[] = {MPM_FN_OPEN,  MPM_FN_CLOSE, MPM_FN_SEARCH_FIRST, MPM_FN_SEARCH_NEXT,
                                         MPM_FN_DELETE, MPM_FN_MAKE, MPM_FN_RENAME,       MPM_FN_READ,
                                         MPM_FN_WRITE, MPM_FN_SIZE,  MPM_FN_WRITE_ZEROS,  MPM_FN_TEST_WRITE,
                                         MPM_FN_LOCK,  MPM_FN_UNLOCK, MPM_FN_FREE_SPACE,  MPM_FN_TERMINATE};
    set_drive(kind, fewest(kind, 9));
    call(1, MPM_FN_MAKE, A_UNLOCKED, 0, 1, 0);
    call(1, MPM_FN_WRITE, A, 0, 1, 0)[1] = KEEP_VECTOR;
    call(1, MPM_FN_WRITE_ZEROS, A, 130, 16, 0)[1] = KEEP_VECTOR;
    for (size_t i = 0; i < sizeof functions / sizeof functions[0]; i++) {
        PUT(VECTOR, (uint32_t)i * 2 % 32, 1, 1, NOTHING_RISES, "\001");
        call(1, functions[i], A, 0, 1, 0)[1] = KEEP_VECTOR;
    }
    uint8_t *no_drive = call(1, MPM_FN_OPEN, A, 0, 1, 0);
    no_drive[1] = KEEP_VECTOR;
    no_drive[CONTENT + MPM_FCB_DRIVE] = 2;
    LIMITS("\000\004\004");
    call(1, MPM_FN_FREE_SPACE, A, 0, 1, 0)[1] = KEEP_VECTOR;
    LIMITS("\010\004\004");
    call(1, MPM_FN_FREE_SPACE, A, 0, 1, 0);
    /* The file has the blocks 2 to 5, on a large drive 2 to 4: but for the bit of block 0 all is right, then but for
       that of block 2. */
    patch(VECTOR, 0, 1, 1, NOTHING_RISES, kind == MPM_KIND_SMALL ? "\174" : "\170", 1);
    call(1, MPM_FN_FREE_SPACE, A, 0, 1, 0)[1] = KEEP_VECTOR;
    patch(VECTOR, 0, 1, 1, NOTHING_RISES, kind == MPM_KIND_SMALL ? "\334" : "\330", 1);
    call(1, MPM_FN_FREE_SPACE, A, 0, 1, 0)[1] = KEEP_VECTOR;
    set_length(VECTOR, RAW, mpm_vector_len(kind) + 1);
    call(1, MPM_FN_FREE_SPACE, A, 0, 1, 0)[1] = KEEP_VECTOR;
    set_length(VECTOR, 0, 0);
    call(1, MPM_FN_FREE_SPACE, A, 0, 1, 0)[1] = KEEP_VECTOR;
    call(1, MPM_FN_DELETE, A, 0, 1, 0);
    call(1, MPM_FN_MAKE, A_UNLOCKED, 0, 1, 0)[1] = KEEP_VECTOR;
    save();
}

/* Both rules at their ends, a rule that is none, and a module that is good by one of them. */
static void both_rules(uint32_t kind) {
    static const uint32_t ends[] = {65535, 65536, 262143, 262144};
    set_drive(kind, fewest(kind, 9));
    call(1, MPM_FN_MAKE, A_UNLOCKED, 0, 1, 0);
    for (size_t i = 0; i < sizeof ends / sizeof ends[0]; i++) {
        PUT(LIST, MPM_LIST_RULE, 1, 1, NOTHING_RISES, "\001");
        call(1, MPM_FN_WRITE, A, ends[i] - 1, 2, 0);
        call(1, MPM_FN_LOCK, A, ends[i], 1, 0);
        call(1, MPM_FN_UNLOCK, A, ends[i] - 1, 2, 0);
        PUT(LIST, MPM_LIST_RULE, 1, 1, NOTHING_RISES, "\000");
        call(1, MPM_FN_WRITE_ZEROS, A, ends[i] - 1, 2, 0);
        call(1, MPM_FN_READ, A, ends[i], 1, 0);
        call(1, MPM_FN_TEST_WRITE, A, ends[i], 1, 0);
    }
    PUT(LIST, MPM_LIST_RULE, 1, 1, NOTHING_RISES, "\001");
    call(1, MPM_FN_SIZE, A, 0, 1, 0);
    PUT(LIST, MPM_LIST_RULE, 1, 1, NOTHING_RISES, "\002");
    call(1, MPM_FN_SIZE, A, 0, 1, 0);
    save();
}

static void wrong_numbers(void) {
    set_drive(MPM_KIND_SMALL, 4);
    call(0, 271, A, 0, 1, 0)[1] = WILD_FUNCTION;
    call(16, MPM_FN_MAKE, A, 0, 1, 0)[1] = WILD_PROCESS;
    call(0, MPM_FN_MAKE, A, 0, 17, 0)[1] = WILD_COUNT;
    for (int buffer = 0; buffer < BUFFERS; buffer++)
        for (uint32_t length = 0; length < 3000; length = 3 * length + 35) {
            set_length(buffer, RAW, length);
            call(1, MPM_FN_MAKE, A, 0, 1, 0)[1] = KEEP_VECTOR;
            set_length(buffer, 0, 4);
        }
    set_length(DMA, RAW, 2 * MPM_RECORD_LEN);
    call(1, MPM_FN_MAKE, A, 0, 1, 0);
    save();
}

static void seeds_of(uint32_t kind) {
    two_clerks(kind);
    all_functions(kind);
    own_files_deleted(kind);
    file_sizes(kind);
    searches(kind);
    files_in_use(kind);
    broken_bytes(kind);
    runs(kind);
    full_runs(kind);
    all_full(kind);
    bad_entries(kind);
    wrong_bits(kind);
    both_rules(kind);
}

int main(int argc, char **argv) {
    if (argc != 2) return 2;
    folder = argv[1];
    for (uint32_t kind = 0; kind < MPM_KINDS; kind++) seeds_of(kind);
    sizes();
    unknown_kinds();
    high_free_block(257);
    high_free_block(258);
    high_free_block(1027);
    high_free_block(4096);
    high_numbers(1027);
    high_numbers(4096);
    wrong_numbers();
    return 0;
}
