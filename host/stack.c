/* How much stack the engine takes: each of its functions, accepted and on a drive of each kind, is run on a painted
   stack of its own (bench/stack.c), which has some 200 bytes of the caller in it. Prints each figure and the highest.
   Exit status: 1 if a call was refused or the highest of all is over 16,384 bytes. */

#include "mpm.h"

#include <stdio.h>
#include <string.h>

enum { MOST = 16384, LONGEST = MPM_LARGE_MIN_BLOCKS * MPM_LARGE_BLOCK_LEN };

size_t stack_of(void (*function)(void));

static uint8_t fcb[MPM_FCB_LEN], dma[MPM_DMA_LEN], list[MPM_LIST_LEN], image[LONGEST], report[MPM_LARGE_ENTRIES];
static uint8_t packed[LONGEST], vector[MPM_LARGE_VECTOR_LEN];
static const uint8_t users[MPM_USERS_LEN] = {0};
static struct mpm_book book;
static uint32_t function, process, count, answer;
static size_t highest;

static void start(void) {
    answer = mpm_start(book.kind, 64, 2, 20, MPM_RULE_MPM, users, sizeof users, book.list, book.list_len);
}
static void check(void) { answer = mpm_check(book.kind, MPM_RULE_MPM, book.image, book.image_len); }
static void look(void) {
    uint32_t at = mpm_look(book.kind, MPM_RULE_MPM, 0, fcb + MPM_FCB_NAME, MPM_NAME_LEN, 0, book.image, book.image_len);
    answer = at != 0 ? 0u : 1u;
}
static void build(void) { answer = mpm_book_vector(&book); }
static void salvage(void) {
    answer = mpm_salvage(book.kind, MPM_RULE_MPM, book.image, book.image_len, report, mpm_entries(book.kind));
}
static void pack(void) {
    answer = mpm_pack(book.kind, book.image, book.image_len, book.list, book.list_len, packed, book.image_len);
}
static void same(void) { answer = mpm_same(book.kind, book.image, book.image_len, packed, book.image_len); }
static void call(void) { answer = mpm_book_call(&book, function, process, count, fcb, dma); }
static void singly(void) {
    answer = mpm_singly(book.kind, function, process, count, fcb, sizeof fcb, dma, sizeof dma, book.list,
                        book.list_len, book.image, book.image_len, book.vector, book.vector_len);
}

static int measure(const char *name, void (*job)(void)) {
    size_t taken = stack_of(job);
    printf("%-6s  %6lu  %s\n", book.kind == MPM_KIND_SMALL ? "small" : "large", (unsigned long)taken, name);
    if (taken > highest) highest = taken;
    if (answer != 0) printf("WRONG: it is refused\n"); /* the one entry that is found has place 0 */
    return answer == 0;
}

static int measure_call(const char *name, uint32_t number, uint32_t by, uint32_t records, void (*job)(void)) {
    function = number, process = by, count = records;
    return measure(name, job);
}

static void for_file(uint32_t record, uint32_t file_id) {
    mpm_set_fcb(fcb, "ORDERS.DAT", MPM_MODE_UNLOCKED);
    mpm_set_record(fcb, record);
    memset(dma, 0, sizeof dma);
    mpm_set_file_id(dma, file_id);
}

/* A Next that finds the file's entry, and one that looks through the whole directory in vain. */
static int measure_next(void) {
    book.list[MPM_LIST_POSITIONS + 3] = 0;
    if (!measure_call("18 Search Next", MPM_FN_SEARCH_NEXT, 3, 1, call)) return 0;
    return mpm_book_call(&book, MPM_FN_SEARCH_NEXT, 3, 1, fcb, dma) == MPM_NO_MATCH;
}

/* The names of process 1's file: made, written, locked, read, and given up in each way. */
static int measure_kind(uint32_t kind, size_t image_len) {
    struct mpm_book fresh = {kind,      list,   sizeof list,         image + sizeof image - image_len,
                             image_len, vector, mpm_vector_len(kind)};
    book = fresh;
    memset(book.image, MPM_EMPTY, image_len);
    int good = measure("mpm_start", start) && measure("mpm_check", check) && measure("mpm_vector", build);
    for_file(0, 0);
    good = good && measure_call("22 Make", MPM_FN_MAKE, 1, 1, call);
    for_file(0, 0);
    good = good && measure_call("15 Open", MPM_FN_OPEN, 2, 1, call);
    for_file(0, 0);
    good = good && measure_call("40 Write, zero fill, 16", MPM_FN_WRITE_ZEROS, 1, 16, call) &&
           measure_call("34 Write, 16", MPM_FN_WRITE, 1, 16, call) &&
           measure_call("33 Read, 16", MPM_FN_READ, 2, 16, call) &&
           measure_call("33 Read, 16, mpm_singly", MPM_FN_READ, 2, 16, singly) &&
           measure_call("41 Test and Write", MPM_FN_TEST_WRITE, 2, 1, call) && measure("mpm_look", look) &&
           measure("mpm_salvage", salvage);
    for_file(0, 0);
    good = good && measure_call("42 Lock, 16", MPM_FN_LOCK, 1, 16, call) &&
           measure_call("43 Unlock, 16", MPM_FN_UNLOCK, 1, 16, call) &&
           measure_call("42 Lock, 16", MPM_FN_LOCK, 1, 16, call) &&
           measure_call("46 Free Space", MPM_FN_FREE_SPACE, 2, 1, call) &&
           measure_call("35 File Size", MPM_FN_SIZE, 3, 1, call) &&
           measure_call("17 Search First", MPM_FN_SEARCH_FIRST, 3, 1, call) &&
           measure_call("16 Close", MPM_FN_CLOSE, 2, 1, call) &&
           measure_call("143 Terminate", MPM_FN_TERMINATE, 1, 1, call);
    good = good && measure_next();
    return good && mpm_set_name(fcb + MPM_FCB_NEW_NAME, "OLD.DAT") == MPM_NAMING_OK &&
           measure_call("23 Rename", MPM_FN_RENAME, 1, 1, call) &&
           mpm_set_fcb(fcb, "OLD.DAT", MPM_MODE_LOCKED) == MPM_NAMING_OK &&
           measure_call("19 Delete", MPM_FN_DELETE, 1, 1, call) &&
           measure_call("22 Make", MPM_FN_MAKE, 1, 1, call) &&
           measure_call("19 Delete, open by the caller", MPM_FN_DELETE, 1, 1, call) && measure("mpm_pack", pack) &&
           measure("mpm_same", same);
}

int main(void) {
    int good = measure_kind(MPM_KIND_SMALL, MPM_SMALL_MAX_BLOCKS * MPM_SMALL_BLOCK_LEN) &&
               measure_kind(MPM_KIND_LARGE, MPM_LARGE_MIN_BLOCKS * MPM_LARGE_BLOCK_LEN);
    printf("highest: %lu bytes\n", (unsigned long)highest);
    return good && highest <= MOST ? 0 : 1;
}
