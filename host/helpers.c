/* Tries the helpers of mpm.h and a book's call: what they must give is written here, from what mpm.h says of them.
   Prints a line for each fault. Exit status: 0 if there is none, else 1. */

#include "mpm.h"

#include <stdio.h>
#include <string.h>

#define COUNT(array) (sizeof(array) / sizeof(array)[0])

enum { RULE = MPM_RULE_MPM }; /* of the books below */

static int faults;

static void want(int holds, const char *what) {
    if (holds) return;
    printf("FAULT: %s\n", what);
    faults++;
}

/* ---- Names ---- */

static void try_names(void) {
    static const struct {
        const char *text, *name;
        uint32_t naming;
    } all[] = {
        {"ORDERS.DAT", "ORDERS  DAT", MPM_NAMING_OK},    {"orders.dat", "ORDERS  DAT", MPM_NAMING_OK},
        {"A", "A          ", MPM_NAMING_OK},             {"A.", "A          ", MPM_NAMING_OK},
        {"EIGHTLET.TXT", "EIGHTLETTXT", MPM_NAMING_OK},  {"WORK.$$$", "WORK    $$$", MPM_NAMING_OK},
        {"a~z.{x}", "A~Z     {X}", MPM_NAMING_OK},       {"B.C", "B       C  ", MPM_NAMING_OK},
        {"", "", MPM_NAMING_NO_NAME},                    {".DAT", "", MPM_NAMING_NO_NAME},
        {".", "", MPM_NAMING_NO_NAME},                   {"NINELETTE", "", MPM_NAMING_LONG_NAME},
        {"NINELETTE.DAT", "", MPM_NAMING_LONG_NAME},     {"ORDERS.DATA", "", MPM_NAMING_LONG_TYPE},
        {"ORDERS.DAT.OLD", "", MPM_NAMING_CHARACTER},    {"A:ORDERS.DAT", "", MPM_NAMING_CHARACTER},
        {"OR DERS.DAT", "", MPM_NAMING_CHARACTER},       {" ORDERS.DAT", "", MPM_NAMING_CHARACTER},
        {"ORDERS.DAT ", "", MPM_NAMING_CHARACTER},       {"*.DAT", "", MPM_NAMING_CHARACTER},
        {"ORDERS.DA?", "", MPM_NAMING_CHARACTER},        {"ORDERS.DA\t", "", MPM_NAMING_CHARACTER},
        {"ORDERS.DA\177", "", MPM_NAMING_CHARACTER},     {"ORD\303\211.DAT", "", MPM_NAMING_CHARACTER},
        {"A,B", "", MPM_NAMING_CHARACTER},               {"A/B", "", MPM_NAMING_CHARACTER},
        {"A;B", "", MPM_NAMING_CHARACTER},               {"[A].B", "", MPM_NAMING_CHARACTER},
    };
    for (size_t i = 0; i < COUNT(all); i++) {
        uint8_t name[MPM_NAME_LEN + 1] = "untouched!!";
        const char *left = all[i].naming == MPM_NAMING_OK ? all[i].name : "untouched!!";
        want(mpm_set_name(name, all[i].text) == all[i].naming, all[i].text);
        want(memcmp(name, left, sizeof name) == 0, all[i].text);
    }
    for (uint32_t naming = MPM_NAMING_OK; naming <= MPM_NAMING_CHARACTER; naming++)
        for (uint32_t other = 0; other < naming; other++)
            want(strcmp(mpm_naming_text(naming), mpm_naming_text(other)) != 0, "two reasons have one sentence");
}

static void try_fcb(void) {
    static const uint8_t unlocked[MPM_FCB_LEN] = {0, 'O', 'R', 'D', 'E', 'R' + 0x80, 'S', ' ', ' ', 'D', 'A', 'T'};
    static const uint8_t read_only[MPM_FCB_LEN] = {0, 'O', 'R', 'D', 'E', 'R', 'S' + 0x80, ' ', ' ', 'D', 'A', 'T'};
    static const uint8_t locked[MPM_FCB_LEN] = {0, 'O', 'R', 'D', 'E', 'R', 'S', ' ', ' ', 'D', 'A', 'T'};
    uint8_t fcb[MPM_FCB_LEN], kept[MPM_FCB_LEN];
    memset(fcb, 0x55, sizeof fcb);
    memcpy(kept, fcb, sizeof fcb);
    want(mpm_set_fcb(fcb, "ORDERS.DATA", 0) == MPM_NAMING_LONG_TYPE, "a long type is taken");
    want(memcmp(fcb, kept, sizeof fcb) == 0, "a refused name has changed the FCB");
    want(mpm_set_fcb(fcb, "ORDERS.DAT", MPM_MODE_UNLOCKED) == MPM_NAMING_OK, "a name is refused");
    want(memcmp(fcb, unlocked, sizeof fcb) == 0, "an FCB for unlocked mode");
    mpm_set_fcb(fcb, "ORDERS.DAT", MPM_MODE_READ_ONLY);
    want(memcmp(fcb, read_only, sizeof fcb) == 0, "an FCB for read-only mode");
    mpm_set_fcb(fcb, "ORDERS.DAT", MPM_MODE_LOCKED);
    want(memcmp(fcb, locked, sizeof fcb) == 0, "an FCB for locked mode");
}

struct pattern {
    const char *text, *name;
    uint32_t naming;
};

static void try_searches(void) {
    static const struct pattern all[] = {
        {"*.*", "???????????", MPM_NAMING_OK},       {"*", "????????   ", MPM_NAMING_OK},
        {"*.dat", "????????DAT", MPM_NAMING_OK},     {"ORD?RS.*", "ORD?RS  ???", MPM_NAMING_OK},
        {"or*.d?", "OR??????D? ", MPM_NAMING_OK},    {"EIGHTLET*.TYP*", "EIGHTLETTYP", MPM_NAMING_OK},
        {"?", "?          ", MPM_NAMING_OK},         {"A.", "A          ", MPM_NAMING_OK},
        {"????????.???", "???????????", MPM_NAMING_OK}, {"*.A*", "????????A??", MPM_NAMING_OK},
        {"", 0, MPM_NAMING_NO_NAME},                 {".DAT", 0, MPM_NAMING_NO_NAME},
        {"NINELETTE", 0, MPM_NAMING_LONG_NAME},      {"?????????.X", 0, MPM_NAMING_LONG_NAME},
        {"A.????", 0, MPM_NAMING_LONG_TYPE},         {"A*B", 0, MPM_NAMING_CHARACTER},
        {"**", 0, MPM_NAMING_CHARACTER},             {"A.*B", 0, MPM_NAMING_CHARACTER},
        {"A.B.C", 0, MPM_NAMING_CHARACTER},          {"A B", 0, MPM_NAMING_CHARACTER},
        {":A", 0, MPM_NAMING_CHARACTER},             {"A/B.C", 0, MPM_NAMING_CHARACTER},
    };
    uint8_t fcb[MPM_FCB_LEN], kept[MPM_FCB_LEN];
    for (size_t i = 0; i < COUNT(all); i++) {
        memset(fcb, 0xA5, sizeof fcb);
        memset(kept, 0xA5, sizeof kept);
        want(mpm_set_search(fcb, all[i].text, 1) == all[i].naming, all[i].text);
        if (all[i].naming == MPM_NAMING_OK) {
            memset(kept, 0, sizeof kept);
            memcpy(kept + 1, all[i].name, 11);
            kept[12] = '?';
        }
        want(memcmp(fcb, kept, sizeof fcb) == 0, all[i].text);
    }
    want(mpm_set_search(fcb, "*.*", 0) == MPM_NAMING_OK && fcb[12] == 0, "extent 0 only");
}

/* ---- Numbers ---- */

static void try_numbers(void) {
    static const uint8_t low_first[] = {1, 2, 3};
    uint8_t fcb[MPM_FCB_LEN] = {0}, dma[4] = {9, 9, 9, 9};
    mpm_set_record(fcb, 0x030201u);
    want(memcmp(fcb + 33, low_first, 3) == 0 && mpm_record(fcb) == 0x030201u, "a record number");
    mpm_set_record(fcb, 0x1000000u);
    want(mpm_record(fcb) == 0xFFFFFFu, "a record number without room is cut");
    mpm_set_record(fcb, 0xFFFFFFFFu);
    want(mpm_record(fcb) == 0xFFFFFFu && fcb[32] == 0, "the highest number");
    fcb[33] = 63, fcb[34] = 0, fcb[35] = 0;
    mpm_set_file_id(dma, mpm_file_id(fcb));
    want(dma[0] == 63 && dma[1] == 0 && dma[2] == 9 && dma[3] == 9, "a File ID");
    fcb[33] = 0, fcb[34] = 0, fcb[35] = 4;
    want(mpm_size(fcb) == MPM_RECORDS, "the greatest size");
}

static void try_kinds(void) {
    want(mpm_kind_of(0) == MPM_KINDS && mpm_kind_of(2048) == MPM_KINDS, "a drive without a data block");
    want(mpm_kind_of(3072) == MPM_KIND_SMALL && mpm_kind_of(262144) == MPM_KIND_SMALL, "small drives");
    want(mpm_kind_of(263168) == MPM_KINDS && mpm_kind_of(524288) == MPM_KINDS, "between the kinds");
    want(mpm_kind_of(526336) == MPM_KIND_LARGE && mpm_kind_of(8388608) == MPM_KIND_LARGE, "large drives");
    want(mpm_kind_of(8390656) == MPM_KINDS && mpm_kind_of(3073) == MPM_KINDS, "no whole drive");
}

/* A small drive of ten blocks of which 3 and 8 are used, and a large one of 300 with block 256. */
static void try_vectors(void) {
    static const uint8_t small[MPM_SMALL_VECTOR_LEN] = {0xD0, 0x80};
    static uint8_t large[MPM_LARGE_VECTOR_LEN];
    want(mpm_vector_len(MPM_KIND_SMALL) == 32 && mpm_vector_len(MPM_KIND_LARGE) == 512, "the lengths of vectors");
    want(mpm_vector_len(MPM_KINDS) == 0 && mpm_vector_len(256) == 0, "the vector of an unknown kind");
    for (uint32_t block = 0; block < 256; block++) {
        int used = block == 0 || block == 1 || block == 3 || block == 8;
        want(mpm_block_used(small, block) == used, "a block of a vector");
    }
    want(mpm_free_records(MPM_KIND_SMALL, 10 * 1024, small) == 6 * 8, "six free blocks of ten");
    want(mpm_free_records(MPM_KIND_SMALL, 3 * 1024, small) == 8, "one free block of three");
    want(mpm_free_records(MPM_KIND_SMALL, 256 * 1024, small) == 252 * 8, "252 free blocks of 256");
    want(mpm_free_records(MPM_KIND_SMALL, 2 * 1024, small) == 0, "too few blocks");
    want(mpm_free_records(MPM_KIND_LARGE, 10 * 1024, small) == 0, "no large drive");
    want(mpm_free_records(MPM_KINDS, 10 * 1024, small) == 0, "no drive");
    large[0] = 0xC0, large[32] = 0x80;
    want(mpm_block_used(large, 256) && !mpm_block_used(large, 255) && !mpm_block_used(large, 257), "block 256");
    want(mpm_free_records(MPM_KIND_LARGE, 300 * 2048, large) == 297 * 16, "297 free blocks of 300");
    want(mpm_free_records(MPM_KIND_LARGE, 4096 * 2048, large) == 4093 * 16, "4,093 free blocks of 4,096");
}

static void try_rules(void) {
    static uint8_t list[MPM_LIST_LEN];
    want(mpm_records(MPM_RULE_MPM) == MPM_RECORDS && mpm_records(MPM_RULE_CPM) == 65536, "the records of each rule");
    want(mpm_records(2) == MPM_RECORDS && mpm_records(257) == MPM_RECORDS, "any other number is MP/M's rule");
    want(mpm_rule_of(list, sizeof list) == MPM_RULE_MPM, "a list with MP/M's rule");
    list[MPM_LIST_RULE] = 1;
    want(mpm_rule_of(list, sizeof list) == MPM_RULE_CPM, "a list with CP/M's rule");
    want(mpm_rule_of(list, sizeof list - 1) == MPM_RULE_MPM && mpm_rule_of(0, 0) == MPM_RULE_MPM, "no whole list");
    list[MPM_LIST_RULE] = 2;
    want(mpm_rule_of(list, sizeof list) == MPM_RULE_MPM, "a list with no rule");
}

/* ---- Answers ---- */

/* Every answer of every function has a name and a sentence, and no two names have one sentence. */
static void try_answers(void) {
    uint32_t named = 0;
    for (uint32_t answer = 0; answer < MPM_ANSWER(0u, 16u); answer++) {
        const char *name = mpm_answer_name(MPM_FN_OPEN, answer), *text = mpm_answer_text(MPM_FN_OPEN, answer);
        int known = strcmp(name, "no answer of the engine") != 0;
        want(known == (strcmp(text, "This is no answer of the engine.") != 0), "a name without a sentence");
        named += known ? 1u : 0u;
        for (uint32_t other = 0; other < answer && known; other++)
            want(strcmp(text, mpm_answer_text(MPM_FN_OPEN, other)) != 0, "two answers have one sentence");
    }
    want(named == 25, "there are 25 numbers that are answers");
    want(strcmp(mpm_answer_name(MPM_FN_WRITE, 8 + 256 * 48), "MPM_ERR_LOCKED") == 0, "8/48 is 8/0 after three");
    want(strcmp(mpm_answer_name(MPM_FN_OPEN, 255), "MPM_ERR_NOT_FOUND") == 0, "255/0 of Open");
    want(strcmp(mpm_answer_name(MPM_FN_MAKE, 255), "MPM_ERR_NO_EMPTY_ENTRY") == 0, "255/0 of Make");
    want(strcmp(mpm_answer_text(MPM_FN_MAKE, 255), mpm_answer_text(MPM_FN_OPEN, 255)) != 0, "255/0 has one sentence");
    want(strcmp(mpm_answer_name(MPM_FN_MAKE, 0), "MPM_OK") == 0, "0/0 of Make");
}

/* What was refused is told by the function and the answer. */
static void try_refusals(void) {
    static const uint32_t searches[] = {MPM_FN_SEARCH_FIRST, MPM_FN_SEARCH_NEXT};
    static const uint32_t general[] = {MPM_ERR_BAD_CALL, MPM_ERR_BAD_IMAGE, MPM_ERR_BAD_LIST, MPM_ERR_BAD_DRIVE};
    for (size_t i = 0; i < COUNT(searches); i++) {
        for (uint32_t place = 0; place < 4; place++) {
            want(mpm_found(place) && !mpm_refused(searches[i], place), "a find is none");
            want(strcmp(mpm_answer_name(searches[i], place), "MPM_FOUND") == 0, "a find has another name");
        }
        want(!mpm_found(4) && mpm_refused(searches[i], 4), "4/0 is no answer of a search");
        want(!mpm_found(255) && !mpm_refused(searches[i], 255), "no match is a refusal");
        want(strcmp(mpm_answer_name(searches[i], 255), "MPM_NO_MATCH") == 0, "no match has another name");
        want(strcmp(mpm_answer_text(searches[i], 255), mpm_answer_text(MPM_FN_OPEN, 255)) != 0, "255/0 of a search");
        want(strcmp(mpm_answer_text(searches[i], 1), mpm_answer_text(MPM_FN_READ, 1)) != 0, "1/0 of a search");
        for (size_t k = 0; k < COUNT(general); k++) {
            want(mpm_refused(searches[i], general[k]) && mpm_refused(MPM_FN_READ, general[k]), "a general refusal");
            want(strcmp(mpm_answer_name(searches[i], general[k]), mpm_answer_name(MPM_FN_OPEN, general[k])) == 0,
                 "a general refusal has one name");
        }
    }
    want(mpm_refused(MPM_FN_READ, 1) && mpm_refused(MPM_FN_OPEN, 255), "refusals of others");
    want(!mpm_refused(MPM_FN_READ, 1 + 256 * 16) && !mpm_refused(MPM_FN_READ, 0), "records were done");
}

/* ---- The image check ---- */

/* The nine codes have a name and a sentence each, whatever the entry, and no two have the same. */
static void try_checks(void) {
    for (uint32_t code = 0; code < 256; code++) {
        const char *name = mpm_check_name(code + 256 * 127), *text = mpm_check_text(code + 256 * 127);
        want((strcmp(name, "no answer of the image check") != 0) == (code < 9), "there are nine codes with a name");
        want((strcmp(text, "This is no answer of the image check.") != 0) == (code < 9), "nine codes with a sentence");
        want(strcmp(name, mpm_check_name(code)) == 0 && strcmp(text, mpm_check_text(code)) == 0, "one name, any entry");
        for (uint32_t other = 0; other < code && code < 9; other++)
            want(strcmp(text, mpm_check_text(other)) != 0 && strcmp(name, mpm_check_name(other)) != 0,
                 "two codes have one name or sentence");
    }
    want(strcmp(mpm_check_name(2 + 256 * 17), "MPM_CHECK_BAD_USER") == 0, "2 is a bad user byte");
    want(strcmp(mpm_check_name(5), "MPM_CHECK_BLOCK_RANGE") == 0, "5 is a block number out of range");
    want(strcmp(mpm_check_name(6), "MPM_CHECK_BLOCK_TWICE") == 0, "6 is a block named before");
    want(strcmp(mpm_check_name(8), "MPM_CHECK_NO_EXTENT_0") == 0, "8 is a file lacking extent 0");
    want(mpm_check_code(6 + 256 * 127) == 6 && mpm_check_entry(6 + 256 * 127) == 127, "an answer is taken apart");
    want(mpm_check_code(MPM_CHECK_WRONG_LENGTH) == 1 && mpm_check_entry(MPM_CHECK_WRONG_LENGTH) == 0, "1 of entry 0");
}

/* ---- Salvage ---- */

/* The three answers have a name and a sentence each, and no two the same. */
static void try_salvages(void) {
    for (uint32_t answer = 0; answer < 300; answer++) {
        const char *name = mpm_salvage_name(answer), *text = mpm_salvage_text(answer);
        want((strcmp(name, "no answer of salvage") != 0) == (answer < 3), "there are three answers of salvage");
        want((strcmp(text, "This is no answer of salvage.") != 0) == (answer < 3), "three answers with a sentence");
        for (uint32_t other = 0; other < answer && answer < 3; other++)
            want(strcmp(text, mpm_salvage_text(other)) != 0, "two answers of salvage have one sentence");
    }
    want(strcmp(mpm_salvage_name(1), "MPM_SALVAGE_WRONG_LENGTH") == 0, "1 is a wrong length");
    want(strcmp(mpm_salvage_name(2), "MPM_SALVAGE_WRONG_REPORT") == 0, "2 is a wrong report");
}

/* ---- Comparing ---- */

/* The four answers have a name and a sentence each, and no two the same. */
static void try_comparings(void) {
    for (uint32_t answer = 0; answer < 300; answer++) {
        const char *name = mpm_same_name(answer), *text = mpm_same_text(answer);
        want((strcmp(name, "no answer of comparing") != 0) == (answer < 4), "there are four answers of comparing");
        want((strcmp(text, "This is no answer of comparing.") != 0) == (answer < 4), "four answers with a sentence");
        for (uint32_t other = 0; other < answer && answer < 4; other++)
            want(strcmp(text, mpm_same_text(other)) != 0, "two answers of comparing have one sentence");
    }
    want(strcmp(mpm_same_name(2), "MPM_SAME_BAD_SECOND") == 0, "2 is an unsound second");
    want(strcmp(mpm_same_name(3), "MPM_SAME_DIFFERENT") == 0, "3 is another book");
}

/* ---- A book ---- */

/* A book that has no vector gets one, and keeps image and list. */
static void add_vector(struct mpm_book *book) {
    static uint8_t vector[MPM_SMALL_VECTOR_LEN];
    memset(vector, 0xA5, sizeof vector);
    book->vector = vector;
    book->vector_len = sizeof vector - 1;
    want(mpm_book_vector(book) == MPM_ERR_BAD_CALL && vector[0] == 0xA5, "a short vector is built");
    book->vector_len = sizeof vector;
    want(mpm_book_vector(book) == MPM_OK && vector[0] == 0xC0 && vector[31] == 0, "a vector is built");
}

static void try_book(void) {
    static uint8_t image[3 * 1024], list[MPM_LIST_LEN], dma[MPM_DMA_LEN], fcb[MPM_FCB_LEN];
    static const uint8_t users[MPM_USERS_LEN] = {0};
    struct mpm_book book = {MPM_KIND_SMALL, list, sizeof list, image, sizeof image, 0, 0};
    memset(image, MPM_EMPTY, sizeof image);
    want(mpm_start(book.kind, 4, 2, 2, RULE, users, sizeof users, list, sizeof list) == MPM_OK, "a list is begun");
    mpm_set_fcb(fcb, "ORDERS.DAT", MPM_MODE_UNLOCKED);
    want(mpm_book_call(&book, MPM_FN_MAKE, 3, 1, fcb, dma) == MPM_ERR_BAD_CALL, "a book without a vector is taken");
    add_vector(&book);
    want(mpm_book_call(&book, MPM_FN_MAKE, 3, 1, fcb, dma) == MPM_OK, "a file is made in the book");
    uint32_t file_id = mpm_file_id(fcb);
    mpm_set_record(fcb, 7);
    memset(dma, 'x', MPM_RECORD_LEN);
    want(mpm_book_call(&book, MPM_FN_WRITE_ZEROS, 3, 1, fcb, dma) == MPM_OK, "a record is written");
    want(book.vector[0] == 0xE0 && mpm_block_used(book.vector, 2), "block 2 is used");
    want(mpm_free_records(book.kind, book.image_len, book.vector) == 0, "no block is free");
    book.vector[31] ^= 1;
    want(mpm_book_call(&book, MPM_FN_SIZE, 9, 1, fcb, dma) == MPM_ERR_BAD_VECTOR, "a bit past the drive is taken");
    book.vector[31] ^= 1;
    want(mpm_look(book.kind, RULE, 0, fcb + 1, 11, 7, image, sizeof image) == 2 * 1024 + 7 * 128, "Look shows it");
    want(mpm_book_call(&book, MPM_FN_SIZE, 9, 1, fcb, dma) == MPM_OK && mpm_size(fcb) == 8, "eight records");
    mpm_set_record(fcb, 7);
    mpm_set_file_id(dma, file_id);
    want(mpm_book_call(&book, MPM_FN_LOCK, 3, 1, fcb, dma) == MPM_OK, "it is locked");
    mpm_set_search(fcb, "ORD*.*", 1);
    uint32_t found = mpm_search_first(&book, 5, fcb, dma);
    want(found == MPM_FOUND(0u) && mpm_entry(dma, found) == dma && memcmp(dma, image, 128) == 0, "it is found");
    want(mpm_extent(mpm_entry(dma, found)) == 0 && mpm_entry(dma, 3) == dma + 96, "extent 0 of the file");
    want(list[MPM_LIST_POSITIONS + 5] == 1 && list[MPM_LIST_POSITIONS + 3] == 64, "the search is process 5's");
    want(mpm_search_next(&book, 3, fcb, dma) == MPM_NO_MATCH, "process 3 searches nothing");
    want(mpm_search_next(&book, 5, fcb, dma) == MPM_NO_MATCH && list[MPM_LIST_POSITIONS + 5] == 64, "there is no more");
    mpm_set_fcb(fcb, "ORDERS.DAT", MPM_MODE_UNLOCKED);
    mpm_set_record(fcb, 7);
    mpm_set_file_id(dma, file_id + 1);
    want(mpm_book_call(&book, MPM_FN_LOCK, 3, 1, fcb, dma) == MPM_ERR_BAD_FILE_ID, "another File ID is taken");
    book.list_len--;
    want(mpm_book_call(&book, MPM_FN_FREE_SPACE, 3, 1, fcb, dma) == MPM_ERR_BAD_CALL, "a short list is taken");
    image[MPM_ENTRY_LEN] = 16;
    uint32_t check = mpm_check(book.kind, RULE, image, sizeof image);
    want(mpm_check_code(check) == MPM_CHECK_BAD_USER && mpm_check_entry(check) == 1, "entry 1 has a bad user byte");
    static uint8_t report[MPM_SMALL_ENTRIES], packed[sizeof image];
    want(mpm_salvage(book.kind, RULE, image, sizeof image, report, 1) == MPM_SALVAGE_WRONG_REPORT, "a short report");
    want(mpm_salvage(MPM_KINDS, RULE, image, sizeof image, report, mpm_entries(book.kind)) == MPM_SALVAGE_WRONG_LENGTH,
         "an unknown kind is mended");
    want(image[MPM_ENTRY_LEN] == 16, "a refused salvage has changed the image");
    want(mpm_salvage(book.kind, RULE, image, sizeof image, report, sizeof report) == MPM_SALVAGE_DONE, "it is mended");
    want(report[0] == MPM_SALVAGE_UNTOUCHED && report[1] == MPM_SALVAGE_EMPTIED, "entry 1 was emptied");
    want(mpm_check(book.kind, RULE, image, sizeof image) == MPM_CHECK_SOUND, "a mended image is sound");
    want(mpm_book_vector(&book) == MPM_OK && book.vector[0] == 0xE0, "a mended image gets its vector");
    book.list_len++;
    want(mpm_pack(book.kind, image, sizeof image, list, sizeof list, packed, sizeof packed) == MPM_ERR_IN_USE,
         "a book is packed while a file is open");
    want(mpm_book_call(&book, MPM_FN_TERMINATE, 3, 1, fcb, dma) == MPM_OK, "the process is ended");
    want(mpm_pack(book.kind, image, sizeof image, list, sizeof list, packed, 9) == MPM_ERR_BAD_CALL, "another length");
    want(mpm_pack(book.kind, image, sizeof image, list, sizeof list, packed, sizeof packed) == MPM_OK, "it is packed");
    want(mpm_look(book.kind, RULE, 0, fcb + 1, 11, 7, packed, sizeof packed) == 2 * 1024 + 7 * 128, "Look shows it");
    want(mpm_same(book.kind, image, sizeof image, packed, sizeof packed) == MPM_SAME_BOOK, "it is the same book");
    packed[2 * 1024]++;
    want(mpm_same(book.kind, image, sizeof image, packed, sizeof packed) == MPM_SAME_DIFFERENT, "a byte is another");
    want(mpm_same(book.kind, image, sizeof image, packed, 1024) == MPM_SAME_BAD_SECOND, "a short image is taken");
    want(mpm_same(MPM_KINDS, image, sizeof image, packed, sizeof packed) == MPM_SAME_BAD_FIRST, "an unknown kind");
}

/* ---- The capacity ---- */

/* An image with 64 files, of which the first has 64 records. Returns 0 if a call was refused. */
static int make_files(struct mpm_book *book) {
    static const uint8_t users[MPM_USERS_LEN] = {0};
    static uint8_t dma[MPM_DMA_LEN], fcb[MPM_FCB_LEN];
    char name[] = "A0";
    memset(book->image, MPM_EMPTY, book->image_len);
    if (mpm_book_vector(book) != MPM_OK) return 0;
    if (mpm_start(book->kind, 1, 1, 1, RULE, users, sizeof users, book->list, book->list_len) != MPM_OK) return 0;
    for (uint32_t file = 0; file < 64; file++) {
        name[0] = (char)('A' + file / 8), name[1] = (char)('0' + file % 8);
        mpm_set_fcb(fcb, name, MPM_MODE_UNLOCKED);
        if (mpm_book_call(book, MPM_FN_MAKE, 0, 1, fcb, dma) != MPM_OK) return 0;
        for (uint32_t record = 0; file == 0 && record < 64; record += 16) {
            mpm_set_record(fcb, record);
            if (mpm_book_call(book, MPM_FN_WRITE, 0, 16, fcb, dma) != MPM_OK) return 0;
        }
        if (mpm_book_call(book, MPM_FN_CLOSE, 0, 1, fcb, dma) != MPM_OK) return 0;
    }
    return 1;
}

/* Each process opens as many files as it may and then locks as many records of the first. The first answer that is not
   MPM_OK, if there is one. */
static uint32_t fill(struct mpm_book *book, uint32_t capacity, uint32_t processes, uint32_t opens, uint32_t locks) {
    static const uint8_t users[MPM_USERS_LEN] = {0};
    static uint8_t dma[MPM_DMA_LEN], fcb[MPM_FCB_LEN];
    uint32_t file_ids[MPM_PROCESSES] = {0}, answer;
    char name[] = "A0";
    answer = mpm_start(book->kind, capacity, opens, locks, RULE, users, sizeof users, book->list, book->list_len);
    for (uint32_t i = 0; i < processes * opens && answer == MPM_OK; i++) {
        name[0] = (char)('A' + i % opens / 8), name[1] = (char)('0' + i % opens % 8);
        mpm_set_fcb(fcb, name, MPM_MODE_UNLOCKED);
        answer = mpm_book_call(book, MPM_FN_OPEN, i / opens, 1, fcb, dma);
        if (i % opens == 0) file_ids[i / opens] = mpm_file_id(fcb);
    }
    mpm_set_fcb(fcb, "A0", MPM_MODE_UNLOCKED);
    for (uint32_t i = 0; i < processes * locks && answer == MPM_OK; i++) {
        mpm_set_record(fcb, i);
        mpm_set_file_id(dma, file_ids[i / locks]);
        answer = mpm_book_call(book, MPM_FN_LOCK, i / locks, 1, fcb, dma);
    }
    return answer;
}

static void try_capacity(void) {
    static uint8_t image[10 * 1024], list[MPM_LIST_LEN];
    static const uint32_t all[][3] = {{1, 1, 1}, {2, 1, 1},  {1, 2, 1}, {1, 1, 63}, {1, 63, 1}, {2, 16, 16},
                                      {3, 2, 5}, {4, 4, 12}, {8, 2, 6}, {16, 2, 2}, {16, 3, 1}, {16, 1, 3}};
    static uint8_t vector[MPM_SMALL_VECTOR_LEN];
    struct mpm_book book = {MPM_KIND_SMALL, list, sizeof list, image, sizeof image, vector, sizeof vector};
    want(make_files(&book), "64 files are made");
    for (size_t i = 0; i < COUNT(all); i++) {
        uint32_t processes = all[i][0], opens = all[i][1], locks = all[i][2];
        uint32_t enough = mpm_capacity_for(processes, opens, locks);
        want(enough == processes * (opens + locks), "a capacity");
        want(fill(&book, enough, processes, opens, locks) == MPM_OK, "enough places");
        want(fill(&book, enough - 1, processes, opens, locks) == MPM_ERR_LOCK_LIST_FULL, "one place fewer");
    }
    want(mpm_capacity_for(16, 4, 4) == 128, "more than a list has");
    want(mpm_capacity_for(17, 2, 2) == 64 && mpm_capacity_for(0xFFFFFFFFu, 64, 64) == 2048, "more than 16 processes");
    want(mpm_capacity_for(0, 1, 1) == 0, "no process");
    want(mpm_capacity_for(1, 0, 1) == 0 && mpm_capacity_for(1, 1, 0) == 0, "no limit");
    want(mpm_capacity_for(1, 65, 1) == 0 && mpm_capacity_for(1, 1, 0xFFFFFFFFu) == 0, "a limit over 64");
}

int main(void) {
    try_names();
    try_fcb();
    try_numbers();
    try_kinds();
    try_vectors();
    try_rules();
    try_searches();
    try_answers();
    try_refusals();
    try_checks();
    try_salvages();
    try_comparings();
    try_book();
    try_capacity();
    if (faults == 0) printf("the helpers do what mpm.h says\n");
    return faults == 0 ? 0 : 1;
}
