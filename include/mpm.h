/* The engine's C interface: the files of MP/M II programs, on one drive that sixteen processes share.

   The engine is nine functions on numbers and lent bytes. It keeps nothing between two calls: the drive is the bytes of
   the image, who has opened and locked what is the bytes of the list, which blocks are used the bits of the vector, and
   all three are the host's.

   A drive is of one of two kinds, small or large. Nothing in the image says which: every function is told, and an image
   of one kind is never read as the other, since no length is one of both.

   There are two rules of where a file ends: that of MP/M II, and that of CP/M 2.2 for programs that expect 6/0 for any
   nonzero byte 35. The list chooses one; functions without a list are told it.

   What is promised, for all numbers and for buffers of every length and content:
   - Every call ends with a defined answer. The host need not test anything first.
   - A call is accepted exactly when no refusal applies, and then has exactly its effect; otherwise the answer is the
     first refusal that applies.
   - A refusal leaves every buffer unchanged. Where a 33, 34 or 40 of several records stopped at a record, that one and
     those after it leave no trace; those before it are done, and the answer tells how many. A 17 or 18 that finds no
     entry is no refusal: it sets the caller's position in the list, and nothing else.

   What the host owes, and nothing else:
   - Each pointer is valid for the length given with it. With a length of 0 it may be any pointer.
   - The buffers of one call do not overlap, and nobody else uses them until it returns.

   Below stand the nine functions and a book in one struct, then by name the sixteen calls, the answers, the sizes and
   the places in the buffers, and last the few helpers that every host writes. docs/INTEGRATION.md tells the rest. */
#ifndef MPM_H
#define MPM_H

#include <stddef.h>
#include <stdint.h>

#ifdef __cplusplus
extern "C" {
#endif

/* Raised with each change of a length, of a function's parameters or of a name. 1 was before this name was; since 2 the
   DMA has 2,048 bytes; since 3 the first parameter of every function is the kind of drive; since 4 functions have names
   that begin with MPM_FN_, refusals with MPM_ERR_ and the image check's answers with MPM_CHECK_; since 5 the image
   check tells the lowest bad entry and why; since 6 the list has 1,315 bytes, and 0/0 is not the only answer of a call
   that was accepted; since 7 mpm_call and mpm_singly take an allocation vector behind the image; since 8 the list has
   1,316 bytes, and mpm_start, mpm_check, mpm_look, mpm_vector and mpm_salvage are told the rule. With 4 and 5 no length
   and no parameter moved: an archive of 3 serves a host of 4, and to one of 5 it tells 2 of entry 0 for every directory
   that is not sound. A list of 1,299 bytes becomes one of 1,315 with sixteen bytes behind it that are the number of
   entries, mpm_entries; to an engine of 6 as it is, it is 255/13. A book that has no vector gets one from mpm_vector:
   image and list stay as they are, and nobody has to let go of anything. A list of 1,315 bytes becomes one of 1,316
   with the rule's byte behind it, 0 for what it was. */
#define MPM_VERSION 8u

/* ---- The lengths of the buffers, in bytes ---- */

#define MPM_FCB_LEN 36u
#define MPM_DMA_LEN 2048u /* for every function; 16 records */
#define MPM_LIST_LEN 1316u
#define MPM_LIST_RULE 1315u /* in the list, its last byte: MPM_RULE_MPM or MPM_RULE_CPM; above 1 it is not sound */
#define MPM_USERS_LEN 16u   /* a user for each process */
#define MPM_NAME_LEN 11u  /* name 8, type 3, filled up with blanks */

/* ---- The engine ---- */

/* One call of an MP/M II program. Gives A + 256 H.
   Numbers are taken as they come, never cut to a byte: kind 256 and function 271 are unknown. Count must be 1 to 16 for
   all functions; 33, 34, 40, 42 and 43 use it, the others do their work once. The lengths must be 36, 2,048, 1,316, one
   that a drive of the kind has, and 32 or 512 by the kind (mpm_vector_len). The vector must agree with the directory,
   and does so again after every call that was not refused. A refusal leaves all five buffers as they were
   (mpm_refused), but for the records that a 33, 34 or 40 has done (mpm_done). The FCB's record number is not moved on,
   and DMA bytes past the records done stay. A file is a name and the user that the list gives the process. */
uint32_t mpm_call(uint32_t kind, uint32_t function, uint32_t process, uint32_t count,
                  uint8_t *fcb, size_t fcb_len, uint8_t *dma, size_t dma_len,
                  uint8_t *list, size_t list_len, uint8_t *image, size_t image_len,
                  uint8_t *vector, size_t vector_len);

/* The plain engine, slower and kept to compare with: a 33, 34 or 40 is made as single calls one after another, up to
   the first that is refused. Its answer is that of the last single call, so it tells no number of records done:
   mpm_code of mpm_call's answer, with the same bytes in all five buffers. Every other function as mpm_call does it. */
uint32_t mpm_singly(uint32_t kind, uint32_t function, uint32_t process, uint32_t count,
                    uint8_t *fcb, size_t fcb_len, uint8_t *dma, size_t dma_len,
                    uint8_t *list, size_t list_len, uint8_t *image, size_t image_len,
                  uint8_t *vector, size_t vector_len);

/* Writes a fresh list for a drive of the kind, with the rule: MPM_OK, whatever the list held before. Or
   MPM_ERR_BAD_CALL and the list as it was, where the kind is unknown, one of the three limits is not 1 to 64, the rule
   is neither 0 nor 1, a user is not 0 to 15, users_len is not 16 or list_len is not 1,316. */
uint32_t mpm_start(uint32_t kind, uint32_t capacity, uint32_t open_limit, uint32_t lock_limit, uint32_t rule,
                   const uint8_t *users, size_t users_len, uint8_t *list, size_t list_len);

/* Checks an image of the kind, by the rule: 1, and any other number is 0, here and wherever a rule is told. Gives
   code + 256 entry: MPM_CHECK_SOUND or MPM_CHECK_WRONG_LENGTH, both of entry 0, or the lowest bad entry of the
   directory and why it is bad. Changes nothing. */
uint32_t mpm_check(uint32_t kind, uint32_t rule, const uint8_t *image, size_t image_len);

/* Builds the allocation vector of an image of the kind, whatever the vector held before: a bit for each block, the high
   one of byte 0 for block 0, set where a file uses the block or the directory lies there, clear from the number of
   blocks on. For a book that is begun or loaded, and after mpm_salvage and mpm_pack.
   Gives A + 256 H: MPM_OK; or, in this order, MPM_ERR_BAD_CALL where the kind is unknown or vector_len is not
   mpm_vector_len(kind), or MPM_ERR_BAD_IMAGE; and then the vector is as it was. */
uint32_t mpm_vector(uint32_t kind, uint32_t rule, const uint8_t *image, size_t image_len,
                    uint8_t *vector, size_t vector_len);

/* Tells where the 128 bytes of a record begin in the image, for screens. They lie inside the image and behind the
   directory. Gives 0 where there is nothing to show: the kind is unknown, the image not sound as one of the kind, the
   user over 15, the name illegal (any length but 11 too), or the record has no block. Changes nothing. */
uint32_t mpm_look(uint32_t kind, uint32_t rule, uint32_t user, const uint8_t *name, size_t name_len,
                  uint32_t record, const uint8_t *image, size_t image_len);

/* Mends a damaged image of the kind, so that it is sound; one that is sound stays as it is. For images from elsewhere,
   before mpm_start: no list fits an image that was mended, but a fresh one.
   First, in rising order, each entry that is bad for MPM_CHECK_BAD_USER, BAD_NAME or BAD_NUMBER is emptied, and each
   whose file and extent an earlier entry has that was kept; then all entries of files lacking extent 0. Then, in rising
   order, each block number of the entries that are left is zeroed that is out of range or was named before, in an
   earlier entry or earlier in the same one. Emptying sets byte 0 to E5h. No other byte changes.
   The report gets a byte for each entry of the directory: MPM_SALVAGE_UNTOUCHED, MPM_SALVAGE_EMPTIED or the number of
   block numbers zeroed. Its length must be mpm_entries(kind), 64 or 128.
   Gives MPM_SALVAGE_DONE; or MPM_SALVAGE_WRONG_LENGTH or MPM_SALVAGE_WRONG_REPORT, tested in this order, and then
   nothing has changed. */
uint32_t mpm_salvage(uint32_t kind, uint32_t rule, uint8_t *image, size_t image_len,
                     uint8_t *report, size_t report_len);

/* Packs a book: writes the same files into a second buffer of the image's length. Used entries move to the lowest
   places in their order, and blocks are numbered from 2 in the order in which a walk over these entries and their block
   numbers meets them; empty entries are E5h throughout, free blocks zeros. An entry moves as it is, but for its block
   numbers: attributes, counts and holes stay, and Look shows the same of every record. Packing twice is packing once.
   The image and the list stay as they are, positions too, though entries move: an 18 on the packed image may pass files
   by. With a file open it is refused; a search under way does not matter.
   Gives A + 256 H: MPM_OK; or, in this order, MPM_ERR_BAD_CALL where the kind is unknown, list_len is not 1,316 or
   packed_len is not image_len, MPM_ERR_BAD_IMAGE, MPM_ERR_BAD_LIST, or MPM_ERR_IN_USE where the list holds an open, of
   any process; and then the second buffer is as it was. */
uint32_t mpm_pack(uint32_t kind, const uint8_t *image, size_t image_len, const uint8_t *list, size_t list_len,
                  uint8_t *packed, size_t packed_len);

/* Tells whether two images of the kind hold the same book, for one that others have moved: the same files with the same
   attributes of extent 0, all eleven, and Look shows the same 128 bytes or nothing in both, for each record. A block of
   zeros is not the same as none, and records past the count are compared. Lengths may differ, and so may the order of
   entries, block numbers, counts, byte 13, the attributes of later extents, extents without blocks and what is free.
   Gives MPM_SAME_BOOK; or, in this order, MPM_SAME_BAD_FIRST, MPM_SAME_BAD_SECOND or MPM_SAME_DIFFERENT. Changes
   nothing. A book and what mpm_pack makes of it are always the same, in either order. */
uint32_t mpm_same(uint32_t kind, const uint8_t *first, size_t first_len, const uint8_t *second, size_t second_len);

/* ---- The rules ---- */

#define MPM_RULE_MPM 0u /* a file has the records 0 to 262,143; modules go to 63 */
#define MPM_RULE_CPM 1u /* CP/M 2.2: records 0 to 65,535, so 6/0 for any nonzero byte 35; modules to 15 */
#define MPM_RULES 2u

/* How many records a file can have, by a rule as functions are told it. */
static inline uint32_t mpm_records(uint32_t rule) { return rule == MPM_RULE_CPM ? 65536u : 262144u; }

/* The rule by which an image beside this list is judged: a list of another length, or with a byte that is neither 0 nor
   1, has none, and the image is judged by that of MP/M II. */
static inline uint32_t mpm_rule_of(const uint8_t *list, size_t list_len) {
    return list_len == MPM_LIST_LEN && list[MPM_LIST_RULE] == MPM_RULE_CPM ? MPM_RULE_CPM : MPM_RULE_MPM;
}

/* ---- A book in one struct ---- */

/* The buffers of a book that outlive a call. They belong together: a list and a vector fit the image that they were
   used with. Buffers of later versions join at the end: fill the struct with zeros before its members, and a missing
   one is refused. */
struct mpm_book {
    uint32_t kind;
    uint8_t *list;
    size_t list_len;
    uint8_t *image;
    size_t image_len;
    uint8_t *vector;
    size_t vector_len;
};

/* mpm_call on a book, with an FCB of 36 bytes and a DMA of 2,048. */
static inline uint32_t mpm_book_call(struct mpm_book *book, uint32_t function, uint32_t process, uint32_t count,
                                     uint8_t *fcb, uint8_t *dma) {
    return mpm_call(book->kind, function, process, count, fcb, MPM_FCB_LEN, dma, MPM_DMA_LEN, book->list,
                    book->list_len, book->image, book->image_len, book->vector, book->vector_len);
}

/* mpm_vector on a book, by its list's rule. */
static inline uint32_t mpm_book_vector(struct mpm_book *book) {
    return mpm_vector(book->kind, mpm_rule_of(book->list, book->list_len), book->image, book->image_len,
                      book->vector, book->vector_len);
}

/* ---- Functions of mpm_call. After each, its refusals in the order tested, behind the five that come first ---- */

/* 33, 34 and 40 do count records from the FCB's on, in rising order, and stop at the first that is refused. */

/* 15: opens a file. If the caller has it open in the same mode, accepted with no new item. Sets FCB bytes 12 to 31
   and, in unlocked mode, 33 to 35 to the File ID, which is the place of the open in the list.
   BAD_NAME, NOT_FOUND, IN_USE, OPEN_LIMIT, OPEN_LIST_FULL */
#define MPM_FN_OPEN 15u
/* 16: takes away the caller's open of a file and its locks on it.
   CLOSE_NOT_OPEN */
#define MPM_FN_CLOSE 16u
/* 17: finds the lowest entry of the caller's user that has the FCB's name, "?" standing for any character in its place;
   with "?" in FCB byte 12 an entry of any extent, else of extent 0 only. The directory record with the entry comes to
   DMA bytes 0 to 127, four entries as they stand, and A is the entry's place there, 0 to 3. Where there is none, the
   answer is MPM_NO_MATCH. Opens and locks do not matter. No refusal of its own. */
#define MPM_FN_SEARCH_FIRST 17u
/* 18: as 17, by its own FCB, from the entry on at which the caller's search goes on, in the directory as it now stands.
   That position is in the list, one for each process: a find leaves the entry behind it; no match, 143 and mpm_start
   leave the number of entries, from where on nothing is found; no other call moves it. No refusal of its own. */
#define MPM_FN_SEARCH_NEXT 18u
/* 19: empties each entry of a file. Where only the caller has it open, in any mode, takes away that open and the
   caller's locks on it as 16 does; where another process has it open, refused.
   BAD_NAME, NOT_FOUND, IN_USE, READ_ONLY */
#define MPM_FN_DELETE 19u
/* 22: makes a file with no records in the lowest empty entry and opens it as 15 does, locked or unlocked.
   BAD_NAME, EXISTS, OPEN_LIMIT, OPEN_LIST_FULL, NO_EMPTY_ENTRY */
#define MPM_FN_MAKE 22u
/* 23: gives a file the name in FCB bytes 17 to 27; attributes stay.
   BAD_NAME, NOT_FOUND, IN_USE, READ_ONLY, EXISTS */
#define MPM_FN_RENAME 23u
/* 33: copies each record to its 128 DMA bytes. A lock does not stop it.
   NOT_OPEN, PAST_END, NO_EXTENT, NO_BLOCK */
#define MPM_FN_READ 33u
/* 34: stores the 128 DMA bytes of each record, with the lowest empty entry and the lowest free block where its extent
   or its block is missing.
   NOT_OPEN, READ_ONLY, PAST_END, LOCKED, DIRECTORY_FULL, DISK_FULL */
#define MPM_FN_WRITE 34u
/* 35: sets FCB bytes 33 to 35 to the file's size in records: 128 times its highest extent plus that extent's count, up
   to 262,144, by the rule of CP/M 65,536. The file need not be open.
   BAD_NAME, NOT_FOUND */
#define MPM_FN_SIZE 35u
/* 40: as 34, refusals too; a record that takes a block has the block's other records cleared, seven on a small drive
   and fifteen on a large one. */
#define MPM_FN_WRITE_ZEROS 40u
/* 41: stores DMA bytes 128 to 255 as a record that was equal to bytes 0 to 127.
   NOT_OPEN, READ_ONLY, PAST_END, LOCKED, NO_EXTENT, NO_BLOCK, DIFFERS */
#define MPM_FN_TEST_WRITE 41u
/* 42: locks count records from the FCB's on, all or none. In modes locked and read-only accepted with no effect, once
   the file is known to be open.
   NOT_OPEN, BAD_FILE_ID, PAST_END, NO_EXTENT or NO_BLOCK of the lowest record that lacks one, LOCKED, LOCK_LIMIT,
   LOCK_LIST_FULL */
#define MPM_FN_LOCK 42u
/* 43: takes away the caller's locks on count records from the FCB's on; modes as for 42.
   NOT_OPEN, BAD_FILE_ID, PAST_END */
#define MPM_FN_UNLOCK 43u
/* 46: puts the number of free records in DMA bytes 0 to 2: eight times the free blocks of a small drive, sixteen times
   those of a large one. No refusal of its own. */
#define MPM_FN_FREE_SPACE 46u
/* 143: takes away all opens and locks of a process and ends its search, as for a program that died. No refusal of its
   own. */
#define MPM_FN_TERMINATE 143u

/* ---- Answers of calls, mpm_start, mpm_vector and mpm_pack: A + 256 H. After each A/H, who gives it when ---- */

#define MPM_ANSWER(a, h) ((a) + 256u * (h))

static inline uint32_t mpm_a(uint32_t answer) { return answer % 256u; }
static inline uint32_t mpm_h(uint32_t answer) { return answer / 256u; }

/* 0/0: accepted, and all records done. All that is not 0/0 is a refusal, but for two answers of 17 and 18 below: of the
   call, with nothing done, or of one record of a 33, 34 or 40 of several, the first that was refused. Then the high
   four bits of H are the number of records done before it: 8/48 is 8/0 after three. Nothing else sets these bits. */
#define MPM_OK MPM_ANSWER(0u, 0u)

/* 0/0 to 3/0: 17, 18: the entry that was found is at this place of its directory record. */
#define MPM_FOUND(place) MPM_ANSWER(place, 0u)
/* 255/0: 17, 18: no entry, or no further one; the caller's position is at the end. */
#define MPM_NO_MATCH MPM_ANSWER(255u, 0u)

/* The answer without those four bits, to compare with the names below. */
static inline uint32_t mpm_code(uint32_t answer) { return answer % MPM_ANSWER(0u, 16u); }

/* How many records of a 33, 34 or 40 were done: all of its count, or the number in those four bits. */
static inline uint32_t mpm_done(uint32_t answer, uint32_t count) {
    return answer == MPM_OK ? count : mpm_h(answer) / 16u;
}

/* Whether a 17 or 18 that answered so has found an entry. */
static inline int mpm_found(uint32_t answer) { return answer <= MPM_FOUND(3u); }

/* Whether a call of this function that answered so was refused with nothing done, so that all buffers are as they were.
   The answer alone does not tell: 1/0 is a refusal of 33 and none of 17. */
static inline int mpm_refused(uint32_t function, uint32_t answer) {
    if (function == MPM_FN_SEARCH_FIRST || function == MPM_FN_SEARCH_NEXT)
        return !mpm_found(answer) && answer != MPM_NO_MATCH;
    return answer != MPM_OK && mpm_done(answer, 0u) == 0u;
}

/* Tested first, in this order, before any record.
   255/13: unknown kind of drive, unknown function, process over 15, count outside 1 to 16, FCB, DMA, list or vector of
           wrong length; start: unknown kind, a limit, rule or user out of range, users or list of wrong length; vector:
           unknown kind, vector of wrong length; pack: unknown kind, list of wrong length, second buffer of another
           length than the image */
#define MPM_ERR_BAD_CALL MPM_ANSWER(255u, 13u)
/* 255/1: image not sound, as one of the told kind; a length that this kind does not have, too */
#define MPM_ERR_BAD_IMAGE MPM_ANSWER(255u, 1u)
/* 255/12: list not sound */
#define MPM_ERR_BAD_LIST MPM_ANSWER(255u, 12u)
/* 255/14: vector not that of the image, in any of its bits */
#define MPM_ERR_BAD_VECTOR MPM_ANSWER(255u, 14u)
/* 255/4: FCB byte 0 is neither 0 nor 1; not for 46 and 143 */
#define MPM_ERR_BAD_DRIVE MPM_ANSWER(255u, 4u)

/* Of whole files.
   255/0: 15, 19, 23, 35: no such file */
#define MPM_ERR_NOT_FOUND MPM_ANSWER(255u, 0u)
/* 255/0 too, the same number: 22: no empty entry in the directory */
#define MPM_ERR_NO_EMPTY_ENTRY MPM_ANSWER(255u, 0u)
/* 255/3: 19, 23: the file has the read-only attribute; 34, 40, 41: it has, or the caller has it open read-only */
#define MPM_ERR_READ_ONLY MPM_ANSWER(255u, 3u)
/* 255/5: 15: the caller has it open in another mode, or another process's open cannot stand beside this one;
          19: another process has it open; 23: open by anybody, the caller too; pack: some file is open */
#define MPM_ERR_IN_USE MPM_ANSWER(255u, 5u)
/* 255/6: 16: the caller has it not open */
#define MPM_ERR_CLOSE_NOT_OPEN MPM_ANSWER(255u, 6u)
/* 255/8: 22: the file exists; 23: the new name exists, the old one included */
#define MPM_ERR_EXISTS MPM_ANSWER(255u, 8u)
/* 255/9: 15, 19, 22, 35: illegal name; 23: either name */
#define MPM_ERR_BAD_NAME MPM_ANSWER(255u, 9u)
/* 255/10: 15, 22: the caller is at the open limit */
#define MPM_ERR_OPEN_LIMIT MPM_ANSWER(255u, 10u)
/* 255/11: 15, 22: no empty place in the list */
#define MPM_ERR_OPEN_LIST_FULL MPM_ANSWER(255u, 11u)

/* Of records. Those of 33, 34 and 40 but for 255/3 and 10/0 are tested for each record in turn.
   1/0: 33, 41, 42: a record has no block */
#define MPM_ERR_NO_BLOCK MPM_ANSWER(1u, 0u)
/* 2/0: 34, 40: the block is missing and none is free */
#define MPM_ERR_DISK_FULL MPM_ANSWER(2u, 0u)
/* 4/0: 33, 41, 42: a record has no extent */
#define MPM_ERR_NO_EXTENT MPM_ANSWER(4u, 0u)
/* 5/0: 34, 40: the extent is missing and there is no empty entry */
#define MPM_ERR_DIRECTORY_FULL MPM_ANSWER(5u, 0u)
/* 6/0: 33, 34, 40, 41: the record is past the last one by the list's rule, 262,143 or 65,535; 42, 43: one of the run */
#define MPM_ERR_PAST_END MPM_ANSWER(6u, 0u)
/* 7/0: 41: the first 128 DMA bytes differ from the record */
#define MPM_ERR_DIFFERS MPM_ANSWER(7u, 0u)
/* 8/0: 34, 40, 41: another process has locked the record; 42: another process holds one of the run */
#define MPM_ERR_LOCKED MPM_ANSWER(8u, 0u)
/* 10/0: 33, 34, 40, 41, 42, 43: the caller has the file not open */
#define MPM_ERR_NOT_OPEN MPM_ANSWER(10u, 0u)
/* 12/0: 42: the records that the caller holds plus count exceed the lock limit */
#define MPM_ERR_LOCK_LIMIT MPM_ANSWER(12u, 0u)
/* 13/0: 42, 43: DMA bytes 0 and 1 are not the File ID */
#define MPM_ERR_BAD_FILE_ID MPM_ANSWER(13u, 0u)
/* 14/0: 42: fewer empty places than records not yet held by the caller */
#define MPM_ERR_LOCK_LIST_FULL MPM_ANSWER(14u, 0u)

/* ---- Answers of mpm_check: code + 256 entry ---- */

#define MPM_CHECK_SOUND 0u        /* the image is sound */
#define MPM_CHECK_WRONG_LENGTH 1u /* no drive of the told kind has this length, or the kind is unknown */

/* Why an entry is bad. Entries are judged in rising order, and inside one these in the order below, all its block
   numbers for one before any for the next. What is named twice is charged to the later entry. An empty entry is never
   bad. */
#define MPM_CHECK_BAD_USER 2u     /* byte 0 is neither a user, 0 to 15, nor E5h for an empty entry */
#define MPM_CHECK_BAD_NAME 3u     /* the name is illegal */
#define MPM_CHECK_BAD_NUMBER 4u   /* ex (byte 12) is over 31, module (14) over 63, by CP/M 15, count (15) over 128 */
#define MPM_CHECK_BLOCK_RANGE 5u  /* a block number is not one of a data block of this drive */
#define MPM_CHECK_BLOCK_TWICE 6u  /* a block was named before, in an earlier entry or in this one */
#define MPM_CHECK_EXTENT_TWICE 7u /* an earlier entry is of the same file and extent */
/* Told last of all, where no entry is bad for one of the reasons above, of the lowest entry of all such files. */
#define MPM_CHECK_NO_EXTENT_0 8u /* the file lacks extent 0 */

static inline uint32_t mpm_check_code(uint32_t check) { return check % 256u; }
static inline uint32_t mpm_check_entry(uint32_t check) { return check / 256u; }

/* ---- Answers of mpm_salvage ---- */

#define MPM_SALVAGE_DONE 0u         /* the image is sound, and the report tells what was done to each entry */
#define MPM_SALVAGE_WRONG_LENGTH 1u /* no drive of the told kind has this length, or the kind is unknown */
#define MPM_SALVAGE_WRONG_REPORT 2u /* the report has not one byte for each entry of this kind */

/* What a byte of the report says of its entry; else it is the number of block numbers zeroed, 1 to 16, on a large drive
   1 to 8. */
#define MPM_SALVAGE_UNTOUCHED 0u
#define MPM_SALVAGE_EMPTIED 255u

/* ---- Answers of mpm_same ---- */

#define MPM_SAME_BOOK 0u       /* both are sound and hold the same book */
#define MPM_SAME_BAD_FIRST 1u  /* the first image is not sound, as one of the told kind, or the kind is unknown */
#define MPM_SAME_BAD_SECOND 2u /* the second image is not sound, as one of the told kind */
#define MPM_SAME_DIFFERENT 3u  /* both are sound and hold different books */

/* ---- Sizes, in bytes where the name ends in LEN ---- */

#define MPM_PROCESSES 16u /* numbers 0 to 15 */
#define MPM_USERS 16u     /* numbers 0 to 15 */
#define MPM_MAX_COUNT 16u /* records that one 33, 34, 40, 42 or 43 can name */

#define MPM_RECORD_LEN 128u
#define MPM_RECORDS 262144u /* a file has the records 0 to 262,143, by the rule of CP/M 0 to 65,535 */

#define MPM_RECORD_ENTRIES 4u /* entries in a record of the directory */

/* A drive of either kind. The image is a whole number of blocks, of which 0 and 1 are the directory. An empty drive is
   E5h in every byte. An entry is an extent of 128 records; its last 16 bytes are its block numbers, 0 for none. */
#define MPM_DIRECTORY_BLOCKS 2u
#define MPM_ENTRY_LEN 32u
#define MPM_EMPTY 0xE5u /* byte 0 of an empty entry */
#define MPM_EXTENT_RECORDS 128u
#define MPM_MAP_LEN 16u

/* The kinds, as the functions are told them. Every other number is an unknown kind. */
#define MPM_KIND_SMALL 0u
#define MPM_KIND_LARGE 1u
#define MPM_KINDS 2u

/* The small kind: 3 to 256 blocks of 1,024 bytes, block numbers of one byte. */
#define MPM_SMALL_BLOCK_LEN 1024u
#define MPM_SMALL_BLOCK_RECORDS 8u
#define MPM_SMALL_MIN_BLOCKS 3u
#define MPM_SMALL_MAX_BLOCKS 256u
#define MPM_SMALL_ENTRIES 64u
#define MPM_SMALL_NUMBERS 16u    /* block numbers in an entry */
#define MPM_SMALL_NUMBER_LEN 1u  /* bytes of a block number */
#define MPM_SMALL_VECTOR_LEN 32u /* the allocation vector, for every number of blocks */

/* The large kind: 257 to 4,096 blocks of 2,048 bytes, block numbers of two bytes, low byte first. The directory can
   name 1,024 blocks; of a longer drive the rest stays free. */
#define MPM_LARGE_BLOCK_LEN 2048u
#define MPM_LARGE_BLOCK_RECORDS 16u
#define MPM_LARGE_MIN_BLOCKS 257u
#define MPM_LARGE_MAX_BLOCKS 4096u
#define MPM_LARGE_ENTRIES 128u
#define MPM_LARGE_NUMBERS 8u
#define MPM_LARGE_NUMBER_LEN 2u
#define MPM_LARGE_VECTOR_LEN 512u

/* The same by the kind's number. 0 for an unknown kind. */
static inline uint32_t mpm_of_kind(uint32_t kind, uint32_t of_small, uint32_t of_large) {
    if (kind == MPM_KIND_SMALL) return of_small;
    return kind == MPM_KIND_LARGE ? of_large : 0u;
}

static inline uint32_t mpm_block_len(uint32_t kind) {
    return mpm_of_kind(kind, MPM_SMALL_BLOCK_LEN, MPM_LARGE_BLOCK_LEN);
}

static inline uint32_t mpm_block_records(uint32_t kind) {
    return mpm_of_kind(kind, MPM_SMALL_BLOCK_RECORDS, MPM_LARGE_BLOCK_RECORDS);
}

static inline uint32_t mpm_min_blocks(uint32_t kind) {
    return mpm_of_kind(kind, MPM_SMALL_MIN_BLOCKS, MPM_LARGE_MIN_BLOCKS);
}

static inline uint32_t mpm_max_blocks(uint32_t kind) {
    return mpm_of_kind(kind, MPM_SMALL_MAX_BLOCKS, MPM_LARGE_MAX_BLOCKS);
}

static inline uint32_t mpm_entries(uint32_t kind) { return mpm_of_kind(kind, MPM_SMALL_ENTRIES, MPM_LARGE_ENTRIES); }

static inline uint32_t mpm_numbers(uint32_t kind) { return mpm_of_kind(kind, MPM_SMALL_NUMBERS, MPM_LARGE_NUMBERS); }

static inline uint32_t mpm_vector_len(uint32_t kind) {
    return mpm_of_kind(kind, MPM_SMALL_VECTOR_LEN, MPM_LARGE_VECTOR_LEN);
}

/* How many blocks an image of this length has. 0 where no drive of the kind is so long: then calls answer 255/1. */
static inline uint32_t mpm_blocks(uint32_t kind, size_t image_len) {
    size_t block_len = mpm_block_len(kind);
    if (block_len == 0 || image_len % block_len != 0) return 0u;
    if (image_len / block_len < mpm_min_blocks(kind) || image_len / block_len > mpm_max_blocks(kind)) return 0u;
    return (uint32_t)(image_len / block_len);
}

/* The kind of drive that has images of this length. MPM_KINDS where none has. */
static inline uint32_t mpm_kind_of(size_t image_len) {
    uint32_t kind = 0u;
    while (kind < MPM_KINDS && mpm_blocks(kind, image_len) == 0u) kind++;
    return kind;
}

/* Whether a block is used, by a vector that has a bit for it. */
static inline int mpm_block_used(const uint8_t *vector, uint32_t block) {
    return (((uint32_t)vector[block / 8u] >> (7u - block % 8u)) & 1u) != 0u;
}

/* The number of free records, by the vector of an image of this length: what 46 tells. For a monitor, which reads
   neither the directory nor the list. 0 where no drive of the kind is so long. */
static inline uint32_t mpm_free_records(uint32_t kind, size_t image_len, const uint8_t *vector) {
    uint32_t blocks = mpm_blocks(kind, image_len), free_blocks = 0u, block;
    for (block = 0u; block < blocks; block++) free_blocks += mpm_block_used(vector, block) ? 0u : 1u;
    return free_blocks * mpm_block_records(kind);
}

/* The list has 64 places, of which it uses those below its capacity. */
#define MPM_PLACES 64u
#define MPM_PLACE_LEN 20u

/* The least capacity with which none of so many processes is ever told that the list is full (255/11, 14/0), with these
   limits for each: as many times both limits as there are processes, of which no more than 16 count. Above MPM_PLACES
   where no list is large enough; 0 where mpm_start takes no such limit. */
static inline uint32_t mpm_capacity_for(uint32_t processes, uint32_t open_limit, uint32_t lock_limit) {
    if (open_limit < 1u || open_limit > MPM_PLACES || lock_limit < 1u || lock_limit > MPM_PLACES) return 0u;
    return (processes < MPM_PROCESSES ? processes : MPM_PROCESSES) * (open_limit + lock_limit);
}

/* ---- Where things stand in the buffers; numbers are stored low byte first ---- */

#define MPM_HIGH_BIT 0x80u
#define MPM_ANY 0x3Fu /* "?" */

#define MPM_FCB_DRIVE 0u     /* 0 or 1, both the one drive */
#define MPM_FCB_NAME 1u      /* 11 bytes; high bits take no part in comparing */
#define MPM_FCB_UNLOCKED 5u  /* 15, 22: high bit set asks for unlocked mode */
#define MPM_FCB_READ_ONLY 6u /* 15: high bit set asks for read-only mode, before unlocked */
#define MPM_FCB_EXTENTS 12u  /* 17, 18: MPM_ANY admits all extents, every other byte extent 0 only */
#define MPM_FCB_COUNT 15u    /* 15, 22 set it: record count of extent 0 */
#define MPM_FCB_MAP 16u      /* 15, 22 set it: extent 0's 16 map bytes as they are: 16 block numbers, or 8 if large */
#define MPM_FCB_NEW_NAME 17u /* 23: 11 bytes */
#define MPM_FCB_RECORD 33u   /* 3 bytes: the record number; 15 and 22 leave the File ID here in unlocked mode, 35 the
                                size */

#define MPM_DMA_FILE_ID 0u /* 42, 43: 2 bytes, the caller's File ID of the file */
#define MPM_DMA_RECORD 0u  /* 33 puts the first record here; 34 and 40 take it; 41 compares its record */
#define MPM_DMA_NEW 128u   /* 41 takes the new record from here */
#define MPM_DMA_FREE 0u    /* 46: 3 bytes, the number of free records */
#define MPM_DMA_ENTRIES 0u /* 17, 18 put the directory record here, 4 entries */

/* 33, 34, 40: where the record at distance i from the first has its 128 bytes. */
#define MPM_DMA_AT(i) (MPM_DMA_RECORD + MPM_RECORD_LEN * (i))

#define MPM_LIST_CAPACITY 0u   /* 1 to 64 */
#define MPM_LIST_OPEN_LIMIT 1u /* 1 to 64 for each process */
#define MPM_LIST_LOCK_LIMIT 2u /* 1 to 64 for each process */
#define MPM_LIST_USERS 3u      /* 16 bytes */
#define MPM_LIST_PLACES 19u    /* 64 places; an empty one is 20 zeros */
/* 16 bytes, the position of each process: the entry at which its search goes on, or the number of entries, 64 or 128 by
   the kind. Above that the list is not sound. The list does not say for which kind it was started. */
#define MPM_LIST_POSITIONS 1299u

#define MPM_PLACE_MARK 0u    /* 2 bytes: MPM_MARK_OPEN or MPM_MARK_LOCK */
#define MPM_PLACE_PROCESS 2u /* 1 byte */
#define MPM_PLACE_NAME 3u    /* 11 bytes, high bits zero */
#define MPM_PLACE_MODE 14u   /* 1 byte; then a zero */
#define MPM_PLACE_RECORD 16u /* 4 bytes; 0 for an open */

#define MPM_ENTRY_USER 0u      /* 0 to 15, or MPM_EMPTY: then the rest is not read */
#define MPM_ENTRY_NAME 1u      /* 11 bytes; the high bits are attributes, those of extent 0 the file's */
#define MPM_ENTRY_READ_ONLY 9u /* high bit set: the file is read-only */
#define MPM_ENTRY_EX 12u       /* 0 to 31; the extent is ex + 32 module */
#define MPM_ENTRY_MODULE 14u   /* 0 to 63, by the rule of CP/M 0 to 15 */
#define MPM_ENTRY_COUNT 15u    /* 0 to 128 */
#define MPM_ENTRY_MAP 16u      /* 16 bytes: the block numbers */

#define MPM_MARK_OPEN 0x464Fu /* the bytes 4F 46 */
#define MPM_MARK_LOCK 0x524Cu /* the bytes 4C 52 */

#define MPM_MODE_LOCKED 0u
#define MPM_MODE_UNLOCKED 1u
#define MPM_MODE_READ_ONLY 2u

/* ---- Helpers ---- */

/* A number of so many bytes, low byte first, out of a buffer and into one. */
static inline uint32_t mpm_get(const uint8_t *bytes, size_t length) {
    uint32_t number = 0u;
    for (size_t i = length; i > 0; i--) number = 256u * number + bytes[i - 1];
    return number;
}

static inline void mpm_put(uint8_t *bytes, size_t length, uint32_t number) {
    for (size_t i = 0; i < length; i++, number /= 256u) bytes[i] = (uint8_t)(number % 256u);
}

/* The record number of an FCB. One that has no room in three bytes is put as the highest, which is refused with 6/0. */
static inline uint32_t mpm_record(const uint8_t *fcb) { return mpm_get(fcb + MPM_FCB_RECORD, 3); }

static inline void mpm_set_record(uint8_t *fcb, uint32_t record) {
    mpm_put(fcb + MPM_FCB_RECORD, 3, record < 0xFFFFFFu ? record : 0xFFFFFFu);
}

/* The File ID that an accepted 15 or 22 in unlocked mode has left in the FCB: to be kept before a record number is put
   there, and to be put into the DMA of each 42 and 43. */
static inline uint32_t mpm_file_id(const uint8_t *fcb) { return mpm_record(fcb); }

static inline void mpm_set_file_id(uint8_t *dma, uint32_t file_id) { mpm_put(dma + MPM_DMA_FILE_ID, 2, file_id); }

/* The number of records that an accepted 35 has left in the FCB. */
static inline uint32_t mpm_size(const uint8_t *fcb) { return mpm_record(fcb); }

/* The 32 bytes of the entry that an accepted 17 or 18 with this answer has found, in the DMA. */
static inline const uint8_t *mpm_entry(const uint8_t *dma, uint32_t answer) {
    return dma + MPM_DMA_ENTRIES + MPM_ENTRY_LEN * mpm_a(answer);
}

static inline uint32_t mpm_extent(const uint8_t *entry) {
    return entry[MPM_ENTRY_EX] + 32u * entry[MPM_ENTRY_MODULE];
}

/* 17 and 18 on a book. Go on while mpm_found says so of the answer. */
static inline uint32_t mpm_search_first(struct mpm_book *book, uint32_t process, uint8_t *fcb, uint8_t *dma) {
    return mpm_book_call(book, MPM_FN_SEARCH_FIRST, process, 1u, fcb, dma);
}

static inline uint32_t mpm_search_next(struct mpm_book *book, uint32_t process, uint8_t *fcb, uint8_t *dma) {
    return mpm_book_call(book, MPM_FN_SEARCH_NEXT, process, 1u, fcb, dma);
}

/* What mpm_set_name says of a text. */
#define MPM_NAMING_OK 0u
#define MPM_NAMING_NO_NAME 1u
#define MPM_NAMING_LONG_NAME 2u
#define MPM_NAMING_LONG_TYPE 3u
#define MPM_NAMING_CHARACTER 4u

static inline const char *mpm_naming_text(uint32_t naming) {
    switch (naming) {
    case MPM_NAMING_OK: return "The file name is fine.";
    case MPM_NAMING_NO_NAME: return "A file name has at least one character before the dot.";
    case MPM_NAMING_LONG_NAME: return "A file name has at most eight characters before the dot.";
    case MPM_NAMING_LONG_TYPE: return "A file name has at most three characters behind the dot.";
    default: return "A file name has no blank, no second dot and none of : ; = , / [ ] < > * ?";
    }
}

/* A character that can stand in a name: neither a delimiter of the MP/M II Programmer's Guide nor one that stands for
   others. The engine itself takes more: every byte of 32 to 126 but "?". */
static inline int mpm_names(char c) {
    const char *no;
    for (no = ".:;=,/[]<>*?"; *no != 0; no++)
        if (c == *no) return 0;
    return c > ' ' && c < 127;
}

/* Puts a text such as "ORDERS.DAT" into eleven bytes, small letters as capitals. MPM_NAMING_OK, or what is wrong with
   the text, and the bytes as they were. */
static inline uint32_t mpm_set_name(uint8_t *name, const char *text) {
    size_t length = 0, type = 0, i;
    while (mpm_names(text[length])) length++;
    while (text[length] == '.' && mpm_names(text[length + 1 + type])) type++;
    if (text[length] != 0 && (text[length] != '.' || text[length + 1 + type] != 0)) return MPM_NAMING_CHARACTER;
    if (length == 0) return MPM_NAMING_NO_NAME;
    if (length > 8) return MPM_NAMING_LONG_NAME;
    if (type > 3) return MPM_NAMING_LONG_TYPE;
    for (i = 0; i < MPM_NAME_LEN; i++) {
        char c = ' ';
        if (i < length) c = text[i];
        if (i >= 8 && i - 8 < type) c = text[length + 1 + i - 8];
        name[i] = (uint8_t)(c >= 'a' && c <= 'z' ? c - 'a' + 'A' : c);
    }
    return MPM_NAMING_OK;
}

/* Makes an FCB of 36 bytes for a file: the name, the mode for 15 and 22, and zeros, so record 0. As mpm_set_name. The
   same FCB serves every other call too, since the bits of the mode take no part in comparing. */
static inline uint32_t mpm_set_fcb(uint8_t *fcb, const char *text, uint32_t mode) {
    uint8_t name[MPM_NAME_LEN];
    size_t i;
    uint32_t naming = mpm_set_name(name, text);
    if (naming != MPM_NAMING_OK) return naming;
    for (i = 0; i < MPM_FCB_LEN; i++) fcb[i] = 0;
    for (i = 0; i < MPM_NAME_LEN; i++) fcb[MPM_FCB_NAME + i] = name[i];
    if (mode == MPM_MODE_UNLOCKED) fcb[MPM_FCB_UNLOCKED] |= MPM_HIGH_BIT;
    if (mode == MPM_MODE_READ_ONLY) fcb[MPM_FCB_READ_ONLY] |= MPM_HIGH_BIT;
    return MPM_NAMING_OK;
}

/* Puts a part of a text into the bytes of a name from one place on to another: "?" as it is, a "*" at its end as "?" in
   all that are left. Gives what stands behind the part, or 0 where it is too long. */
static inline const char *mpm_set_part(uint8_t *name, size_t from, size_t to, const char *text) {
    uint8_t rest = ' ';
    for (; *text == '?' || mpm_names(*text); text++) {
        if (from == to) return 0;
        name[from++] = (uint8_t)(*text >= 'a' && *text <= 'z' ? *text - 'a' + 'A' : *text);
    }
    if (*text == '*') {
        rest = MPM_ANY;
        text++;
    }
    while (from < to) name[from++] = rest;
    return text;
}

/* Makes an FCB of 36 bytes for 17 and 18: a text such as "*.DAT" or "ORD?RS.*", "?" standing for any character and "*"
   for any to the end of the name or of the type. With all_extents every entry of a file is found, else its first extent
   only. MPM_NAMING_OK, or what is wrong with the text, and the FCB as it was. */
static inline uint32_t mpm_set_search(uint8_t *fcb, const char *text, int all_extents) {
    uint8_t name[MPM_NAME_LEN];
    size_t i;
    const char *rest = mpm_set_part(name, 0, 8, text);
    if (rest == text) return *text == 0 || *text == '.' ? MPM_NAMING_NO_NAME : MPM_NAMING_CHARACTER;
    if (rest == 0) return MPM_NAMING_LONG_NAME;
    if (*rest != 0 && *rest != '.') return MPM_NAMING_CHARACTER;
    rest = mpm_set_part(name, 8, MPM_NAME_LEN, *rest == '.' ? rest + 1 : rest);
    if (rest == 0) return MPM_NAMING_LONG_TYPE;
    if (*rest != 0) return MPM_NAMING_CHARACTER;
    for (i = 0; i < MPM_FCB_LEN; i++) fcb[i] = 0;
    for (i = 0; i < MPM_NAME_LEN; i++) fcb[MPM_FCB_NAME + i] = name[i];
    if (all_extents) fcb[MPM_FCB_EXTENTS] = MPM_ANY;
    return MPM_NAMING_OK;
}

/* The answers with a sentence for the one who called. */
#define MPM_SENTENCES(OF)                                                                                              \
    OF(MPM_OK, "Done.")                                                                                                \
    OF(MPM_ERR_BAD_CALL, "The host's call is wrong: its kind, function, process, count or a buffer's length.")         \
    OF(MPM_ERR_BAD_IMAGE, "The drive's image is damaged, or is none of this kind of drive.")                           \
    OF(MPM_ERR_BAD_LIST, "The lock list is damaged, or is not the one that belongs to this image.")                    \
    OF(MPM_ERR_BAD_VECTOR, "The allocation vector is not that of this image.")                                         \
    OF(MPM_ERR_BAD_DRIVE, "There is no such drive.")                                                                   \
    OF(MPM_ERR_NOT_FOUND, "There is no such file.")                                                                    \
    OF(MPM_ERR_READ_ONLY, "The file is read-only, or this program has opened it so.")                                  \
    OF(MPM_ERR_IN_USE, "The file is in use.")                                                                          \
    OF(MPM_ERR_CLOSE_NOT_OPEN, "This program does not have the file open, so it cannot close it.")                     \
    OF(MPM_ERR_EXISTS, "There is a file of this name already.")                                                        \
    OF(MPM_ERR_BAD_NAME, "This is no legal file name.")                                                                \
    OF(MPM_ERR_OPEN_LIMIT, "This program has as many files open as one may have.")                                     \
    OF(MPM_ERR_OPEN_LIST_FULL, "The lock list is full: somebody has to close a file or unlock records first.")         \
    OF(MPM_ERR_NO_BLOCK, "Nothing was ever written here: the record has no block.")                                    \
    OF(MPM_ERR_DISK_FULL, "The drive is full.")                                                                        \
    OF(MPM_ERR_NO_EXTENT, "Nothing was ever written here: the record has no extent.")                                  \
    OF(MPM_ERR_DIRECTORY_FULL, "The directory is full: there is no entry for the file to grow into.")                  \
    OF(MPM_ERR_PAST_END, "The record number is too high: the highest is 262,143, by the rule of CP/M 65,535.")         \
    OF(MPM_ERR_DIFFERS, "The record is no longer as this program has read it.")                                        \
    OF(MPM_ERR_LOCKED, "Another program has locked the record.")                                                       \
    OF(MPM_ERR_NOT_OPEN, "This program does not have the file open.")                                                  \
    OF(MPM_ERR_LOCK_LIMIT, "This program would hold more records locked than one may.")                                \
    OF(MPM_ERR_BAD_FILE_ID, "This is not the File ID that the open has given.")                                        \
    OF(MPM_ERR_LOCK_LIST_FULL, "The lock list is full: there is no room for these locks.")

/* The name of an answer and one plain sentence for it, whatever number of records it tells. The function is asked for
   since Make's 255/0 is another than Open's and 1/0 of a search is no refusal; for mpm_start, mpm_vector and mpm_pack
   it is 0. */
static inline const char *mpm_answer_name(uint32_t function, uint32_t answer) {
    if (function == MPM_FN_MAKE && answer == MPM_ERR_NO_EMPTY_ENTRY) return "MPM_ERR_NO_EMPTY_ENTRY";
    if ((function == MPM_FN_SEARCH_FIRST || function == MPM_FN_SEARCH_NEXT) && !mpm_refused(function, answer))
        return mpm_found(answer) ? "MPM_FOUND" : "MPM_NO_MATCH";
    switch (mpm_code(answer)) {
#define MPM_NAME_OF(answer, sentence) case answer: return #answer;
        MPM_SENTENCES(MPM_NAME_OF)
#undef MPM_NAME_OF
    default: return "no answer of the engine";
    }
}

static inline const char *mpm_answer_text(uint32_t function, uint32_t answer) {
    if (function == MPM_FN_MAKE && answer == MPM_ERR_NO_EMPTY_ENTRY) return "The directory is full: no entry is empty.";
    if ((function == MPM_FN_SEARCH_FIRST || function == MPM_FN_SEARCH_NEXT) && !mpm_refused(function, answer))
        return mpm_found(answer) ? "An entry was found." : "There is no such entry, or no further one.";
    switch (mpm_code(answer)) {
#define MPM_TEXT_OF(answer, sentence) case answer: return sentence;
        MPM_SENTENCES(MPM_TEXT_OF)
#undef MPM_TEXT_OF
    default: return "This is no answer of the engine.";
    }
}

/* The codes of mpm_check with a sentence for the one who brings the image. */
#define MPM_CHECK_SENTENCES(OF)                                                                                        \
    OF(MPM_CHECK_SOUND, "The image is sound.")                                                                         \
    OF(MPM_CHECK_WRONG_LENGTH, "No drive of this kind has an image of this length.")                                   \
    OF(MPM_CHECK_BAD_USER, "The entry's first byte is neither a user, 0 to 15, nor E5h for an empty entry.")           \
    OF(MPM_CHECK_BAD_NAME, "The entry's name is no legal file name.")                                                  \
    OF(MPM_CHECK_BAD_NUMBER, "The entry's ex is over 31, its module over 63, by CP/M 15, or its count over 128.")      \
    OF(MPM_CHECK_BLOCK_RANGE, "The entry names a block that is no data block of this drive.")                          \
    OF(MPM_CHECK_BLOCK_TWICE, "The entry names a block that was named before.")                                        \
    OF(MPM_CHECK_EXTENT_TWICE, "An earlier entry is of the same file and extent.")                                     \
    OF(MPM_CHECK_NO_EXTENT_0, "The entry's file has no extent 0.")

/* The name of an image check's answer and one plain sentence for it, whatever entry it tells. */
static inline const char *mpm_check_name(uint32_t check) {
    switch (mpm_check_code(check)) {
#define MPM_NAME_OF(code, sentence) case code: return #code;
        MPM_CHECK_SENTENCES(MPM_NAME_OF)
#undef MPM_NAME_OF
    default: return "no answer of the image check";
    }
}

static inline const char *mpm_check_text(uint32_t check) {
    switch (mpm_check_code(check)) {
#define MPM_TEXT_OF(code, sentence) case code: return sentence;
        MPM_CHECK_SENTENCES(MPM_TEXT_OF)
#undef MPM_TEXT_OF
    default: return "This is no answer of the image check.";
    }
}

/* The answers of mpm_salvage with a sentence for the one who brings the image. */
#define MPM_SALVAGE_SENTENCES(OF)                                                                                      \
    OF(MPM_SALVAGE_DONE, "The image is sound now, and the report tells what was done.")                                \
    OF(MPM_SALVAGE_WRONG_LENGTH, "No drive of this kind has an image of this length.")                                 \
    OF(MPM_SALVAGE_WRONG_REPORT, "The host's report does not have one byte for each entry.")

static inline const char *mpm_salvage_name(uint32_t answer) {
    switch (answer) {
#define MPM_NAME_OF(code, sentence) case code: return #code;
        MPM_SALVAGE_SENTENCES(MPM_NAME_OF)
#undef MPM_NAME_OF
    default: return "no answer of salvage";
    }
}

static inline const char *mpm_salvage_text(uint32_t answer) {
    switch (answer) {
#define MPM_TEXT_OF(code, sentence) case code: return sentence;
        MPM_SALVAGE_SENTENCES(MPM_TEXT_OF)
#undef MPM_TEXT_OF
    default: return "This is no answer of salvage.";
    }
}

/* The answers of mpm_same with a sentence for the one who brings the images. */
#define MPM_SAME_SENTENCES(OF)                                                                                         \
    OF(MPM_SAME_BOOK, "Both images hold the same book.")                                                               \
    OF(MPM_SAME_BAD_FIRST, "The first image is damaged, or is none of this kind of drive.")                            \
    OF(MPM_SAME_BAD_SECOND, "The second image is damaged, or is none of this kind of drive.")                          \
    OF(MPM_SAME_DIFFERENT, "The two images hold different books.")

static inline const char *mpm_same_name(uint32_t answer) {
    switch (answer) {
#define MPM_NAME_OF(code, sentence) case code: return #code;
        MPM_SAME_SENTENCES(MPM_NAME_OF)
#undef MPM_NAME_OF
    default: return "no answer of comparing";
    }
}

static inline const char *mpm_same_text(uint32_t answer) {
    switch (answer) {
#define MPM_TEXT_OF(code, sentence) case code: return sentence;
        MPM_SAME_SENTENCES(MPM_TEXT_OF)
#undef MPM_TEXT_OF
    default: return "This is no answer of comparing.";
    }
}

#ifdef __cplusplus
}
#endif

#endif
