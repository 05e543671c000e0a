/* A book in a file: the image and the list together, so that a host that is killed at any moment, or a machine that
   loses its power, leaves the book as it was before a call or as it was after it, and never a mixture.

   The file is a base, image and list as they were at one moment, with a checksum; behind it a change for each call that
   has changed one of them since, each with a checksum of its own. A call is saved by one change at the end and one
   fsync, whatever the image's length. A change that was cut off is left out when the file is read: its call was never
   acknowledged. When the changes are longer than the base, a new base is written to PATH.new and renamed over the file.
   PATH.lock is locked as long as the book is open, so that no second host opens it. The allocation vector is not in the
   file: it is built from the image when the book is opened, so that a file from before there was one is as good.

   Every function that fails says why in one line on standard error. */
#ifndef SAVE_H
#define SAVE_H

#include "mpm.h"

#ifdef __cplusplus
extern "C" {
#endif

struct save {
    struct mpm_book book; /* to call the engine on */
    const char *path;
    int file, lock;
    int lost;                          /* the disk has failed: only opening the book anew tells what it holds */
    uint8_t *saved_list, *saved_image; /* the book as it is in the file */
    uint8_t *change;                   /* room for a change of every byte */
    size_t file_len, rewrite_len;      /* where the whole changes end; past which length the file is written anew */
    uint32_t changes;                  /* how many stand in the file */
};

/* Makes the file of a new book. 0 if it cannot, or if there is such a file. */
int save_new(const char *path, const struct mpm_book *book);

/* Opens a book: gives it buffers, fills list and image from the file and builds the vector, if the image is sound. 0 if
   it cannot; then there is nothing to close. */
int save_open(struct save *save, const char *path);

/* Saves what calls have changed since it was last saved: 1 once it is on the disk. 0 if it cannot; then the book is
   again as it was last saved, in memory too, and the call must not be acknowledged. */
int save_book(struct save *save);

void save_close(struct save *save);

#ifdef __cplusplus
}
#endif

#endif
