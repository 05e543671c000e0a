/* See save.h. All numbers in the file have four bytes, low byte first.
   Base:   the eight bytes "MPMBOOK1", list length, image length, CRC-32 of the two lengths, the list and the image;
           then the list and the image.
   Change: CRC-32 of all that follows in it, its number (1 for the first), the number of parts; the whole list; then for
           each record of the image that changed its number and its 128 bytes. */
#define _XOPEN_SOURCE 700
#include "save.h"

#include <errno.h>
#include <fcntl.h>
#include <stdio.h>
#include <stdlib.h>
#include <string.h>
#include <sys/stat.h>
#include <unistd.h>

enum { BASE_HEAD = 20, CHANGE_HEAD = 12, PART = 4 + MPM_RECORD_LEN };
enum { PATH_LEN = 4096, FOR_ALL = 0666, FAR_AHEAD = 1 << 20 };

#define CANNOT_OPEN "cannot open the book"
#define CANNOT_MAKE "cannot make the book"
#define CANNOT_SAVE "cannot save the book"

static const char mark[] = "MPMBOOK1";

static int say(const char *path, const char *what, const char *why) {
    fprintf(stderr, "%s: %s: %s\n", path, what, why);
    return 0;
}

static int say_errno(const char *path, const char *what) { return say(path, what, strerror(errno)); }

/* ---- Bytes ---- */

static uint32_t crc32_of(uint32_t crc, const uint8_t *bytes, size_t length) {
    static const uint32_t half[16] = {0x00000000u, 0x1DB71064u, 0x3B6E20C8u, 0x26D930ACu, 0x76DC4190u, 0x6B6B51F4u,
                                      0x4DB26158u, 0x5005713Cu, 0xEDB88320u, 0xF00F9344u, 0xD6D6A3E8u, 0xCB61B38Cu,
                                      0x9B64C2B0u, 0x86D3D2D4u, 0xA00AE278u, 0xBDBDF21Cu};
    crc = ~crc;
    for (size_t i = 0; i < length; i++) {
        crc = half[(crc ^ bytes[i]) & 15u] ^ crc >> 4;
        crc = half[(crc ^ (uint32_t)bytes[i] >> 4) & 15u] ^ crc >> 4;
    }
    return ~crc;
}

static uint32_t base_crc(const uint8_t *head, const struct mpm_book *book) {
    uint32_t crc = crc32_of(0, head + 8, 8);
    return crc32_of(crc32_of(crc, book->list, book->list_len), book->image, book->image_len);
}

static int write_all(int file, const uint8_t *bytes, size_t length, size_t at) {
    while (length > 0) {
        ssize_t some = pwrite(file, bytes, length, (off_t)at);
        if (some < 0 && errno == EINTR) continue;
        if (some < 0) return 0;
        bytes += some;
        at += (size_t)some;
        length -= (size_t)some;
    }
    return 1;
}

/* How many bytes there are, at most the length; -1 if they cannot be read. */
static ssize_t read_some(int file, uint8_t *bytes, size_t length, size_t at) {
    size_t done = 0;
    while (done < length) {
        ssize_t some = pread(file, bytes + done, length - done, (off_t)(at + done));
        if (some < 0 && errno == EINTR) continue;
        if (some < 0) return -1;
        if (some == 0) break;
        done += (size_t)some;
    }
    return (ssize_t)done;
}

static int read_all(int file, uint8_t *bytes, size_t length, size_t at) {
    return read_some(file, bytes, length, at) == (ssize_t)length;
}

/* The file ends here from now on, on the disk too. */
static int cut_file(int file, size_t length) { return ftruncate(file, (off_t)length) == 0 && fsync(file) == 0; }

/* ---- The base ---- */

/* The folder's own fsync: without it a new name may be lost with the power. */
static int sync_folder(const char *path) {
    char folder[PATH_LEN];
    size_t length = strlen(path);
    while (length > 0 && path[length - 1] != '/') length--;
    memcpy(folder, path, length);
    memcpy(folder + length, ".", 2);
    int file = open(folder, O_RDONLY);
    if (file < 0) return 0;
    int done = fsync(file) == 0;
    close(file);
    return done;
}

static int write_base(int file, const struct mpm_book *book) {
    uint8_t head[BASE_HEAD];
    memcpy(head, mark, 8);
    mpm_put(head + 8, 4, (uint32_t)book->list_len);
    mpm_put(head + 12, 4, (uint32_t)book->image_len);
    mpm_put(head + 16, 4, base_crc(head, book));
    return write_all(file, head, BASE_HEAD, 0) && write_all(file, book->list, book->list_len, BASE_HEAD) &&
           write_all(file, book->image, book->image_len, BASE_HEAD + book->list_len) && fsync(file) == 0;
}

/* The new file may be used by those who may use the old one, if there is one. */
static int same_mode(int file, int old) {
    struct stat status;
    return old < 0 || (fstat(old, &status) == 0 && fchmod(file, status.st_mode & 07777u) == 0);
}

/* Writes the book to PATH.new and renames that to PATH. Gives the open file, or -1 with all as it was. */
static int replace_file(const char *path, const struct mpm_book *book, int old) {
    char fresh[PATH_LEN];
    snprintf(fresh, sizeof fresh, "%s.new", path);
    int file = open(fresh, O_RDWR | O_CREAT | O_TRUNC, FOR_ALL);
    if (file < 0) return -1;
    if (same_mode(file, old) && write_base(file, book) && rename(fresh, path) == 0) return file;
    int error = errno;
    close(file);
    unlink(fresh);
    errno = error;
    return -1;
}

static size_t base_len(const struct mpm_book *book) { return BASE_HEAD + book->list_len + book->image_len; }

/* Opens PATH.lock and locks it. -1 if it cannot. */
static int lock_path(const char *path) {
    char name[PATH_LEN];
    int length = snprintf(name, sizeof name, "%s.lock", path);
    if (length < 0 || length >= PATH_LEN) {
        say(path, CANNOT_OPEN, "its name is too long");
        return -1;
    }
    int lock = open(name, O_RDWR | O_CREAT, FOR_ALL);
    if (lock < 0) {
        say_errno(name, CANNOT_OPEN);
        return -1;
    }
    if (lockf(lock, F_TLOCK, 0) == 0) return lock;
    say(path, CANNOT_OPEN, "another host has it open");
    close(lock);
    return -1;
}

static int make_file(const char *path, const struct mpm_book *book) {
    int old = open(path, O_RDONLY);
    if (old >= 0) {
        close(old);
        return say(path, CANNOT_MAKE, "there is such a file already");
    }
    int file = replace_file(path, book, -1);
    if (file < 0) return say_errno(path, CANNOT_MAKE);
    close(file);
    return sync_folder(path) || say_errno(path, CANNOT_MAKE);
}

int save_new(const char *path, const struct mpm_book *book) {
    int lock = lock_path(path);
    if (lock < 0) return 0;
    int done = make_file(path, book);
    close(lock);
    return done;
}

/* ---- Changes ---- */

static size_t records_of(const struct save *save) { return save->book.image_len / MPM_RECORD_LEN; }

/* An image that is not sound has no vector: then every call is refused for the image, whatever the vector. */
static void put_back(struct save *save) {
    memcpy(save->book.list, save->saved_list, save->book.list_len);
    memcpy(save->book.image, save->saved_image, save->book.image_len);
    mpm_book_vector(&save->book);
}

/* Composes the change that makes what is saved into what is. Gives its length, 0 where nothing changed. */
static size_t compose_change(struct save *save) {
    size_t length = CHANGE_HEAD + save->book.list_len;
    uint32_t parts = 0;
    for (size_t i = 0; i < records_of(save); i++) {
        const uint8_t *record = save->book.image + i * MPM_RECORD_LEN;
        if (memcmp(record, save->saved_image + i * MPM_RECORD_LEN, MPM_RECORD_LEN) == 0) continue;
        mpm_put(save->change + length, 4, (uint32_t)i);
        memcpy(save->change + length + 4, record, MPM_RECORD_LEN);
        length += PART;
        parts++;
    }
    if (parts == 0 && memcmp(save->book.list, save->saved_list, save->book.list_len) == 0) return 0;
    mpm_put(save->change + 4, 4, save->changes + 1);
    mpm_put(save->change + 8, 4, parts);
    memcpy(save->change + CHANGE_HEAD, save->book.list, save->book.list_len);
    mpm_put(save->change, 4, crc32_of(0, save->change + 4, length - 4));
    return length;
}

/* The length of the whole change that begins here, 0 where there is none. */
static size_t whole_change(const struct save *save, const uint8_t *bytes, size_t length) {
    size_t head = CHANGE_HEAD + save->book.list_len;
    size_t parts = length < head ? 0 : mpm_get(bytes + 8, 4);
    if (length < head || parts > records_of(save) || length < head + parts * PART) return 0;
    if (mpm_get(bytes, 4) != crc32_of(0, bytes + 4, head - 4 + parts * PART)) return 0;
    for (size_t i = 0; i < parts; i++)
        if (mpm_get(bytes + head + i * PART, 4) >= records_of(save)) return 0;
    return head + parts * PART;
}

/* The change is in the file: it is now part of what is saved. */
static void take_change(struct save *save, const uint8_t *change, size_t length) {
    const uint8_t *part = change + CHANGE_HEAD;
    memcpy(save->saved_list, part, save->book.list_len);
    for (part += save->book.list_len; part < change + length; part += PART)
        memcpy(save->saved_image + mpm_get(part, 4) * (size_t)MPM_RECORD_LEN, part + 4, MPM_RECORD_LEN);
    save->file_len += length;
    save->changes++;
}

/* ---- Saving ---- */

/* Writes the file anew, so that it does not grow for ever. Where that cannot be done, all is saved as it is, and it is
   tried again when the file has doubled. */
static void rewrite(struct save *save) {
    struct mpm_book saved = save->book;
    saved.list = save->saved_list;
    saved.image = save->saved_image;
    save->rewrite_len = 2 * save->file_len;
    int file = replace_file(save->path, &saved, save->file);
    if (file < 0) {
        say_errno(save->path, "cannot write the book anew, goes on with the long file");
        return;
    }
    close(save->file);
    save->file = file;
    save->file_len = base_len(&saved);
    save->rewrite_len = 2 * save->file_len;
    save->changes = 0;
    if (sync_folder(save->path)) return;
    say_errno(save->path, CANNOT_SAVE);
    save->lost = 1;
}

/* Puts a change at the end of the file. A write that has failed is taken back from the file. Where even that fails, or
   an fsync, nobody can tell what the disk holds. */
static int append(struct save *save, size_t length) {
    if (!write_all(save->file, save->change, length, save->file_len)) {
        say_errno(save->path, CANNOT_SAVE);
        save->lost = !cut_file(save->file, save->file_len);
        return 0;
    }
    if (fsync(save->file) == 0) return 1;
    save->lost = 1;
    return say_errno(save->path, CANNOT_SAVE);
}

int save_book(struct save *save) {
    size_t length = compose_change(save);
    if (length == 0) return 1;
    if (save->lost) {
        put_back(save);
        return say(save->path, CANNOT_SAVE, "the disk has failed before; start the host again");
    }
    if (!append(save, length)) {
        put_back(save);
        return 0;
    }
    take_change(save, save->change, length);
    if (save->file_len > save->rewrite_len) rewrite(save);
    return 1;
}

/* ---- Opening ---- */

/* Gives the book buffers of the lengths in the head. */
static int take_head(struct save *save, const uint8_t *head) {
    struct mpm_book *book = &save->book;
    book->list_len = mpm_get(head + 8, 4);
    book->image_len = mpm_get(head + 12, 4);
    book->kind = mpm_kind_of(book->image_len);
    if (memcmp(head, mark, 8) != 0 || book->kind == MPM_KINDS) return say(save->path, CANNOT_OPEN, "this is no book");
    if (book->list_len != MPM_LIST_LEN) return say(save->path, CANNOT_OPEN, "its list has another layout");
    book->list = malloc(book->list_len);
    book->image = malloc(book->image_len);
    book->vector_len = mpm_vector_len(book->kind);
    book->vector = malloc(book->vector_len);
    save->saved_list = malloc(book->list_len);
    save->saved_image = malloc(book->image_len);
    save->change = malloc(CHANGE_HEAD + book->list_len + records_of(save) * PART);
    if (!book->list || !book->image || !book->vector || !save->saved_list || !save->saved_image || !save->change)
        return say(save->path, CANNOT_OPEN, "no memory");
    memset(book->vector, 0, book->vector_len);
    return 1;
}

static int read_base(struct save *save) {
    uint8_t head[BASE_HEAD];
    struct mpm_book *book = &save->book;
    ssize_t some = read_some(save->file, head, BASE_HEAD, 0);
    if (some < 0) return say_errno(save->path, CANNOT_OPEN);
    if (some < BASE_HEAD) return say(save->path, CANNOT_OPEN, "this is no book");
    if (!take_head(save, head)) return 0;
    if (!read_all(save->file, book->list, book->list_len, BASE_HEAD) ||
        !read_all(save->file, book->image, book->image_len, BASE_HEAD + book->list_len) ||
        mpm_get(head + 16, 4) != base_crc(head, book))
        return say(save->path, CANNOT_OPEN, "the file is damaged");
    memcpy(save->saved_list, book->list, book->list_len);
    memcpy(save->saved_image, book->image, book->image_len);
    save->file_len = base_len(book);
    save->rewrite_len = 2 * save->file_len;
    return 1;
}

/* By how much the number of the change that begins here is above that of the last one taken. */
static uint32_t ahead(const struct save *save, const uint8_t *change) {
    return mpm_get(change + 4, 4) - save->changes;
}

/* Only the last change can be cut off: each was on the disk before the next was begun. So a whole one behind a broken
   one means that the disk has spoiled the file, and nothing is taken for cut off then. */
static int take_changes(struct save *save, const uint8_t *bytes, size_t length) {
    const size_t least = CHANGE_HEAD + save->book.list_len;
    size_t done = 0, some = 1;
    while (length - done >= least && ahead(save, bytes + done) == 1 && some > 0) {
        some = whole_change(save, bytes + done, length - done);
        if (some > 0) take_change(save, bytes + done, some);
        done += some;
    }
    if (done == length) return 1;
    for (size_t i = done + 1; i + least <= length; i++) {
        uint32_t above = ahead(save, bytes + i);
        if (above > 1 && above <= FAR_AHEAD && whole_change(save, bytes + i, length - i) > 0)
            return say(save->path, CANNOT_OPEN, "the file is damaged");
    }
    fprintf(stderr, "%s: left out the last %lu bytes, a save that was cut off\n", save->path,
            (unsigned long)(length - done));
    return 1;
}

/* Takes the whole changes and cuts off what is behind them. The last one may not be on the disk yet: now it is. */
static int read_changes(struct save *save) {
    off_t end = lseek(save->file, 0, SEEK_END);
    if (end < 0) return say_errno(save->path, CANNOT_OPEN);
    size_t length = (size_t)end - save->file_len;
    uint8_t *bytes = malloc(length + 1);
    if (!bytes) return say(save->path, CANNOT_OPEN, "no memory");
    int good = read_all(save->file, bytes, length, save->file_len) || say_errno(save->path, CANNOT_OPEN);
    good = good && take_changes(save, bytes, length);
    free(bytes);
    put_back(save);
    return good && (cut_file(save->file, save->file_len) || say_errno(save->path, CANNOT_OPEN));
}

static void clear(struct save *save) {
    memset(save, 0, sizeof *save);
    save->file = save->lock = -1;
}

int save_open(struct save *save, const char *path) {
    clear(save);
    save->path = path;
    save->lock = lock_path(path);
    if (save->lock < 0) return 0;
    save->file = open(path, O_RDWR);
    if (save->file >= 0 && read_base(save) && read_changes(save)) return 1;
    if (save->file < 0) say_errno(path, CANNOT_OPEN);
    save_close(save);
    return 0;
}

void save_close(struct save *save) {
    free(save->book.list);
    free(save->book.image);
    free(save->book.vector);
    free(save->saved_list);
    free(save->saved_image);
    free(save->change);
    if (save->file >= 0) close(save->file);
    if (save->lock >= 0) close(save->lock);
    clear(save);
}
