/* Tries save.c against a disk that fails and a machine that stops, at each of its system calls in turn.

   save_faults FOLDER [FAULT]: in FOLDER a book is saved many times, so that its file is written anew meanwhile. At the
   first call of the system, then at the second and so on, up to the last:
     - the call fails, as on a full disk, a write after it has done half;
     - the machine stops there, a write being half done, and then the disk holds
         all that was written, or
         only what an fsync has put there, and only the names that an fsync of the folder has put there, or
         of what was written since the fsync every second piece of 512 bytes.
   Then the book is opened again. It must hold what was last acknowledged, or that with the call under way; and where a
   call only failed, memory must hold what was last acknowledged. Prints how many times it was tried.
   Last, the file of a book that was saved many times is cut off, at every end of a save, a byte before and after it and
   at many places between, and many of its bytes are altered, each by itself. A file that was cut off must hold the last
   whole save; one that was altered must be refused as damaged, or, in its last save, hold the one before.
   With FAULT, save.c is wrong on purpose, and that has to be found: `fsync` does nothing, or `folder` is not synced.
   Exit status: 0 if all is well, 1 if not, 2 for wrong use. */
#define _XOPEN_SOURCE 700
#include "mpm.h"

#include <errno.h>
#include <fcntl.h>
#include <setjmp.h>
#include <stdio.h>
#include <stdlib.h>
#include <string.h>
#include <sys/types.h>
#include <unistd.h>

enum { BLOCKS = 3, STATES = 14, IMAGE_LEN = BLOCKS * MPM_SMALL_BLOCK_LEN, NAME_LEN = 4096, FILE_ROOM = 1 << 16 };
enum how { NEVER, FAILS, STOPS_ALL, STOPS_SYNCED, STOPS_PIECES, HOWS };

static enum how how;
static unsigned long wrong_at, calls; /* at which call it happens; how many were made */
static jmp_buf stopped;
static int no_fsync, no_folder;

/* ---- The disk as it is without power: what fsync has put there ---- */

struct node { /* a file, whatever it is called */
    size_t length;
    uint8_t bytes[FILE_ROOM];
};

static struct node nodes[2]; /* the book's file and the new one */
static int shown;            /* which of them has the book's name */
static int named;            /* which of them has it on the disk */
static char book_path[NAME_LEN], new_path[NAME_LEN], lock_name[NAME_LEN];
static int node_file[2] = {-1, -1}, folder_file = -1;

static size_t read_whole(const char *path, uint8_t *bytes) {
    FILE *stream = fopen(path, "rb");
    size_t length = stream ? fread(bytes, 1, FILE_ROOM, stream) : 0;
    if (stream) fclose(stream);
    return length;
}

static void keep_node(int n) {
    nodes[n].length = read_whole(n == shown ? book_path : new_path, nodes[n].bytes);
}

static void write_whole(const uint8_t *bytes, size_t length) {
    FILE *stream = fopen(book_path, "wb");
    if (!stream || fwrite(bytes, 1, length, stream) != length || fclose(stream) != 0) {
        perror(book_path);
        exit(2);
    }
}

/* What the book's file is after the machine has stopped. */
static void lose(void) {
    static uint8_t bytes[FILE_ROOM];
    const struct node *disk = &nodes[named];
    if (how == STOPS_ALL) return;
    size_t length = read_whole(book_path, bytes);
    if (how == STOPS_SYNCED || named != shown) {
        write_whole(disk->bytes, disk->length);
        return;
    }
    for (size_t i = 0; i < length; i++)
        if (i / 512 % 2 == 0) bytes[i] = i < disk->length ? disk->bytes[i] : 0;
    write_whole(bytes, length);
}

/* ---- The system's calls, of which one goes wrong ---- */

static int goes_wrong(void) {
    if (++calls != wrong_at || how == NEVER) return 0;
    errno = ENOSPC;
    return 1;
}

static int stop_or_fail(void) {
    if (how != FAILS) longjmp(stopped, 1);
    errno = ENOSPC;
    return -1;
}

static ssize_t test_pwrite(int file, const void *bytes, size_t length, off_t where) {
    if (!goes_wrong()) return pwrite(file, bytes, length, where);
    if (pwrite(file, bytes, length / 2, where) < 0) return -1;
    return stop_or_fail();
}

static int test_fsync(int file) {
    if (goes_wrong()) return stop_or_fail();
    if (no_fsync) return 0;
    if (file == folder_file) named = no_folder ? named : shown;
    for (int n = 0; n < 2; n++)
        if (file == node_file[n]) keep_node(n);
    return 0; /* nothing stops here but the model */
}

static int test_ftruncate(int file, off_t length) {
    if (goes_wrong()) return stop_or_fail();
    return ftruncate(file, length);
}

static int test_rename(const char *from, const char *to) {
    if (goes_wrong()) return stop_or_fail();
    if (rename(from, to) != 0) return -1;
    shown = 1 - shown;
    return 0;
}

static int test_open(const char *path, int flags, int mode) {
    if (goes_wrong()) return stop_or_fail();
    int file = open(path, flags, mode);
    if (strcmp(path, book_path) == 0) {
        node_file[shown] = file;
    } else if (strcmp(path, new_path) == 0) {
        node_file[1 - shown] = file;
        nodes[1 - shown].length = 0;
    } else if (strcmp(path, lock_name) != 0) {
        folder_file = file;
    }
    return file;
}

static int test_close(int file) {
    for (int n = 0; n < 2; n++)
        if (file == node_file[n]) node_file[n] = -1;
    if (file == folder_file) folder_file = -1;
    return close(file);
}

#define pwrite test_pwrite
#define fsync test_fsync
#define ftruncate test_ftruncate
#define rename test_rename
#define close test_close
#define OPEN_WITH(path, flags, mode, ...) test_open(path, flags, mode)
#define open(...) OPEN_WITH(__VA_ARGS__, 0, 0)
#include "save.c"

/* ---- The book ---- */

struct state {
    uint8_t list[MPM_LIST_LEN];
    uint8_t image[IMAGE_LEN];
};

static struct state states[STATES];
static volatile int acknowledged; /* the number of the state that was last acknowledged */
static struct save save;

static int is_state(const struct mpm_book *book, const struct state *state) {
    return memcmp(book->list, state->list, MPM_LIST_LEN) == 0 && memcmp(book->image, state->image, IMAGE_LEN) == 0;
}

/* Each state has some records, a byte of the list or both other than the one before. */
static void make_states(void) {
    memset(states, 0, sizeof states);
    for (size_t s = 1; s < STATES; s++) {
        states[s] = states[s - 1];
        if (s % 3 != 0 || s % 4 == 0) states[s].list[s] = (uint8_t)s;
        for (size_t r = 0; r < s % 4 * 2; r++) memset(states[s].image + (s + 5 * r) % 24 * 128, (int)(s + r), 128);
    }
}

static void remove_files(void) {
    unlink(book_path);
    unlink(new_path);
    shown = named = 0;
    nodes[0].length = nodes[1].length = 0;
}

static void make_book(void) {
    struct mpm_book book = {MPM_KIND_SMALL, states[0].list, MPM_LIST_LEN, states[0].image, IMAGE_LEN, 0, 0};
    remove_files();
    how = NEVER;
    if (!save_new(book_path, &book)) exit(2);
    named = shown;
    keep_node(shown);
}

/* Saves one state after the other. One that fails is tried again, as a clerk would, and must not fail a second time
   unless the disk is no longer trusted. */
static int save_states(void) {
    if (!save_open(&save, book_path)) return 1;
    for (int s = 1; s < STATES; s++) {
        for (int tries = 0;; tries++) {
            memcpy(save.book.list, states[s].list, MPM_LIST_LEN);
            memcpy(save.book.image, states[s].image, IMAGE_LEN);
            if (save_book(&save)) break;
            if (!is_state(&save.book, &states[acknowledged])) return 0;
            if (save.lost) return 1;
            if (tries > 0) return 0;
        }
        acknowledged = s;
    }
    return 1;
}

/* 0 if the book is not as it must be. */
static int try_once(enum how way, unsigned long number) {
    volatile int good = 1;
    int opened;
    make_book();
    clear(&save);
    acknowledged = 0;
    how = way;
    wrong_at = number;
    calls = 0;
    if (setjmp(stopped) == 0)
        good = save_states();
    else
        lose();
    unsigned long made = calls;
    how = NEVER;
    save_close(&save);
    opened = save_open(&save, book_path);
    if (opened) {
        const struct mpm_book *book = &save.book;
        good = good && (is_state(book, &states[acknowledged]) ||
                        (acknowledged + 1 < STATES && is_state(book, &states[acknowledged + 1])));
        save_close(&save);
    }
    calls = made;
    return good && opened;
}

/* ---- A file that is cut off or altered ---- */

/* The state that the file's book is in; -1 if it is refused, STATES if it is in none. */
static int state_in_file(void) {
    int s = 0;
    if (!save_open(&save, book_path)) return -1;
    while (s < STATES && !is_state(&save.book, &states[s])) s++;
    save_close(&save);
    return s;
}

/* Saves all states as changes behind one base. Gives the last one, and how long the file is after each. */
static int save_few(size_t *lengths) {
    make_book();
    if (!save_open(&save, book_path)) return 0;
    lengths[0] = save.file_len;
    int s = 0;
    while (s + 1 < STATES) {
        memcpy(save.book.list, states[s + 1].list, MPM_LIST_LEN);
        memcpy(save.book.image, states[s + 1].image, IMAGE_LEN);
        if (!save_book(&save) || save.changes != (uint32_t)s + 1) break;
        lengths[++s] = save.file_len;
        save.rewrite_len = FILE_ROOM; /* the file is not written anew */
    }
    save_close(&save);
    return s;
}

/* The state that a file of this length must hold, -1 where it is no book; and whether a save ends near there. */
static int whole_in(const size_t *lengths, size_t length, int *near) {
    int whole = -1;
    *near = 0;
    for (int s = 0; s < STATES; s++) {
        if (length >= lengths[s]) whole = s;
        if (length + 1 >= lengths[s] && length <= lengths[s] + 1) *near = 1;
    }
    return whole;
}

static int try_file(void) {
    static uint8_t bytes[FILE_ROOM];
    size_t lengths[STATES], tried = 0;
    int last = save_few(lengths), near;
    size_t length = read_whole(book_path, bytes);
    if (last != STATES - 1 || length != lengths[last]) return 0;
    for (size_t n = 0; n <= length; n++) {
        int whole = whole_in(lengths, n, &near);
        if (!near && n % 61 != 0) continue;
        write_whole(bytes, n);
        if (state_in_file() != whole) return 0;
        tried++;
    }
    for (size_t i = 0; i < length; i++) {
        whole_in(lengths, i, &near);
        if (!near && i % 61 != 0) continue;
        bytes[i] ^= 0x10;
        write_whole(bytes, length);
        bytes[i] ^= 0x10;
        if (state_in_file() != (i < lengths[last - 1] ? -1 : last - 1)) return 0;
        tried++;
    }
    printf("%lu files cut off or altered, all seen\n", (unsigned long)tried);
    return 1;
}

/* ---- All ---- */

static const char *const ways[] = {"", "fails", "stops, all written", "stops, only what is synced", "stops, in pieces"};

static int try_all(void) {
    unsigned long tried = 0;
    for (int way = FAILS; way < HOWS; way++) {
        for (unsigned long number = 1;; number++) {
            if (!try_once((enum how)way, number)) {
                printf("WRONG: call %lu %s, after save %d\n", number, ways[way], acknowledged);
                return 1;
            }
            if (calls < number) break;
            tried++;
        }
    }
    printf("%lu stops and failures, nothing lost\n", tried);
    if (try_file()) return 0;
    printf("WRONG: a file that was cut off or altered is taken for another book\n");
    return 1;
}

int main(int argc, char **argv) {
    if (argc < 2 || argc > 3 || strlen(argv[1]) > NAME_LEN - 32) {
        fprintf(stderr, "use: save_faults FOLDER [fsync|folder]\n");
        return 2;
    }
    no_fsync = argc == 3 && strcmp(argv[2], "fsync") == 0;
    no_folder = argc == 3 && strcmp(argv[2], "folder") == 0;
    snprintf(book_path, sizeof book_path, "%s/BOOK", argv[1]);
    snprintf(new_path, sizeof new_path, "%s/BOOK.new", argv[1]);
    snprintf(lock_name, sizeof lock_name, "%s/BOOK.lock", argv[1]);
    make_states();
    return try_all();
}
