/* The host to start from: clerks' programs connect to a socket, each is a process, and every call that is acknowledged
   is on the disk (save.h).

   minimal new BOOK IMAGE      makes a book of a drive's image, of either kind, and a list for it
   minimal serve BOOK SOCKET   serves the book to up to sixteen programs at once, until it is killed
   minimal image BOOK IMAGE    writes the book's image to a file, for other tools

   A program sends the function and the count, a byte each, then its FCB and its DMA, 36 and 2,048 bytes, and gets back
   A and H, a byte each, the FCB and the DMA. 255/255 is this host's own: the call could not be saved, and nothing of it
   is left. A program whose connection is gone is dead: its process is ended with 143 before another gets its number.
   No file is ever overwritten. Exit status: 1 if it cannot be done, 2 for wrong use, with a line that says why. */
#define _XOPEN_SOURCE 700
#include "save.h"

#include <poll.h>
#include <stdio.h>
#include <stdlib.h>
#include <string.h>
#include <sys/socket.h>
#include <sys/un.h>
#include <unistd.h>

enum { CAPACITY = 64, OPEN_LIMIT = 4, LOCK_LIMIT = 16 }; /* of a new book's list */
enum { FCB_AT = 2, DMA_AT = FCB_AT + MPM_FCB_LEN, MESSAGE_LEN = DMA_AT + MPM_DMA_LEN };
enum { NOBODY = -1, DEAD = -2 }; /* in place of a socket */
enum { DONE, FAILED, WRONG_USE };

#define NOT_SAVED MPM_ANSWER(255u, 255u)
#define LONGEST_IMAGE (MPM_LARGE_MAX_BLOCKS * MPM_LARGE_BLOCK_LEN)

struct clerk { /* its process is its place in the array */
    int socket;
    size_t filled;
    uint8_t message[MESSAGE_LEN];
};

static struct save save;
static struct clerk clerks[MPM_PROCESSES];
static uint8_t image[LONGEST_IMAGE + 1];

static int fail(const char *name, const char *why) {
    fprintf(stderr, "%s: %s\n", name, why);
    return FAILED;
}

/* ---- Calls ---- */

/* A call whose answer may be told: what it has changed is on the disk. No call of the engine makes a sound book
   unsound: if it is, the memory was spoiled, and nothing of it may be saved. A new start goes on from the file. */
static uint32_t call(uint32_t function, uint32_t process, uint32_t count, uint8_t *fcb, uint8_t *dma) {
    uint32_t answer = mpm_book_call(&save.book, function, process, count, fcb, dma);
    if (answer == MPM_ERR_BAD_IMAGE || answer == MPM_ERR_BAD_LIST || answer == MPM_ERR_BAD_VECTOR) {
        fail(save.path, mpm_answer_text(function, answer));
        exit(FAILED);
    }
    return save_book(&save) ? answer : NOT_SAVED;
}

/* Takes back what a dead program held. Until that is done and saved, nobody gets its process. */
static void end_process(uint32_t process) {
    static uint8_t fcb[MPM_FCB_LEN], dma[MPM_DMA_LEN];
    if (call(MPM_FN_TERMINATE, process, 1, fcb, dma) == MPM_OK) clerks[process].socket = NOBODY;
}

static void hang_up(uint32_t process) {
    close(clerks[process].socket);
    clerks[process].socket = DEAD;
    end_process(process);
}

/* A program that does not take its answer at once is hung up on: it must not hold up the others. */
static void answer_call(uint32_t process) {
    struct clerk *clerk = &clerks[process];
    uint8_t *message = clerk->message;
    uint32_t answer = call(message[0], process, message[1], message + FCB_AT, message + DMA_AT);
    message[0] = (uint8_t)mpm_a(answer);
    message[1] = (uint8_t)mpm_h(answer);
    clerk->filled = 0;
    if (send(clerk->socket, message, MESSAGE_LEN, MSG_DONTWAIT | MSG_NOSIGNAL) != MESSAGE_LEN) hang_up(process);
}

static void hear(uint32_t process) {
    struct clerk *clerk = &clerks[process];
    ssize_t some = recv(clerk->socket, clerk->message + clerk->filled, MESSAGE_LEN - clerk->filled, MSG_DONTWAIT);
    if (some <= 0) {
        hang_up(process);
        return;
    }
    clerk->filled += (size_t)some;
    if (clerk->filled == MESSAGE_LEN) answer_call(process);
}

/* A seventeenth program is hung up on. */
static void welcome(int caller) {
    uint32_t process = 0;
    if (caller < 0) return;
    while (process < MPM_PROCESSES && clerks[process].socket != NOBODY) process++;
    if (process == MPM_PROCESSES) {
        close(caller);
        return;
    }
    clerks[process].socket = caller;
    clerks[process].filled = 0;
}

/* ---- Serving ---- */

/* After a start every program is dead, so nobody holds anything: a new list, with the limits, users and rule of the
   old. The vector was built when the book was opened. */
static int begin(const char *path) {
    if (!save_open(&save, path)) return 0;
    const uint8_t *old = save.saved_list;
    const struct mpm_book *book = &save.book;
    uint32_t rule = old[MPM_LIST_RULE];
    if (mpm_check(book->kind, rule, book->image, book->image_len) != MPM_CHECK_SOUND) {
        fail(path, "the image is not sound");
        return 0;
    }
    if (mpm_start(book->kind, old[MPM_LIST_CAPACITY], old[MPM_LIST_OPEN_LIMIT], old[MPM_LIST_LOCK_LIMIT],
                  rule, old + MPM_LIST_USERS, MPM_USERS_LEN, book->list, book->list_len) != MPM_OK) {
        fail(path, "the list has bad limits, users or rule");
        return 0;
    }
    return save_book(&save);
}

static int listen_on(const char *path) {
    struct sockaddr_un name = {.sun_family = AF_UNIX};
    if (strlen(path) >= sizeof name.sun_path) return -1;
    memcpy(name.sun_path, path, strlen(path));
    int listener = socket(AF_UNIX, SOCK_STREAM, 0);
    unlink(path); /* left by a host that was killed */
    if (listener < 0 || bind(listener, (const struct sockaddr *)&name, sizeof name) != 0) return -1;
    return listen(listener, MPM_PROCESSES) == 0 ? listener : -1;
}

static void serve_once(int listener) {
    struct pollfd ready[MPM_PROCESSES + 1] = {{0, 0, 0}};
    for (uint32_t p = 0; p < MPM_PROCESSES; p++) {
        if (clerks[p].socket == DEAD) end_process(p);
        ready[p].fd = clerks[p].socket; /* a negative one is passed by */
        ready[p].events = POLLIN;
    }
    ready[MPM_PROCESSES].fd = listener;
    ready[MPM_PROCESSES].events = POLLIN;
    if (poll(ready, MPM_PROCESSES + 1, -1) < 0) return;
    for (uint32_t p = 0; p < MPM_PROCESSES; p++)
        if (ready[p].revents != 0 && clerks[p].socket >= 0) hear(p);
    if (ready[MPM_PROCESSES].revents != 0) welcome(accept(listener, 0, 0));
}

static int serve(const char *book, const char *socket_path) {
    for (uint32_t p = 0; p < MPM_PROCESSES; p++) clerks[p].socket = NOBODY;
    if (!begin(book)) return FAILED;
    int listener = listen_on(socket_path);
    if (listener < 0) return fail(socket_path, "cannot listen there");
    printf("serves %s on %s\n", book, socket_path);
    fflush(stdout);
    for (;;) serve_once(listener);
}

/* ---- Images ---- */

static int make_book(const char *path, const char *image_path) {
    static uint8_t list[MPM_LIST_LEN];
    static const uint8_t users[MPM_USERS_LEN]; /* every process is user 0 */
    FILE *stream = fopen(image_path, "rb");
    if (!stream) return fail(image_path, "cannot be read");
    size_t length = fread(image, 1, sizeof image, stream);
    fclose(stream);
    const struct mpm_book book = {mpm_kind_of(length), list, sizeof list, image, length, 0, 0};
    if (book.kind == MPM_KINDS) return fail(image_path, "no drive has an image of this length");
    if (mpm_check(book.kind, MPM_RULE_MPM, image, length) != MPM_CHECK_SOUND)
        return fail(image_path, "the image is not sound");
    mpm_start(book.kind, CAPACITY, OPEN_LIMIT, LOCK_LIMIT, MPM_RULE_MPM, users, sizeof users, list, sizeof list);
    return save_new(path, &book) ? DONE : FAILED;
}

static int write_image(const char *path, const char *image_path) {
    if (access(image_path, F_OK) == 0) return fail(image_path, "there is such a file already");
    if (!save_open(&save, path)) return FAILED;
    FILE *stream = fopen(image_path, "wb");
    if (!stream) return fail(image_path, "cannot be made");
    int whole = fwrite(save.book.image, 1, save.book.image_len, stream) == save.book.image_len;
    if (fclose(stream) == 0 && whole) return DONE;
    return fail(image_path, "cannot be written whole");
}

int main(int argc, char **argv) {
    if (argc == 4 && strcmp(argv[1], "new") == 0) return make_book(argv[2], argv[3]);
    if (argc == 4 && strcmp(argv[1], "serve") == 0) return serve(argv[2], argv[3]);
    if (argc == 4 && strcmp(argv[1], "image") == 0) return write_image(argv[2], argv[3]);
    fprintf(stderr, "use: minimal new BOOK IMAGE, minimal serve BOOK SOCKET or minimal image BOOK IMAGE\n");
    return WRONG_USE;
}
