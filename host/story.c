/* The story of an order book. Clerks share the file ORDERS.DAT on one drive. One of them locks a long run of order
   lines and dies. Another is held up until the host takes back what the dead one held. A third reads a screen of
   sixteen lines in one call, and writes several in one call until it meets a line that is locked. At night the import
   makes a work file and deletes it while it has it open, and a clerk lists the directory before and after. A monitor
   reads the free space from the allocation vector alone, whenever somebody asks the engine for it.

   story FOLDER [small|large]: makes FOLDER/ORDERS.BOOK (save.h) with a drive of that kind (small), plays the story on
   it and prints every step with its answer. The steps are the same on both, but for the numbers of lines that lie in a
   new block.
   Exit status: 0 if all was as expected, 1 if something was not, 2 for wrong use or a file that cannot be used. */

#include "save.h"

#include <stdio.h>
#include <string.h>

enum { SMALL_BLOCKS = 16, LARGE_BLOCKS = MPM_LARGE_MIN_BLOCKS };
enum { CAPACITY = 12, OPEN_LIMIT = 2, LOCK_LIMIT = 10 };
enum { OFFICE, CLERK_1, CLERK_2, CLERK_3 }; /* the processes */
enum { MORNING_LINES = 24, MOST_LINES = 5 * MPM_LARGE_BLOCK_RECORDS };
enum { USER = 0, WRONG_USE = 2, PATH_LEN = 4096, WORDS_LEN = 46 };

#define ROOM (LARGE_BLOCKS * MPM_LARGE_BLOCK_LEN)

#define COUNT(array) (sizeof(array) / sizeof(array)[0])

/* The answer where a line was refused after so many of the same call. */
#define AFTER(lines, answer) ((answer) + MPM_ANSWER(0u, 16u * (lines)))

/* The five buffers that are lent, in one struct to keep and compare them together. The vector and the image are the
   last bytes of their rooms; of the image a sanitizer sees so who passes its end. */
struct buffers {
    uint8_t fcb[MPM_FCB_LEN];
    uint8_t dma[MPM_DMA_LEN];
    uint8_t list[MPM_LIST_LEN];
    uint8_t vector_room[MPM_LARGE_VECTOR_LEN];
    uint8_t room[ROOM];
};

/* A step of a process: the order lines it names, the answer and the File ID to be expected. */
struct step {
    uint32_t process, function;
    const char *words;
    uint32_t first, last;
    uint32_t answer, file_id;
};

static const uint8_t file[] = "ORDERS  DAT";
static const char *const ORDERS = "ORDERS.DAT", *const WORK = "WORK.$$$";
static const char *used_file; /* one of these: the steps' file, and its mode */
static uint32_t used_mode;
static uint32_t kind, blocks; /* of the drive */
static struct buffers now, before, singly, told;
static uint8_t lines[MOST_LINES][MPM_RECORD_LEN]; /* what each line must hold */
static uint8_t has_block[MOST_LINES];
static uint32_t size; /* one more than the highest line that was written */
static uint32_t file_ids[MPM_PROCESSES];
static uint32_t steps, faults;

/* ---- The drive ---- */

static size_t image_len(void) { return (size_t)blocks * mpm_block_len(kind); }

static uint8_t *image_of(struct buffers *b) { return b->room + sizeof b->room - image_len(); }

/* The vector as a drive of a kind has it; of an unknown kind none. */
static uint8_t *vector_as(uint32_t as_kind, struct buffers *b) {
    return b->vector_room + sizeof b->vector_room - mpm_vector_len(as_kind);
}

static uint8_t *vector_of(struct buffers *b) { return vector_as(kind, b); }

/* The first line behind the morning's that lies in a new block. */
static uint32_t new_line(void) {
    uint32_t records = mpm_block_records(kind);
    return (MORNING_LINES + records - 1) / records * records;
}

/* The line that is the last with a block in the end: of the two new blocks of the afternoon. */
static uint32_t last_line(void) { return new_line() + 2 * mpm_block_records(kind) - 1; }

/* The first of four lines of which two lie in one of these blocks and two in the other. */
static uint32_t pair_line(void) { return new_line() + mpm_block_records(kind) - 2; }

/* A line written brings all lines of its block. */
static void give_block(uint32_t line) {
    uint32_t first = line - line % mpm_block_records(kind);
    for (uint32_t i = 0; i < mpm_block_records(kind); i++) has_block[first + i] = 1;
}

static uint32_t free_records(void) {
    uint32_t used = 0;
    for (uint32_t line = 0; line < MOST_LINES; line++) used += has_block[line];
    return mpm_block_records(kind) * (blocks - MPM_DIRECTORY_BLOCKS) - used;
}

/* ---- Words ---- */

static const char *mode_name(uint32_t mode) {
    switch (mode) {
    case MPM_MODE_LOCKED: return "locked";
    case MPM_MODE_UNLOCKED: return "unlocked";
    case MPM_MODE_READ_ONLY: return "read-only";
    default: return "unknown";
    }
}

static const char *who(const struct step *step) {
    static const char *const processes[] = {"office", "clerk 1", "clerk 2", "clerk 3"};
    return step->function == MPM_FN_TERMINATE ? "host" : processes[step->process];
}

/* The order line as a clerk writes it: text, filled up with blanks. */
static void compose(uint8_t *record, uint32_t line, uint32_t clerk) {
    static const char *const goods[] = {"apples", "plums", "salt", "tea", "nails", "soap", "rope"};
    char text[MPM_RECORD_LEN];
    snprintf(text, sizeof text, "line %2u: %u crates of %s, clerk %u", (unsigned)line,
             (unsigned)(4 + line % 5 + 10 * clerk), goods[line % 7], (unsigned)clerk);
    memset(record, ' ', MPM_RECORD_LEN);
    memcpy(record, text, strlen(text));
}

/* ---- What is printed, and what is held against it ---- */

static void fault(const char *what) {
    printf("      FAULT: %s\n", what);
    faults++;
}

static void print_row(const char *actor, uint32_t function, const char *words, const char *answer, const char *name) {
    steps++;
    printf("%4u  %-7s  ", (unsigned)steps, actor);
    if (function == 0)
        printf("   -");
    else
        printf("%4u", (unsigned)function);
    printf("  %-45s  %-6s  %s", words, answer, name);
}

static void print_answer_row(const char *actor, uint32_t function, const char *words, uint32_t answer) {
    char text[32];
    snprintf(text, sizeof text, "%u/%u", (unsigned)mpm_a(answer), (unsigned)mpm_h(answer));
    print_row(actor, function, words, text, mpm_answer_name(function, answer));
}

static void expect_answer(uint32_t function, uint32_t answer, uint32_t expected) {
    if (answer == expected) return;
    printf("      EXPECTED: %u/%u %s\n", (unsigned)mpm_a(expected), (unsigned)mpm_h(expected),
           mpm_answer_name(function, expected));
    faults++;
}

static void expect_figure(uint32_t figure, uint32_t expected) {
    if (figure == expected) return;
    printf("      EXPECTED: the figure %u, not %u\n", (unsigned)expected, (unsigned)figure);
    faults++;
}

static void print_head(void) {
    printf("\nstep  who      call  what                                           A/H     name\n");
}

/* ---- Calls ---- */

typedef uint32_t engine(uint32_t, uint32_t, uint32_t, uint32_t, uint8_t *, size_t, uint8_t *, size_t, uint8_t *,
                        size_t, uint8_t *, size_t, uint8_t *, size_t);

static int wants_file_id(uint32_t function) { return function == MPM_FN_LOCK || function == MPM_FN_UNLOCK; }

/* One that does its lines in turn and may stop among them. */
static int goes_by_lines(uint32_t function) {
    return function == MPM_FN_READ || function == MPM_FN_WRITE || function == MPM_FN_WRITE_ZEROS;
}

static int is_write(uint32_t function) {
    return function == MPM_FN_WRITE || function == MPM_FN_WRITE_ZEROS || function == MPM_FN_TEST_WRITE;
}

static uint32_t count_of(const struct step *step) { return step->last - step->first + 1; }

static uint32_t done_of(const struct step *step, uint32_t answer) {
    uint32_t done = mpm_done(answer, count_of(step));
    return done <= count_of(step) ? done : 0;
}

static int searches(uint32_t function) {
    return function == MPM_FN_SEARCH_FIRST || function == MPM_FN_SEARCH_NEXT;
}

/* A search is for all files. */
static void fill_fcb(const struct step *step) {
    if (searches(step->function))
        mpm_set_search(now.fcb, "*.*", 0);
    else
        mpm_set_fcb(now.fcb, used_file, used_mode);
    mpm_set_record(now.fcb, step->first);
}

static void fill_dma(const struct step *step) {
    memset(now.dma, 0, sizeof now.dma);
    if (wants_file_id(step->function)) {
        mpm_set_file_id(now.dma, file_ids[step->process]);
    } else if (step->function == MPM_FN_TEST_WRITE) {
        memcpy(now.dma + MPM_DMA_RECORD, lines[step->first], MPM_RECORD_LEN);
        compose(now.dma + MPM_DMA_NEW, step->first, step->process);
    } else if (is_write(step->function)) {
        for (uint32_t i = 0; i < count_of(step); i++)
            compose(now.dma + MPM_DMA_AT(i), step->first + i, step->process);
    }
}

/* Told as one kind, with the vector of another or of the same. */
static uint32_t lend_as(engine *to, uint32_t as_kind, uint32_t of_kind, const struct step *step, struct buffers *b) {
    return to(as_kind, step->function, step->process, count_of(step), b->fcb, sizeof b->fcb, b->dma, sizeof b->dma,
              b->list, sizeof b->list, image_of(b), image_len(), vector_as(of_kind, b), mpm_vector_len(of_kind));
}

static uint32_t lend(engine *to, const struct step *step, struct buffers *b) {
    return lend_as(to, kind, kind, step, b);
}

/* Where the line stands in the image; 0 where Look shows nothing. */
static uint32_t place_of(uint32_t as_kind, uint32_t line) {
    uint32_t at = mpm_look(as_kind, MPM_RULE_MPM, USER, file, MPM_NAME_LEN, line, image_of(&now), image_len());
    return at <= image_len() - MPM_RECORD_LEN ? at : 0;
}

/* The lines that have a block, and no others, are there and as they were last written. */
static void check_lines(void) {
    for (uint32_t line = 0; line < MOST_LINES; line++) {
        uint32_t at = place_of(kind, line);
        if ((at != 0) != has_block[line]) {
            fault("the line should have a block, or should have none");
            return;
        }
        if (at == 0 || memcmp(image_of(&now) + at, lines[line], MPM_RECORD_LEN) == 0) continue;
        fault("a line is not as it was written");
        return;
    }
}

/* A book of one kind is never read as another: the call told so is refused, for its vector or, where that is as long as
   the other kind's, for its image; checks and looks tell nothing. */
static void check_as(uint32_t as_kind, const struct step *step) {
    uint32_t refusal = as_kind < MPM_KINDS ? MPM_ERR_BAD_IMAGE : MPM_ERR_BAD_CALL;
    told = now;
    for (uint32_t of_kind = 0; of_kind < MPM_KINDS; of_kind++) {
        uint32_t due = of_kind == as_kind ? refusal : MPM_ERR_BAD_CALL;
        if (lend_as(mpm_call, as_kind, of_kind, step, &told) != due) fault("a book told as another kind is taken");
    }
    if (memcmp(&told, &now, sizeof now) != 0) fault("a book told as another kind has changed");
    uint32_t answer = mpm_vector(as_kind, MPM_RULE_MPM, image_of(&now), image_len(), vector_as(as_kind, &told),
                                 mpm_vector_len(as_kind));
    if (answer != refusal) fault("a vector is built for another kind");
    if (mpm_check(as_kind, MPM_RULE_MPM, image_of(&now), image_len()) != MPM_CHECK_WRONG_LENGTH)
        fault("the check takes another kind");
    if (place_of(as_kind, 0) != 0) fault("Look takes another kind");
}

static void check_other_kinds(const struct step *step) {
    static const uint32_t unknown[] = {MPM_KINDS, 256, 257, 0xFFFFFFFFu};
    check_as(kind == MPM_KIND_SMALL ? MPM_KIND_LARGE : MPM_KIND_SMALL, step);
    for (size_t i = 0; i < COUNT(unknown); i++) check_as(unknown[i], step);
}

/* A vector with one wrong bit, another at each step, is refused, and not mended. */
static void check_wrong_vector(const struct step *step) {
    uint32_t bit = 37u * steps % (8u * mpm_vector_len(kind));
    told = now;
    vector_of(&told)[bit / 8] ^= (uint8_t)(MPM_HIGH_BIT >> bit % 8);
    singly = told;
    if (lend(mpm_call, step, &told) != MPM_ERR_BAD_VECTOR) fault("a vector that disagrees is taken");
    if (memcmp(&told, &singly, sizeof told) != 0) fault("a call with a vector that disagrees has changed something");
}

/* The vector is the one that is built from the image. */
static void check_vector(void) {
    uint8_t due[MPM_LARGE_VECTOR_LEN];
    size_t length = mpm_vector_len(kind);
    uint32_t answer = mpm_vector(kind, MPM_RULE_MPM, image_of(&now), image_len(), due, length);
    if (answer != MPM_OK || memcmp(due, vector_of(&now), length) != 0) fault("the vector disagrees with the directory");
}

/* A refused line and those after it must leave no trace, lines done none but themselves. */
static void check_trace(const struct step *step, uint32_t done) {
    size_t read = step->function == MPM_FN_READ ? MPM_DMA_AT(done) : 0;
    int written = is_write(step->function) && done > 0;
    if (memcmp(before.fcb, now.fcb, sizeof now.fcb) != 0) fault("the FCB has changed");
    if (memcmp(before.dma + read, now.dma + read, sizeof now.dma - read) != 0) fault("the DMA has changed");
    if (memcmp(before.list, now.list, sizeof now.list) != 0) fault("the list has changed");
    if (!written && memcmp(before.room, now.room, sizeof now.room) != 0) fault("the image has changed");
    if (!written && memcmp(before.vector_room, now.vector_room, sizeof now.vector_room) != 0)
        fault("the vector has changed");
}

/* A search must leave all as it was but the caller's position and, where it has found, one record in the DMA. */
static void check_search(const struct step *step, uint32_t answer) {
    size_t read = mpm_found(answer) ? MPM_RECORD_LEN : 0;
    before.list[MPM_LIST_POSITIONS + step->process] = now.list[MPM_LIST_POSITIONS + step->process];
    memcpy(before.dma, now.dma, read);
    if (memcmp(&before, &now, sizeof now) != 0) fault("a search has changed more than is its own");
}

/* One call of the engine for all lines of the step. The plain engine must do the same on buffers of its own. */
static uint32_t call(const struct step *step) {
    fill_fcb(step);
    fill_dma(step);
    before = now;
    check_wrong_vector(step);
    check_other_kinds(step);
    singly = now;
    uint32_t answer = lend(mpm_call, step, &now);
    uint32_t done = done_of(step, answer);
    check_vector();
    if (lend(mpm_singly, step, &singly) != mpm_code(answer) || memcmp(&singly, &now, sizeof now) != 0)
        fault("single calls do otherwise");
    if (mpm_refused(step->function, answer) || goes_by_lines(step->function)) check_trace(step, done);
    if (searches(step->function)) check_search(step, answer);
    for (uint32_t i = 0; i < done && is_write(step->function) && used_file == ORDERS; i++) {
        compose(lines[step->first + i], step->first + i, step->process);
        give_block(step->first + i);
        if (size < step->first + i + 1) size = step->first + i + 1;
    }
    check_lines();
    return answer;
}

/* ---- What a call has left ---- */

static void show_file_id(const struct step *step) {
    uint32_t file_id = mpm_file_id(now.fcb);
    file_ids[step->process] = file_id;
    printf(", File ID %u\n", (unsigned)file_id);
    expect_figure(file_id, step->file_id);
}

/* The monitor reads the same from the vector alone. */
static void show_free_records(void) {
    uint32_t records = mpm_get(now.dma + MPM_DMA_FREE, 3);
    uint32_t monitor = mpm_free_records(kind, image_len(), vector_of(&now));
    printf(", %u records free; monitor: %u\n", (unsigned)records, (unsigned)monitor);
    expect_figure(records, free_records());
    expect_figure(monitor, records);
}

static void show_size(void) {
    printf(", %u records\n", (unsigned)mpm_size(now.fcb));
    expect_figure(mpm_size(now.fcb), size);
}

/* The name as people write it. */
static void spell(const uint8_t *name, char text[MPM_NAME_LEN + 2]) {
    size_t length = 0;
    for (size_t i = 0; i < MPM_NAME_LEN; i++) {
        if (i == 8) text[length++] = '.';
        if (name[i] != ' ') text[length++] = (char)name[i];
    }
    text[length] = 0;
}

/* The file that a search has found: ORDERS.DAT in entry 0, the work file in entry 1. */
static void show_found(uint32_t answer) {
    char text[MPM_NAME_LEN + 2];
    if (!mpm_found(answer)) {
        printf("\n");
        return;
    }
    spell(mpm_entry(now.dma, answer) + MPM_ENTRY_NAME, text);
    printf(", %s\n", text);
    if (strcmp(text, answer == MPM_FOUND(0u) ? ORDERS : WORK) != 0) fault("this is another file");
}

/* How many lines a call of several has done. A line read must be the line written. */
static void show_lines(const struct step *step, uint32_t answer) {
    uint32_t done = done_of(step, answer);
    if (count_of(step) > 1) printf(", %u lines done", (unsigned)done);
    printf("\n");
    for (uint32_t i = 0; i < done && step->function == MPM_FN_READ; i++) {
        if (memcmp(now.dma + MPM_DMA_AT(i), lines[step->first + i], MPM_RECORD_LEN) == 0) continue;
        fault("the line read is not the line written");
        return;
    }
}

static void show_effect(const struct step *step, uint32_t answer) {
    switch (step->function) {
    case MPM_FN_OPEN:
    case MPM_FN_MAKE:
        if (used_mode == MPM_MODE_UNLOCKED)
            show_file_id(step);
        else
            printf("\n");
        break;
    case MPM_FN_FREE_SPACE: show_free_records(); break;
    case MPM_FN_SIZE: show_size(); break;
    case MPM_FN_SEARCH_FIRST:
    case MPM_FN_SEARCH_NEXT: show_found(answer); break;
    default: printf("\n");
    }
}

static void play(const struct step *step) {
    uint32_t answer = call(step);
    print_answer_row(who(step), step->function, step->words, answer);
    if (goes_by_lines(step->function))
        show_lines(step, answer);
    else if (!mpm_refused(step->function, answer))
        show_effect(step, answer);
    else
        printf("\n");
    expect_answer(step->function, answer, step->answer);
}

static void play_all(const struct step *all, size_t count) {
    for (size_t i = 0; i < count; i++) play(&all[i]);
}

/* ---- The lock list ---- */

static void print_file_name(const uint8_t *name) {
    char text[MPM_NAME_LEN + 2];
    spell(name, text);
    printf("%-12s", text);
}

static void print_place(uint32_t number, const uint8_t *place) {
    int is_lock = mpm_get(place + MPM_PLACE_MARK, 2) == MPM_MARK_LOCK;
    printf("%7u  %s  %7u  ", (unsigned)number, is_lock ? "lock" : "open", (unsigned)place[MPM_PLACE_PROCESS]);
    print_file_name(place + MPM_PLACE_NAME);
    printf("  %-9s", mode_name(place[MPM_PLACE_MODE]));
    if (is_lock)
        printf("  %6u\n", (unsigned)mpm_get(place + MPM_PLACE_RECORD, 4));
    else
        printf("       -\n");
}

static void show_list(const char *when, uint32_t expected) {
    uint32_t taken = 0;
    printf("\nThe lock list %s\n", when);
    if (expected > 0) printf("  place  item  process  file          mode       record\n");
    for (uint32_t i = 0; i < CAPACITY; i++) {
        const uint8_t *place = now.list + MPM_LIST_PLACES + i * MPM_PLACE_LEN;
        if (mpm_get(place + MPM_PLACE_MARK, 2) == 0) continue;
        print_place(i, place);
        taken++;
    }
    printf("  %u of %u places taken\n", (unsigned)taken, (unsigned)CAPACITY);
    expect_figure(taken, expected);
}

/* ---- The book and its file ---- */

static struct mpm_book book_of(struct buffers *b) {
    struct mpm_book book = {kind, b->list, sizeof b->list, image_of(b), image_len(), vector_of(b),
                            mpm_vector_len(kind)};
    return book;
}

/* Saves list and image in the file that is there. */
static int save_now(const char *path) {
    struct save save;
    if (!save_open(&save, path)) return 0;
    memcpy(save.book.list, now.list, sizeof now.list);
    memcpy(save.book.image, image_of(&now), image_len());
    int saved = save_book(&save);
    save_close(&save);
    return saved;
}

static int read_again(const char *path) {
    struct save save;
    if (!save_open(&save, path)) return 0;
    int same_size = save.book.kind == kind && save.book.image_len == image_len();
    if (same_size) memcpy(now.list, save.book.list, sizeof now.list);
    if (same_size) memcpy(image_of(&now), save.book.image, image_len());
    if (same_size) memcpy(vector_of(&now), save.book.vector, save.book.vector_len);
    save_close(&save);
    return same_size;
}

/* Checks the book that was read again. */
static void check_book(const char *words) {
    char text[32];
    uint32_t answer = mpm_check(kind, MPM_RULE_MPM, image_of(&now), image_len());
    snprintf(text, sizeof text, "%u", (unsigned)answer);
    print_row("host", 0, words, text, mpm_check_name(answer));
    printf("\n");
    if (answer != MPM_CHECK_SOUND) fault("the image is not sound");
    if (memcmp(&before, &now, sizeof now) != 0) fault("the book read is not the book written");
}

/* The vector is not in the file: it is built when the book is read. */
static int make_book(const char *path, const char *words) {
    struct mpm_book book = book_of(&now);
    before = now;
    if (!save_new(path, &book) || !read_again(path)) return 0;
    memcpy(before.vector_room, now.vector_room, sizeof now.vector_room);
    check_book(words);
    return 1;
}

static int keep_book(const char *path, const char *words) {
    before = now;
    if (!save_now(path) || !read_again(path)) return 0;
    check_book(words);
    return 1;
}

static void print_text(const uint8_t *record) {
    int length = (int)MPM_RECORD_LEN;
    while (length > 0 && record[length - 1] == ' ') length--;
    if (record[0] == 0)
        printf("(zeros)\n");
    else
        printf("%.*s\n", length, (const char *)record);
}

static void look(uint32_t line) {
    uint32_t at = place_of(kind, line);
    printf("%6u  %9u  ", (unsigned)line, (unsigned)at);
    if (at == 0) {
        printf("nothing to show\n");
        if (line <= last_line()) fault("the line has a block");
        return;
    }
    print_text(image_of(&now) + at);
    if (memcmp(image_of(&now) + at, lines[line], MPM_RECORD_LEN) != 0) fault("this is not what was written");
}

/* ---- The story ---- */

/* Over what it was: it must come out the same. */
static void build_vector(void) {
    struct mpm_book book = book_of(&now);
    memset(vector_of(&now), 0xFF, book.vector_len);
    uint32_t answer = mpm_book_vector(&book);
    print_answer_row("host", 0, "builds its allocation vector", answer);
    printf("\n");
    expect_answer(0, answer, MPM_OK);
    if (memcmp(&before, &now, sizeof now) != 0) fault("this is another vector than that of the book read");
}

static void start_list(void) {
    static const uint8_t users[MPM_USERS_LEN]; /* every process is user 0 */
    uint32_t answer = mpm_start(kind, CAPACITY, OPEN_LIMIT, LOCK_LIMIT, MPM_RULE_MPM, users, sizeof users, now.list,
                                sizeof now.list);
    print_answer_row("host", 0, "starts a list: 12 places, 2 opens, 10 locks", answer);
    printf("\n");
    expect_answer(0, answer, MPM_OK);
}

static void use_file(const char *name, uint32_t mode) {
    used_file = name;
    used_mode = mode;
}

static void morning(void) {
    static const struct step all[] = {
        {OFFICE, MPM_FN_MAKE, "makes ORDERS.DAT", 0, 0, MPM_OK, 0},
        {OFFICE, MPM_FN_CLOSE, "closes it", 0, 0, MPM_OK, 0},
        {CLERK_1, MPM_FN_OPEN, "opens it unlocked", 0, 0, MPM_OK, 0},
        {CLERK_2, MPM_FN_OPEN, "opens it unlocked", 0, 0, MPM_OK, 1},
        {CLERK_1, MPM_FN_WRITE_ZEROS, "writes lines 0 to 11", 0, 11, MPM_OK, 0},
        {CLERK_2, MPM_FN_WRITE_ZEROS, "writes lines 12 to 23", 12, 23, MPM_OK, 0},
        {CLERK_2, MPM_FN_FREE_SPACE, "asks for the free space", 0, 0, MPM_OK, 0},
        {CLERK_1, MPM_FN_LOCK, "locks lines 0 to 9", 0, 9, MPM_OK, 0},
    };
    play_all(all, COUNT(all));
}

static void noon(void) {
    static const struct step all[] = {
        {CLERK_2, MPM_FN_READ, "reads line 4: a lock does not stop reading", 4, 4, MPM_OK, 0},
        {CLERK_2, MPM_FN_WRITE, "writes line 4: clerk 1 still holds it", 4, 4, MPM_ERR_LOCKED, 0},
        {CLERK_2, MPM_FN_LOCK, "locks line 4: clerk 1 still holds it", 4, 4, MPM_ERR_LOCKED, 0},
        {CLERK_2, MPM_FN_LOCK, "locks lines 9 to 12: clerk 1 still holds 9", 9, 12, MPM_ERR_LOCKED, 0},
        {CLERK_2, MPM_FN_LOCK, "locks line 12: free, but the list is full", 12, 12, MPM_ERR_LOCK_LIST_FULL, 0},
        {CLERK_2, MPM_FN_LOCK, "locks lines 12 to 22: 11 exceed its limit", 12, 22, MPM_ERR_LOCK_LIMIT, 0},
        {CLERK_3, MPM_FN_OPEN, "opens it: the list is full", 0, 0, MPM_ERR_OPEN_LIST_FULL, 0},
        {CLERK_3, MPM_FN_DELETE, "deletes it: others have it open", 0, 0, MPM_ERR_IN_USE, 0},
        {CLERK_1, MPM_FN_TERMINATE, "ends process 1", 0, 0, MPM_OK, 0},
    };
    play_all(all, COUNT(all));
}

/* The lines of the afternoon that lie in new blocks, and what is said of them. */
struct afternoon {
    uint32_t fresh, pair, screen;
    char in_new_block[WORDS_LEN], two_in_new_block[WORDS_LEN], past_the_last[WORDS_LEN];
};

static struct afternoon plan_afternoon(void) {
    struct afternoon p = {new_line(), pair_line(), last_line() - 11, "", "", ""};
    snprintf(p.in_new_block, WORDS_LEN, "writes line %u, in a new block", (unsigned)p.fresh);
    snprintf(p.two_in_new_block, WORDS_LEN, "writes lines %u to %u, two in a new block", (unsigned)p.pair,
             (unsigned)(p.pair + 3));
    snprintf(p.past_the_last, WORDS_LEN, "reads lines %u to %u: none are past %u", (unsigned)p.screen,
             (unsigned)(p.screen + 15), (unsigned)last_line());
    return p;
}

static void afternoon(void) {
    const struct afternoon p = plan_afternoon();
    const struct step all[] = {
        {CLERK_2, MPM_FN_LOCK, "locks lines 4 to 6", 4, 6, MPM_OK, 0},
        {CLERK_2, MPM_FN_WRITE, "writes line 4", 4, 4, MPM_OK, 0},
        {CLERK_2, MPM_FN_TEST_WRITE, "writes line 5 if it is still as it was", 5, 5, MPM_OK, 0},
        {CLERK_2, MPM_FN_WRITE_ZEROS, p.in_new_block, p.fresh, p.fresh, MPM_OK, 0},
        {CLERK_2, MPM_FN_FREE_SPACE, "asks for the free space", 0, 0, MPM_OK, 0},
        {CLERK_3, MPM_FN_OPEN, "opens it unlocked", 0, 0, MPM_OK, 4},
        {CLERK_3, MPM_FN_READ, "reads lines 0 to 15, a screen", 0, 15, MPM_OK, 0},
        {CLERK_3, MPM_FN_WRITE, "writes lines 1 to 8: clerk 2 holds 4", 1, 8, AFTER(3, MPM_ERR_LOCKED), 0},
        {CLERK_3, MPM_FN_READ, "reads lines 0 to 15 again", 0, 15, MPM_OK, 0},
        {CLERK_3, MPM_FN_WRITE_ZEROS, p.two_in_new_block, p.pair, p.pair + 3, MPM_OK, 0},
        {CLERK_3, MPM_FN_READ, p.past_the_last, p.screen, p.screen + 15, AFTER(12, MPM_ERR_NO_BLOCK), 0},
        {CLERK_3, MPM_FN_FREE_SPACE, "asks for the free space", 0, 0, MPM_OK, 0},
    };
    play_all(all, COUNT(all));
}

static void evening(void) {
    static const struct step all[] = {
        {CLERK_2, MPM_FN_UNLOCK, "unlocks lines 4 to 6", 4, 6, MPM_OK, 0},
        {CLERK_2, MPM_FN_CLOSE, "closes it", 0, 0, MPM_OK, 0},
        {CLERK_3, MPM_FN_CLOSE, "closes it", 0, 0, MPM_OK, 0},
        {OFFICE, MPM_FN_SIZE, "asks for its size", 0, 0, MPM_OK, 0},
    };
    play_all(all, COUNT(all));
}

/* The work file takes one block or two, and gives them back. */
static void night(void) {
    static const struct step all[] = {
        {OFFICE, MPM_FN_MAKE, "makes WORK.$$$, locked, for the import", 0, 0, MPM_OK, 0},
        {OFFICE, MPM_FN_WRITE_ZEROS, "writes lines 0 to 9 of it", 0, 9, MPM_OK, 0},
        {CLERK_2, MPM_FN_SEARCH_FIRST, "lists the directory", 0, 0, MPM_FOUND(0u), 0},
        {CLERK_2, MPM_FN_SEARCH_NEXT, "lists on", 0, 0, MPM_FOUND(1u), 0},
        {CLERK_2, MPM_FN_DELETE, "deletes it: the office has it open", 0, 0, MPM_ERR_IN_USE, 0},
        {CLERK_2, MPM_FN_SEARCH_FIRST, "lists the directory again", 0, 0, MPM_FOUND(0u), 0},
        {OFFICE, MPM_FN_DELETE, "deletes it, open as it is", 0, 0, MPM_OK, 0},
        {CLERK_2, MPM_FN_SEARCH_NEXT, "lists on: the work file is gone", 0, 0, MPM_NO_MATCH, 0},
        {CLERK_3, MPM_FN_SEARCH_NEXT, "lists on, and has not begun", 0, 0, MPM_NO_MATCH, 0},
        {OFFICE, MPM_FN_FREE_SPACE, "asks for the free space", 0, 0, MPM_OK, 0},
    };
    use_file(WORK, MPM_MODE_LOCKED);
    play_all(all, COUNT(all));
    use_file(ORDERS, MPM_MODE_UNLOCKED);
}

static void look_at_lines(void) {
    static const uint32_t some[] = {0, 1, 3, 4, 5, 6, 7, 8, 11, 12, 23};
    printf("\nWhat Look shows of ORDERS.DAT\n  line  begins at  text\n");
    for (size_t i = 0; i < COUNT(some); i++) look(some[i]);
    look(new_line());
    look(new_line() + 1);
    for (uint32_t line = pair_line() - 1; line <= pair_line() + 4; line++) look(line);
    look(last_line());
    look(last_line() + 1);
}

static int tell(const char *path) {
    char words[WORDS_LEN];
    printf("An order book that clerks share. A/H is the engine's answer.\n");
    print_head();
    memset(image_of(&now), MPM_EMPTY, image_len());
    snprintf(words, sizeof words, "makes ORDERS.BOOK of %u blocks; checks it", (unsigned)blocks);
    if (!make_book(path, words)) return 0;
    build_vector();
    start_list();
    use_file(ORDERS, MPM_MODE_UNLOCKED);
    morning();
    show_list("before the death", 12);
    printf("\nClerk 1's program dies. Nothing tells the engine, so nothing changes.\n");
    show_list("after the death", 12);
    print_head();
    noon();
    show_list("after 143", 1);
    print_head();
    afternoon();
    show_list("while clerks 2 and 3 go on", 5);
    print_head();
    evening();
    night();
    if (!keep_book(path, "writes ORDERS.BOOK, reads it again; checks it")) return 0;
    show_list("at night", 0);
    look_at_lines();
    return 1;
}

/* Takes the words after the program's name. 0 if they are wrong. */
static int read_words(int argc, char **argv, char path[PATH_LEN]) {
    if (argc < 2 || argc > 3) return 0;
    if (argc == 2 || strcmp(argv[2], "small") == 0) {
        kind = MPM_KIND_SMALL;
        blocks = SMALL_BLOCKS;
    } else if (strcmp(argv[2], "large") == 0) {
        kind = MPM_KIND_LARGE;
        blocks = LARGE_BLOCKS;
    } else {
        return 0;
    }
    int length = snprintf(path, PATH_LEN, "%s/ORDERS.BOOK", argv[1]);
    return length >= 0 && length < PATH_LEN;
}

int main(int argc, char **argv) {
    char path[PATH_LEN];
    if (!read_words(argc, argv, path)) {
        fprintf(stderr, "use: story FOLDER [small|large]\n");
        return WRONG_USE;
    }
    if (!tell(path)) return WRONG_USE; /* save.c has said why */
    if (faults > 0) {
        printf("\n%u faults in %u steps.\n", (unsigned)faults, (unsigned)steps);
        return 1;
    }
    printf("\nAll %u steps went as expected.\n", (unsigned)steps);
    return 0;
}
