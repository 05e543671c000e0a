/* The desk's program: looks at images that customers bring, without changing them. The kind of a drive is taken from
   the length of its image. What is made of an image goes to a new file: nothing is ever written over.

     book check IMAGE..                for each image one line: sound, or the lowest bad entry of its directory and what
                                       is wrong
     book size IMAGE [USER:]NAME..     for each file, of user 0 unless said, one line with its size
     book list IMAGE [USER]            for each file of the user, or of every user, one line with its size and its
                                       attributes, in the order of the directory
     book free IMAGE..                 for each image one line with its free space
     book salvage IMAGE -o NEW         mends a damaged image: a line for each entry that was touched, and one with the
                                       totals. Of a sound one NEW is a copy.
     book pack IMAGE -o NEW            the same files with their entries and blocks at the lowest places: one line with
                                       how many of them were moved
     book compare OLD NEW              one line: whether two images hold the same book, or what differs first

   Before the images, --rule 2.2 has them judged by the rule of CP/M 2.2, under which modules end at 15; else it is that
   of MP/M II. Two images are compared by that of MP/M II, whatever is said.

   Exit status: 0 if all images are sound, all files there and both books the same, 1 if one is not; for salvage 1 if
   the image was not sound and NEW is. 2 for an image that cannot be read, mended or compared, a new file that cannot be
   made or was there already, a word that is no file's name or no user and for wrong use. NEW is made with status 0, and
   by salvage with 1. */

#define _XOPEN_SOURCE 700
#include "mpm.h"

#include <errno.h>
#include <fcntl.h>
#include <stdio.h>
#include <string.h>
#include <unistd.h>

enum { DONE, NOT_SO, FAILED };
enum { EX = MPM_ENTRY_EX, MODULE = MPM_ENTRY_MODULE, COUNT = MPM_ENTRY_COUNT, MAP = MPM_ENTRY_MAP };
enum { NAME_PART = 8, TEXT = 16 };

/* One byte more than the longest image, so that a longer file is seen to be one. */
static uint8_t bytes[MPM_LARGE_MAX_BLOCKS * MPM_LARGE_BLOCK_LEN + 1];
/* What is made of it, or another image. */
static uint8_t made[sizeof bytes];

/* By which images are judged. */
static uint32_t rule = MPM_RULE_MPM;

static uint32_t last_module(void) { return mpm_records(rule) / (32u * MPM_EXTENT_RECORDS) - 1u; }

struct image {
    const char *path;
    uint32_t kind; /* MPM_KINDS where no drive has this length */
    uint8_t *bytes;
    size_t length;
};

/* ---- Images ---- */

static int fail(const char *path, const char *what) {
    printf("%s: %s\n", path, what);
    return FAILED;
}

/* A folder can be opened, and then not be read. */
static int load_into(uint8_t buffer[sizeof bytes], struct image *image, const char *path) {
    FILE *stream = fopen(path, "rb");
    if (!stream) return 0;
    size_t length = fread(buffer, 1, sizeof bytes, stream);
    int whole = !ferror(stream);
    fclose(stream);
    image->path = path;
    image->kind = mpm_kind_of(length);
    image->bytes = buffer;
    image->length = length;
    return whole;
}

static int load(struct image *image, const char *path) { return load_into(bytes, image, path); }

static int write_all(int file, const uint8_t *content, size_t length) {
    size_t at = 0;
    while (at < length) {
        ssize_t some = pwrite(file, content + at, length - at, (off_t)at);
        if (some < 0 && errno == EINTR) continue;
        if (some <= 0) return 0;
        at += (size_t)some;
    }
    return fsync(file) == 0;
}

/* Makes a file that was not there before: so what was read is never written over, whatever name is given for it. */
static int keep(const char *path, const uint8_t *content, size_t length) {
    int file = open(path, O_RDWR | O_CREAT | O_EXCL, 0666);
    if (file < 0 && errno == EEXIST) return fail(path, "is there already, and nothing is written over");
    if (file < 0) return fail(path, "cannot be made");
    int whole = write_all(file, content, length);
    whole = close(file) == 0 && whole;
    if (whole) return DONE;
    unlink(path);
    return fail(path, "cannot be written");
}

/* ---- Entries ---- */

static const uint8_t *entry_at(const struct image *image, uint32_t entry) {
    return image->bytes + (size_t)MPM_ENTRY_LEN * entry;
}

static int is_used(const struct image *image, uint32_t entry) { return entry_at(image, entry)[0] != MPM_EMPTY; }

static uint32_t extent_at(const struct image *image, uint32_t entry) { return mpm_extent(entry_at(image, entry)); }

static uint32_t number_len(const struct image *image) { return MPM_MAP_LEN / mpm_numbers(image->kind); }

/* The block number k of an entry. */
static uint32_t number_at(const struct image *image, uint32_t entry, uint32_t k) {
    return mpm_get(entry_at(image, entry) + MAP + number_len(image) * k, number_len(image));
}

/* Of two entries, of one image or of two. */
static int is_same_file(const uint8_t *a, const uint8_t *b) {
    for (size_t i = 1; i <= MPM_NAME_LEN; i++)
        if ((a[i] ^ b[i]) & 0x7F) return 0;
    return a[0] == b[0];
}

/* The name as people write it: without the blanks that fill it up, with a dot before the type if there is one. */
static void name_of(const uint8_t *entry, char text[TEXT]) {
    const uint8_t *name = entry + MPM_ENTRY_NAME;
    size_t at = 0, name_end = NAME_PART, type_end = MPM_NAME_LEN;
    while (name_end > 0 && (name[name_end - 1] & 0x7F) == ' ') name_end--;
    while (type_end > NAME_PART && (name[type_end - 1] & 0x7F) == ' ') type_end--;
    for (size_t i = 0; i < name_end; i++) text[at++] = (char)(name[i] & 0x7F);
    if (type_end > NAME_PART) text[at++] = '.';
    for (size_t i = NAME_PART; i < type_end; i++) text[at++] = (char)(name[i] & 0x7F);
    text[at] = 0;
}

/* The first byte of an entry's name that cannot be one; MPM_NAME_LEN where all can. */
static size_t illegal_at(const struct image *image, uint32_t entry) {
    const uint8_t *name = entry_at(image, entry) + 1;
    for (size_t i = 0; i < MPM_NAME_LEN; i++) {
        uint8_t low = name[i] & 0x7F;
        if (low < 32 || low > 126 || low == '?' || (i == 0 && low == ' ')) return i;
    }
    return MPM_NAME_LEN;
}

/* What is wrong with a used entry whatever the others and its block numbers are. */
static uint32_t own_fault(const struct image *image, uint32_t entry) {
    const uint8_t *at = entry_at(image, entry);
    if (at[0] >= MPM_USERS) return MPM_CHECK_BAD_USER;
    if (illegal_at(image, entry) < MPM_NAME_LEN) return MPM_CHECK_BAD_NAME;
    return at[EX] > 31 || at[MODULE] > last_module() || at[COUNT] > 128 ? MPM_CHECK_BAD_NUMBER : MPM_CHECK_SOUND;
}

/* The lowest entry of the same file and extent that is good in itself; the entry where there is none before it. */
static uint32_t first_of_extent(const struct image *image, uint32_t entry) {
    uint32_t e = 0;
    while (e < entry && !(is_used(image, e) && is_same_file(entry_at(image, e), entry_at(image, entry)) &&
                          extent_at(image, e) == extent_at(image, entry) && own_fault(image, e) == MPM_CHECK_SOUND))
        e++;
    return e;
}

/* ---- What is wrong with an entry. Each says what it finds in the image for the code that the engine gave, behind what
   was done to the entry. ---- */

static void say_user(const struct image *image, uint32_t entry, const char *done) {
    printf("entry %u: %sits first byte is %02Xh, neither a user, 0 to 15, nor E5h for an empty entry", (unsigned)entry,
           done, entry_at(image, entry)[0]);
}

static void say_name(const struct image *image, uint32_t entry, const char *done) {
    size_t i = illegal_at(image, entry) % MPM_NAME_LEN;
    printf("entry %u, of user %u: %sbyte %u of its name is %02Xh, which no legal name has there", (unsigned)entry,
           entry_at(image, entry)[0], done, (unsigned)i + 1, entry_at(image, entry)[1 + i]);
}

static void say_file(const struct image *image, uint32_t entry, const char *done) {
    char name[TEXT];
    name_of(entry_at(image, entry), name);
    printf("entry %u, %s of user %u: %s", (unsigned)entry, name, entry_at(image, entry)[0], done);
}

static void say_number(const struct image *image, uint32_t entry, const char *done) {
    const uint8_t *at = entry_at(image, entry);
    say_file(image, entry, done);
    if (at[EX] > 31) {
        printf("its ex is %u, over 31", at[EX]);
    } else if (at[MODULE] > last_module()) {
        printf("its module is %u, over %u", at[MODULE], (unsigned)last_module());
    } else {
        printf("its record count is %u, over 128", at[COUNT]);
    }
}

static void say_range(const struct image *image, uint32_t entry, const char *done) {
    uint32_t blocks = mpm_blocks(image->kind, image->length), k = 0;
    while (k < mpm_numbers(image->kind) - 1) {
        uint32_t block = number_at(image, entry, k);
        if (block != 0 && (block < MPM_DIRECTORY_BLOCKS || block >= blocks)) break;
        k++;
    }
    say_file(image, entry, done);
    printf("block %u out of range, the drive has %u to %u for files", (unsigned)number_at(image, entry, k),
           (unsigned)MPM_DIRECTORY_BLOCKS, (unsigned)blocks - 1);
}

/* Who named the block at place k before: an earlier entry, or the entry itself. MPM_LARGE_ENTRIES where nobody did. */
static uint32_t named_before(const struct image *image, uint32_t entry, uint32_t k) {
    uint32_t block = number_at(image, entry, k);
    for (uint32_t e = 0; block != 0 && e <= entry; e++) {
        uint32_t end = e == entry ? k : mpm_numbers(image->kind);
        for (uint32_t i = 0; i < end && is_used(image, e); i++)
            if (number_at(image, e, i) == block) return e;
    }
    return MPM_LARGE_ENTRIES;
}

static void say_block_twice(const struct image *image, uint32_t entry, const char *done) {
    uint32_t k = 0;
    while (k < mpm_numbers(image->kind) - 1 && named_before(image, entry, k) == MPM_LARGE_ENTRIES) k++;
    uint32_t before = named_before(image, entry, k);
    say_file(image, entry, done);
    printf("block %u named before, by ", (unsigned)number_at(image, entry, k));
    if (before == entry) {
        printf("the entry itself");
    } else {
        printf("entry %u", (unsigned)before);
    }
}

static void say_extent_twice(const struct image *image, uint32_t entry, const char *done) {
    say_file(image, entry, done);
    printf("extent %u named before, by entry %u", (unsigned)extent_at(image, entry),
           (unsigned)first_of_extent(image, entry));
}

static void say_no_extent_0(const struct image *image, uint32_t entry, const char *done) {
    say_file(image, entry, done);
    printf("extent %u of a file without an extent 0", (unsigned)extent_at(image, entry));
}

/* ---- Verbs ---- */

static void say_length(const struct image *image) {
    if (image->length == sizeof bytes) {
        printf("over %u bytes, longer than any drive", (unsigned)image->length - 1);
    } else {
        printf("%u bytes, no drive's length", (unsigned)image->length);
    }
}

/* The line's end for an image, and whether it is sound. */
static int say_check(const struct image *image, uint32_t check) {
    static void (*const say[])(const struct image *, uint32_t, const char *) = {
        0, 0, say_user, say_name, say_number, say_range, say_block_twice, say_extent_twice, say_no_extent_0};
    uint32_t code = mpm_check_code(check), entry = mpm_check_entry(check);
    if (check == MPM_CHECK_SOUND) {
        printf("sound");
    } else if (check == MPM_CHECK_WRONG_LENGTH) {
        say_length(image);
    } else if (code > MPM_CHECK_NO_EXTENT_0 || code < MPM_CHECK_BAD_USER || entry >= mpm_entries(image->kind)) {
        printf("%s (%u)", mpm_check_text(check), (unsigned)check);
    } else {
        say[code](image, entry, "");
    }
    return check == MPM_CHECK_SOUND ? DONE : NOT_SO;
}

static int check_image(const struct image *image) {
    printf("%s: ", image->path);
    int status = say_check(image, mpm_check(image->kind, rule, image->bytes, image->length));
    printf("\n");
    return status;
}

static int worse(int one, int other) { return one > other ? one : other; }

static int check_all(int count, char **words) {
    struct image image;
    int status = DONE;
    for (int i = 0; i < count; i++)
        status = worse(status, load(&image, words[i]) ? check_image(&image) : fail(words[i], "cannot be read"));
    return status;
}

/* The user before the colon, and where the name begins. A number of users where it is none. */
static uint32_t user_of(const char *word, const char **name) {
    uint32_t user = 0;
    size_t digits = 0;
    for (; word[digits] >= '0' && word[digits] <= '9' && digits < 2; digits++)
        user = 10u * user + (uint32_t)(word[digits] - '0');
    if (digits > 0 && word[digits] == ':' && user < MPM_USERS) {
        *name = word + digits + 1;
        return user;
    }
    *name = word;
    for (size_t i = 0; word[i] != 0; i++)
        if (word[i] == ':') return MPM_USERS;
    return 0;
}

/* A fresh list on which every process is this user. */
static uint32_t start_list(const struct image *image, uint32_t user, uint8_t *list) {
    uint8_t users[MPM_USERS_LEN];
    memset(users, (int)user, sizeof users);
    return mpm_start(image->kind, 1, 1, 1, rule, users, sizeof users, list, MPM_LIST_LEN);
}

/* A book of the image on which every process is this user. The image stays as it is: 17, 18 and 35, which are all that
   is called on it, do not write to it. */
static uint32_t start_book(struct mpm_book *book, const struct image *image, uint32_t user) {
    static uint8_t list[MPM_LIST_LEN], vector[MPM_LARGE_VECTOR_LEN];
    *book = (struct mpm_book){image->kind,   list,   sizeof list,               image->bytes,
                              image->length, vector, mpm_vector_len(image->kind)};
    uint32_t answer = start_list(image, user, list);
    return answer == MPM_OK ? mpm_book_vector(book) : answer;
}

static void say_records(uint32_t records) {
    printf("%u record%s, %u bytes", (unsigned)records, records == 1 ? "" : "s", (unsigned)(MPM_RECORD_LEN * records));
}

static int say_size(const struct image *image, const char *word) {
    static uint8_t dma[MPM_DMA_LEN];
    uint8_t fcb[MPM_FCB_LEN];
    const char *name;
    uint32_t user = user_of(word, &name);
    if (user == MPM_USERS) return fail(word, "A user is a number from 0 to 15.");
    uint32_t naming = mpm_set_fcb(fcb, name, MPM_MODE_LOCKED);
    if (naming != MPM_NAMING_OK) return fail(word, mpm_naming_text(naming));
    struct mpm_book book;
    uint32_t answer = start_book(&book, image, user);
    if (answer == MPM_OK) answer = mpm_book_call(&book, MPM_FN_SIZE, 0, 1, fcb, dma);
    printf("%s: %s of user %u: ", image->path, name, (unsigned)user);
    if (answer == MPM_OK) {
        say_records(mpm_size(fcb));
    } else {
        printf("%s", mpm_answer_text(MPM_FN_SIZE, answer));
    }
    printf("\n");
    return answer == MPM_OK ? DONE : NOT_SO;
}

/* Of an image that is not sound only that is said. */
static int size_all(int count, char **words) {
    struct image image;
    int status = DONE;
    if (!load(&image, words[0])) return fail(words[0], "cannot be read");
    if (mpm_check(image.kind, rule, image.bytes, image.length) != MPM_CHECK_SOUND) return check_image(&image);
    for (int i = 1; i < count; i++) status = worse(status, say_size(&image, words[i]));
    return status;
}

/* ---- The list of files ---- */

/* What the high bits of extent 0's name say. */
static void say_attributes(const uint8_t *entry) {
    static const char *const names[MPM_NAME_LEN] = {"f1", "f2", "f3",        "f4",     "f5",     "f6",
                                                    "f7", "f8", "read-only", "system", "archive"};
    for (size_t i = 0; i < MPM_NAME_LEN; i++)
        if (entry[MPM_ENTRY_NAME + i] & MPM_HIGH_BIT) printf(", %s", names[i]);
}

/* An entry of extent 0, with the size that 35 tells of its file. */
static int say_listed(struct mpm_book *book, const char *path, const uint8_t *entry) {
    static uint8_t dma[MPM_DMA_LEN];
    uint8_t fcb[MPM_FCB_LEN] = {0};
    char name[TEXT];
    memcpy(fcb + MPM_FCB_NAME, entry + MPM_ENTRY_NAME, MPM_NAME_LEN);
    name_of(entry, name);
    printf("%s: %s of user %u: ", path, name, entry[MPM_ENTRY_USER]);
    uint32_t answer = mpm_book_call(book, MPM_FN_SIZE, 0, 1, fcb, dma);
    if (answer != MPM_OK) {
        printf("%s\n", mpm_answer_text(MPM_FN_SIZE, answer));
        return FAILED;
    }
    say_records(mpm_size(fcb));
    say_attributes(entry);
    printf("\n");
    return DONE;
}

/* The files of a user; gives how many there are. No search finds more entries than there are. */
static uint32_t list_user(const struct image *image, uint32_t user, int *status) {
    static uint8_t dma[MPM_DMA_LEN];
    uint8_t fcb[MPM_FCB_LEN];
    struct mpm_book book;
    uint32_t files = 0;
    mpm_set_search(fcb, "*.*", 0);
    uint32_t answer = start_book(&book, image, user);
    if (answer == MPM_OK) answer = mpm_search_first(&book, 0, fcb, dma);
    for (; mpm_found(answer) && files < mpm_entries(image->kind); files++) {
        *status = worse(*status, say_listed(&book, image->path, mpm_entry(dma, answer)));
        answer = mpm_search_next(&book, 0, fcb, dma);
    }
    if (mpm_refused(MPM_FN_SEARCH_NEXT, answer))
        *status = fail(image->path, mpm_answer_text(MPM_FN_SEARCH_NEXT, answer));
    return files;
}

/* A number from 0 to 15, or a number of users. */
static uint32_t user_told(const char *word) {
    uint32_t user = 0;
    size_t digits = 0;
    for (; word[digits] >= '0' && word[digits] <= '9' && digits < 2; digits++)
        user = 10u * user + (uint32_t)(word[digits] - '0');
    return digits > 0 && word[digits] == 0 && user < MPM_USERS ? user : MPM_USERS;
}

static int list_files(int count, char **words) {
    struct image image;
    uint32_t files = 0, first = 0, last = MPM_USERS - 1u;
    int status = DONE;
    if (count > 1) first = last = user_told(words[1]);
    if (first == MPM_USERS) return fail(words[1], "A user is a number from 0 to 15.");
    if (!load(&image, words[0])) return fail(words[0], "cannot be read");
    if (mpm_check(image.kind, rule, image.bytes, image.length) != MPM_CHECK_SOUND) return check_image(&image);
    for (uint32_t user = first; user <= last; user++) files += list_user(&image, user, &status);
    if (files == 0 && status == DONE) printf("%s: no files\n", image.path);
    return status;
}

/* ---- Free space ---- */

/* As the allocation vector tells it. */
static int say_free(const struct image *image) {
    uint8_t vector[MPM_LARGE_VECTOR_LEN];
    uint32_t answer =
        mpm_vector(image->kind, rule, image->bytes, image->length, vector, mpm_vector_len(image->kind));
    if (answer != MPM_OK) return fail(image->path, mpm_answer_text(0, answer));
    uint32_t records = mpm_free_records(image->kind, image->length, vector);
    printf("%s: %u of %u blocks free, ", image->path, (unsigned)(records / mpm_block_records(image->kind)),
           (unsigned)(mpm_blocks(image->kind, image->length) - MPM_DIRECTORY_BLOCKS));
    say_records(records);
    printf("\n");
    return DONE;
}

/* Of an image that is not sound only that is said. */
static int free_image(const char *path) {
    struct image image;
    if (!load(&image, path)) return fail(path, "cannot be read");
    if (mpm_check(image.kind, rule, image.bytes, image.length) != MPM_CHECK_SOUND) return check_image(&image);
    return say_free(&image);
}

static int free_all(int count, char **words) {
    int status = DONE;
    for (int i = 0; i < count; i++) status = worse(status, free_image(words[i]));
    return status;
}

/* ---- Salvage ---- */

static void say_many(uint32_t number, const char *one, const char *more) {
    printf("%u %s", (unsigned)number, number == 1 ? one : more);
}

/* Why it was emptied is seen in the image before. */
static void say_emptied(const struct image *before, uint32_t entry) {
    switch (own_fault(before, entry)) {
    case MPM_CHECK_BAD_USER: say_user(before, entry, "emptied, "); return;
    case MPM_CHECK_BAD_NAME: say_name(before, entry, "emptied, "); return;
    case MPM_CHECK_BAD_NUMBER: say_number(before, entry, "emptied, "); return;
    default: break;
    }
    if (first_of_extent(before, entry) < entry) {
        say_extent_twice(before, entry, "emptied, ");
    } else {
        say_file(before, entry, "emptied, its extent 0 is missing");
    }
}

static void say_zeroed(const struct image *before, const struct image *after, uint32_t entry, uint32_t number) {
    const char *comma = ": ";
    say_file(before, entry, "");
    say_many(number, "block number zeroed", "block numbers zeroed");
    for (uint32_t k = 0; k < mpm_numbers(before->kind); k++) {
        if (number_at(before, entry, k) == number_at(after, entry, k)) continue;
        printf("%s%u", comma, (unsigned)number_at(before, entry, k));
        comma = ", ";
    }
}

/* A line for each entry that was touched, then the totals. Whether nothing was. */
static int say_salvaged(const struct image *before, const struct image *after, const uint8_t *report) {
    uint32_t emptied = 0, zeroed = 0, in = 0;
    for (uint32_t e = 0; e < mpm_entries(before->kind); e++) {
        if (report[e] == MPM_SALVAGE_UNTOUCHED) continue;
        if (report[e] == MPM_SALVAGE_EMPTIED) {
            emptied++;
            say_emptied(before, e);
        } else {
            zeroed += report[e], in++;
            say_zeroed(before, after, e, report[e]);
        }
        printf("\n");
    }
    printf("%s: ", before->path);
    if (emptied + in == 0) {
        printf("sound already, copied to %s\n", after->path);
        return DONE;
    }
    say_many(emptied, "entry emptied, ", "entries emptied, ");
    say_many(zeroed, "block number zeroed in ", "block numbers zeroed in ");
    say_many(in, "entry", "entries");
    printf("; sound now, in %s\n", after->path);
    return NOT_SO;
}

static int is_output(char **words) { return strcmp(words[1], "-o") == 0; }

static int wrong_use(void);

/* Nothing is said of what was done before it is on the disk. */
static int salvage(int count, char **words) {
    static uint8_t report[MPM_LARGE_ENTRIES];
    struct image before, after;
    (void)count;
    if (!is_output(words)) return wrong_use();
    if (!load(&before, words[0])) return fail(words[0], "cannot be read");
    if (before.kind == MPM_KINDS) return worse(FAILED, check_image(&before));
    after = before, after.path = words[2], after.bytes = made;
    memcpy(made, before.bytes, before.length);
    uint32_t answer = mpm_salvage(after.kind, rule, made, after.length, report, mpm_entries(after.kind));
    if (answer != MPM_SALVAGE_DONE) return fail(before.path, mpm_salvage_text(answer));
    if (mpm_check(after.kind, rule, made, after.length) != MPM_CHECK_SOUND)
        return fail(before.path, "cannot be mended");
    int status = keep(after.path, made, after.length);
    return status == DONE ? say_salvaged(&before, &after, report) : status;
}

/* ---- Packing ---- */

static uint32_t blocks_in(const struct image *image, uint32_t entry) {
    uint32_t blocks = 0;
    for (uint32_t k = 0; k < mpm_numbers(image->kind); k++) blocks += number_at(image, entry, k) != 0;
    return blocks;
}

static uint32_t blocks_moved(const struct image *before, uint32_t from, const struct image *after, uint32_t to) {
    uint32_t moved = 0;
    for (uint32_t k = 0; k < mpm_numbers(before->kind); k++)
        moved += number_at(before, from, k) != number_at(after, to, k);
    return moved;
}

/* The used entries stand one behind the other in the packed image, in the same order. */
static void say_packed(const struct image *before, const struct image *after) {
    uint32_t entries = 0, moved = 0, blocks = 0, blocks_gone = 0;
    for (uint32_t e = 0; e < mpm_entries(before->kind); e++) {
        if (!is_used(before, e)) continue;
        blocks += blocks_in(before, e);
        blocks_gone += blocks_moved(before, e, after, entries);
        moved += e != entries;
        entries++;
    }
    printf("%s: %u of ", before->path, (unsigned)moved);
    say_many(entries, "entry and ", "entries and ");
    printf("%u of ", (unsigned)blocks_gone);
    say_many(blocks, "block moved", "blocks moved");
    printf("; packed in %s\n", after->path);
}

/* Of an image that is not sound only that is said. */
static int pack(int count, char **words) {
    static uint8_t list[MPM_LIST_LEN];
    struct image before, after;
    (void)count;
    if (!is_output(words)) return wrong_use();
    if (!load(&before, words[0])) return fail(words[0], "cannot be read");
    if (mpm_check(before.kind, rule, before.bytes, before.length) != MPM_CHECK_SOUND) return check_image(&before);
    after = before, after.path = words[2], after.bytes = made;
    uint32_t answer = start_list(&before, 0, list);
    if (answer == MPM_OK)
        answer = mpm_pack(before.kind, before.bytes, before.length, list, sizeof list, made, before.length);
    if (answer != MPM_OK) return fail(before.path, mpm_answer_text(0, answer));
    int status = keep(after.path, made, after.length);
    if (status == DONE) say_packed(&before, &after);
    return status;
}

/* ---- Comparing. Both images are sound ---- */

/* The entry of a file's extent; the number of entries where there is none. */
static uint32_t find(const struct image *image, const uint8_t *file, uint32_t extent) {
    uint32_t e = 0;
    while (e < mpm_entries(image->kind) &&
           !(is_used(image, e) && extent_at(image, e) == extent && is_same_file(entry_at(image, e), file)))
        e++;
    return e;
}

/* The 128 bytes of a file's record, or none. */
static const uint8_t *record_of(const struct image *image, const uint8_t *file, uint32_t record) {
    uint32_t in_block = mpm_block_records(image->kind);
    uint32_t e = find(image, file, record / MPM_EXTENT_RECORDS);
    if (e == mpm_entries(image->kind)) return 0;
    uint32_t block = number_at(image, e, record % MPM_EXTENT_RECORDS / in_block);
    if (block == 0) return 0;
    return image->bytes + (size_t)mpm_block_len(image->kind) * block + MPM_RECORD_LEN * (record % in_block);
}

static int is_same_record(const struct image *one, const struct image *other, const uint8_t *file, uint32_t record) {
    const uint8_t *a = record_of(one, file, record), *b = record_of(other, file, record);
    if (!a || !b) return a == b;
    return memcmp(a, b, MPM_RECORD_LEN) == 0;
}

/* The lowest record of a file's extents in `one` that differs, below `lowest`; else that. */
static uint32_t lowest_other(const struct image *one, const struct image *other, const uint8_t *file, uint32_t lowest) {
    for (uint32_t e = 0; e < mpm_entries(one->kind); e++) {
        if (!is_used(one, e) || !is_same_file(entry_at(one, e), file)) continue;
        uint32_t record = MPM_EXTENT_RECORDS * extent_at(one, e), end = record + MPM_EXTENT_RECORDS;
        while (record < end && record < lowest && is_same_record(one, other, file, record)) record++;
        if (record < end && record < lowest) lowest = record;
    }
    return lowest;
}

static void say_alone(const struct image *image) { printf(" in %s alone", image->path); }

static void say_which(const struct image *image, uint32_t entry) {
    char name[TEXT];
    name_of(entry_at(image, entry), name);
    printf("%s of user %u", name, entry_at(image, entry)[0]);
}

/* The first of the attributes of two entries that differs; 0 where none does. */
static size_t other_attribute(const uint8_t *a, const uint8_t *b) {
    for (size_t i = 1; i <= MPM_NAME_LEN; i++)
        if ((a[i] ^ b[i]) & MPM_HIGH_BIT) return i;
    return 0;
}

static void say_attribute(const struct image *old, uint32_t entry, const struct image *new, size_t i) {
    say_which(old, entry);
    if (i == MPM_ENTRY_READ_ONLY) {
        printf(": the read-only attribute is set");
    } else {
        printf(": attribute %u is set", (unsigned)i);
    }
    say_alone(entry_at(old, entry)[i] & MPM_HIGH_BIT ? old : new);
}

static void say_record(const struct image *old, uint32_t entry, const struct image *new, uint32_t record) {
    const uint8_t *file = entry_at(old, entry);
    say_which(old, entry);
    printf(": record %u ", (unsigned)record);
    if (!record_of(old, file, record) || !record_of(new, file, record)) {
        printf("has a block");
        say_alone(record_of(old, file, record) ? old : new);
    } else {
        printf("differs");
    }
}

/* Says what differs of a file of the old image, if something does. */
static int say_file_differs(const struct image *old, uint32_t entry, const struct image *new) {
    const uint8_t *file = entry_at(old, entry);
    uint32_t first = find(new, file, 0);
    if (first == mpm_entries(new->kind)) {
        say_which(old, entry);
        printf(" is");
        say_alone(old);
        return 1;
    }
    size_t attribute = other_attribute(file, entry_at(new, first));
    if (attribute != 0) {
        say_attribute(old, entry, new, attribute);
        return 1;
    }
    uint32_t record = lowest_other(new, old, file, lowest_other(old, new, file, MPM_RECORDS));
    if (record == MPM_RECORDS) return 0;
    say_record(old, entry, new, record);
    return 1;
}

/* The files of the old image in the order of their extents 0, then those that the new one has alone. */
static void say_difference(const struct image *old, const struct image *new) {
    uint32_t entries = mpm_entries(old->kind);
    for (uint32_t e = 0; e < entries; e++)
        if (is_used(old, e) && extent_at(old, e) == 0 && say_file_differs(old, e, new)) return;
    for (uint32_t e = 0; e < entries; e++) {
        if (!is_used(new, e) || find(old, entry_at(new, e), 0) < entries) continue;
        say_which(new, e);
        printf(" is");
        say_alone(new);
        return;
    }
    printf("%s", mpm_same_text(MPM_SAME_DIFFERENT));
}

static int say_compared(const struct image *old, const struct image *new, uint32_t answer) {
    printf("%s and %s: ", old->path, new->path);
    if (answer == MPM_SAME_BOOK) {
        printf("the same book\n");
        return DONE;
    }
    if (answer != MPM_SAME_DIFFERENT) {
        printf("%s\n", mpm_same_text(answer));
        return FAILED;
    }
    say_difference(old, new);
    printf("\n");
    return NOT_SO;
}

/* Of images that cannot be compared only why is said. */
static int compare(int count, char **words) {
    struct image old, new;
    (void)count;
    if (!load(&old, words[0])) return fail(words[0], "cannot be read");
    if (!load_into(made, &new, words[1])) return fail(words[1], "cannot be read");
    uint32_t answer = mpm_same(old.kind, old.bytes, old.length, new.bytes, new.length);
    if (answer == MPM_SAME_BAD_FIRST) return worse(FAILED, check_image(&old));
    if (answer == MPM_SAME_BAD_SECOND && old.kind != new.kind && new.kind != MPM_KINDS)
        return fail(new.path, "is of the other kind of drive");
    if (answer == MPM_SAME_BAD_SECOND) return worse(FAILED, check_image(&new));
    return say_compared(&old, &new, answer);
}

/* ---- The program ---- */

static const struct verb {
    const char *word;
    const char *words; /* what stands behind it */
    int least;         /* so many at least */
    int most;          /* and at most; 0 for any number */
    int (*run)(int count, char **words);
} verbs[] = {
    {"check", "IMAGE..", 1, 0, check_all},
    {"size", "IMAGE [USER:]NAME..", 2, 0, size_all},
    {"list", "IMAGE [USER]", 1, 2, list_files},
    {"free", "IMAGE..", 1, 0, free_all},
    {"salvage", "IMAGE -o NEW", 3, 3, salvage},
    {"pack", "IMAGE -o NEW", 3, 3, pack},
    {"compare", "OLD NEW", 2, 2, compare},
};

static int wrong_use(void) {
    for (size_t i = 0; i < sizeof verbs / sizeof verbs[0]; i++)
        fprintf(stderr, "use: book %s [--rule 2.2] %s\n", verbs[i].word, verbs[i].words);
    return FAILED;
}

/* Takes --rule 2.2 from behind the verb, if it stands there. 0 for another rule. */
static int take_rule(int *count, char ***words) {
    if (*count == 0 || strcmp((*words)[0], "--rule") != 0) return 1;
    if (*count == 1 || strcmp((*words)[1], "2.2") != 0) return 0;
    rule = MPM_RULE_CPM;
    *count -= 2;
    *words += 2;
    return 1;
}

int main(int argc, char **argv) {
    int count = argc - 2;
    char **words = argv + 2;
    if (argc < 2 || !take_rule(&count, &words)) return wrong_use();
    for (size_t i = 0; i < sizeof verbs / sizeof verbs[0]; i++) {
        const struct verb *verb = &verbs[i];
        if (strcmp(argv[1], verb->word) != 0) continue;
        if (count < verb->least || (verb->most > 0 && count > verb->most)) return wrong_use();
        return verb->run(count, words);
    }
    return wrong_use();
}
