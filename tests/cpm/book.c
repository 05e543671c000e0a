/* A host that works on an image file by commands; run.sh holds what it does against cpmtools.

   book KIND IMAGE COMMANDS..: takes the image for a drive of this kind, 0 or 1, whatever its length is, does the
   commands in order, all in one session with one lock list, and then writes the image back if it has changed. Process 0
   has user 0, process 1 user 1 and so on: a command's user is its process too.

     check                             prints what the image check answers: sound, wrong length, or code and entry
     free                              prints the number of free records (46); the allocation vector must tell the same
     make USER NAME                    22
     open USER NAME                    15, locked
     close USER NAME                   16
     delete USER NAME                  19
     rename USER NAME NEW              23
     write USER NAME FIRST COUNT FILE  34: copies COUNT records of FILE, from record FIRST on, to the same records
     fill USER NAME FIRST COUNT FILE   40, likewise
     size USER NAME                    35: prints the number of records
     list USER                         17, 18: prints the names of the user's files, in the order of the directory
     get USER NAME FILE                15, 33, 16: copies the records from 0 to the first refusal to FILE; prints how
                                       many, the record count that 15 gave and the refusal. Look must show the same.

   Records go sixteen to a call, the last ones as many as are left; get asks for sixteen each time.
   A refusal ends the run: its line says which command got which A/H, and the image file stays as it was.
   Exit status: 0 if all was done, 1 at a refusal or where Look differs, 2 for wrong use or an unusable file. */

#include "mpm.h"

#include <stdio.h>
#include <string.h>

enum { DONE, REFUSED, WRONG_USE };
enum { NAME_PART = 8 };

/* Files up to 4,097 blocks of 2,048 bytes can be loaded, so that an image with a block too many can be checked. */
#define ROOM (4098u * 2048u)

struct command {
    const char *word;
    uint32_t function;
    int operands;
    int (*run)(const struct command *command, char **operands);
};

static uint8_t fcb[MPM_FCB_LEN];
static uint8_t dma[MPM_DMA_LEN];
static uint8_t list[MPM_LIST_LEN];
static uint8_t vector[MPM_LARGE_VECTOR_LEN];
static uint8_t image[ROOM], loaded[ROOM], bytes[ROOM];
static size_t image_len;
static uint32_t kind;

/* ---- Words ---- */

static int same(const char *one, const char *other) {
    return strlen(one) == strlen(other) && memcmp(one, other, strlen(one)) == 0;
}

static int read_number(const char *word, uint32_t *number) {
    *number = 0;
    for (size_t i = 0; word[i] != 0; i++) {
        if (word[i] < '0' || word[i] > '9' || i == 6) return 0;
        *number = 10u * *number + (uint32_t)(word[i] - '0');
    }
    return word[0] != 0;
}

/* NAME or NAME.TYPE, as it stands: lower case stays. */
static int read_name(const char *word, uint8_t *name) {
    size_t at = 0, end = NAME_PART;
    memset(name, ' ', MPM_NAME_LEN);
    for (size_t i = 0; word[i] != 0; i++) {
        if (word[i] == '.' && end == NAME_PART) {
            at = NAME_PART;
            end = MPM_NAME_LEN;
        } else if (at == end) {
            return 0;
        } else {
            name[at++] = (uint8_t)word[i];
        }
    }
    return 1;
}

static int wrong(const char *what) {
    fprintf(stderr, "book: wrong or unusable: %s\n", what);
    return WRONG_USE;
}

/* ---- Files of this machine ---- */

static int load(const char *path, uint8_t *buffer, size_t *length) {
    FILE *stream = fopen(path, "rb");
    if (!stream) return 0;
    *length = fread(buffer, 1, ROOM, stream);
    return fclose(stream) == 0 && *length < ROOM;
}

static int save(const char *path, const uint8_t *buffer, size_t length) {
    FILE *stream = fopen(path, "wb");
    if (!stream) return 0;
    int whole = fwrite(buffer, 1, length, stream) == length;
    return fclose(stream) == 0 && whole;
}

/* ---- Calls ---- */

static void fill_fcb(const uint8_t *name, uint32_t record) {
    memset(fcb, 0, sizeof fcb);
    memcpy(fcb + MPM_FCB_NAME, name, MPM_NAME_LEN);
    for (size_t i = 0; i < 3; i++) {
        fcb[MPM_FCB_RECORD + i] = (uint8_t)(record % 256u);
        record /= 256u;
    }
}

static uint32_t call_for(uint32_t function, uint32_t user, uint32_t count) {
    return mpm_call(kind, function, user, count, fcb, sizeof fcb, dma, sizeof dma, list, sizeof list, image, image_len,
                    vector, mpm_vector_len(kind));
}

static uint32_t call(uint32_t function, uint32_t user) { return call_for(function, user, 1); }

static int report(const struct command *command, char **operands, uint32_t answer) {
    if (answer == MPM_OK) return DONE;
    printf("%s %s %s: %u/%u\n", command->word, operands[0], operands[1], (unsigned)mpm_a(answer),
           (unsigned)mpm_h(answer));
    return REFUSED;
}

/* ---- Commands ---- */

static int check(const struct command *command, char **operands) {
    (void)command;
    (void)operands;
    uint32_t answer = mpm_check(kind, MPM_RULE_MPM, image, image_len);
    if (answer == MPM_CHECK_SOUND) {
        printf("sound\n");
    } else if (answer == MPM_CHECK_WRONG_LENGTH) {
        printf("wrong length\n");
    } else {
        printf("%u of entry %u\n", (unsigned)mpm_check_code(answer), (unsigned)mpm_check_entry(answer));
    }
    return DONE;
}

static int free_space(const struct command *command, char **operands) {
    (void)operands;
    uint32_t answer = call(command->function, 0);
    if (answer != MPM_OK) {
        printf("free: %u/%u\n", (unsigned)mpm_a(answer), (unsigned)mpm_h(answer));
        return REFUSED;
    }
    uint32_t records = mpm_get(dma + MPM_DMA_FREE, 3), by_vector = mpm_free_records(kind, image_len, vector);
    printf("%u\n", (unsigned)records);
    if (records != by_vector) printf("free: the vector tells %u\n", (unsigned)by_vector);
    return records == by_vector ? DONE : REFUSED;
}

static int whole_file(const struct command *command, char **operands) {
    uint32_t user;
    uint8_t name[MPM_NAME_LEN], new_name[MPM_NAME_LEN] = {0};
    if (!read_number(operands[0], &user) || !read_name(operands[1], name)) return wrong(operands[1]);
    if (command->function == MPM_FN_RENAME && !read_name(operands[2], new_name)) return wrong(operands[2]);
    fill_fcb(name, 0);
    if (command->function == MPM_FN_RENAME) memcpy(fcb + MPM_FCB_NEW_NAME, new_name, MPM_NAME_LEN);
    return report(command, operands, call(command->function, user));
}

static int file_size(const struct command *command, char **operands) {
    uint32_t user;
    uint8_t name[MPM_NAME_LEN];
    if (!read_number(operands[0], &user) || !read_name(operands[1], name)) return wrong(operands[1]);
    fill_fcb(name, 0);
    uint32_t answer = call(command->function, user);
    if (answer != MPM_OK) return report(command, operands, answer);
    printf("%s.%s %u\n", operands[0], operands[1], (unsigned)mpm_size(fcb));
    return DONE;
}

/* The name without the blanks that fill it up, with a dot before the type if there is one. */
static void print_listed(const uint8_t *entry) {
    const uint8_t *name = entry + MPM_ENTRY_NAME;
    printf("%u.", entry[MPM_ENTRY_USER]);
    for (size_t i = 0; i < MPM_NAME_LEN; i++) {
        char c = (char)(name[i] & 0x7F);
        if (i == NAME_PART && c != ' ') printf(".");
        if (c != ' ') printf("%c", c);
    }
    printf("\n");
}

/* No search finds more entries than there are. */
static int list_files(const struct command *command, char **operands) {
    uint32_t user, files = 0;
    if (!read_number(operands[0], &user)) return wrong(operands[0]);
    mpm_set_search(fcb, "*.*", 0);
    uint32_t answer = call(MPM_FN_SEARCH_FIRST, user);
    for (; mpm_found(answer) && files < mpm_entries(kind); files++) {
        print_listed(mpm_entry(dma, answer));
        answer = call(MPM_FN_SEARCH_NEXT, user);
    }
    if (answer == MPM_NO_MATCH) return DONE;
    printf("%s %s: %u/%u\n", command->word, operands[0], (unsigned)mpm_a(answer), (unsigned)mpm_h(answer));
    return REFUSED;
}

static int write_records(const struct command *command, char **operands) {
    uint32_t user, first, count, answer = MPM_OK;
    uint8_t name[MPM_NAME_LEN];
    size_t length;
    if (!read_number(operands[0], &user) || !read_name(operands[1], name)) return wrong(operands[1]);
    if (!read_number(operands[2], &first) || !read_number(operands[3], &count)) return wrong(operands[3]);
    if (!load(operands[4], bytes, &length) || first + count > length / MPM_RECORD_LEN) return wrong(operands[4]);
    while (count > 0 && answer == MPM_OK) {
        uint32_t run = count < MPM_MAX_COUNT ? count : MPM_MAX_COUNT;
        fill_fcb(name, first);
        memcpy(dma + MPM_DMA_RECORD, bytes + first * MPM_RECORD_LEN, run * MPM_RECORD_LEN);
        answer = call_for(command->function, user, run);
        first += run;
        count -= run;
    }
    return report(command, operands, answer);
}

/* Look shows these bytes of the record; with none, it shows nothing. */
static int look_agrees(uint32_t user, const uint8_t *name, uint32_t record, const uint8_t *shown) {
    uint32_t at = mpm_look(kind, MPM_RULE_MPM, user, name, MPM_NAME_LEN, record, image, image_len);
    if (!shown) return at == 0;
    return at != 0 && at <= image_len - MPM_RECORD_LEN && memcmp(image + at, shown, MPM_RECORD_LEN) == 0;
}

/* Look shows what 33 has just read, and nothing of the record that it has refused, if it has. */
static int look_agrees_with_run(uint32_t user, const uint8_t *name, uint32_t first, uint32_t done) {
    for (uint32_t i = 0; i < done; i++)
        if (!look_agrees(user, name, first + i, dma + MPM_DMA_AT(i))) return 0;
    return done == MPM_MAX_COUNT || look_agrees(user, name, first + done, 0);
}

static int get(const struct command *command, char **operands) {
    uint32_t user, record = 0, answer;
    uint8_t name[MPM_NAME_LEN];
    if (!read_number(operands[0], &user) || !read_name(operands[1], name)) return wrong(operands[1]);
    fill_fcb(name, 0);
    fcb[MPM_FCB_READ_ONLY] |= MPM_HIGH_BIT;
    answer = call(MPM_FN_OPEN, user);
    if (answer != MPM_OK) return report(command, operands, answer);
    unsigned count = fcb[MPM_FCB_COUNT];
    for (;;) {
        fill_fcb(name, record);
        memset(dma, 0, sizeof dma);
        answer = call_for(command->function, user, MPM_MAX_COUNT);
        uint32_t done = mpm_done(answer, MPM_MAX_COUNT);
        if (!look_agrees_with_run(user, name, record, done)) {
            printf("get %s %s: Look differs from 33 from record %u on\n", operands[0], operands[1], (unsigned)record);
            return REFUSED;
        }
        if ((record + done) * MPM_RECORD_LEN > sizeof bytes) return wrong("more records than blocks");
        memcpy(bytes + record * MPM_RECORD_LEN, dma + MPM_DMA_RECORD, done * MPM_RECORD_LEN);
        record += done;
        if (answer != MPM_OK) break;
    }
    answer = mpm_code(answer);
    printf("%s %s: %u records, count %u, then %u/%u\n", operands[0], operands[1], (unsigned)record, count,
           (unsigned)mpm_a(answer), (unsigned)mpm_h(answer));
    fill_fcb(name, 0);
    answer = call(MPM_FN_CLOSE, user);
    if (answer != MPM_OK) return report(command, operands, answer);
    return save(operands[2], bytes, record * MPM_RECORD_LEN) ? DONE : wrong(operands[2]);
}

static const struct command commands[] = {
    {"check", 0, 0, check},
    {"free", MPM_FN_FREE_SPACE, 0, free_space},
    {"make", MPM_FN_MAKE, 2, whole_file},
    {"open", MPM_FN_OPEN, 2, whole_file},
    {"close", MPM_FN_CLOSE, 2, whole_file},
    {"delete", MPM_FN_DELETE, 2, whole_file},
    {"rename", MPM_FN_RENAME, 3, whole_file},
    {"write", MPM_FN_WRITE, 5, write_records},
    {"fill", MPM_FN_WRITE_ZEROS, 5, write_records},
    {"size", MPM_FN_SIZE, 2, file_size},
    {"list", MPM_FN_SEARCH_FIRST, 1, list_files},
    {"get", MPM_FN_READ, 3, get},
};

static const struct command *find_command(const char *word) {
    for (size_t i = 0; i < sizeof commands / sizeof commands[0]; i++)
        if (same(commands[i].word, word)) return &commands[i];
    return 0;
}

static int run_all(int count, char **words) {
    int at = 0;
    while (at < count) {
        const struct command *command = find_command(words[at]);
        if (!command || count - at - 1 < command->operands) return wrong(words[at]);
        int status = command->run(command, words + at + 1);
        if (status != DONE) return status;
        at += 1 + command->operands;
    }
    return DONE;
}

int main(int argc, char **argv) {
    uint8_t users[MPM_USERS_LEN];
    for (size_t i = 0; i < MPM_USERS_LEN; i++) users[i] = (uint8_t)i;
    if (argc < 4 || !read_number(argv[1], &kind)) {
        fprintf(stderr, "use: book KIND IMAGE COMMANDS..\n");
        return WRONG_USE;
    }
    const char *path = argv[2];
    if (!load(path, image, &image_len)) return wrong(path);
    memcpy(loaded, image, image_len);
    if (mpm_start(kind, MPM_PLACES, MPM_PLACES, MPM_PLACES, MPM_RULE_MPM, users, sizeof users, list,
                  sizeof list) != MPM_OK) {
        printf("the list does not start\n");
        return REFUSED;
    }
    /* Of an image that is not sound there is none, and every call is refused for that. */
    mpm_vector(kind, MPM_RULE_MPM, image, image_len, vector, mpm_vector_len(kind));
    int status = run_all(argc - 3, argv + 3);
    if (status == DONE && memcmp(loaded, image, image_len) != 0 && !save(path, image, image_len)) return wrong(path);
    return status;
}
