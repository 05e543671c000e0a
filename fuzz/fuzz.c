/* The fuzz test of the engine, for libFuzzer: plays the steps of an input (steps.h) and holds every call against the
   rules, against the plain C version and against single calls. The first thing that is wrong ends it with a line that
   says what.
   At the end it prints which pairs of function and answer were met with each kind of drive. With FUZZ_TELL set it
   prints every call. */
#include <stdbool.h>
#include <stdio.h>
#include <stdlib.h>
#include <string.h>

#include "mpm.h"
#include "plain.h"
#include "steps.h"

typedef uint32_t engine(uint32_t kind, uint32_t function, uint32_t process, uint32_t count, uint8_t *fcb,
                        size_t fcb_len, uint8_t *dma, size_t dma_len, uint8_t *list, size_t list_len, uint8_t *image,
                        size_t image_len, uint8_t *vector, size_t vector_len);

struct buffer {
    uint8_t *memory; /* where the length is 0, one byte, and `bytes` is its end: AddressSanitizer sees every access */
    uint8_t *bytes;
    size_t length;
};

struct state {
    struct buffer of[BUFFERS];
};

struct call {
    uint32_t kind, function, process, count, answer;
};

/* ---- What the rules allow ---- */

enum { ANSWERS = 17, CHANGES = 4, AFTER_SOME = 1 << 16 };
enum { DIRECTORY_END = 1 << 30 }; /* stands for the end of the directory, which depends on the kind */

struct rule {
    uint32_t function;
    uint32_t answers[ANSWERS]; /* 0, then all others; unused ones are 0. AFTER: of a record with others done before */
    struct {
        int buffer;
        size_t from, to;
    } changes[CHANGES];
};

#define NO_FCB MPM_OK, MPM_ERR_BAD_CALL, MPM_ERR_BAD_IMAGE, MPM_ERR_BAD_LIST, MPM_ERR_BAD_VECTOR
#define ALL NO_FCB, MPM_ERR_BAD_DRIVE
#define AFTER(answer) (AFTER_SOME + (answer))
#define NO_RECORD MPM_ERR_NO_EXTENT, MPM_ERR_NO_BLOCK
#define READ                                                                                                           \
    ALL, MPM_ERR_NOT_OPEN, MPM_ERR_PAST_END, NO_RECORD, AFTER(MPM_ERR_PAST_END), AFTER(MPM_ERR_NO_EXTENT),             \
        AFTER(MPM_ERR_NO_BLOCK)
#define WRITE ALL, MPM_ERR_NOT_OPEN, MPM_ERR_READ_ONLY, MPM_ERR_PAST_END, MPM_ERR_LOCKED
#define FILL                                                                                                           \
    WRITE, MPM_ERR_DIRECTORY_FULL, MPM_ERR_DISK_FULL, AFTER(MPM_ERR_PAST_END), AFTER(MPM_ERR_LOCKED),                  \
        AFTER(MPM_ERR_DIRECTORY_FULL), AFTER(MPM_ERR_DISK_FULL)
#define PLACES {LIST, MPM_LIST_PLACES, MPM_LIST_POSITIONS}
#define POSITION {LIST, MPM_LIST_POSITIONS, MPM_LIST_RULE} /* of the caller only */
#define FINDS ALL, MPM_FOUND(1u), MPM_FOUND(2u), MPM_FOUND(3u), MPM_NO_MATCH
#define FOUND {DMA, MPM_DMA_ENTRIES, MPM_RECORD_LEN}, POSITION
#define OPENED {FCB, 12, 32}, {FCB, MPM_FCB_RECORD, MPM_FCB_LEN}, PLACES
#define DIRECTORY {IMAGE, 0, DIRECTORY_END}
#define DRIVE {IMAGE, 0, MPM_LARGE_MAX_BLOCKS * MPM_LARGE_BLOCK_LEN}
#define BITS {VECTOR, 0, MPM_LARGE_VECTOR_LEN}

static const struct rule rules[] = {
    {MPM_FN_OPEN,
     {ALL, MPM_ERR_BAD_NAME, MPM_ERR_NOT_FOUND, MPM_ERR_IN_USE, MPM_ERR_OPEN_LIMIT, MPM_ERR_OPEN_LIST_FULL},
     {OPENED}},
    {MPM_FN_CLOSE, {ALL, MPM_ERR_CLOSE_NOT_OPEN}, {PLACES}},
    {MPM_FN_SEARCH_FIRST, {FINDS}, {FOUND}},
    {MPM_FN_SEARCH_NEXT, {FINDS}, {FOUND}},
    {MPM_FN_DELETE,
     {ALL, MPM_ERR_BAD_NAME, MPM_ERR_NOT_FOUND, MPM_ERR_IN_USE, MPM_ERR_READ_ONLY},
     {PLACES, DIRECTORY, BITS}},
    {MPM_FN_MAKE,
     {ALL, MPM_ERR_BAD_NAME, MPM_ERR_EXISTS, MPM_ERR_OPEN_LIMIT, MPM_ERR_OPEN_LIST_FULL, MPM_ERR_NO_EMPTY_ENTRY},
     {OPENED, DIRECTORY}},
    {MPM_FN_RENAME,
     {ALL, MPM_ERR_BAD_NAME, MPM_ERR_NOT_FOUND, MPM_ERR_IN_USE, MPM_ERR_READ_ONLY, MPM_ERR_EXISTS},
     {DIRECTORY}},
    {MPM_FN_READ, {READ}, {{DMA, 0, MPM_DMA_LEN}}},
    {MPM_FN_WRITE, {FILL}, {DRIVE, BITS}},
    {MPM_FN_SIZE, {ALL, MPM_ERR_BAD_NAME, MPM_ERR_NOT_FOUND}, {{FCB, MPM_FCB_RECORD, MPM_FCB_LEN}}},
    {MPM_FN_WRITE_ZEROS, {FILL}, {DRIVE, BITS}},
    {MPM_FN_TEST_WRITE, {WRITE, NO_RECORD, MPM_ERR_DIFFERS}, {DRIVE}},
    {MPM_FN_LOCK,
     {ALL, MPM_ERR_NOT_OPEN, MPM_ERR_BAD_FILE_ID, MPM_ERR_PAST_END, NO_RECORD, MPM_ERR_LOCKED, MPM_ERR_LOCK_LIMIT,
      MPM_ERR_LOCK_LIST_FULL},
     {PLACES}},
    {MPM_FN_UNLOCK, {ALL, MPM_ERR_NOT_OPEN, MPM_ERR_BAD_FILE_ID, MPM_ERR_PAST_END}, {PLACES}},
    {MPM_FN_FREE_SPACE, {NO_FCB}, {{DMA, MPM_DMA_FREE, 3}}},
    {MPM_FN_TERMINATE, {NO_FCB}, {PLACES, POSITION}},
};

enum { RULES = sizeof rules / sizeof rules[0] };

static const struct rule *rule_of(uint32_t function) {
    for (size_t i = 0; i < RULES; i++)
        if (rules[i].function == function) return &rules[i];
    return NULL;
}

static bool goes_by_records(uint32_t function) {
    return function == MPM_FN_READ || function == MPM_FN_WRITE || function == MPM_FN_WRITE_ZEROS;
}

static bool searches(uint32_t function) {
    return function == MPM_FN_SEARCH_FIRST || function == MPM_FN_SEARCH_NEXT;
}

/* How many records were done; 1 for a call of another function that was not refused. */
static uint32_t done_by(const struct call *c) {
    if (goes_by_records(c->function)) return mpm_done(c->answer, c->count);
    return mpm_refused(c->function, c->answer) ? 0 : 1;
}

static bool is_done_in_part(const struct call *c) {
    return goes_by_records(c->function) && c->answer != MPM_OK && done_by(c) > 0;
}

/* The answer as the rules have it. */
static uint32_t ruled(const struct call *c) {
    return is_done_in_part(c) ? AFTER(mpm_code(c->answer)) : c->answer;
}

static size_t end_of(size_t to, uint32_t kind) {
    return to == DIRECTORY_END ? MPM_DIRECTORY_BLOCKS * mpm_block_len(kind) : to;
}

static bool may_change(const struct call *c, int buffer, size_t i) {
    const struct rule *rule = rule_of(c->function);
    if (c->function == MPM_FN_READ && i >= MPM_DMA_AT(done_by(c))) return false;
    if (buffer == LIST && i >= MPM_LIST_POSITIONS && i != MPM_LIST_POSITIONS + c->process) return false;
    if (buffer == DMA && searches(c->function) && !mpm_found(c->answer)) return false;
    for (size_t k = 0; k < CHANGES; k++)
        if (rule->changes[k].buffer == buffer && i >= rule->changes[k].from &&
            i < end_of(rule->changes[k].to, c->kind))
            return true;
    return false;
}

/* ---- What was met ---- */

/* Calls of each kind of drive, and those of unknown kinds behind them. */
static unsigned long calls[MPM_KINDS + 1], accepted[MPM_KINDS + 1], in_part[MPM_KINDS + 1];
static unsigned long met[MPM_KINDS][RULES][ANSWERS];
static bool telling;

/* The image check's codes. */
enum { CODES = MPM_CHECK_NO_EXTENT_0 + 1 };
static unsigned long checked[MPM_KINDS][CODES];

/* The pairs and codes that this input met: libFuzzer keeps an input that meets a new one. */
static uint8_t pairs_met[MPM_KINDS][RULES][ANSWERS] __attribute__((section("__libfuzzer_extra_counters")));
static uint8_t codes_met[MPM_KINDS][CODES] __attribute__((section("__libfuzzer_extra_counters")));

static const char *kind_name(size_t kind) {
    static const char *const names[] = {"small drive", "large drive"};
    return kind < MPM_KINDS ? names[kind] : "unknown kind";
}

static void print_met_by(size_t kind) {
    unsigned pairs = 0, seen = 0;
    for (size_t i = 0; i < RULES; i++)
        for (size_t k = 0; k < ANSWERS && (k == 0 || rules[i].answers[k] != 0); k++) {
            uint32_t answer = rules[i].answers[k];
            pairs++;
            seen += met[kind][i][k] != 0;
            if (met[kind][i][k] == 0)
                printf("not met: %s, %u with %u/%u%s\n", kind_name(kind), rules[i].function,
                       mpm_a(answer % AFTER_SOME), mpm_h(answer % AFTER_SOME),
                       answer < AFTER_SOME ? "" : " after some records");
        }
    printf("met: %s: %lu calls, %lu accepted, %lu done in part, %u of %u pairs of function and answer\n",
           kind_name(kind), calls[kind], accepted[kind], in_part[kind], seen, pairs);
    for (uint32_t code = 0; code < CODES; code++)
        if (checked[kind][code] == 0) printf("not met: %s, %s\n", kind_name(kind), mpm_check_name(code));
}

static void print_met(void) {
    for (size_t kind = 0; kind < MPM_KINDS; kind++) print_met_by(kind);
    printf("met: %s: %lu calls\n", kind_name(MPM_KINDS), calls[MPM_KINDS]);
}

static void count_call(const struct call *c) {
    size_t kind = c->kind < MPM_KINDS ? c->kind : MPM_KINDS;
    calls[kind]++;
    accepted[kind] += done_by(c) > 0 && !is_done_in_part(c);
    in_part[kind] += is_done_in_part(c);
}

static void count_pair(const struct call *c, size_t rule, size_t answer) {
    if (c->kind >= MPM_KINDS) return;
    met[c->kind][rule][answer]++;
    pairs_met[c->kind][rule][answer] = 1;
}

static void count_check(uint32_t kind, uint32_t code) {
    if (kind >= MPM_KINDS) return;
    checked[kind][code]++;
    codes_met[kind][code] = 1;
}

static void want(bool good, const struct call *call, const char *what) {
    if (good) return;
    fprintf(stderr, "WRONG: kind %u, function %u, process %u, count %u, answer %u/%u: %s\n", call->kind,
            call->function, call->process, call->count, mpm_a(call->answer), mpm_h(call->answer), what);
    abort();
}

/* ---- Buffers ---- */

static struct buffer new_buffer(size_t length) {
    struct buffer b = {malloc(length == 0 ? 1 : length), NULL, length};
    if (b.memory == NULL) exit(2);
    b.bytes = length == 0 ? b.memory + 1 : b.memory;
    return b;
}

static void set_length(struct buffer *b, size_t length, int fill) {
    struct buffer new = new_buffer(length);
    size_t kept = b->length < length ? b->length : length;
    memcpy(new.bytes, b->bytes, kept);
    memset(new.bytes + kept, fill, length - kept);
    free(b->memory);
    *b = new;
}

/* At most so many bytes of a buffer, from one of them on. */
static struct buffer part(const struct buffer *b, size_t from, size_t most) {
    size_t start = from < b->length ? from : b->length, left = b->length - start;
    struct buffer p = {NULL, b->bytes + start, left < most ? left : most};
    return p;
}

/* The copies keep their memory from call to call while the lengths stay: a large drive has up to 8 MB. */
static void copy_into(struct state *copy, const struct state *s) {
    for (int k = 0; k < BUFFERS; k++) {
        if (copy->of[k].memory == NULL || copy->of[k].length != s->of[k].length) {
            free(copy->of[k].memory);
            copy->of[k] = new_buffer(s->of[k].length);
        }
        memcpy(copy->of[k].bytes, s->of[k].bytes, s->of[k].length);
    }
}

static void release(struct state *s) {
    for (int k = 0; k < BUFFERS; k++) free(s->of[k].memory);
}

static bool same_bytes(const struct buffer *a, const struct buffer *b) {
    return memcmp(a->bytes, b->bytes, a->length) == 0;
}

static bool same_state(const struct state *a, const struct state *b) {
    for (int k = 0; k < BUFFERS; k++)
        if (!same_bytes(&a->of[k], &b->of[k])) return false;
    return true;
}

static uint32_t run(engine *e, const struct call *c, struct state *s) {
    struct buffer *b = s->of;
    return e(c->kind, c->function, c->process, c->count, b[FCB].bytes, b[FCB].length, b[DMA].bytes, b[DMA].length,
             b[LIST].bytes, b[LIST].length, b[IMAGE].bytes, b[IMAGE].length, b[VECTOR].bytes, b[VECTOR].length);
}

/* The rule by which an image beside the list is judged. */
static uint32_t judged_by(const struct state *s) { return mpm_rule_of(s->of[LIST].bytes, s->of[LIST].length); }

/* ---- The checks of a call ---- */

static bool bad_call(const struct call *c, const struct state *s) {
    return c->kind >= MPM_KINDS || rule_of(c->function) == NULL || c->process >= MPM_PROCESSES || c->count < 1 ||
           c->count > MPM_MAX_COUNT || s->of[FCB].length != MPM_FCB_LEN || s->of[DMA].length != MPM_DMA_LEN ||
           s->of[LIST].length != MPM_LIST_LEN || s->of[VECTOR].length != mpm_vector_len(c->kind);
}

static void check_answer(const struct call *c, const struct state *before) {
    const struct rule *rule = rule_of(c->function);
    bool bad = bad_call(c, before);
    want((c->answer == MPM_ERR_BAD_CALL) == bad, c, bad ? "255/13 is due" : "255/13 is not due");
    if (rule == NULL) return;
    size_t k = 0;
    while (k < ANSWERS && rule->answers[k] != ruled(c)) k++;
    want(k < ANSWERS, c, "the function does not have this answer");
    want(!is_done_in_part(c) || done_by(c) < c->count, c, "more records done than can be");
    count_pair(c, (size_t)(rule - rules), k);
}

static uint32_t other_kind(uint32_t kind) { return kind == MPM_KIND_SMALL ? MPM_KIND_LARGE : MPM_KIND_SMALL; }

/* The image check of the told kind and of another: wrong length exactly where the kind has no such drive; the entry and
   the reason those of the plain C version. */
static uint32_t check_kind(const struct call *c, uint32_t kind, uint32_t rule, const struct buffer *image) {
    bool whole = mpm_blocks(kind, image->length) != 0;
    uint32_t check = mpm_check(kind, rule, image->bytes, image->length), code = mpm_check_code(check);
    want(whole == (check != MPM_CHECK_WRONG_LENGTH), c, "the image check is wrong about the length");
    want(code <= MPM_CHECK_NO_EXTENT_0 && (code >= MPM_CHECK_BAD_USER || check == code), c, "no answer of a check");
    want(code < MPM_CHECK_BAD_USER || mpm_check_entry(check) < mpm_entries(kind), c, "no entry of the directory");
    want(check == plain_check(kind, rule, image->bytes, image->length), c, "the plain C version tells another entry");
    count_check(kind, code);
    return check;
}

/* Whether a buffer is the vector of an image that is sound, by the plain C version. */
static bool agrees(uint32_t kind, uint32_t rule, const struct buffer *image, const struct buffer *vector) {
    uint8_t due[MPM_LARGE_VECTOR_LEN];
    size_t length = mpm_vector_len(kind);
    return vector->length == length && plain_vector(kind, rule, image->bytes, image->length, due, length) == MPM_OK &&
           memcmp(due, vector->bytes, length) == 0;
}

/* 255/14 is given exactly where nothing before it is and the vector disagrees. Built in a buffer of the vector's
   length, whatever that is: the answer and the bytes of the plain C version. */
static void check_vector(const struct call *c, const struct state *before) {
    const struct buffer *image = &before->of[IMAGE], *vector = &before->of[VECTOR];
    bool judged =
        c->answer != MPM_ERR_BAD_CALL && c->answer != MPM_ERR_BAD_IMAGE && c->answer != MPM_ERR_BAD_LIST;
    bool due = judged && !agrees(c->kind, judged_by(before), image, vector);
    want((c->answer == MPM_ERR_BAD_VECTOR) == due, c, due ? "255/14 is due" : "255/14 is not due");
    struct buffer ours = new_buffer(vector->length), plain = new_buffer(vector->length);
    memset(ours.bytes, 0xAA, ours.length);
    memset(plain.bytes, 0xAA, plain.length);
    want(mpm_vector(c->kind, c->count, image->bytes, image->length, ours.bytes, ours.length) ==
             plain_vector(c->kind, c->count, image->bytes, image->length, plain.bytes, plain.length),
         c, "the plain C version of building gives another answer");
    want(same_bytes(&ours, &plain), c, "the plain C version builds otherwise");
    free(ours.memory);
    free(plain.memory);
}

/* Two images, whatever they are: the plain C version's answer, in either order, and no byte changed. */
static void check_same(const struct call *c, const struct buffer *one, const struct buffer *other) {
    want(mpm_same(c->kind, one->bytes, one->length, other->bytes, other->length) ==
             plain_same(c->kind, one->bytes, one->length, other->bytes, other->length),
         c, "the plain C version of comparing gives another answer");
    want(mpm_same(c->kind, other->bytes, other->length, one->bytes, one->length) ==
             plain_same(c->kind, other->bytes, other->length, one->bytes, one->length),
         c, "the plain C version of comparing, turned round, gives another answer");
}

/* A book and its packed form, as it is and with one thing changed: an attribute of the first entry, a byte of the first
   block. */
static void check_moved(const struct call *c, const struct buffer *image, struct buffer *packed) {
    size_t block = mpm_block_len(c->kind);
    size_t at[] = {1 + c->process % MPM_NAME_LEN, 2 * block + 8 * (c->count % MPM_MAX_COUNT)};
    uint8_t bit[] = {MPM_HIGH_BIT, 1};
    want(mpm_same(c->kind, image->bytes, image->length, packed->bytes, packed->length) == MPM_SAME_BOOK, c,
         "a packed book is another book");
    for (size_t i = 0; i < 2; i++) {
        packed->bytes[at[i]] ^= bit[i];
        check_same(c, image, packed);
        packed->bytes[at[i]] ^= bit[i];
    }
}

/* The book packed, whatever image and list are: the answer and the bytes of the plain C version, and image and list as
   they were. */
static void check_pack(const struct call *c, const struct state *before) {
    const struct buffer *image = &before->of[IMAGE], *list = &before->of[LIST];
    struct buffer packed = new_buffer(image->length), plain = new_buffer(image->length);
    struct buffer copy = new_buffer(image->length), old = new_buffer(list->length);
    memset(packed.bytes, 0xAA, packed.length);
    memset(plain.bytes, 0xAA, plain.length);
    memcpy(copy.bytes, image->bytes, image->length);
    memcpy(old.bytes, list->bytes, list->length);
    uint32_t answer =
        mpm_pack(c->kind, image->bytes, image->length, list->bytes, list->length, packed.bytes, packed.length);
    want(same_bytes(image, &copy) && same_bytes(list, &old), c, "packing has changed the image or the list");
    want(answer == plain_pack(c->kind, image->bytes, image->length, list->bytes, list->length, plain.bytes,
                              plain.length),
         c, "the plain C version of packing gives another answer");
    want(same_bytes(&packed, &plain), c, "the plain C version packs otherwise");
    want(answer != MPM_OK || mpm_check(c->kind, judged_by(before), packed.bytes, packed.length) == MPM_CHECK_SOUND, c,
         "a packed book is not sound");
    if (answer == MPM_OK) check_moved(c, image, &packed);
    check_same(c, image, &packed);
    want(same_bytes(image, &copy), c, "comparing has changed the image");
    free(packed.memory);
    free(plain.memory);
    free(copy.memory);
    free(old.memory);
}

/* On copies: an image that is not sound is after salvage, and the plain C version leaves the same bytes. */
static void check_salvage(const struct call *c, uint32_t kind, uint32_t rule, const struct buffer *image) {
    struct buffer ours = new_buffer(image->length), plain = new_buffer(image->length);
    struct buffer report = new_buffer(mpm_entries(kind)), plain_report = new_buffer(mpm_entries(kind));
    memcpy(ours.bytes, image->bytes, image->length);
    memcpy(plain.bytes, image->bytes, image->length);
    memset(report.bytes, 0xAA, report.length);
    memset(plain_report.bytes, 0xAA, report.length);
    uint32_t answer = mpm_salvage(kind, rule, ours.bytes, ours.length, report.bytes, report.length);
    want(answer == plain_salvage(kind, rule, plain.bytes, plain.length, plain_report.bytes, plain_report.length), c,
         "the plain C version of salvage gives another answer");
    want(same_bytes(&ours, &plain), c, "the plain C version of salvage leaves another image");
    want(same_bytes(&report, &plain_report), c, "the plain C version of salvage reports otherwise");
    want((answer == MPM_SALVAGE_DONE) == (mpm_check(kind, rule, ours.bytes, ours.length) == MPM_CHECK_SOUND), c,
         "what was mended is not sound");
    free(ours.memory);
    free(plain.memory);
    free(report.memory);
    free(plain_report.memory);
}

static void check_image(const struct call *c, const struct state *before) {
    const struct buffer *image = &before->of[IMAGE];
    uint32_t rule = judged_by(before), check = check_kind(c, c->kind, rule, image);
    uint32_t other = check_kind(c, other_kind(c->kind), c->count, image);
    check_kind(c, c->kind, 256u + c->count, image);
    want(check == MPM_CHECK_WRONG_LENGTH || other == MPM_CHECK_WRONG_LENGTH, c, "an image is one of both kinds");
    if (check != MPM_CHECK_SOUND) check_salvage(c, c->kind, rule, image);
    if (c->function == MPM_FN_FREE_SPACE || c->function == MPM_FN_TERMINATE) check_pack(c, before);
    if (c->answer == MPM_ERR_BAD_CALL) return;
    want((c->answer == MPM_ERR_BAD_IMAGE) == (check != MPM_CHECK_SOUND), c, "the image check says otherwise");
}

/* At most so many bytes as a record has: most of a long image is the same. */
static void check_part(const struct call *c, int buffer, const struct buffer *old, const struct buffer *new,
                       size_t from) {
    struct buffer was = part(old, from, MPM_RECORD_LEN), is = part(new, from, MPM_RECORD_LEN);
    if (same_bytes(&was, &is)) return;
    for (size_t i = 0; i < was.length; i++)
        want(was.bytes[i] == is.bytes[i] || may_change(c, buffer, from + i), c,
             "a byte changed that is not the call's");
}

static void check_changes(const struct call *c, const struct state *before, const struct state *after) {
    for (int k = 0; k < BUFFERS; k++) {
        const struct buffer *old = &before->of[k], *new = &after->of[k];
        if (same_bytes(old, new)) continue;
        want(done_by(c) > 0, c, "a refusal changed a buffer");
        for (size_t from = 0; from < old->length; from += MPM_RECORD_LEN) check_part(c, k, old, new, from);
    }
}

static void check_sound(const struct call *c, struct state *copy, const struct state *after) {
    const struct call free_space = {c->kind, MPM_FN_FREE_SPACE, 0, 1, 0};
    const struct buffer *image = &after->of[IMAGE];
    copy_into(copy, after);
    want(mpm_check(c->kind, judged_by(after), image->bytes, image->length) == MPM_CHECK_SOUND, c,
         "the image is not sound afterwards");
    want(run(mpm_call, &free_space, copy) == MPM_OK, c, "list or vector are not sound afterwards");
    want(agrees(c->kind, judged_by(after), image, &after->of[VECTOR]), c, "the vector disagrees afterwards");
    want(mpm_get(copy->of[DMA].bytes + MPM_DMA_FREE, 3) ==
             mpm_free_records(c->kind, image->length, after->of[VECTOR].bytes),
         c, "46 and the vector tell another free space");
}

/* Where Look shows the record at distance i from the FCB's: nowhere, or as a record inside the image. */
static uint32_t look(const struct call *c, const struct state *s, uint32_t i) {
    const struct buffer *image = &s->of[IMAGE];
    struct buffer name = part(&s->of[FCB], MPM_FCB_NAME, MPM_NAME_LEN);
    struct buffer number = part(&s->of[FCB], MPM_FCB_RECORD, 3);
    struct buffer user = part(&s->of[LIST], MPM_LIST_USERS + c->process, 1);
    uint32_t record = c->count;
    if (number.length == 3) record = number.bytes[0] + 256u * number.bytes[1] + 65536u * number.bytes[2];
    uint32_t of_user = user.length == 1 ? user.bytes[0] : c->process;
    uint32_t at = mpm_look(c->kind, judged_by(s), of_user, name.bytes, name.length, record + i, image->bytes,
                           image->length);
    want(at == plain_look(c->kind, judged_by(s), of_user, name.bytes, name.length, record + i, image->bytes,
                          image->length),
         c, "the plain C version looks elsewhere");
    bool whole = mpm_blocks(c->kind, image->length) != 0;
    bool inside = at >= MPM_DIRECTORY_BLOCKS * mpm_block_len(c->kind) && (size_t)at + MPM_RECORD_LEN <= image->length;
    want(at == 0 || (whole && inside && at % MPM_RECORD_LEN == 0), c, "Look shows something that is no record");
    return at;
}

/* Look has to show what the call has read or written. */
static void check_look(const struct call *c, const struct state *after) {
    look(c, after, 0);
    if (!goes_by_records(c->function) && c->function != MPM_FN_TEST_WRITE) return;
    for (uint32_t i = 0; i < done_by(c); i++) {
        uint32_t at = look(c, after, i);
        size_t from = c->function == MPM_FN_TEST_WRITE ? MPM_DMA_NEW : MPM_DMA_AT(i);
        want(at != 0 && memcmp(after->of[DMA].bytes + from, after->of[IMAGE].bytes + at, MPM_RECORD_LEN) == 0, c,
             "Look shows another record");
    }
}

/* Start, with the call's numbers and the list's users, over a list of the same length. */
static void check_start(const struct call *c, const struct state *s) {
    const uint32_t numbers[] = {c->function, c->process, c->count}, rule = c->count % 3u;
    struct buffer users = part(&s->of[LIST], MPM_LIST_USERS, MPM_USERS_LEN);
    struct buffer list = new_buffer(s->of[LIST].length), due = new_buffer(list.length);
    bool good = c->kind < MPM_KINDS && rule < MPM_RULES && list.length == MPM_LIST_LEN;
    for (size_t i = 0; i < 3; i++) good = good && numbers[i] >= 1 && numbers[i] <= MPM_PLACES;
    for (size_t i = 0; i < users.length; i++) good = good && users.bytes[i] < MPM_USERS;
    memset(list.bytes, 0xA5, list.length);
    memset(due.bytes, good ? 0 : 0xA5, due.length);
    for (size_t i = 0; good && i < 3; i++) due.bytes[i] = (uint8_t)numbers[i];
    if (good) memcpy(due.bytes + MPM_LIST_USERS, users.bytes, users.length);
    if (good) memset(due.bytes + MPM_LIST_POSITIONS, (int)mpm_entries(c->kind), MPM_PROCESSES);
    if (good) due.bytes[MPM_LIST_RULE] = (uint8_t)rule;
    uint32_t answer = mpm_start(c->kind, numbers[0], numbers[1], numbers[2], rule, users.bytes, users.length,
                                list.bytes, list.length);
    want(answer == (good ? MPM_OK : MPM_ERR_BAD_CALL) && same_bytes(&list, &due), c, "Start does otherwise");
    free(list.memory);
    free(due.memory);
}

/* A search has left its caller behind an entry of its user, which stands where the answer and the DMA say; or at its
   end. */
static void check_search(const struct call *c, const struct state *before, const struct state *after) {
    if (!searches(c->function) || mpm_refused(c->function, c->answer)) return;
    const uint8_t *list = after->of[LIST].bytes, *image = after->of[IMAGE].bytes, *dma = after->of[DMA].bytes;
    uint32_t position = list[MPM_LIST_POSITIONS + c->process], entry = position - 1;
    uint32_t from = c->function == MPM_FN_SEARCH_NEXT ? before->of[LIST].bytes[MPM_LIST_POSITIONS + c->process] : 0;
    want(mpm_found(c->answer) || position == mpm_entries(c->kind), c, "a search in vain is not at its end");
    if (!mpm_found(c->answer)) return;
    want(position > from && position <= mpm_entries(c->kind), c, "a search has not gone on");
    want(entry % MPM_RECORD_ENTRIES == mpm_a(c->answer), c, "the entry has another place in its record");
    want(memcmp(dma, image + MPM_RECORD_LEN * (entry / MPM_RECORD_ENTRIES), MPM_RECORD_LEN) == 0, c,
         "the DMA has another record of the directory");
    want(mpm_entry(dma, c->answer)[MPM_ENTRY_USER] == list[MPM_LIST_USERS + c->process], c, "another user's entry");
}

static void check_singly(const struct call *c, struct state *copy, const struct state *before,
                         const struct state *after) {
    uint32_t due = goes_by_records(c->function) ? mpm_code(c->answer) : c->answer;
    copy_into(copy, before);
    want(run(mpm_singly, c, copy) == due, c, "single calls answer otherwise");
    want(same_state(copy, after), c, "single calls leave other bytes");
}

static void check_plain(const struct call *c, struct state *before, const struct state *after) {
    uint32_t answer = run(plain_call, c, before);
    want(answer == c->answer, c, "the plain version has another answer");
    want(same_state(before, after), c, "the plain version leaves other bytes");
}

static void check_call(struct call *c, struct state *s) {
    static struct state before, copy;
    copy_into(&before, s);
    if (telling)
        fprintf(stderr, "%u %u %u %u %lu", c->kind, c->process, c->function, c->count,
                (unsigned long)s->of[IMAGE].length);
    c->answer = run(mpm_call, c, s);
    if (telling) fprintf(stderr, " %u %u\n", mpm_a(c->answer), mpm_h(c->answer));
    count_call(c);
    check_answer(c, &before);
    check_image(c, &before);
    check_vector(c, &before);
    check_changes(c, &before, s);
    if (done_by(c) > 0) check_sound(c, &copy, s);
    check_look(c, s);
    check_search(c, &before, s);
    check_start(c, s);
    check_singly(c, &copy, &before, s);
    check_plain(c, &before, s);
}

/* ---- The steps ---- */

static uint32_t number_at(const uint8_t *bytes) {
    return bytes[0] + 256u * bytes[1] + 65536u * bytes[2] + 16777216u * bytes[3];
}

static void put(struct buffer *b, const uint8_t *bytes, size_t length) {
    memcpy(b->bytes, bytes, b->length < length ? b->length : length);
}

/* The kind that a call tells: the drive's unless its flags say otherwise. */
static uint32_t told_kind(uint32_t drive, const uint8_t *step) {
    if (step[1] & WILD_KIND) return step[2] + 256u * step[3];
    return step[1] & OTHER_KIND ? other_kind(drive) : drive;
}

/* The vector of an image that is not sound stays as it was. */
static void build_vector(struct state *s, uint32_t kind) {
    struct buffer *vector = &s->of[VECTOR], *image = &s->of[IMAGE];
    if (kind >= MPM_KINDS) return;
    if (vector->length != mpm_vector_len(kind)) set_length(vector, mpm_vector_len(kind), 0);
    mpm_vector(kind, judged_by(s), image->bytes, image->length, vector->bytes, vector->length);
}

static void play_call(struct state *s, uint32_t drive, const uint8_t *step) {
    unsigned flags = step[1];
    struct call c = {told_kind(drive, step), number_at(step + 4), number_at(step + 8), number_at(step + 12), 0};
    if (!(flags & WILD_FUNCTION) && rule_of(c.function) == NULL) c.function = rules[c.function % RULES].function;
    if (!(flags & WILD_PROCESS)) c.process %= MPM_PROCESSES;
    if (!(flags & WILD_COUNT)) c.count = (c.count - 1) % MPM_MAX_COUNT + 1;
    if (!(flags & KEEP_FCB)) put(&s->of[FCB], step + CONTENT, FCB_GIVEN);
    if (!(flags & KEEP_DMA)) put(&s->of[DMA], step + CONTENT + FCB_GIVEN, DMA_GIVEN);
    if (!(flags & KEEP_VECTOR)) build_vector(s, c.kind);
    check_call(&c, s);
}

static void play_patch(struct state *s, const uint8_t *step) {
    struct buffer *b = &s->of[step[1] % BUFFERS];
    uint8_t bytes[CONTENT_LEN];
    size_t length = step[2] % (CONTENT_LEN + 1u), times = number_at(step + 8);
    if (b->length == 0 || length == 0) return;
    memcpy(bytes, step + CONTENT, CONTENT_LEN);
    size_t at = number_at(step + 4) % b->length;
    do {
        if (b->length - at < length) return;
        memcpy(b->bytes + at, bytes, length);
        if (step[3] < length) bytes[step[3]]++;
        at += length;
    } while (times-- > 1);
}

static size_t raw_length(uint32_t number, bool many, uint32_t kind) {
    if (!many) return number % FEW_LENGTHS;
    return number % mpm_of_kind(kind, MANY_SMALL_LENGTHS, MANY_LARGE_LENGTHS);
}

static size_t some_blocks(uint32_t number, bool many, uint32_t kind) {
    if (many) return number % mpm_of_kind(kind, MANY_SMALL_BLOCKS, MANY_LARGE_BLOCKS);
    return number % FEW_BLOCKS + mpm_of_kind(kind, 0, MPM_LARGE_MIN_BLOCKS);
}

static void play_length(struct state *s, uint32_t *drive, const uint8_t *step) {
    static const size_t exact[BUFFERS] = {MPM_FCB_LEN, MPM_DMA_LEN, MPM_LIST_LEN};
    int k = step[1] % BUFFERS;
    uint32_t number = number_at(step + 4);
    bool many = step[2] & MANY;
    size_t length = k == VECTOR ? mpm_vector_len(*drive) : exact[k];
    if (k == IMAGE) *drive = step[3] % MPM_KINDS;
    if (step[2] & RAW) {
        length = raw_length(number, many, *drive);
    } else if (k == IMAGE) {
        length = some_blocks(number, many, *drive) * mpm_block_len(*drive);
    }
    set_length(&s->of[k], length, k == IMAGE ? (int)MPM_EMPTY : 0);
}

/* `drive` is the kind that the image is meant as. */
static void play(struct state *s, uint32_t *drive, const uint8_t *step) {
    unsigned what = step[0] % 8;
    if (what == LENGTH) {
        play_length(s, drive, step);
    } else if (what < CALL) {
        play_patch(s, step);
    } else {
        play_call(s, *drive, step);
    }
}

static struct state begin(void) {
    static const uint8_t head[] = {8, 4, 4};
    static const size_t lengths[] = {MPM_FCB_LEN, MPM_DMA_LEN, MPM_LIST_LEN, 4 * MPM_SMALL_BLOCK_LEN,
                                     MPM_SMALL_VECTOR_LEN};
    static const uint8_t of_directory = 0xC0;
    struct state s;
    for (int k = 0; k < BUFFERS; k++) {
        s.of[k] = new_buffer(0);
        set_length(&s.of[k], lengths[k], k == IMAGE ? (int)MPM_EMPTY : 0);
    }
    put(&s.of[LIST], head, sizeof head);
    put(&s.of[VECTOR], &of_directory, 1);
    return s;
}

int LLVMFuzzerInitialize(int *argc, char ***argv);
int LLVMFuzzerTestOneInput(const uint8_t *data, size_t size);

int LLVMFuzzerInitialize(int *argc, char ***argv) {
    (void)argc, (void)argv;
    telling = getenv("FUZZ_TELL") != NULL;
    return atexit(print_met);
}

int LLVMFuzzerTestOneInput(const uint8_t *data, size_t size) {
    struct state s = begin();
    uint32_t drive = MPM_KIND_SMALL;
    while (size > 0) {
        uint8_t step[STEP_LEN] = {0};
        size_t length = size < STEP_LEN ? size : STEP_LEN;
        memcpy(step, data, length);
        play(&s, &drive, step);
        data += length;
        size -= length;
    }
    release(&s);
    return 0;
}
