/* The sixteen calls in plain C: the checks and the work of the engine, step by step the same, as one would write them
   by hand. Structs are passed by address. A run of records has its checks made once and each extent found once.
   It is compiled once for each kind of drive, KIND being SMALL or LARGE, so that the sizes are constants.
   plain_call.c has the choice. */
#include "plain.h"

#include <stdbool.h>
#include <string.h>

#include "mpm.h"

#define JOINED(kind, what) MPM_##kind##_##what
#define OF(kind, what) JOINED(kind, what)

enum { ENTRIES = OF(KIND, ENTRIES), MAP = OF(KIND, NUMBERS), WIDTH = OF(KIND, NUMBER_LEN) };
enum { BLOCK = OF(KIND, BLOCK_LEN), BLOCK_RECORDS = OF(KIND, BLOCK_RECORDS) };
enum { MIN_BLOCKS = OF(KIND, MIN_BLOCKS), MAX_BLOCKS = OF(KIND, MAX_BLOCKS), VECTOR = OF(KIND, VECTOR_LEN) };
enum { ENTRY = 32, MAP_AT = 16, PLACES = 64, PLACE = 20, HEAD = 19, NAME = 11 };
enum { POSITIONS = HEAD + PLACES * PLACE, RULE = POSITIONS + 16, MODULE_RECORDS = 32 * 128 };
enum { EMPTY, OPEN, LOCK, NO_MARK }; /* what a place holds */
enum { LOCKED, UNLOCKED, READ_ONLY };

struct file {
    uint8_t user;
    uint8_t name[NAME];
};

struct item {
    uint8_t kind;
    uint8_t process;
    uint8_t name[NAME];
    uint8_t mode;
    uint32_t record;
};

struct locks {
    uint8_t capacity;
    uint8_t open_limit;
    uint8_t lock_limit;
    uint8_t users[MPM_PROCESSES];
    uint8_t positions[MPM_PROCESSES]; /* the entry at which each process's search goes on */
    uint8_t rule;
    struct item items[PLACES];
};

struct drive {
    uint8_t *bytes;
    size_t blocks;
    uint8_t *vector;      /* a bit for each block, set where it is used; what only reads an image has none */
    uint32_t last_record; /* by the rule */
};

/* Where a record is to be written. */
struct spot {
    size_t entry;
    bool fresh;
    size_t block;
    bool taken;
};

/* What the routines of the calls work on. */
struct job {
    uint8_t process;
    uint32_t count;
    uint8_t *fcb;
    uint8_t *dma;
    uint8_t *list;
    struct drive drive;
    struct locks locks;
    struct file file;
};

/* ---- Names ---- */

static bool legal_name(const uint8_t *bytes) {
    if ((bytes[0] & 0x7F) == ' ') return false;
    for (size_t k = 0; k < NAME; k++) {
        uint8_t low = bytes[k] & 0x7F;
        if (low < 32 || low > 126 || low == '?') return false;
    }
    return true;
}

static bool is_named(const uint8_t *bytes, const uint8_t *name) {
    for (size_t k = 0; k < NAME; k++)
        if ((bytes[k] & 0x7F) != name[k]) return false;
    return true;
}

static bool same_name(const uint8_t *a, const uint8_t *b) { return memcmp(a, b, NAME) == 0; }

static struct file file_from(uint8_t user, const uint8_t *bytes) {
    struct file f = {user, {0}};
    for (size_t k = 0; k < NAME; k++) f.name[k] = bytes[k] & 0x7F;
    return f;
}

/* ---- The directory ---- */

static uint8_t *entry_at(const struct drive *d, size_t e) { return d->bytes + ENTRY * e; }

static unsigned extent_at(const uint8_t *entry) { return entry[12] + 32u * entry[14]; }

/* The block number k of an entry: one byte, or two with the low one first. */
static size_t number_at(const uint8_t *entry, size_t k) {
    const uint8_t *at = entry + MAP_AT + WIDTH * k;
    return WIDTH == 1 ? at[0] : at[0] + 256u * at[1];
}

static void set_number(uint8_t *entry, size_t k, size_t block) {
    for (size_t i = 0; i < WIDTH; i++) entry[MAP_AT + WIDTH * k + i] = (uint8_t)(block >> (8 * i));
}

/* Which number of its extent's entry names a record's block. */
static size_t number_of(uint32_t record) { return record % 128 / BLOCK_RECORDS; }

static bool is_of(const uint8_t *entry, const struct file *f) {
    return entry[0] != MPM_EMPTY && entry[0] == f->user && is_named(entry + 1, f->name);
}

static bool is_entry(const uint8_t *entry, const struct file *f, unsigned extent) {
    return entry[0] != MPM_EMPTY && entry[0] == f->user && extent_at(entry) == extent && is_named(entry + 1, f->name);
}

static bool any_entry(const struct drive *d, const struct file *f, unsigned extent, size_t end) {
    for (size_t e = 0; e < end; e++)
        if (is_entry(entry_at(d, e), f, extent)) return true;
    return false;
}

static size_t entry_of(const struct drive *d, const struct file *f, unsigned extent) {
    size_t e = 0;
    while (e < ENTRIES && !is_entry(entry_at(d, e), f, extent)) e++;
    return e;
}

static size_t free_entry(const struct drive *d) {
    size_t e = 0;
    while (e < ENTRIES && entry_at(d, e)[0] != MPM_EMPTY) e++;
    return e;
}

static size_t block_in(const struct drive *d, size_t e, uint32_t record) {
    return e < ENTRIES ? number_at(entry_at(d, e), number_of(record)) : 0;
}

static size_t block_of(const struct drive *d, const struct file *f, uint32_t record) {
    return block_in(d, entry_of(d, f, record / 128), record);
}

/* ---- The vector ---- */

static uint8_t bit_of(size_t b) { return (uint8_t)(MPM_HIGH_BIT >> b % 8); }

static void set_bits(const uint8_t *entry, uint8_t *vector) {
    for (size_t k = 0; k < MAP; k++) {
        size_t b = number_at(entry, k);
        vector[b / 8] |= bit_of(b);
    }
}

/* No number is none, and 0 is the directory's first block: its bit is set anyway. */
static void build_vector(const struct drive *d, uint8_t vector[VECTOR]) {
    memset(vector, 0, VECTOR);
    vector[0] = bit_of(0) | bit_of(1);
    for (size_t e = 0; e < ENTRIES; e++)
        if (entry_at(d, e)[0] != MPM_EMPTY) set_bits(entry_at(d, e), vector);
}

static bool agrees(const struct drive *d) {
    uint8_t due[VECTOR];
    build_vector(d, due);
    return memcmp(due, d->vector, VECTOR) == 0;
}

static size_t free_block(const struct drive *d) {
    size_t b = 2;
    while (b < d->blocks && d->vector[b / 8] & bit_of(b)) b++;
    return b;
}

static size_t free_blocks(const struct drive *d) {
    size_t free = 0;
    for (size_t b = 2; b < d->blocks; b++) free += !(d->vector[b / 8] & bit_of(b));
    return free;
}

static void give_blocks_back(const struct drive *d, const uint8_t *entry) {
    for (size_t k = 0; k < MAP; k++) {
        size_t b = number_at(entry, k);
        if (b != 0) d->vector[b / 8] &= (uint8_t)~bit_of(b);
    }
}

/* ---- The image check ---- */

static bool good_numbers(const struct drive *d, const uint8_t *entry) {
    return entry[12] <= 31 && entry[14] <= d->last_record / MODULE_RECORDS && entry[15] <= 128;
}

static bool all_in_range(const uint8_t *entry, size_t blocks) {
    for (size_t k = 0; k < MAP; k++) {
        size_t b = number_at(entry, k);
        if (b != 0 && (b < 2 || b >= blocks)) return false;
    }
    return true;
}

static bool mark_entry(const uint8_t *entry, bool seen[MAX_BLOCKS]) {
    for (size_t k = 0; k < MAP; k++) {
        size_t b = number_at(entry, k);
        if (b == 0) continue;
        if (seen[b]) return false;
        seen[b] = true;
    }
    return true;
}

/* What is wrong with an entry first, if those before it are good. */
static uint32_t fault_of(const struct drive *d, size_t e, bool seen[MAX_BLOCKS]) {
    const uint8_t *entry = entry_at(d, e);
    if (entry[0] == MPM_EMPTY) return MPM_CHECK_SOUND;
    if (entry[0] > 15) return MPM_CHECK_BAD_USER;
    if (!legal_name(entry + 1)) return MPM_CHECK_BAD_NAME;
    if (!good_numbers(d, entry)) return MPM_CHECK_BAD_NUMBER;
    if (!all_in_range(entry, d->blocks)) return MPM_CHECK_BLOCK_RANGE;
    if (!mark_entry(entry, seen)) return MPM_CHECK_BLOCK_TWICE;
    struct file f = file_from(entry[0], entry + 1);
    return any_entry(d, &f, extent_at(entry), e) ? MPM_CHECK_EXTENT_TWICE : MPM_CHECK_SOUND;
}

static bool is_begun(const struct drive *d, size_t e) {
    const uint8_t *entry = entry_at(d, e);
    if (entry[0] == MPM_EMPTY || extent_at(entry) == 0) return true;
    struct file f = file_from(entry[0], entry + 1);
    return any_entry(d, &f, 0, ENTRIES);
}

static bool good_length(size_t len) {
    return len % BLOCK == 0 && len / BLOCK >= MIN_BLOCKS && len / BLOCK <= MAX_BLOCKS;
}

static uint32_t told(uint32_t code, size_t e) { return code + 256u * (uint32_t)e; }

static uint32_t check_directory(const struct drive *d) {
    bool seen[MAX_BLOCKS] = {false};
    for (size_t e = 0; e < ENTRIES; e++) {
        uint32_t fault = fault_of(d, e, seen);
        if (fault != MPM_CHECK_SOUND) return told(fault, e);
    }
    for (size_t e = 0; e < ENTRIES; e++)
        if (!is_begun(d, e)) return told(MPM_CHECK_NO_EXTENT_0, e);
    return MPM_CHECK_SOUND;
}

static uint32_t check_drive(const struct drive *d, size_t len) {
    return good_length(len) ? check_directory(d) : MPM_CHECK_WRONG_LENGTH;
}

/* ---- Salvage ---- */

static void empty_entry(const struct drive *d, size_t e, uint8_t *report) {
    entry_at(d, e)[0] = MPM_EMPTY;
    report[e] = MPM_SALVAGE_EMPTIED;
}

static bool is_earlier_extent(const struct drive *d, size_t e) {
    const uint8_t *entry = entry_at(d, e);
    struct file f = file_from(entry[0], entry + 1);
    return any_entry(d, &f, extent_at(entry), e);
}

/* Whether an entry stays after the first pass. Those before it that do not are empty by now. */
static bool stays(const struct drive *d, size_t e) {
    const uint8_t *entry = entry_at(d, e);
    if (entry[0] == MPM_EMPTY) return true;
    return entry[0] <= 15 && legal_name(entry + 1) && good_numbers(d, entry) && !is_earlier_extent(d, e);
}

static uint8_t zero_numbers(const struct drive *d, uint8_t *entry, bool seen[MAX_BLOCKS]) {
    uint8_t zeroed = 0;
    for (size_t k = 0; k < MAP; k++) {
        size_t b = number_at(entry, k);
        if (b == 0) continue;
        if (b < 2 || b >= d->blocks || seen[b]) {
            set_number(entry, k, 0);
            zeroed++;
        } else {
            seen[b] = true;
        }
    }
    return zeroed;
}

static void salvage_directory(const struct drive *d, uint8_t *report) {
    bool seen[MAX_BLOCKS] = {false};
    memset(report, MPM_SALVAGE_UNTOUCHED, ENTRIES);
    for (size_t e = 0; e < ENTRIES; e++)
        if (!stays(d, e)) empty_entry(d, e, report);
    for (size_t e = 0; e < ENTRIES; e++)
        if (!is_begun(d, e)) empty_entry(d, e, report);
    for (size_t e = 0; e < ENTRIES; e++)
        if (entry_at(d, e)[0] != MPM_EMPTY) report[e] = zero_numbers(d, entry_at(d, e), seen);
}

/* ---- Two images of one book ---- */

static bool same_attributes(const uint8_t *a, const uint8_t *b) {
    for (size_t i = 1; i <= NAME; i++)
        if ((a[i] ^ b[i]) & 0x80) return false;
    return true;
}

/* An entry's blocks are there in the other image, and with the same bytes. */
static bool same_blocks(const struct drive *one, const uint8_t *entry, const struct drive *other, size_t e) {
    for (size_t k = 0; k < MAP; k++) {
        size_t b = number_at(entry, k), c = e < ENTRIES ? number_at(entry_at(other, e), k) : 0;
        if (b == 0) continue;
        if (c == 0 || memcmp(one->bytes + BLOCK * b, other->bytes + BLOCK * c, BLOCK) != 0) return false;
    }
    return true;
}

/* Whatever one image has, the other has too. */
static bool has_all(const struct drive *other, const struct drive *one) {
    for (size_t e = 0; e < ENTRIES; e++) {
        const uint8_t *entry = entry_at(one, e);
        if (entry[0] == MPM_EMPTY) continue;
        struct file f = file_from(entry[0], entry + 1);
        size_t first = entry_of(other, &f, 0);
        if (first == ENTRIES) return false;
        if (extent_at(entry) == 0 && !same_attributes(entry, entry_at(other, first))) return false;
        if (!same_blocks(one, entry, other, entry_of(other, &f, extent_at(entry)))) return false;
    }
    return true;
}

/* ---- The list, packed and unpacked ---- */

static uint8_t kind_of(const uint8_t *mark) {
    if (mark[0] == 0x4F && mark[1] == 0x46) return OPEN;
    if (mark[0] == 0x4C && mark[1] == 0x52) return LOCK;
    return mark[0] == 0 && mark[1] == 0 ? EMPTY : NO_MARK;
}

static void unpack(struct locks *l, const uint8_t *list) {
    l->capacity = list[0];
    l->open_limit = list[1];
    l->lock_limit = list[2];
    memcpy(l->users, list + 3, MPM_PROCESSES);
    memcpy(l->positions, list + POSITIONS, MPM_PROCESSES);
    l->rule = list[RULE];
    for (size_t i = 0; i < PLACES; i++) {
        const uint8_t *place = list + HEAD + PLACE * i;
        struct item *it = &l->items[i];
        it->kind = kind_of(place);
        it->process = place[2];
        memcpy(it->name, place + 3, NAME);
        it->mode = place[14];
        it->record = place[16] + 256u * place[17] + 65536u * place[18] + 16777216u * place[19];
    }
}

static void pack(const struct locks *l, uint8_t *list) {
    static const uint8_t marks[][2] = {{0, 0}, {0x4F, 0x46}, {0x4C, 0x52}};
    list[0] = l->capacity;
    list[1] = l->open_limit;
    list[2] = l->lock_limit;
    memcpy(list + 3, l->users, MPM_PROCESSES);
    memcpy(list + POSITIONS, l->positions, MPM_PROCESSES);
    list[RULE] = l->rule;
    for (size_t i = 0; i < PLACES; i++) {
        uint8_t *place = list + HEAD + PLACE * i;
        const struct item *it = &l->items[i];
        memcpy(place, marks[it->kind], 2);
        place[2] = it->process;
        memcpy(place + 3, it->name, NAME);
        place[14] = it->mode;
        place[15] = 0;
        place[16] = (uint8_t)it->record;
        place[17] = (uint8_t)(it->record >> 8);
        place[18] = (uint8_t)(it->record >> 16);
        place[19] = (uint8_t)(it->record >> 24);
    }
}

static struct file file_of(const struct locks *l, const struct item *it) {
    struct file f = {l->users[it->process], {0}};
    memcpy(f.name, it->name, NAME);
    return f;
}

static bool is_on(const struct locks *l, const struct item *it, const struct file *f) {
    return l->users[it->process] == f->user && same_name(it->name, f->name);
}

/* ---- The list check ---- */

static bool is_limit(uint8_t n) { return n >= 1 && n <= 64; }

static bool all_zero(const uint8_t *list) {
    for (size_t i = 0; i < PLACES; i++)
        if (list[HEAD + PLACE * i + 15] != 0) return false;
    return true;
}

static bool good_empty(const struct item *it) {
    static const uint8_t zeros[NAME];
    return it->process == 0 && same_name(it->name, zeros) && it->mode == 0 && it->record == 0;
}

static bool low_name(const uint8_t *name) {
    for (size_t k = 0; k < NAME; k++)
        if (name[k] >= 128) return false;
    return true;
}

static bool item_alone(const struct drive *d, const struct locks *l, const struct item *it) {
    if (it->process > 15 || !legal_name(it->name) || !low_name(it->name) || it->record > d->last_record) return false;
    struct file f = file_of(l, it);
    if (it->kind == OPEN) return it->mode <= READ_ONLY && it->record == 0 && entry_of(d, &f, 0) < ENTRIES;
    return it->mode == UNLOCKED && block_of(d, &f, it->record) != 0;
}

static bool place_alone(const struct drive *d, const struct locks *l, size_t i) {
    const struct item *it = &l->items[i];
    if (it->kind == EMPTY) return good_empty(it);
    return i < l->capacity && it->kind != NO_MARK && item_alone(d, l, it);
}

static size_t open_of(const struct locks *l, uint8_t process, const uint8_t *name) {
    size_t i = 0;
    for (; i < PLACES; i++) {
        const struct item *it = &l->items[i];
        if (it->kind == OPEN && it->process == process && same_name(it->name, name)) break;
    }
    return i;
}

static bool is_opened_unlocked(const struct locks *l, const struct item *it) {
    size_t o = open_of(l, it->process, it->name);
    return o < PLACES && l->items[o].mode == UNLOCKED;
}

static bool all_good(const struct drive *d, const struct locks *l) {
    for (size_t i = 0; i < PLACES; i++)
        if (!place_alone(d, l, i)) return false;
    for (size_t i = 0; i < PLACES; i++)
        if (l->items[i].kind == LOCK && !is_opened_unlocked(l, &l->items[i])) return false;
    return true;
}

static bool stand_beside(const struct item *a, const struct item *b) {
    return a->process != b->process && a->mode == b->mode && a->mode != LOCKED;
}

static bool clash(const struct locks *l, const struct item *a, const struct item *b) {
    bool opens = a->kind == OPEN && b->kind == OPEN && !stand_beside(a, b);
    bool both = a->kind == LOCK && b->kind == LOCK && a->record == b->record;
    return (opens || both) && l->users[a->process] == l->users[b->process] && same_name(a->name, b->name);
}

static bool all_apart(const struct locks *l) {
    for (size_t i = 0; i < PLACES; i++) {
        if (l->items[i].kind == EMPTY) continue;
        for (size_t j = 0; j < i; j++)
            if (clash(l, &l->items[i], &l->items[j])) return false;
    }
    return true;
}

static bool all_keep(const struct locks *l, uint8_t kind, uint8_t most) {
    uint8_t counts[MPM_PROCESSES] = {0};
    for (size_t i = 0; i < PLACES; i++)
        if (l->items[i].kind == kind) counts[l->items[i].process]++;
    for (size_t p = 0; p < MPM_PROCESSES; p++)
        if (counts[p] > most) return false;
    return true;
}

static bool sound_locks(const struct drive *d, const struct locks *l) {
    if (!is_limit(l->capacity) || !is_limit(l->open_limit) || !is_limit(l->lock_limit)) return false;
    for (size_t p = 0; p < MPM_PROCESSES; p++)
        if (l->users[p] > 15 || l->positions[p] > ENTRIES) return false;
    if (l->rule > 1) return false;
    return all_good(d, l) && all_apart(l) && all_keep(l, OPEN, l->open_limit) && all_keep(l, LOCK, l->lock_limit);
}

/* ---- Packing ---- */

static bool any_item_open(const struct locks *l) {
    for (size_t i = 0; i < PLACES; i++)
        if (l->items[i].kind == OPEN) return true;
    return false;
}

/* An entry is copied with its blocks, which get the next numbers. Gives the next one after them. */
static size_t pack_entry(const struct drive *d, const uint8_t *old, uint8_t *new, uint8_t *packed, size_t next) {
    memcpy(new, old, ENTRY);
    for (size_t k = 0; k < MAP; k++) {
        size_t b = number_at(old, k);
        if (b == 0) continue;
        memcpy(packed + BLOCK * next, d->bytes + BLOCK * b, BLOCK);
        set_number(new, k, next++);
    }
    return next;
}

static void pack_drive(const struct drive *d, uint8_t *packed) {
    size_t to = 0, next = 2;
    memset(packed, MPM_EMPTY, ENTRY * ENTRIES);
    for (size_t e = 0; e < ENTRIES; e++)
        if (entry_at(d, e)[0] != MPM_EMPTY) next = pack_entry(d, entry_at(d, e), packed + ENTRY * to++, packed, next);
    memset(packed + BLOCK * next, 0, BLOCK * (d->blocks - next));
}

/* ---- Asking the list ---- */

static bool any_open(const struct locks *l, const struct file *f) {
    for (size_t i = 0; i < PLACES; i++)
        if (l->items[i].kind == OPEN && is_on(l, &l->items[i], f)) return true;
    return false;
}

static bool open_by_other(const struct job *j) {
    for (size_t i = 0; i < PLACES; i++) {
        const struct item *it = &j->locks.items[i];
        if (it->kind == OPEN && it->process != j->process && is_on(&j->locks, it, &j->file)) return true;
    }
    return false;
}

static bool any_against(const struct job *j, uint8_t mode) {
    for (size_t i = 0; i < PLACES; i++) {
        const struct item *it = &j->locks.items[i];
        if (it->kind == OPEN && is_on(&j->locks, it, &j->file) && it->process != j->process &&
            (mode == LOCKED || it->mode != mode))
            return true;
    }
    return false;
}

static bool locks_record(const struct job *j, const struct item *it, uint32_t record) {
    return it->kind == LOCK && it->record == record && is_on(&j->locks, it, &j->file);
}

static bool locked_by_other(const struct job *j, uint32_t record) {
    for (size_t i = 0; i < PLACES; i++) {
        const struct item *it = &j->locks.items[i];
        if (it->process != j->process && locks_record(j, it, record)) return true;
    }
    return false;
}

/* The same of a run in one pass: a bit for each of its records, the lowest for the first. */
static uint32_t locked_in_run(const struct job *j, uint32_t record) {
    uint32_t locked = 0;
    for (size_t i = 0; i < PLACES; i++) {
        const struct item *it = &j->locks.items[i];
        if (it->kind == LOCK && it->process != j->process && it->record >= record && it->record - record < j->count &&
            is_on(&j->locks, it, &j->file))
            locked |= 1u << (it->record - record);
    }
    return locked;
}

static bool held(const struct job *j, uint32_t record) {
    for (size_t i = 0; i < PLACES; i++) {
        const struct item *it = &j->locks.items[i];
        if (it->process == j->process && locks_record(j, it, record)) return true;
    }
    return false;
}

static size_t kinds_by(const struct job *j, uint8_t kind) {
    size_t n = 0;
    for (size_t i = 0; i < PLACES; i++) n += j->locks.items[i].kind == kind && j->locks.items[i].process == j->process;
    return n;
}

static size_t free_place(const struct locks *l) {
    size_t i = 0;
    while (i < l->capacity && l->items[i].kind != EMPTY) i++;
    return i;
}

static size_t free_places(const struct locks *l) {
    size_t n = 0;
    for (size_t i = 0; i < l->capacity; i++) n += l->items[i].kind == EMPTY;
    return n;
}

static size_t own_open(const struct job *j) { return open_of(&j->locks, j->process, j->file.name); }

static void place(struct job *j, uint8_t kind, uint8_t mode, uint32_t record) {
    struct item *it = &j->locks.items[free_place(&j->locks)];
    it->kind = kind;
    it->process = j->process;
    memcpy(it->name, j->file.name, NAME);
    it->mode = mode;
    it->record = record;
}

static void take_away(struct item *it) { memset(it, 0, sizeof *it); }

/* ---- Files ---- */

static void set_fcb(const struct job *j, size_t e, uint8_t mode, size_t o) {
    memset(j->fcb + 12, 0, 3);
    memcpy(j->fcb + 15, entry_at(&j->drive, e) + 15, 17);
    if (mode != UNLOCKED) return;
    j->fcb[33] = (uint8_t)o;
    j->fcb[34] = 0;
    j->fcb[35] = 0;
}

static uint32_t open_new(struct job *j, size_t e, uint8_t mode) {
    set_fcb(j, e, mode, free_place(&j->locks));
    place(j, OPEN, mode, 0);
    pack(&j->locks, j->list);
    return MPM_OK;
}

static uint32_t open_file(struct job *j) {
    uint8_t mode = j->fcb[6] >= 128 ? READ_ONLY : j->fcb[5] >= 128 ? UNLOCKED : LOCKED;
    if (!legal_name(j->fcb + 1)) return MPM_ERR_BAD_NAME;
    size_t e = entry_of(&j->drive, &j->file, 0);
    if (e == ENTRIES) return MPM_ERR_NOT_FOUND;
    size_t o = own_open(j);
    if (o < PLACES) {
        if (j->locks.items[o].mode != mode) return MPM_ERR_IN_USE;
        set_fcb(j, e, mode, o);
        return MPM_OK;
    }
    if (any_against(j, mode)) return MPM_ERR_IN_USE;
    if (kinds_by(j, OPEN) >= j->locks.open_limit) return MPM_ERR_OPEN_LIMIT;
    if (free_place(&j->locks) >= j->locks.capacity) return MPM_ERR_OPEN_LIST_FULL;
    return open_new(j, e, mode);
}

static uint32_t make_file(struct job *j) {
    if (!legal_name(j->fcb + 1)) return MPM_ERR_BAD_NAME;
    if (entry_of(&j->drive, &j->file, 0) < ENTRIES) return MPM_ERR_EXISTS;
    if (kinds_by(j, OPEN) >= j->locks.open_limit) return MPM_ERR_OPEN_LIMIT;
    if (free_place(&j->locks) >= j->locks.capacity) return MPM_ERR_OPEN_LIST_FULL;
    size_t e = free_entry(&j->drive);
    if (e == ENTRIES) return MPM_ERR_NO_EMPTY_ENTRY;
    uint8_t *entry = entry_at(&j->drive, e);
    memset(entry, 0, ENTRY);
    entry[0] = j->file.user;
    memcpy(entry + 1, j->file.name, NAME);
    return open_new(j, e, j->fcb[5] >= 128 ? UNLOCKED : LOCKED);
}

/* The caller's open of the file and its locks on it. */
static void give_up_file(struct job *j) {
    for (size_t i = 0; i < PLACES; i++) {
        struct item *it = &j->locks.items[i];
        if (it->kind != EMPTY && it->process == j->process && same_name(it->name, j->file.name)) take_away(it);
    }
    pack(&j->locks, j->list);
}

static uint32_t close_file(struct job *j) {
    if (own_open(j) == PLACES) return MPM_ERR_CLOSE_NOT_OPEN;
    give_up_file(j);
    return MPM_OK;
}

static uint32_t delete_file(struct job *j) {
    if (!legal_name(j->fcb + 1)) return MPM_ERR_BAD_NAME;
    size_t e = entry_of(&j->drive, &j->file, 0);
    if (e == ENTRIES) return MPM_ERR_NOT_FOUND;
    if (open_by_other(j)) return MPM_ERR_IN_USE;
    if (entry_at(&j->drive, e)[9] >= 128) return MPM_ERR_READ_ONLY;
    for (e = 0; e < ENTRIES; e++) {
        uint8_t *entry = entry_at(&j->drive, e);
        if (!is_of(entry, &j->file)) continue;
        give_blocks_back(&j->drive, entry);
        entry[0] = MPM_EMPTY;
    }
    if (own_open(j) != PLACES) give_up_file(j);
    return MPM_OK;
}

static uint32_t file_size(struct job *j) {
    if (!legal_name(j->fcb + 1)) return MPM_ERR_BAD_NAME;
    const uint8_t *highest = 0;
    for (size_t e = 0; e < ENTRIES; e++) {
        const uint8_t *entry = entry_at(&j->drive, e);
        if (is_of(entry, &j->file) && (!highest || extent_at(entry) > extent_at(highest))) highest = entry;
    }
    if (!highest) return MPM_ERR_NOT_FOUND;
    uint32_t records = 128 * extent_at(highest) + highest[15];
    j->fcb[33] = (uint8_t)records;
    j->fcb[34] = (uint8_t)(records >> 8);
    j->fcb[35] = (uint8_t)(records >> 16);
    return MPM_OK;
}

/* ---- Searching ---- */

static bool is_asked(const uint8_t *fcb, const uint8_t *name) {
    for (size_t k = 0; k < NAME; k++) {
        uint8_t asked = fcb[1 + k] & 0x7F;
        if (asked != '?' && asked != (name[k] & 0x7F)) return false;
    }
    return true;
}

static bool is_found(const struct job *j, const uint8_t *entry) {
    if (entry[0] == MPM_EMPTY || entry[0] != j->file.user) return false;
    return (j->fcb[12] == '?' || extent_at(entry) == 0) && is_asked(j->fcb, entry + 1);
}

static uint32_t search(struct job *j, size_t e) {
    while (e < ENTRIES && !is_found(j, entry_at(&j->drive, e))) e++;
    j->list[POSITIONS + j->process] = (uint8_t)(e < ENTRIES ? e + 1 : ENTRIES);
    if (e == ENTRIES) return MPM_NO_MATCH;
    memcpy(j->dma, entry_at(&j->drive, e - e % 4), 128);
    return MPM_FOUND((uint32_t)e % 4);
}

static void rename_entry(uint8_t *entry, const uint8_t *name) {
    for (size_t k = 0; k < NAME; k++) entry[1 + k] = (uint8_t)((entry[1 + k] & 0x80) | name[k]);
}

static uint32_t rename_file(struct job *j) {
    if (!legal_name(j->fcb + 1) || !legal_name(j->fcb + 17)) return MPM_ERR_BAD_NAME;
    struct file new = file_from(j->file.user, j->fcb + 17);
    size_t e = entry_of(&j->drive, &j->file, 0);
    if (e == ENTRIES) return MPM_ERR_NOT_FOUND;
    if (any_open(&j->locks, &j->file)) return MPM_ERR_IN_USE;
    if (entry_at(&j->drive, e)[9] >= 128) return MPM_ERR_READ_ONLY;
    if (entry_of(&j->drive, &new, 0) < ENTRIES) return MPM_ERR_EXISTS;
    for (e = 0; e < ENTRIES; e++)
        if (is_of(entry_at(&j->drive, e), &j->file)) rename_entry(entry_at(&j->drive, e), new.name);
    return MPM_OK;
}

/* ---- Records ---- */

static uint32_t record_of(const struct job *j) { return j->fcb[33] + 256u * j->fcb[34] + 65536u * j->fcb[35]; }

static uint8_t *record_at(const struct job *j, size_t block, uint32_t record) {
    return j->drive.bytes + BLOCK * block + MPM_RECORD_LEN * (record % BLOCK_RECORDS);
}

/* The answer where a record was refused after so many. */
static uint32_t stopped(uint32_t refused, uint32_t done) { return refused + MPM_ANSWER(0u, 16u) * done; }

/* The entry for record k of a run: that of the record before it, unless it is the first, or the first of its extent. */
static size_t entry_in_run(const struct job *j, uint32_t record, uint32_t k, size_t before) {
    if (k > 0 && (record + k) % 128 > 0) return before;
    return entry_of(&j->drive, &j->file, (record + k) / 128);
}

static uint32_t read_at(const struct job *j, size_t e, uint32_t record, uint8_t *to) {
    if (record > j->drive.last_record) return MPM_ERR_PAST_END;
    if (e == ENTRIES) return MPM_ERR_NO_EXTENT;
    size_t block = block_in(&j->drive, e, record);
    if (block == 0) return MPM_ERR_NO_BLOCK;
    memcpy(to, record_at(j, block, record), MPM_RECORD_LEN);
    return MPM_OK;
}

static uint32_t read_records(struct job *j) {
    uint32_t record = record_of(j);
    if (own_open(j) == PLACES) return MPM_ERR_NOT_OPEN;
    size_t e = ENTRIES;
    for (uint32_t k = 0; k < j->count; k++) {
        e = entry_in_run(j, record, k, e);
        uint32_t refused = read_at(j, e, record + k, j->dma + MPM_DMA_AT(k));
        if (refused != MPM_OK) return stopped(refused, k);
    }
    return MPM_OK;
}

/* The refusals that 34, 40 and 41 share and that do not depend on the record. */
static uint32_t may_write(const struct job *j, size_t first) {
    size_t o = own_open(j);
    if (o == PLACES) return MPM_ERR_NOT_OPEN;
    return entry_at(&j->drive, first)[9] >= 128 || j->locks.items[o].mode == READ_ONLY ? MPM_ERR_READ_ONLY : MPM_OK;
}

static void raise_count(uint8_t *entry, uint32_t record) {
    uint8_t count = (uint8_t)(record % 128 + 1);
    if (entry[15] < count) entry[15] = count;
}

static struct spot spot_at(const struct drive *d, size_t e, uint32_t record) {
    struct spot w = {e, e == ENTRIES, block_in(d, e, record), false};
    if (w.fresh) w.entry = free_entry(d);
    w.taken = w.block == 0;
    if (w.taken) w.block = free_block(d);
    return w;
}

static void fill_spot(const struct job *j, const struct spot *w, size_t first, uint32_t record, bool zeros) {
    uint8_t *entry = entry_at(&j->drive, w->entry);
    if (w->fresh) {
        memset(entry, 0, ENTRY);
        entry[0] = j->file.user;
        memcpy(entry + 1, entry_at(&j->drive, first) + 1, NAME);
        entry[12] = (uint8_t)(record / 128 % 32);
        entry[14] = (uint8_t)(record / 128 / 32);
    }
    if (w->taken) {
        set_number(entry, number_of(record), w->block);
        j->drive.vector[w->block / 8] |= bit_of(w->block);
    }
    raise_count(entry, record);
    if (zeros && w->taken) memset(j->drive.bytes + BLOCK * w->block, 0, BLOCK);
}

/* Writes a record that nobody else has locked. *e is its extent's entry, afterwards also where it took a new one. */
static uint32_t write_at(const struct job *j, size_t first, size_t *e, uint32_t record, const uint8_t *from,
                         bool zeros) {
    struct spot w = spot_at(&j->drive, *e, record);
    if (w.entry == ENTRIES) return MPM_ERR_DIRECTORY_FULL;
    if (w.block == j->drive.blocks) return MPM_ERR_DISK_FULL;
    fill_spot(j, &w, first, record, zeros);
    memcpy(record_at(j, w.block, record), from, MPM_RECORD_LEN);
    *e = w.entry;
    return MPM_OK;
}

static uint32_t write_records(struct job *j, bool zeros) {
    uint32_t record = record_of(j);
    size_t first = entry_of(&j->drive, &j->file, 0);
    uint32_t refused = may_write(j, first);
    if (refused != MPM_OK) return refused;
    uint32_t locked = locked_in_run(j, record);
    size_t e = ENTRIES;
    for (uint32_t k = 0; k < j->count; k++) {
        if (record + k > j->drive.last_record) return stopped(MPM_ERR_PAST_END, k);
        if (locked >> k & 1u) return stopped(MPM_ERR_LOCKED, k);
        e = entry_in_run(j, record, k, e);
        refused = write_at(j, first, &e, record + k, j->dma + MPM_DMA_AT(k), zeros);
        if (refused != MPM_OK) return stopped(refused, k);
    }
    return MPM_OK;
}

static uint32_t test_write(struct job *j) {
    uint32_t record = record_of(j);
    uint32_t refused = may_write(j, entry_of(&j->drive, &j->file, 0));
    if (refused != MPM_OK) return refused;
    if (record > j->drive.last_record) return MPM_ERR_PAST_END;
    if (locked_by_other(j, record)) return MPM_ERR_LOCKED;
    size_t e = entry_of(&j->drive, &j->file, record / 128);
    if (e == ENTRIES) return MPM_ERR_NO_EXTENT;
    size_t block = block_in(&j->drive, e, record);
    if (block == 0) return MPM_ERR_NO_BLOCK;
    if (memcmp(j->dma, record_at(j, block, record), MPM_RECORD_LEN) != 0) return MPM_ERR_DIFFERS;
    raise_count(entry_at(&j->drive, e), record);
    memcpy(record_at(j, block, record), j->dma + MPM_DMA_NEW, MPM_RECORD_LEN);
    return MPM_OK;
}

static uint32_t free_space(struct job *j) {
    size_t records = BLOCK_RECORDS * free_blocks(&j->drive);
    j->dma[0] = (uint8_t)records;
    j->dma[1] = (uint8_t)(records >> 8);
    j->dma[2] = (uint8_t)(records >> 16);
    return MPM_OK;
}

/* ---- Locks ---- */

static uint32_t lacking(const struct job *j, uint32_t record) {
    for (uint32_t k = 0; k < j->count; k++) {
        size_t e = entry_of(&j->drive, &j->file, (record + k) / 128);
        if (e == ENTRIES) return MPM_ERR_NO_EXTENT;
        if (block_in(&j->drive, e, record + k) == 0) return MPM_ERR_NO_BLOCK;
    }
    return MPM_OK;
}

static uint32_t not_to_take(const struct job *j, uint32_t record) {
    for (uint32_t k = 0; k < j->count; k++)
        if (locked_by_other(j, record + k)) return MPM_ERR_LOCKED;
    if (kinds_by(j, LOCK) + j->count > j->locks.lock_limit) return MPM_ERR_LOCK_LIMIT;
    size_t fresh = 0;
    for (uint32_t k = 0; k < j->count; k++) fresh += !held(j, record + k);
    return free_places(&j->locks) < fresh ? MPM_ERR_LOCK_LIST_FULL : MPM_OK;
}

/* The refusals that 42 and 43 share; *done where the mode has no locks. */
static uint32_t may_lock(const struct job *j, uint32_t record, bool *done) {
    size_t o = own_open(j);
    if (o == PLACES) return MPM_ERR_NOT_OPEN;
    *done = j->locks.items[o].mode != UNLOCKED;
    if (*done) return MPM_OK;
    if (j->dma[0] != o || j->dma[1] != 0) return MPM_ERR_BAD_FILE_ID;
    return record + j->count - 1 > j->drive.last_record ? MPM_ERR_PAST_END : MPM_OK;
}

static uint32_t lock_records(struct job *j) {
    uint32_t record = record_of(j);
    bool done = false;
    uint32_t refused = may_lock(j, record, &done);
    if (refused != MPM_OK || done) return refused;
    refused = lacking(j, record);
    if (refused == MPM_OK) refused = not_to_take(j, record);
    if (refused != MPM_OK) return refused;
    for (uint32_t k = 0; k < j->count; k++)
        if (!held(j, record + k)) place(j, LOCK, UNLOCKED, record + k);
    pack(&j->locks, j->list);
    return MPM_OK;
}

static uint32_t unlock_records(struct job *j) {
    uint32_t record = record_of(j);
    bool done = false;
    uint32_t refused = may_lock(j, record, &done);
    if (refused != MPM_OK || done) return refused;
    for (size_t i = 0; i < PLACES; i++) {
        struct item *it = &j->locks.items[i];
        if (it->kind == LOCK && it->record >= record && it->record - record < j->count && it->process == j->process &&
            same_name(it->name, j->file.name))
            take_away(it);
    }
    pack(&j->locks, j->list);
    return MPM_OK;
}

static uint32_t terminate(struct job *j) {
    for (size_t i = 0; i < PLACES; i++)
        if (j->locks.items[i].process == j->process) take_away(&j->locks.items[i]);
    j->locks.positions[j->process] = ENTRIES;
    pack(&j->locks, j->list);
    return MPM_OK;
}

/* ---- The call ---- */

static bool is_known(uint32_t function) {
    switch (function) {
    case MPM_FN_OPEN:
    case MPM_FN_CLOSE:
    case MPM_FN_SEARCH_FIRST:
    case MPM_FN_SEARCH_NEXT:
    case MPM_FN_DELETE:
    case MPM_FN_MAKE:
    case MPM_FN_RENAME:
    case MPM_FN_READ:
    case MPM_FN_WRITE:
    case MPM_FN_SIZE:
    case MPM_FN_WRITE_ZEROS:
    case MPM_FN_TEST_WRITE:
    case MPM_FN_LOCK:
    case MPM_FN_UNLOCK:
    case MPM_FN_FREE_SPACE:
    case MPM_FN_TERMINATE:
        return true;
    default:
        return false;
    }
}

static bool reads_drive(uint32_t function) { return function != MPM_FN_FREE_SPACE && function != MPM_FN_TERMINATE; }

static uint32_t serve(uint32_t function, struct job *j) {
    switch (function) {
    case MPM_FN_OPEN:
        return open_file(j);
    case MPM_FN_CLOSE:
        return close_file(j);
    case MPM_FN_SEARCH_FIRST:
        return search(j, 0);
    case MPM_FN_SEARCH_NEXT:
        return search(j, j->locks.positions[j->process]);
    case MPM_FN_DELETE:
        return delete_file(j);
    case MPM_FN_MAKE:
        return make_file(j);
    case MPM_FN_RENAME:
        return rename_file(j);
    case MPM_FN_READ:
        return read_records(j);
    case MPM_FN_WRITE:
        return write_records(j, false);
    case MPM_FN_SIZE:
        return file_size(j);
    case MPM_FN_WRITE_ZEROS:
        return write_records(j, true);
    case MPM_FN_TEST_WRITE:
        return test_write(j);
    case MPM_FN_LOCK:
        return lock_records(j);
    case MPM_FN_UNLOCK:
        return unlock_records(j);
    case MPM_FN_FREE_SPACE:
        return free_space(j);
    default:
        return terminate(j);
    }
}

/* Every number but 1 is the rule of MP/M II. */
static uint32_t last_record_of(uint32_t rule) { return mpm_records(rule) - 1; }

/* A drive of which no vector is asked. */
static struct drive read_drive(uint32_t rule, uint8_t *image, size_t image_len) {
    struct drive d = {image, image_len / BLOCK, 0, last_record_of(rule)};
    return d;
}

#define NAMED_OF(what, kind) plain_##what##_##kind
#define NAMED(what, kind) NAMED_OF(what, kind)

uint32_t NAMED(check, KIND)(uint32_t rule, uint8_t *image, size_t image_len) {
    struct drive d = read_drive(rule, image, image_len);
    return check_drive(&d, image_len);
}

uint32_t NAMED(vector, KIND)(uint32_t rule, uint8_t *image, size_t image_len, uint8_t *vector, size_t vector_len) {
    struct drive d = read_drive(rule, image, image_len);
    if (vector_len != VECTOR) return MPM_ERR_BAD_CALL;
    if (check_drive(&d, image_len) != MPM_CHECK_SOUND) return MPM_ERR_BAD_IMAGE;
    build_vector(&d, vector);
    return MPM_OK;
}

uint32_t NAMED(salvage, KIND)(uint32_t rule, uint8_t *image, size_t image_len, uint8_t *report, size_t report_len) {
    struct drive d = read_drive(rule, image, image_len);
    if (!good_length(image_len)) return MPM_SALVAGE_WRONG_LENGTH;
    if (report_len != ENTRIES) return MPM_SALVAGE_WRONG_REPORT;
    salvage_directory(&d, report);
    return MPM_SALVAGE_DONE;
}

uint32_t NAMED(pack, KIND)(uint8_t *image, size_t image_len, const uint8_t *list, size_t list_len, uint8_t *packed,
                           size_t packed_len) {
    struct locks l;
    if (list_len != MPM_LIST_LEN || packed_len != image_len) return MPM_ERR_BAD_CALL;
    struct drive d = read_drive(list[RULE], image, image_len);
    if (check_drive(&d, image_len) != MPM_CHECK_SOUND) return MPM_ERR_BAD_IMAGE;
    if (!all_zero(list)) return MPM_ERR_BAD_LIST;
    unpack(&l, list);
    if (!sound_locks(&d, &l)) return MPM_ERR_BAD_LIST;
    if (any_item_open(&l)) return MPM_ERR_IN_USE;
    pack_drive(&d, packed);
    return MPM_OK;
}

uint32_t NAMED(same, KIND)(uint8_t *first, size_t first_len, uint8_t *second, size_t second_len) {
    struct drive one = read_drive(MPM_RULE_MPM, first, first_len);
    struct drive other = read_drive(MPM_RULE_MPM, second, second_len);
    if (check_drive(&one, first_len) != MPM_CHECK_SOUND) return MPM_SAME_BAD_FIRST;
    if (check_drive(&other, second_len) != MPM_CHECK_SOUND) return MPM_SAME_BAD_SECOND;
    return has_all(&other, &one) && has_all(&one, &other) ? MPM_SAME_BOOK : MPM_SAME_DIFFERENT;
}

/* Where a record begins, or 0; the image is sound. */
uint32_t NAMED(look, KIND)(uint32_t rule, uint32_t user, const uint8_t *name, uint32_t record, uint8_t *image,
                           size_t image_len) {
    struct drive d = read_drive(rule, image, image_len);
    struct file f = file_from((uint8_t)user, name);
    if (user > 15 || !legal_name(name) || record > d.last_record) return 0;
    return (uint32_t)(BLOCK * block_of(&d, &f, record)) +
           (block_of(&d, &f, record) != 0 ? MPM_RECORD_LEN * (record % BLOCK_RECORDS) : 0);
}

uint32_t NAMED(call, KIND)(uint32_t function, uint32_t process, uint32_t count, uint8_t *fcb, size_t fcb_len,
                           uint8_t *dma, size_t dma_len, uint8_t *list, size_t list_len, uint8_t *image,
                           size_t image_len, uint8_t *vector, size_t vector_len) {
    if (!is_known(function) || process > 15 || count < 1 || count > 16) return MPM_ERR_BAD_CALL;
    if (fcb_len != MPM_FCB_LEN || dma_len != MPM_DMA_LEN || list_len != MPM_LIST_LEN) return MPM_ERR_BAD_CALL;
    if (vector_len != VECTOR) return MPM_ERR_BAD_CALL;
    struct job j;
    j.drive = (struct drive){image, image_len / BLOCK, vector, last_record_of(list[RULE])};
    if (check_drive(&j.drive, image_len) != MPM_CHECK_SOUND) return MPM_ERR_BAD_IMAGE;
    if (!all_zero(list)) return MPM_ERR_BAD_LIST;
    unpack(&j.locks, list);
    if (!sound_locks(&j.drive, &j.locks)) return MPM_ERR_BAD_LIST;
    if (!agrees(&j.drive)) return MPM_ERR_BAD_VECTOR;
    if (fcb[0] > 1 && reads_drive(function)) return MPM_ERR_BAD_DRIVE;
    j.process = (uint8_t)process;
    j.count = count;
    j.fcb = fcb;
    j.dma = dma;
    j.list = list;
    j.file = file_from(j.locks.users[process], fcb + 1);
    return serve(function, &j);
}
