/* Serves the engine's functions over a pipe: steps come in batches on descriptor 0, replies go
   out on descriptor 1. compare/src/wire.rs has the bytes of steps and replies; a batch is its
   length (4 bytes, low byte first) and then so many bytes of whole steps.

   Every buffer lent to the engine lies in an area of its own between guard bytes. Each call is
   made a second time by mpm_singly, on buffers that the plain side has for itself and that are
   kept as the first ones are; the reply tells where the two have done otherwise.

   An image over 64 KB is compared whole only when a step asks for it. After the others it is
   compared where a right call can change it: in the directory, and in the blocks that entries have
   for the call's records, before the call or after it. compare/src/parts.rs does the same.

   Exit status: 0 at the end of input, 3 for a batch that makes no sense, 4 if writing fails. */

typedef unsigned char u8;
typedef unsigned int u32;
typedef __SIZE_TYPE__ size;
typedef __INTPTR_TYPE__ signed_size;

signed_size read(int, void *, size);
signed_size write(int, const void *, size);
void exit(int) __attribute__((noreturn));
int memcmp(const void *, const void *, size);
void *memcpy(void *, const void *, size);
void *memset(void *, int, size);

u32 mpm_call(u32 kind, u32 function, u32 process, u32 count, u8 *fcb, size fcb_len, u8 *dma,
             size dma_len, u8 *list, size list_len, u8 *image, size image_len, u8 *vector,
             size vector_len);
u32 mpm_singly(u32 kind, u32 function, u32 process, u32 count, u8 *fcb, size fcb_len, u8 *dma,
               size dma_len, u8 *list, size list_len, u8 *image, size image_len, u8 *vector,
               size vector_len);
u32 mpm_vector(u32 kind, u32 rule, const u8 *image, size image_len, u8 *vector, size vector_len);
u32 mpm_start(u32 kind, u32 capacity, u32 open_limit, u32 lock_limit, u32 rule, const u8 *users,
              size users_len, u8 *list, size list_len);
u32 mpm_check(u32 kind, u32 rule, const u8 *image, size image_len);
u32 mpm_look(u32 kind, u32 rule, u32 user, const u8 *name, size name_len, u32 record,
             const u8 *image, size image_len);

enum {
    GUARD = 64,
    MAX_IMAGE = 4098 * 2048,
    MAX_LIST = 4096,
    MAX_VECTOR = 4096,
    MAX_DMA = 4096,
    MAX_SMALL = 1024,
    BATCH = 65536,
    MAX_CHANGES = 4096,
    MAX_CHANGED_BYTES = 8192,
    STRIDE = 256,
    TOO_MANY = 65535,
    SHORT_IMAGE = 64 * 1024,
    LONGEST_DIRECTORY = 4096,
    ENTRY = 32,
    EXTENT_RECORDS = 128,
    MOST_RECORDS = 16,
    RECORD = 128,
    FCB = 36,
    AREAS = 5,
    ANSWER_APART = 1 << AREAS,
    WITHOUT_DONE = 0x0FFF,
    MALFORMED = 3,
    CANNOT_WRITE = 4
};

/* A buffer with room for guard bytes on both sides, what it was before the step, and a second
   such room for the plain side. */
struct area {
    u8 *room;
    u8 *before;
    u8 *plain;
    size limit;
    size length;
};

static u8 small_room[GUARD + MAX_SMALL + GUARD], small_before[MAX_SMALL];
static u8 dma_room[GUARD + MAX_DMA + GUARD], dma_before[MAX_DMA];
static u8 list_room[GUARD + MAX_LIST + GUARD], list_before[MAX_LIST];
static u8 image_room[GUARD + MAX_IMAGE + GUARD], image_before[MAX_IMAGE];
static u8 vector_room[GUARD + MAX_VECTOR + GUARD], vector_before[MAX_VECTOR];

static u8 small_plain[sizeof small_room], dma_plain[sizeof dma_room];
static u8 list_plain[sizeof list_room], image_plain[sizeof image_room];
static u8 vector_plain[sizeof vector_room];

/* The users, the FCB or the name; the DMA; the list; the image; the vector: in the order of a reply. */
static struct area small = {small_room, small_before, small_plain, MAX_SMALL, 0};
static struct area dma = {dma_room, dma_before, dma_plain, MAX_DMA, 0};
static struct area list = {list_room, list_before, list_plain, MAX_LIST, 0};
static struct area image = {image_room, image_before, image_plain, MAX_IMAGE, 0};
static struct area vector = {vector_room, vector_before, vector_plain, MAX_VECTOR, 0};
static struct area *const areas[AREAS] = {&small, &dma, &list, &image, &vector};

static u8 batch[BATCH];
static size batch_length, batch_at;
static u8 out[BATCH];
static size out_length;

static u8 guard_byte(size position) { return (u8)(0x5A ^ (position * 37)); }

static u8 *data(struct area *area) { return area->room + GUARD; }

static u8 *plain(struct area *area) { return area->plain + GUARD; }

static void set_guards_of(u8 *room, size length) {
    u8 *after = room + GUARD + length;
    for (size i = 0; i < GUARD; i++) {
        room[i] = guard_byte(i);
        after[i] = guard_byte(i);
    }
}

static void set_guards(struct area *area) {
    set_guards_of(area->room, area->length);
    set_guards_of(area->plain, area->length);
}

static int guards_hold(const u8 *room, size length) {
    const u8 *after = room + GUARD + length;
    for (size i = 0; i < GUARD; i++)
        if (room[i] != guard_byte(i) || after[i] != guard_byte(i)) return 0;
    return 1;
}

static void resize(struct area *area, size length, u8 fill) {
    if (length > area->limit) exit(MALFORMED);
    if (length > area->length) {
        size more = length - area->length;
        memset(data(area) + area->length, fill, more);
        memset(plain(area) + area->length, fill, more);
        memset(area->before + area->length, fill, more);
    }
    area->length = length;
    set_guards(area);
}

static void patch(struct area *area, size at, const u8 *bytes, size length) {
    if (at > area->length || length > area->length - at) exit(MALFORMED);
    memcpy(data(area) + at, bytes, length);
    memcpy(plain(area) + at, bytes, length);
    memcpy(area->before + at, bytes, length);
}

static void hold(struct area *area, const u8 *bytes, size length) {
    resize(area, length, 0);
    patch(area, 0, bytes, length);
}

static void flush(void) {
    size sent = 0;
    while (sent < out_length) {
        signed_size n = write(1, out + sent, out_length - sent);
        if (n <= 0) exit(CANNOT_WRITE);
        sent += (size)n;
    }
    out_length = 0;
}

static void put(const u8 *bytes, size length) {
    if (length > BATCH - out_length) flush();
    memcpy(out + out_length, bytes, length);
    out_length += length;
}

static void put_number(u32 number, size width) {
    u8 bytes[4];
    for (size i = 0; i < width; i++) bytes[i] = (u8)(number >> (8 * i));
    put(bytes, width);
}

struct change {
    size at;
    size length;
};

static struct change changes[MAX_CHANGES];
static size change_count, changed_bytes;

static void note_change(size at) {
    changed_bytes++;
    if (change_count > 0 && change_count <= MAX_CHANGES) {
        struct change *last = &changes[change_count - 1];
        if (last->at + last->length == at) {
            last->length++;
            return;
        }
    }
    if (change_count < MAX_CHANGES) changes[change_count] = (struct change){at, 1};
    change_count++;
}

/* ---- Which parts of an area are compared, in rising order ---- */

struct part {
    size from;
    size to;
};

/* A run of 16 records meets at most three map places of an entry, before the call and after it. */
enum { MAX_PARTS = 1 + 2 * 3 * LONGEST_DIRECTORY / ENTRY };

static struct part parts[MAX_PARTS];
static size part_count;

static void whole_area(const struct area *area) {
    parts[0] = (struct part){0, area->length};
    part_count = 1;
}

/* Puts a block among the parts unless it is there, lies in the directory or past the image. */
static void add_block(size from, size length) {
    size at = part_count;
    if (from < LONGEST_DIRECTORY || length > image.length || from > image.length - length) return;
    while (at > 0 && parts[at - 1].from > from) at--;
    if (at > 0 && parts[at - 1].from == from) return;
    for (size i = part_count; i > at; i--) parts[i] = parts[i - 1];
    parts[at] = (struct part){from, from + length};
    part_count++;
}

static void add_blocks_of_entry(u32 kind, const u8 *entry, u32 first, u32 end) {
    u32 width = kind == 0 ? 1 : 2, records = kind == 0 ? 8 : 16;
    u32 at = EXTENT_RECORDS * (entry[12] + 32u * entry[14]);
    for (u32 i = 0; i < EXTENT_RECORDS / records; i++, at += records) {
        const u8 *number = entry + 16 + width * i;
        size block = width == 1 ? number[0] : number[0] + 256u * number[1];
        if (at < end && first < at + records) add_block(RECORD * records * block, RECORD * records);
    }
}

static void add_blocks_of_call(u32 kind, u32 count) {
    const u8 *record = data(&small) + 33;
    size directory = kind == 0 ? 2048 : LONGEST_DIRECTORY;
    if (kind > 1 || small.length < FCB) return;
    u32 first = record[0] + 256u * record[1] + 65536u * record[2];
    u32 end = first + (count < MOST_RECORDS ? count : MOST_RECORDS);
    for (size at = 0; at < directory; at += ENTRY) {
        add_blocks_of_entry(kind, image.before + at, first, end);
        add_blocks_of_entry(kind, data(&image) + at, first, end);
    }
}

/* The image's parts after a step that is no call; true if there can be more of them. */
static int beginning_of_image(void) {
    whole_area(&image);
    if (image.length <= SHORT_IMAGE) return 0;
    parts[0].to = LONGEST_DIRECTORY;
    return 1;
}

/* ---- What changed ---- */

static void find_changes_in(const struct area *area, struct part part) {
    const u8 *now = area->room + GUARD;
    for (size from = part.from; from < part.to; from += STRIDE) {
        size to = part.to - from < STRIDE ? part.to : from + STRIDE;
        if (memcmp(area->before + from, now + from, to - from) == 0) continue;
        for (size i = from; i < to; i++)
            if (area->before[i] != now[i]) note_change(i);
    }
}

static void find_changes(const struct area *area) {
    change_count = changed_bytes = 0;
    for (size i = 0; i < part_count; i++) find_changes_in(area, parts[i]);
}

static void put_changes(struct area *area) {
    find_changes(area);
    if (change_count > MAX_CHANGES || changed_bytes > MAX_CHANGED_BYTES) {
        put_number(TOO_MANY, 2);
        memcpy(area->before, data(area), area->length);
        memcpy(plain(area), data(area), area->length);
        return;
    }
    put_number((u32)change_count, 2);
    for (size i = 0; i < change_count; i++) {
        const u8 *bytes = data(area) + changes[i].at;
        put_number((u32)changes[i].at, 4);
        put_number((u32)changes[i].length, 2);
        put(bytes, changes[i].length);
        memcpy(area->before + changes[i].at, bytes, changes[i].length);
        memcpy(plain(area) + changes[i].at, bytes, changes[i].length);
    }
}

/* A bit for each area whose guards were overwritten, and as many more for the plain side's. */
static u32 broken_guards(void) {
    u32 broken = 0;
    for (u32 i = 0; i < AREAS; i++) {
        struct area *area = areas[i];
        if (!guards_hold(area->room, area->length)) broken |= 1u << i;
        if (!guards_hold(area->plain, area->length)) broken |= 1u << (AREAS + i);
        set_guards(area);
    }
    return broken;
}

/* True if the plain side has left other bytes in the parts; it goes on from the engine's. */
static int is_apart(struct area *area) {
    int apart = 0;
    for (size i = 0; i < part_count; i++) {
        size from = parts[i].from, length = parts[i].to - from;
        if (memcmp(plain(area) + from, data(area) + from, length) == 0) continue;
        memcpy(plain(area) + from, data(area) + from, length);
        apart = 1;
    }
    return apart;
}

/* The image's parts, to be taken up when its turn comes. */
static struct part parts_of_image[MAX_PARTS];
static size parts_of_image_count;

static void keep_parts_of_image(void) {
    memcpy(parts_of_image, parts, sizeof parts);
    parts_of_image_count = part_count;
}

/* Sets the parts of an area: those kept of the image, and the whole of every other one. */
static void take_parts(const struct area *area) {
    whole_area(area);
    if (area != &image) return;
    memcpy(parts, parts_of_image, sizeof parts);
    part_count = parts_of_image_count;
}

/* A bit for each area in which the plain side is apart. Called with the image's parts set, and they stay. */
static u32 areas_apart(void) {
    u32 apart = 0;
    keep_parts_of_image();
    for (u32 i = 0; i < AREAS; i++) {
        take_parts(areas[i]);
        if (is_apart(areas[i])) apart |= 1u << i;
    }
    take_parts(&image);
    return apart;
}

/* Called with the image's parts set. */
static void reply_apart(u32 answer, u32 apart, u32 plain_answer) {
    keep_parts_of_image();
    put_number('A', 1);
    put_number(broken_guards(), 2);
    put_number(answer, 4);
    put_number(apart, 1);
    if (apart != 0) put_number(plain_answer, 4);
    for (u32 i = 0; i < AREAS; i++) {
        take_parts(areas[i]);
        put_changes(areas[i]);
    }
}

static void reply(u32 answer) {
    beginning_of_image();
    reply_apart(answer, 0, 0);
}

static const u8 *take(size length) {
    const u8 *bytes = batch + batch_at;
    if (length > batch_length - batch_at) exit(MALFORMED);
    batch_at += length;
    return bytes;
}

static u32 take_number(size width) {
    const u8 *bytes = take(width);
    u32 number = 0;
    for (size i = 0; i < width; i++) number |= (u32)bytes[i] << (8 * i);
    return number;
}

static void take_into(struct area *area) {
    size length = take_number(2);
    hold(area, take(length), length);
}

/* A length, a fill byte and the bytes that stand before those that are all the fill byte. */
static void take_dma(void) {
    size length = take_number(2);
    u8 fill = (u8)take_number(1);
    size told = take_number(2);
    resize(&dma, 0, 0);
    resize(&dma, length, fill);
    patch(&dma, 0, take(told), told);
}

static void serve_resize(struct area *area) {
    size length = take_number(4);
    resize(area, length, (u8)take_number(1));
}

static void serve_patch(struct area *area) {
    size at = take_number(4);
    size length = take_number(2);
    patch(area, at, take(length), length);
}

static void serve_start(void) {
    u32 kind = take_number(4);
    u32 capacity = take_number(4), open_limit = take_number(4), lock_limit = take_number(4);
    u32 rule = take_number(4);
    take_into(&small);
    hold(&dma, batch, 0);
    reply(mpm_start(kind, capacity, open_limit, lock_limit, rule, data(&small), small.length,
                    data(&list), list.length));
}

/* What the plain side must answer: for a run the same but for the records done. */
static u32 wanted_of_plain(u32 function, u32 answer) {
    int is_run = function == 33 || function == 34 || function == 40;
    return is_run ? answer & WITHOUT_DONE : answer;
}

static void serve_call(void) {
    u32 kind = take_number(4);
    u32 function = take_number(4), process = take_number(4), count = take_number(4);
    take_into(&small);
    take_dma();
    u32 answer = mpm_call(kind, function, process, count, data(&small), small.length, data(&dma),
                          dma.length, data(&list), list.length, data(&image), image.length,
                          data(&vector), vector.length);
    u32 singly = mpm_singly(kind, function, process, count, plain(&small), small.length, plain(&dma),
                            dma.length, plain(&list), list.length, plain(&image), image.length,
                            plain(&vector), vector.length);
    if (beginning_of_image()) add_blocks_of_call(kind, count);
    u32 apart = areas_apart();
    if (singly != wanted_of_plain(function, answer)) apart |= ANSWER_APART;
    reply_apart(answer, apart, singly);
}

static void serve_check(void) {
    u32 kind = take_number(4), rule = take_number(4);
    hold(&small, batch, 0);
    hold(&dma, batch, 0);
    reply(mpm_check(kind, rule, data(&image), image.length));
}

static void serve_vector(void) {
    u32 kind = take_number(4), rule = take_number(4);
    hold(&small, batch, 0);
    hold(&dma, batch, 0);
    reply(mpm_vector(kind, rule, data(&image), image.length, data(&vector), vector.length));
}

static void serve_look(void) {
    u32 kind = take_number(4), rule = take_number(4);
    u32 user = take_number(4), record = take_number(4);
    take_into(&small);
    hold(&dma, batch, 0);
    reply(mpm_look(kind, rule, user, data(&small), small.length, record, data(&image),
                   image.length));
}

static void serve_whole(void) {
    hold(&small, batch, 0);
    hold(&dma, batch, 0);
    whole_area(&image);
    reply_apart(0, areas_apart(), 0);
}

static void serve_step(void) {
    switch (take_number(1)) {
    case 'I': serve_resize(&image); break;
    case 'i': serve_patch(&image); break;
    case 'L': serve_resize(&list); break;
    case 'l': serve_patch(&list); break;
    case 'B': serve_resize(&vector); break;
    case 'b': serve_patch(&vector); break;
    case 'S': serve_start(); break;
    case 'C': serve_call(); break;
    case 'K': serve_check(); break;
    case 'M': serve_vector(); break;
    case 'V': serve_look(); break;
    case 'W': serve_whole(); break;
    default: exit(MALFORMED);
    }
}

/* Reads so many bytes; 0 if the input ended before the first. */
static int read_all(u8 *to, size length) {
    size got = 0;
    while (got < length) {
        signed_size n = read(0, to + got, length - got);
        if (n <= 0 && got == 0) return 0;
        if (n <= 0) exit(MALFORMED);
        got += (size)n;
    }
    return 1;
}

static int read_batch(void) {
    u8 head[4];
    if (!read_all(head, 4)) return 0;
    batch_length = head[0] + 256u * head[1] + 65536u * head[2] + 16777216u * head[3];
    batch_at = 0;
    if (batch_length > BATCH) exit(MALFORMED);
    if (batch_length > 0 && !read_all(batch, batch_length)) exit(MALFORMED);
    return 1;
}

int main(void) {
    for (u32 i = 0; i < AREAS; i++) set_guards(areas[i]);
    while (read_batch()) {
        while (batch_at < batch_length) serve_step();
        flush();
    }
    return 0;
}
