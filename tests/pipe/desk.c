/* Serves the desk's functions over a pipe: cases come on descriptor 0, outcomes go out on descriptor 1.
   compare/src/desk/wire.rs has their bytes. Nothing is kept from one case to the next.

   Every buffer lent to the engine lies in an area of its own between guard bytes; the outcome tells which bytes of it
   are not as they were lent.

   Exit status: 0 at the end of input, 3 for a case that makes no sense, 4 if writing fails. */

typedef unsigned char u8;
typedef unsigned int u32;
typedef __SIZE_TYPE__ size;
typedef __INTPTR_TYPE__ signed_size;

signed_size read(int, void *, size);
signed_size write(int, const void *, size);
void exit(int) __attribute__((noreturn));
int memcmp(const void *, const void *, size);
void *memcpy(void *, const void *, size);
void *memset(void *, int, size);

u32 mpm_salvage(u32 kind, u32 rule, u8 *image, size image_len, u8 *report, size report_len);
u32 mpm_pack(u32 kind, const u8 *image, size image_len, const u8 *list, size list_len, u8 *packed,
             size packed_len);
u32 mpm_same(u32 kind, const u8 *first, size first_len, const u8 *second, size second_len);

enum {
    GUARD = 64,
    MAX_BUFFER = 4098 * 2048,
    AREAS = 3,
    CHUNK = 65536,
    STRIDE = 256,
    MALFORMED = 3,
    CANNOT_WRITE = 4
};

/* A buffer with room for guard bytes on both sides, and what it was before. */
struct area {
    u8 room[GUARD + MAX_BUFFER + GUARD];
    u8 before[MAX_BUFFER];
    size length;
};

static struct area areas[AREAS];
static u8 in[CHUNK], out[CHUNK];
static size in_length, in_at, out_length;

static u8 guard_byte(size position) { return (u8)(0x5A ^ (position * 37)); }

static u8 *data(struct area *area) { return area->room + GUARD; }

static void set_guards(struct area *area) {
    for (size i = 0; i < GUARD; i++) area->room[i] = area->room[GUARD + area->length + i] = guard_byte(i);
}

static int guards_hold(const struct area *area) {
    const u8 *after = area->room + GUARD + area->length;
    for (size i = 0; i < GUARD; i++)
        if (area->room[i] != guard_byte(i) || after[i] != guard_byte(i)) return 0;
    return 1;
}

/* ---- Bytes in and out ---- */

/* One byte more is at hand; 0 if the input has ended. */
static int fetch(void) {
    if (in_at < in_length) return 1;
    signed_size n = read(0, in, sizeof in);
    in_at = 0;
    in_length = n > 0 ? (size)n : 0;
    return n > 0;
}

static void take(u8 *to, size length) {
    while (length > 0) {
        if (!fetch()) exit(MALFORMED);
        size n = in_length - in_at < length ? in_length - in_at : length;
        memcpy(to, in + in_at, n);
        in_at += n;
        to += n;
        length -= n;
    }
}

static u32 take_number(void) {
    u8 bytes[4];
    take(bytes, 4);
    return bytes[0] + 256u * bytes[1] + 65536u * bytes[2] + 16777216u * bytes[3];
}

static u8 take_byte(void) {
    u8 byte;
    take(&byte, 1);
    return byte;
}

static void flush(void) {
    size sent = 0;
    while (sent < out_length) {
        signed_size n = write(1, out + sent, out_length - sent);
        if (n <= 0) exit(CANNOT_WRITE);
        sent += (size)n;
    }
    out_length = 0;
}

static void put(const u8 *bytes, size length) {
    while (length > 0) {
        if (out_length == sizeof out) flush();
        size n = sizeof out - out_length < length ? sizeof out - out_length : length;
        memcpy(out + out_length, bytes, n);
        out_length += n;
        bytes += n;
        length -= n;
    }
}

static void put_byte(u32 byte) {
    u8 one = (u8)byte;
    put(&one, 1);
}

static void put_number(u32 number) {
    for (u32 i = 0; i < 4; i++) put_byte(number >> (8 * i));
}

/* ---- A buffer ---- */

static void take_buffer(struct area *area) {
    area->length = take_number();
    if (area->length > MAX_BUFFER) exit(MALFORMED);
    u8 fill = take_byte();
    memset(area->before, fill, area->length);
    for (size length = take_number(); length != 0; length = take_number()) {
        size at = take_number();
        if (at > area->length || length > area->length - at) exit(MALFORMED);
        take(area->before + at, length);
    }
    memcpy(data(area), area->before, area->length);
    set_guards(area);
}

/* The next byte from `at` on that is not as it was lent; the length where there is none. */
static size next_change(struct area *area, size at) {
    const u8 *was = area->before, *is = data(area);
    while (at < area->length) {
        size n = area->length - at < STRIDE ? area->length - at : STRIDE;
        if (memcmp(was + at, is + at, n) != 0) break;
        at += n;
    }
    while (at < area->length && was[at] == is[at]) at++;
    return at;
}

static void put_changes(struct area *area) {
    for (size at = next_change(area, 0); at < area->length; at = next_change(area, at)) {
        size end = at;
        while (end < area->length && area->before[end] != data(area)[end]) end++;
        put_number((u32)(end - at));
        put_number((u32)at);
        put(data(area) + at, end - at);
        at = end;
    }
    put_number(0);
}

/* ---- A case ---- */

static u32 serve(u8 function, u32 kind, u32 rule) {
    struct area *one = &areas[0], *two = &areas[1], *three = &areas[2];
    switch (function) {
    case 'R': return mpm_salvage(kind, rule, data(one), one->length, data(two), two->length);
    case 'P':
        return mpm_pack(kind, data(one), one->length, data(two), two->length, data(three), three->length);
    case 'M': return mpm_same(kind, data(one), one->length, data(two), two->length);
    default: exit(MALFORMED);
    }
}

static u32 buffers_of(u8 function) {
    switch (function) {
    case 'R': case 'M': return 2;
    case 'P': return 3;
    default: exit(MALFORMED);
    }
}

static void serve_case(void) {
    u8 function = take_byte();
    u32 kind = take_number(), rule = take_number(), count = buffers_of(function), broken = 0;
    for (u32 i = 0; i < count; i++) take_buffer(&areas[i]);
    u32 answer = serve(function, kind, rule);
    for (u32 i = 0; i < count; i++)
        if (!guards_hold(&areas[i])) broken |= 1u << i;
    put_byte('A');
    put_byte(broken);
    put_number(answer);
    for (u32 i = 0; i < count; i++) put_changes(&areas[i]);
    flush();
}

int main(void) {
    while (fetch()) serve_case();
    return 0;
}
