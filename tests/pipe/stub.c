/* Bad functions, to see that the comparison sees through them. STUB chooses the fault; mpm_singly
   has the same one, so that only the reference can tell. */

typedef unsigned char u8;
typedef unsigned int u32;
typedef __SIZE_TYPE__ size;

#define REFUSE_ALL 1
#define ACCEPT_ALL 2
#define WRITE_BEFORE_FCB 3
#define WRITE_AFTER_IMAGE 4
#define CRASH 5
#define SPOIL_THE_IMAGE 6
#define WRITE_AFTER_VECTOR 7

#ifndef STUB
#define STUB REFUSE_ALL
#endif

#define REFUSED (255u + 256u * 13u)

u32 mpm_call(u32 kind, u32 function, u32 process, u32 count, u8 *fcb, size fcb_len, u8 *dma,
             size dma_len, u8 *list, size list_len, u8 *image, size image_len, u8 *vector,
             size vector_len);
u32 mpm_singly(u32 kind, u32 function, u32 process, u32 count, u8 *fcb, size fcb_len, u8 *dma,
               size dma_len, u8 *list, size list_len, u8 *image, size image_len, u8 *vector,
               size vector_len);
u32 mpm_vector(u32 kind, u32 rule, const u8 *image, size image_len, u8 *vector, size vector_len);
u32 mpm_start(u32 kind, u32 capacity, u32 open_limit, u32 lock_limit, u32 rule,
              const u8 *users, size users_len, u8 *list, size list_len);
u32 mpm_check(u32 kind, u32 rule, const u8 *image, size image_len);
u32 mpm_look(u32 kind, u32 rule, u32 user, const u8 *name, size name_len, u32 record,
             const u8 *image, size image_len);

u32 mpm_salvage(u32 kind, u32 rule, u8 *image, size image_len, u8 *report, size report_len);
u32 mpm_pack(u32 kind, const u8 *image, size image_len, const u8 *list, size list_len, u8 *packed,
             size packed_len);
u32 mpm_same(u32 kind, const u8 *first, size first_len, const u8 *second, size second_len);

u32 mpm_start(u32 kind, u32 capacity, u32 open_limit, u32 lock_limit, u32 rule,
              const u8 *users, size users_len, u8 *list, size list_len) {
    u32 numbers[3] = {capacity, open_limit, lock_limit};
    for (u32 i = 0; i < 3; i++)
        if (numbers[i] < 1 || numbers[i] > 64) return REFUSED;
    if (kind > 1 || rule > 1 || users_len != 16 || list_len != 1316) return REFUSED;
    for (u32 i = 0; i < 16; i++)
        if (users[i] > 15) return REFUSED;
    for (size i = 0; i < list_len; i++) list[i] = 0;
    for (u32 i = 0; i < 3; i++) list[i] = (u8)numbers[i];
    for (u32 i = 0; i < 16; i++) list[3 + i] = users[i];
    for (u32 i = 0; i < 16; i++) list[1299 + i] = kind == 1 ? 128 : 64;
    list[1315] = (u8)rule;
    return 0;
}

u32 mpm_check(u32 kind, u32 rule, const u8 *image, size image_len) {
    (void)kind, (void)rule, (void)image;
    return image_len % 1024 != 0;
}

u32 mpm_vector(u32 kind, u32 rule, const u8 *image, size image_len, u8 *vector, size vector_len) {
    (void)rule, (void)image, (void)image_len;
    if (kind > 1 || vector_len != (kind == 1 ? 512 : 32)) return REFUSED;
    for (size i = 0; i < vector_len; i++) vector[i] = 0;
    vector[0] = 0xC0;
    return 0;
}

u32 mpm_look(u32 kind, u32 rule, u32 user, const u8 *name, size name_len, u32 record,
             const u8 *image, size image_len) {
    (void)kind, (void)rule, (void)user, (void)name, (void)name_len, (void)record, (void)image, (void)image_len;
    return 0;
}

u32 mpm_salvage(u32 kind, u32 rule, u8 *image, size image_len, u8 *report, size report_len) {
    (void)kind, (void)rule, (void)image, (void)report, (void)report_len;
    return image_len % 1024 != 0;
}

u32 mpm_pack(u32 kind, const u8 *image, size image_len, const u8 *list, size list_len, u8 *packed,
             size packed_len) {
    (void)kind, (void)image, (void)list, (void)list_len, (void)packed;
    return image_len == packed_len ? 0 : REFUSED;
}

u32 mpm_same(u32 kind, const u8 *first, size first_len, const u8 *second, size second_len) {
    (void)kind, (void)first, (void)second;
    return first_len == second_len ? 0 : 3;
}

u32 mpm_call(u32 kind, u32 function, u32 process, u32 count, u8 *fcb, size fcb_len, u8 *dma,
             size dma_len, u8 *list, size list_len, u8 *image, size image_len, u8 *vector,
             size vector_len) {
    (void)kind, (void)function, (void)process, (void)count, (void)fcb, (void)fcb_len, (void)dma;
    (void)dma_len, (void)list, (void)list_len, (void)image, (void)image_len, (void)vector;
    (void)vector_len;
#if STUB == ACCEPT_ALL
    return 0;
#elif STUB == WRITE_BEFORE_FCB
    fcb[-1] ^= 1;
    return 0;
#elif STUB == WRITE_AFTER_IMAGE
    image[image_len] ^= 1;
    return 0;
#elif STUB == WRITE_AFTER_VECTOR
    vector[vector_len] ^= 1;
    return 0;
#elif STUB == CRASH
    __builtin_trap();
#elif STUB == SPOIL_THE_IMAGE
    for (size i = 0; i < image_len; i++) image[i] ^= 1;
    return 0;
#else
    return REFUSED;
#endif
}

u32 mpm_singly(u32 kind, u32 function, u32 process, u32 count, u8 *fcb, size fcb_len, u8 *dma,
               size dma_len, u8 *list, size list_len, u8 *image, size image_len, u8 *vector,
               size vector_len) {
    return mpm_call(kind, function, process, count, fcb, fcb_len, dma, dma_len, list, list_len,
                    image, image_len, vector, vector_len);
}
