/* What the engines share that have one fault in their calls. Each has a `make` of its own, which makes a call by the
   function given to it and does something wrong. wrong_call and wrong_singly both go through it: the plain side has the
   same fault, so that only what the engine is compared with can tell. */

typedef unsigned char u8;
typedef unsigned int u32;
typedef __SIZE_TYPE__ size;

typedef u32 call(u32 kind, u32 function, u32 process, u32 count, u8 *fcb, size fcb_len, u8 *dma, size dma_len, u8 *list,
                 size list_len, u8 *image, size image_len, u8 *vector, size vector_len);
typedef u32 start(u32 kind, u32 capacity, u32 open_limit, u32 lock_limit, u32 rule, const u8 *users, size users_len,
                  u8 *list, size list_len);
typedef u32 check(u32 kind, u32 rule, const u8 *image, size image_len);
typedef u32 look(u32 kind, u32 rule, u32 user, const u8 *name, size name_len, u32 record, const u8 *image,
                 size image_len);
typedef u32 build(u32 kind, u32 rule, const u8 *image, size image_len, u8 *vector, size vector_len);

call mpm_call, mpm_singly, wrong_call, wrong_singly;
start mpm_start, wrong_start;
check mpm_check, wrong_check;
look mpm_look, wrong_look;
build mpm_vector, wrong_vector;

static u32 make(call *real, u32 kind, u32 function, u32 process, u32 count, u8 *fcb, size fcb_len, u8 *dma,
                size dma_len, u8 *list, size list_len, u8 *image, size image_len, u8 *vector, size vector_len);

u32 wrong_call(u32 kind, u32 function, u32 process, u32 count, u8 *fcb, size fcb_len, u8 *dma, size dma_len, u8 *list,
               size list_len, u8 *image, size image_len, u8 *vector, size vector_len) {
    return make(mpm_call, kind, function, process, count, fcb, fcb_len, dma, dma_len, list, list_len, image, image_len,
                vector, vector_len);
}

u32 wrong_singly(u32 kind, u32 function, u32 process, u32 count, u8 *fcb, size fcb_len, u8 *dma, size dma_len,
                 u8 *list, size list_len, u8 *image, size image_len, u8 *vector, size vector_len) {
    return make(mpm_singly, kind, function, process, count, fcb, fcb_len, dma, dma_len, list, list_len, image,
                image_len, vector, vector_len);
}
