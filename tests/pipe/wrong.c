/* The plain side with one fault beside a good mpm_call, to see that the reply tells of it. WRONG
   chooses the fault; pipe.c is compiled to call wrong_singly for mpm_singly. */

typedef unsigned char u8;
typedef unsigned int u32;
typedef __SIZE_TYPE__ size;

#define TELLS_RECORDS_DONE 1
#define GOES_ON_BEHIND_A_REFUSAL 2
#define ADVANCES_THE_FCB 3
#define CLEARS_THE_REST_OF_THE_DMA 4
#define SPOILS_THE_LIST 5
#define SPOILS_THE_IMAGE 6
#define WRITES_BEHIND_THE_DMA 7
#define ANSWERS_ANOTHER_46 8
#define SPOILS_A_FAR_BLOCK 9
#define SPOILS_THE_VECTOR 10
#define WRITES_BEHIND_THE_VECTOR 11

#ifndef WRONG
#define WRONG TELLS_RECORDS_DONE
#endif

enum { READ = 33, WRITE = 34, FREE_SPACE = 46, FCB = 36, DMA = 2048, RECORD = 128, LIST = 1316 };

u32 mpm_singly(u32 kind, u32 function, u32 process, u32 count, u8 *fcb, size fcb_len, u8 *dma,
               size dma_len, u8 *list, size list_len, u8 *image, size image_len, u8 *vector,
               size vector_len);
u32 wrong_singly(u32 kind, u32 function, u32 process, u32 count, u8 *fcb, size fcb_len, u8 *dma,
                 size dma_len, u8 *list, size list_len, u8 *image, size image_len, u8 *vector,
                 size vector_len);

u32 wrong_singly(u32 kind, u32 function, u32 process, u32 count, u8 *fcb, size fcb_len, u8 *dma,
                 size dma_len, u8 *list, size list_len, u8 *image, size image_len, u8 *vector,
                 size vector_len) {
    u32 answer = mpm_singly(kind, function, process, count, fcb, fcb_len, dma, dma_len, list,
                            list_len, image, image_len, vector, vector_len);
#if WRONG == TELLS_RECORDS_DONE
    if (function == READ && answer == 1 && count == 16) answer += 16u * 256u;
#elif WRONG == GOES_ON_BEHIND_A_REFUSAL
    if (function == WRITE && answer == 8 && fcb[33] < 255) {
        fcb[33]++;
        mpm_singly(kind, function, process, 1, fcb, fcb_len, dma, dma_len, list, list_len, image,
                   image_len, vector, vector_len);
        fcb[33]--;
    }
#elif WRONG == ADVANCES_THE_FCB
    if (function == READ && answer == 0) fcb[33]++;
#elif WRONG == CLEARS_THE_REST_OF_THE_DMA
    if (function == READ && answer == 0 && count < 16)
        for (size i = RECORD * count; i < DMA; i++) dma[i] = 0;
#elif WRONG == SPOILS_THE_LIST
    if (function == WRITE && answer == 2 && list_len == LIST) list[0] ^= 1;
#elif WRONG == SPOILS_THE_IMAGE
    if (function == WRITE && answer == 5) image[image_len - 1] ^= 1;
#elif WRONG == WRITES_BEHIND_THE_DMA
    if (function == READ && answer == 0) dma[dma_len] ^= 1;
#elif WRONG == ANSWERS_ANOTHER_46
    if (function == FREE_SPACE && answer == 0) answer = FCB;
#elif WRONG == SPOILS_A_FAR_BLOCK
    if (function == FREE_SPACE && answer == 0 && kind == 1) image[image_len - 1] ^= 1;
#elif WRONG == SPOILS_THE_VECTOR
    if (function == WRITE && answer == 0) vector[vector_len - 1] ^= 1;
#elif WRONG == WRITES_BEHIND_THE_VECTOR
    if (function == FREE_SPACE && answer == 0) vector[vector_len] ^= 1;
#endif
    return answer;
}
