/* save.c with one fault, to see that kill.py or full.py finds it. WRONG, given when it is compiled, is one of the names
   below. minimal.c is compiled with mpm_call and mpm_start named wrong_call and wrong_start. */
#define save_book right_save_book
#include "save.c"
#undef save_book

enum {
    IN_PLACE = 1, /* empties the only copy and writes it again */
    LATE,         /* saves one call in ten, and acknowledges all */
    KEEPS_LIST,   /* goes on with the old list after a restart */
    NO_END,       /* does not end a dead process */
    HALF,         /* saves a call in two halves */
    CARELESS,     /* does not ask whether it was saved */
    WHOLE         /* no fault: writes the whole book anew for each call, to be timed */
};

int save_book(struct save *save);
uint32_t wrong_start(uint32_t kind, uint32_t capacity, uint32_t open_limit, uint32_t lock_limit, uint32_t rule,
                     const uint8_t *users, size_t users_len, uint8_t *list, size_t list_len);
uint32_t wrong_call(uint32_t kind, uint32_t function, uint32_t process, uint32_t count, uint8_t *fcb, size_t fcb_len,
                    uint8_t *dma, size_t dma_len, uint8_t *list, size_t list_len, uint8_t *image, size_t image_len,
                    uint8_t *vector, size_t vector_len);

static int save_in_place(struct save *save) {
    if (compose_change(save) == 0) return 1;
    memcpy(save->saved_list, save->book.list, save->book.list_len);
    memcpy(save->saved_image, save->book.image, save->book.image_len);
    return ftruncate(save->file, 0) == 0 && write_base(save->file, &save->book);
}

/* The first half of the records that changed, then all. */
static int save_by_halves(struct save *save) {
    size_t length = compose_change(save), parts = length == 0 ? 0 : mpm_get(save->change + 8, 4);
    if (parts < 2) return right_save_book(save);
    uint8_t *late = save->change + CHANGE_HEAD + save->book.list_len + parts / 2 * PART;
    size_t at = mpm_get(late, 4) * (size_t)MPM_RECORD_LEN, rest = save->book.image_len - at;
    uint8_t *kept = malloc(rest);
    if (!kept) return 0;
    memcpy(kept, save->book.image + at, rest);
    memcpy(save->book.image + at, save->saved_image + at, rest);
    int done = right_save_book(save);
    memcpy(save->book.image + at, kept, rest);
    free(kept);
    return done && right_save_book(save);
}

int save_book(struct save *save) {
    static uint32_t calls;
    if (WRONG == IN_PLACE) return save_in_place(save);
    if (WRONG == HALF) return save_by_halves(save);
    if (WRONG == WHOLE && compose_change(save) > 0) save->rewrite_len = 0;
    if (WRONG == LATE && ++calls % 10 != 0) return 1;
    return right_save_book(save) || WRONG == CARELESS;
}

uint32_t wrong_start(uint32_t kind, uint32_t capacity, uint32_t open_limit, uint32_t lock_limit, uint32_t rule,
                     const uint8_t *users, size_t users_len, uint8_t *list, size_t list_len) {
    if (WRONG == KEEPS_LIST && list[MPM_LIST_CAPACITY] != 0) return MPM_OK;
    return mpm_start(kind, capacity, open_limit, lock_limit, rule, users, users_len, list, list_len);
}

uint32_t wrong_call(uint32_t kind, uint32_t function, uint32_t process, uint32_t count, uint8_t *fcb, size_t fcb_len,
                    uint8_t *dma, size_t dma_len, uint8_t *list, size_t list_len, uint8_t *image, size_t image_len,
                    uint8_t *vector, size_t vector_len) {
    if (WRONG == NO_END && function == MPM_FN_TERMINATE) return MPM_OK;
    return mpm_call(kind, function, process, count, fcb, fcb_len, dma, dma_len, list, list_len, image, image_len,
                    vector, vector_len);
}
