/* The engine's functions, in plain C, under the engine's names: an engine for what is tried without the proved one. The
   plain side makes single calls here too. */
#include "mpm.h"

#include <string.h>

#include "plain.h"

/* An image or a name that is only read. */
static uint8_t *read_only(const uint8_t *bytes) {
    union {
        const uint8_t *in;
        uint8_t *out;
    } pointer = {bytes};
    return pointer.out;
}

uint32_t mpm_call(uint32_t kind, uint32_t function, uint32_t process, uint32_t count, uint8_t *fcb, size_t fcb_len,
                  uint8_t *dma, size_t dma_len, uint8_t *list, size_t list_len, uint8_t *image, size_t image_len,
                  uint8_t *vector, size_t vector_len) {
    return plain_call(kind, function, process, count, fcb, fcb_len, dma, dma_len, list, list_len, image, image_len,
                      vector, vector_len);
}

static int is_run(uint32_t function, uint32_t count, size_t fcb_len, size_t dma_len) {
    if (function != MPM_FN_READ && function != MPM_FN_WRITE && function != MPM_FN_WRITE_ZEROS) return 0;
    return count >= 1 && count <= MPM_MAX_COUNT && fcb_len == MPM_FCB_LEN && dma_len == MPM_DMA_LEN;
}

uint32_t mpm_singly(uint32_t kind, uint32_t function, uint32_t process, uint32_t count, uint8_t *fcb, size_t fcb_len,
                    uint8_t *dma, size_t dma_len, uint8_t *list, size_t list_len, uint8_t *image, size_t image_len,
                    uint8_t *vector, size_t vector_len) {
    if (!is_run(function, count, fcb_len, dma_len))
        return mpm_call(kind, function, process, count, fcb, fcb_len, dma, dma_len, list, list_len, image, image_len,
                        vector, vector_len);
    uint32_t answer = MPM_OK;
    for (uint32_t i = 0; i < count && answer == MPM_OK; i++) {
        uint8_t own_fcb[MPM_FCB_LEN], own_dma[MPM_DMA_LEN] = {0};
        memcpy(own_fcb, fcb, sizeof own_fcb);
        mpm_set_record(own_fcb, mpm_record(fcb) + i);
        memcpy(own_dma, dma + MPM_DMA_AT(i), MPM_RECORD_LEN);
        answer = mpm_call(kind, function, process, 1, own_fcb, sizeof own_fcb, own_dma, sizeof own_dma, list, list_len,
                          image, image_len, vector, vector_len);
        memcpy(dma + MPM_DMA_AT(i), own_dma, MPM_RECORD_LEN);
    }
    return answer;
}

static int is_limit(uint32_t number) { return number >= 1 && number <= MPM_PLACES; }

uint32_t mpm_start(uint32_t kind, uint32_t capacity, uint32_t open_limit, uint32_t lock_limit, uint32_t rule,
                   const uint8_t *users, size_t users_len, uint8_t *list, size_t list_len) {
    if (kind >= MPM_KINDS || rule >= MPM_RULES || !is_limit(capacity) || !is_limit(open_limit) || !is_limit(lock_limit))
        return MPM_ERR_BAD_CALL;
    if (users_len != MPM_USERS_LEN || list_len != MPM_LIST_LEN) return MPM_ERR_BAD_CALL;
    for (size_t i = 0; i < users_len; i++)
        if (users[i] >= MPM_USERS) return MPM_ERR_BAD_CALL;
    memset(list, 0, list_len);
    list[MPM_LIST_CAPACITY] = (uint8_t)capacity;
    list[MPM_LIST_OPEN_LIMIT] = (uint8_t)open_limit;
    list[MPM_LIST_LOCK_LIMIT] = (uint8_t)lock_limit;
    memcpy(list + MPM_LIST_USERS, users, users_len);
    memset(list + MPM_LIST_POSITIONS, (int)mpm_entries(kind), MPM_PROCESSES);
    list[MPM_LIST_RULE] = (uint8_t)rule;
    return MPM_OK;
}

uint32_t mpm_check(uint32_t kind, uint32_t rule, const uint8_t *image, size_t image_len) {
    return plain_check(kind, rule, read_only(image), image_len);
}

uint32_t mpm_vector(uint32_t kind, uint32_t rule, const uint8_t *image, size_t image_len, uint8_t *vector,
                    size_t vector_len) {
    return plain_vector(kind, rule, read_only(image), image_len, vector, vector_len);
}

uint32_t mpm_look(uint32_t kind, uint32_t rule, uint32_t user, const uint8_t *name, size_t name_len, uint32_t record,
                  const uint8_t *image, size_t image_len) {
    return plain_look(kind, rule, user, name, name_len, record, read_only(image), image_len);
}

uint32_t mpm_salvage(uint32_t kind, uint32_t rule, uint8_t *image, size_t image_len, uint8_t *report,
                     size_t report_len) {
    return plain_salvage(kind, rule, image, image_len, report, report_len);
}

uint32_t mpm_pack(uint32_t kind, const uint8_t *image, size_t image_len, const uint8_t *list, size_t list_len,
                  uint8_t *packed, size_t packed_len) {
    return plain_pack(kind, read_only(image), image_len, list, list_len, packed, packed_len);
}

uint32_t mpm_same(uint32_t kind, const uint8_t *first, size_t first_len, const uint8_t *second, size_t second_len) {
    return plain_same(kind, read_only(first), first_len, read_only(second), second_len);
}
