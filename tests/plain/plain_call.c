/* The functions in plain C, on a drive of the told kind. */
#include "plain.h"

#include "mpm.h"

uint32_t plain_call(uint32_t kind, uint32_t function, uint32_t process, uint32_t count,
                    uint8_t *fcb, size_t fcb_len, uint8_t *dma, size_t dma_len,
                    uint8_t *list, size_t list_len, uint8_t *image, size_t image_len,
                    uint8_t *vector, size_t vector_len) {
    switch (kind) {
    case MPM_KIND_SMALL:
        return plain_call_SMALL(function, process, count, fcb, fcb_len, dma, dma_len, list, list_len, image, image_len,
                                vector, vector_len);
    case MPM_KIND_LARGE:
        return plain_call_LARGE(function, process, count, fcb, fcb_len, dma, dma_len, list, list_len, image, image_len,
                                vector, vector_len);
    default:
        return MPM_ERR_BAD_CALL;
    }
}

uint32_t plain_vector(uint32_t kind, uint32_t rule, uint8_t *image, size_t image_len, uint8_t *vector,
                      size_t vector_len) {
    switch (kind) {
    case MPM_KIND_SMALL: return plain_vector_SMALL(rule, image, image_len, vector, vector_len);
    case MPM_KIND_LARGE: return plain_vector_LARGE(rule, image, image_len, vector, vector_len);
    default: return MPM_ERR_BAD_CALL;
    }
}

uint32_t plain_check(uint32_t kind, uint32_t rule, uint8_t *image, size_t image_len) {
    switch (kind) {
    case MPM_KIND_SMALL: return plain_check_SMALL(rule, image, image_len);
    case MPM_KIND_LARGE: return plain_check_LARGE(rule, image, image_len);
    default: return MPM_CHECK_WRONG_LENGTH;
    }
}

uint32_t plain_salvage(uint32_t kind, uint32_t rule, uint8_t *image, size_t image_len, uint8_t *report,
                       size_t report_len) {
    switch (kind) {
    case MPM_KIND_SMALL: return plain_salvage_SMALL(rule, image, image_len, report, report_len);
    case MPM_KIND_LARGE: return plain_salvage_LARGE(rule, image, image_len, report, report_len);
    default: return MPM_SALVAGE_WRONG_LENGTH;
    }
}

uint32_t plain_pack(uint32_t kind, uint8_t *image, size_t image_len, const uint8_t *list, size_t list_len,
                    uint8_t *packed, size_t packed_len) {
    switch (kind) {
    case MPM_KIND_SMALL: return plain_pack_SMALL(image, image_len, list, list_len, packed, packed_len);
    case MPM_KIND_LARGE: return plain_pack_LARGE(image, image_len, list, list_len, packed, packed_len);
    default: return MPM_ERR_BAD_CALL;
    }
}

uint32_t plain_same(uint32_t kind, uint8_t *first, size_t first_len, uint8_t *second, size_t second_len) {
    switch (kind) {
    case MPM_KIND_SMALL: return plain_same_SMALL(first, first_len, second, second_len);
    case MPM_KIND_LARGE: return plain_same_LARGE(first, first_len, second, second_len);
    default: return MPM_SAME_BAD_FIRST;
    }
}

uint32_t plain_look(uint32_t kind, uint32_t rule, uint32_t user, const uint8_t *name, size_t name_len, uint32_t record,
                    uint8_t *image, size_t image_len) {
    if (name_len != MPM_NAME_LEN || plain_check(kind, rule, image, image_len) != MPM_CHECK_SOUND) return 0;
    if (kind == MPM_KIND_SMALL) return plain_look_SMALL(rule, user, name, record, image, image_len);
    return plain_look_LARGE(rule, user, name, record, image, image_len);
}
