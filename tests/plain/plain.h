/* The engine's work in plain C, unproved: what the engine is compared with, and its speed measured against. */
#ifndef PLAIN_H
#define PLAIN_H

#include <stddef.h>
#include <stdint.h>

/* As mpm_call. */
uint32_t plain_call(uint32_t kind, uint32_t function, uint32_t process, uint32_t count,
                    uint8_t *fcb, size_t fcb_len, uint8_t *dma, size_t dma_len,
                    uint8_t *list, size_t list_len, uint8_t *image, size_t image_len,
                    uint8_t *vector, size_t vector_len);

/* The same on a drive of the one kind. */
uint32_t plain_call_SMALL(uint32_t function, uint32_t process, uint32_t count,
                          uint8_t *fcb, size_t fcb_len, uint8_t *dma, size_t dma_len,
                          uint8_t *list, size_t list_len, uint8_t *image, size_t image_len,
                          uint8_t *vector, size_t vector_len);
uint32_t plain_call_LARGE(uint32_t function, uint32_t process, uint32_t count,
                          uint8_t *fcb, size_t fcb_len, uint8_t *dma, size_t dma_len,
                          uint8_t *list, size_t list_len, uint8_t *image, size_t image_len,
                          uint8_t *vector, size_t vector_len);

/* As mpm_vector. The image is only read. */
uint32_t plain_vector(uint32_t kind, uint32_t rule, uint8_t *image, size_t image_len, uint8_t *vector,
                      size_t vector_len);
uint32_t plain_vector_SMALL(uint32_t rule, uint8_t *image, size_t image_len, uint8_t *vector, size_t vector_len);
uint32_t plain_vector_LARGE(uint32_t rule, uint8_t *image, size_t image_len, uint8_t *vector, size_t vector_len);

/* As mpm_check. The image is only read. */
uint32_t plain_check(uint32_t kind, uint32_t rule, uint8_t *image, size_t image_len);
uint32_t plain_check_SMALL(uint32_t rule, uint8_t *image, size_t image_len);
uint32_t plain_check_LARGE(uint32_t rule, uint8_t *image, size_t image_len);

/* As mpm_salvage. */
uint32_t plain_salvage(uint32_t kind, uint32_t rule, uint8_t *image, size_t image_len, uint8_t *report,
                       size_t report_len);
uint32_t plain_salvage_SMALL(uint32_t rule, uint8_t *image, size_t image_len, uint8_t *report, size_t report_len);
uint32_t plain_salvage_LARGE(uint32_t rule, uint8_t *image, size_t image_len, uint8_t *report, size_t report_len);

/* As mpm_pack. The image is only read. */
uint32_t plain_pack(uint32_t kind, uint8_t *image, size_t image_len, const uint8_t *list, size_t list_len,
                    uint8_t *packed, size_t packed_len);
uint32_t plain_pack_SMALL(uint8_t *image, size_t image_len, const uint8_t *list, size_t list_len, uint8_t *packed,
                          size_t packed_len);
uint32_t plain_pack_LARGE(uint8_t *image, size_t image_len, const uint8_t *list, size_t list_len, uint8_t *packed,
                          size_t packed_len);

/* As mpm_same. The images are only read. */
uint32_t plain_same(uint32_t kind, uint8_t *first, size_t first_len, uint8_t *second, size_t second_len);
uint32_t plain_same_SMALL(uint8_t *first, size_t first_len, uint8_t *second, size_t second_len);
uint32_t plain_same_LARGE(uint8_t *first, size_t first_len, uint8_t *second, size_t second_len);

/* As mpm_look. The image is only read. */
uint32_t plain_look(uint32_t kind, uint32_t rule, uint32_t user, const uint8_t *name, size_t name_len, uint32_t record,
                    uint8_t *image, size_t image_len);
uint32_t plain_look_SMALL(uint32_t rule, uint32_t user, const uint8_t *name, uint32_t record, uint8_t *image,
                          size_t image_len);
uint32_t plain_look_LARGE(uint32_t rule, uint32_t user, const uint8_t *name, uint32_t record, uint8_t *image,
                          size_t image_len);

#endif
