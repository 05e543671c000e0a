/* The engine of an archive, with the parameters of today's mpm.h whatever version its own was: NAME_call, NAME_singly
   and NAME_check over NAME_own_call and so on, which the archive's mpm_call and so on are renamed to. NAME and VERSION,
   the number in the archive's own mpm.h, are given when it is compiled.
   Version 1, whose header does not say so, knew no runs of records: it is lent a DMA of its own length, and a run of
   33, 34 or 40 is a call that it does not have. Until version 2 there was one kind of drive, and nobody was told which.
   4 has other names in its header, no more; with 5 the check of an unsound image tells an entry. Until 5 the list ended
   before the positions of searches, so an engine of those versions is lent what is before them; it has no searches.
   Until 6 there was no allocation vector: an engine of those versions leaves it as it was. Until 7 there was one rule
   of where a file ends, which the books here have, and the list ended before its byte. */
#include <stddef.h>
#include <stdint.h>

#if VERSION < 1 || VERSION > 8
#error "only engines of the versions 1 to 8 can be called"
#endif

enum { LIST_LEN = 1316, RULE = 1315, POSITIONS = 1299, DMA_LEN = 2048, FIRST_DMA_LEN = 256 };
enum { READ = 33, WRITE = 34, WRITE_ZEROS = 40, BAD_CALL = 255 + 256 * 13 };

#define JOINED(name, what) name##_##what
#define OF(name, what) JOINED(name, what)
#define OWN(what) OF(NAME, own_##what)
#define OUTER(what) OF(NAME, what)

#if VERSION < 3
enum { KINDS = 1 };
#define KIND_TYPE
#define KIND
#else
enum { KINDS = 2 };
#define KIND_TYPE uint32_t,
#define KIND kind,
#endif

#if VERSION < 7
enum { KEEPS_VECTORS = 0 };
#define VECTOR_TYPE
#define VECTOR
#else
enum { KEEPS_VECTORS = 1 };
#define VECTOR_TYPE , uint8_t *, size_t
#define VECTOR , vector, vector_len
#endif

typedef uint32_t own_call(KIND_TYPE uint32_t, uint32_t, uint32_t, uint8_t *, size_t, uint8_t *, size_t, uint8_t *,
                          size_t, uint8_t *, size_t VECTOR_TYPE);
#if VERSION < 8
#define RULE_TYPE
#define RULE_TOLD
#else
#define RULE_TYPE uint32_t,
#define RULE_TOLD 0,
#endif

typedef uint32_t own_check(KIND_TYPE RULE_TYPE const uint8_t *, size_t);
typedef uint32_t outer_call(uint32_t, uint32_t, uint32_t, uint32_t, uint8_t *, size_t, uint8_t *, size_t, uint8_t *,
                            size_t, uint8_t *, size_t, uint8_t *, size_t);
typedef uint32_t outer_check(uint32_t, const uint8_t *, size_t);

#if VERSION < 2
#define SINGLY OWN(call)
#else
#define SINGLY OWN(singly)
#endif

extern own_call OWN(call), SINGLY;
extern own_check OWN(check);
extern outer_call OUTER(call), OUTER(singly);
extern outer_check OUTER(check);
uint32_t OUTER(kinds)(void);
uint32_t OUTER(keeps_vectors)(void);

/* How many kinds of drive the engine knows. It is asked for no other. */
uint32_t OUTER(kinds)(void) { return KINDS; }

/* Whether it takes a vector and keeps it. */
uint32_t OUTER(keeps_vectors)(void) { return KEEPS_VECTORS; }

/* The length of the list that the engine is lent. */
static size_t own_list_len(size_t list_len) {
    if (VERSION > 7 || list_len != LIST_LEN) return list_len;
    return VERSION > 5 ? RULE : POSITIONS;
}

/* The length of the DMA that the engine is lent. */
static size_t own_dma_len(size_t dma_len) { return VERSION > 1 || dma_len != DMA_LEN ? dma_len : FIRST_DMA_LEN; }

/* Runs of records, which version 1 does not have. */
static int is_unknown(uint32_t function, uint32_t count) {
    return VERSION < 2 && count > 1 && (function == READ || function == WRITE || function == WRITE_ZEROS);
}

uint32_t OUTER(call)(uint32_t kind, uint32_t function, uint32_t process, uint32_t count, uint8_t *fcb, size_t fcb_len,
                     uint8_t *dma, size_t dma_len, uint8_t *list, size_t list_len, uint8_t *image, size_t image_len,
                     uint8_t *vector, size_t vector_len) {
    (void)kind, (void)vector, (void)vector_len;
    if (is_unknown(function, count)) return BAD_CALL;
    return OWN(call)(KIND function, process, count, fcb, fcb_len, dma, own_dma_len(dma_len), list,
                     own_list_len(list_len), image, image_len VECTOR);
}

uint32_t OUTER(singly)(uint32_t kind, uint32_t function, uint32_t process, uint32_t count, uint8_t *fcb,
                       size_t fcb_len, uint8_t *dma, size_t dma_len, uint8_t *list, size_t list_len, uint8_t *image,
                       size_t image_len, uint8_t *vector, size_t vector_len) {
    (void)kind, (void)vector, (void)vector_len;
    if (is_unknown(function, count)) return BAD_CALL;
    return SINGLY(KIND function, process, count, fcb, fcb_len, dma, own_dma_len(dma_len), list, own_list_len(list_len),
                  image, image_len VECTOR);
}

uint32_t OUTER(check)(uint32_t kind, const uint8_t *image, size_t image_len) {
    (void)kind;
    return OWN(check)(KIND RULE_TOLD image, image_len);
}
