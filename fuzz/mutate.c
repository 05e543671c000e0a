/* How libFuzzer alters an input: now as mere bytes, now step by step, so that sound states stay sound for a while. */
#include <stddef.h>
#include <stdint.h>
#include <string.h>

#include "steps.h"

size_t LLVMFuzzerMutate(uint8_t *data, size_t size, size_t max_size);
size_t LLVMFuzzerCustomMutator(uint8_t *data, size_t size, size_t max_size, unsigned seed);

static size_t pick(uint32_t *chance, size_t choices) {
    *chance = *chance * 1664525u + 1013904223u;
    return (*chance >> 8) % choices;
}

static size_t repeat_a_step(uint8_t *data, size_t size, size_t max_size, uint32_t *chance) {
    uint8_t copy[STEP_LEN];
    size_t steps = size / STEP_LEN;
    uint8_t *to = data + STEP_LEN * pick(chance, steps + 1);
    if (size + STEP_LEN > max_size) return size;
    memcpy(copy, data + STEP_LEN * pick(chance, steps), STEP_LEN);
    memmove(to + STEP_LEN, to, (size_t)(data + size - to));
    memcpy(to, copy, STEP_LEN);
    return size + STEP_LEN;
}

static size_t drop_a_step(uint8_t *step, const uint8_t *data, size_t size) {
    memmove(step, step + STEP_LEN, (size_t)(data + size - step) - STEP_LEN);
    return size - STEP_LEN;
}

/* Names stand at 1 in FCBs and entries, at 17 for Rename, at 3 in items of the list. */
static void copy_a_name(uint8_t *to, const uint8_t *from, uint32_t *chance) {
    static const size_t places[] = {1, 1, 17, 3};
    memmove(to + CONTENT + places[pick(chance, 4)], from + CONTENT + places[pick(chance, 4)], 11);
}

static void alter_some_bytes(uint8_t *step, uint32_t *chance) {
    size_t at = pick(chance, STEP_LEN), length = 1 + pick(chance, 8);
    if (length > STEP_LEN - at) length = STEP_LEN - at;
    LLVMFuzzerMutate(step + at, length, length);
}

/* Every other time one of a call's function, process, count, record and File ID, or of the kind of drive. */
static void set_a_small_byte(uint8_t *step, uint32_t *chance) {
    static const size_t places[] = {4, 8, 12, CONTENT + 33, CONTENT + 34, CONTENT + 35, CONTENT + FCB_GIVEN, 3};
    size_t at = pick(chance, 2) == 0 ? places[pick(chance, 8)] : pick(chance, STEP_LEN);
    step[at] = (uint8_t)pick(chance, 20);
}

size_t LLVMFuzzerCustomMutator(uint8_t *data, size_t size, size_t max_size, unsigned seed) {
    uint32_t chance = seed;
    size_t steps = size / STEP_LEN;
    if (steps == 0 || pick(&chance, 4) == 0) return LLVMFuzzerMutate(data, size, max_size);
    uint8_t *step = data + STEP_LEN * pick(&chance, steps);
    switch (pick(&chance, 8)) {
    case 0:
        return repeat_a_step(data, steps * STEP_LEN, max_size, &chance);
    case 1:
        return steps > 1 ? drop_a_step(step, data, size) : size;
    case 2:
        copy_a_name(step, data + STEP_LEN * pick(&chance, steps), &chance);
        return size;
    case 3:
    case 4:
        set_a_small_byte(step, &chance);
        return size;
    default:
        alter_some_bytes(step, &chance);
        return size;
    }
}
