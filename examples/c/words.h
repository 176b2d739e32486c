/* Little-endian words in bytes, as the entry points take and give them. */
#ifndef ROWANCHESS_EXAMPLE_WORDS_H
#define ROWANCHESS_EXAMPLE_WORDS_H

#include <stddef.h>
#include <stdint.h>

static void put(uint8_t *at, const uint64_t *words, size_t count) {
    for (size_t i = 0; i < 8 * count; i++) at[i] = (uint8_t)(words[i / 8] >> (i % 8 * 8));
}

static uint64_t word(const uint8_t *at, size_t i) {
    uint64_t value = 0;
    for (size_t k = 8; k > 0; k--) value = value << 8 | at[8 * i + k - 1];
    return value;
}

#define ROW(at, ...) put(at, (const uint64_t[]){__VA_ARGS__}, sizeof((const uint64_t[]){__VA_ARGS__}) / 8)

#endif
