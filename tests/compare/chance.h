/* Random numbers, the same on every machine for one seed. */
#ifndef COMPARE_CHANCE_H
#define COMPARE_CHANCE_H

#include <stdbool.h>
#include <stddef.h>
#include <stdint.h>

struct chance {
    uint64_t state;
};

uint64_t any64(struct chance *chance);
uint32_t any32(struct chance *chance);
uint32_t below(struct chance *chance, uint32_t end);
uint32_t between(struct chance *chance, uint32_t first, uint32_t last);
bool one_in(struct chance *chance, uint32_t count);
uint32_t one_of(struct chance *chance, const uint32_t *numbers, size_t count);

/* One of the numbers that follow. */
#define PICK(chance, ...)                                                                  \
    one_of((chance), (const uint32_t[]){__VA_ARGS__}, sizeof((const uint32_t[]){__VA_ARGS__}) / sizeof(uint32_t))

#endif
