/* Random numbers, the same on every machine for one seed (splitmix64). */
#include "chance.h"

uint64_t any64(struct chance *chance)
{
    uint64_t mixed;
    chance->state += UINT64_C(0x9E3779B97F4A7C15);
    mixed = chance->state;
    mixed = (mixed ^ mixed >> 30) * UINT64_C(0xBF58476D1CE4E5B9);
    mixed = (mixed ^ mixed >> 27) * UINT64_C(0x94D049BB133111EB);
    return mixed ^ mixed >> 31;
}

uint32_t any32(struct chance *chance)
{
    return (uint32_t)(any64(chance) >> 32);
}

uint32_t below(struct chance *chance, uint32_t end)
{
    return (uint32_t)((uint64_t)any32(chance) * end >> 32);
}

uint32_t between(struct chance *chance, uint32_t first, uint32_t last)
{
    return first + below(chance, last - first + 1);
}

bool one_in(struct chance *chance, uint32_t count)
{
    return below(chance, count) == 0;
}

uint32_t one_of(struct chance *chance, const uint32_t *numbers, size_t count)
{
    return numbers[below(chance, (uint32_t)count)];
}
