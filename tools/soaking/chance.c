/* Numbers by chance, the same for the same seed (the generator is SplitMix64). */
#include "soak.h"

uint64_t any_number(struct chance *chance)
{
    uint64_t mixed = chance->state += 0x9e3779b97f4a7c15;
    mixed = (mixed ^ (mixed >> 30)) * 0xbf58476d1ce4e5b9;
    mixed = (mixed ^ (mixed >> 27)) * 0x94d049bb133111eb;
    return mixed ^ (mixed >> 31);
}

uint64_t below(struct chance *chance, uint64_t bound)
{
    return bound == 0 ? 0 : any_number(chance) % bound;
}

bool one_in(struct chance *chance, uint64_t times)
{
    return below(chance, times) == 0;
}

uint64_t some_number(struct chance *chance)
{
    const uint64_t shift = below(chance, 64);
    switch (below(chance, 6)) {
    case 0: return below(chance, 10);
    case 1: return below(chance, 1000);
    case 2: return UINT64_MAX - below(chance, 3);
    case 3: return any_number(chance);
    case 4: return any_number(chance) >> shift;
    default: return (UINT64_C(1) << shift) + below(chance, 3) - 1;
    }
}

uint64_t near(struct chance *chance, uint64_t number)
{
    switch (below(chance, 8)) {
    case 0: return number - 1;
    case 1: return number + 1;
    case 2: return number + below(chance, 40);
    case 3: return some_number(chance);
    default: return number;
    }
}
