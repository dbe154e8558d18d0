/* Random numbers, for the maker. */
#include "chance.h"

uint64_t random_word(struct maker *m)
{
    uint64_t z = m->random += 0x9E3779B97F4A7C15u;

    z = (z ^ z >> 30) * 0xBF58476D1CE4E5B9u;
    z = (z ^ z >> 27) * 0x94D049BB133111EBu;
    return z ^ z >> 31;
}

uint32_t below(struct maker *m, uint32_t n)
{
    return (uint32_t)((random_word(m) >> 32) * n >> 32);
}

uint32_t chance(struct maker *m, unsigned percent)
{
    return below(m, 100) < percent;
}

uint32_t member(struct maker *m, uint32_t set)
{
    uint32_t skip = below(m, (uint32_t)__builtin_popcount(set));

    while (skip-- > 0)
        set &= set - 1;
    return (uint32_t)__builtin_ctz(set);
}

uint32_t wild(struct maker *m)
{
    static const uint32_t edges[] = { 0,     1,     2,     3,     7,     8,     9,          15,          16,          17,          31,
                                      32,    33,    63,    255,   256,   257,   2040,       2047,        2048,        2049,        65534,
                                      65535, 65536, 0x7FFFFFFFu, 0x80000000u, 0x80000001u, 0xFFFFFFF0u, 0xFFFFFFF8u, 0xFFFFFFFEu, FULL };

    switch (below(m, 4)) {
    case 0:
        return (uint32_t)random_word(m);
    case 1:
        return FULL;
    default:
        return edges[below(m, sizeof edges / sizeof edges[0])];
    }
}
