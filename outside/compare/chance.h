/* chance.h: what the generators draw, the same for the same seed. */
#ifndef COMPARE_CHANCE_H
#define COMPARE_CHANCE_H

#include <stdbool.h>
#include <stdint.h>

static uint64_t seed = 1, chance_state;

/* The draws of one scenario or list, whatever was drawn before. */
static inline void start_chance(uint64_t number)
{
    chance_state = seed * 0x2545f4914f6cdd1du + number * 0xd1342543de82ef95u;
}

static inline uint64_t draw(void)
{
    uint64_t z = chance_state += 0x9e3779b97f4a7c15u;
    z = (z ^ z >> 30) * 0xbf58476d1ce4e5b9u;
    z = (z ^ z >> 27) * 0x94d049bb133111ebu;
    return z ^ z >> 31;
}

static inline unsigned below(unsigned n)
{
    return (unsigned)(draw() % n);
}

static inline unsigned between(unsigned low, unsigned high)
{
    return low + below(high - low + 1);
}

static inline bool percent(unsigned p)
{
    return below(100) < p;
}

static inline unsigned least(unsigned a, unsigned b)
{
    return a < b ? a : b;
}

#endif
