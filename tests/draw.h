/* Pseudo-random numbers for the tests: the same on every machine. */
#ifndef DRAW_H
#define DRAW_H

#include <stdint.h>

static uint64_t random_state;

static uint32_t random_word(void) {
    uint64_t z = random_state += 0x9e3779b97f4a7c15u;
    z = (z ^ z >> 30) * 0xbf58476d1ce4e5b9u;
    z = (z ^ z >> 27) * 0x94d049bb133111ebu;
    return (uint32_t)((z ^ z >> 31) >> 16);
}

static unsigned below(unsigned limit) {
    return (unsigned)((uint64_t)random_word() * limit >> 32);
}

#endif
