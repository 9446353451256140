// Random numbers: the same seed gives the same ones.
#include <stddef.h>
#include <stdint.h>
#include <stdlib.h>

static uint64_t state;

// Begins with a seed, a number in decimal. Seeds that follow one another begin far apart.
static void seed(const char *number) { state = (strtoull(number, NULL, 10) + 1) * 11400714819323198485u; }

// xorshift64*
static uint64_t draw(void) {
    state ^= state >> 12;
    state ^= state << 25;
    state ^= state >> 27;
    return state * 2685821657736338717u;
}

static size_t below(size_t bound) { return (size_t)((draw() >> 32) % bound); }
