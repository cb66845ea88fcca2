// Prints names of eight letters whose hashes, by the fixed seed that a table of the kit has by default, all begin their search in one
// group of a table of 2^BITS groups.
//
//     colliding COUNT BITS

#include <stdint.h>
#include <stdio.h>
#include <stdlib.h>
#include <string.h>

static const uint64_t SEED = 0x243f6a8885a308d3, FACTOR = 0x9e3779b97f4a7c15;
static const char LETTERS[] = "ABCDEFGHIJKLMNOPQRSTUVWXYZabcdefghijklmnopqrstuvwxyz0123456789_";

static uint64_t fold(uint64_t a, uint64_t b) {
    unsigned __int128 product = (unsigned __int128)a * b;
    return (uint64_t)product ^ (uint64_t)(product >> 64);
}

// The hash of a text of eight bytes and the byte that ends it.
static uint32_t hash_of(const char *name) {
    uint64_t text, end = 0xff;
    memcpy(&text, name, 8);
    uint64_t state = fold(SEED ^ text, FACTOR ^ 16);
    state = fold(state ^ (end | end << 8 | end << 16), FACTOR ^ 2);
    return (uint32_t)(state ^ state >> 32);
}

int main(int count, char **words) {
    if (count != 3) return 64;
    long left = atol(words[1]);
    uint32_t mask = ((uint32_t)1 << atoi(words[2])) - 1;
    char name[9] = "N";
    for (uint64_t number = 0; left > 0; number++) {
        uint64_t rest = number;
        for (int place = 1; place < 8; place++, rest /= 63) name[place] = LETTERS[rest % 63];
        if ((hash_of(name) & mask) == 0) {
            puts(name);
            left--;
        }
    }
}
