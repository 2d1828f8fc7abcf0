/* colliding_names HASHER COUNT MANY: prints so many names of seven bytes that a map of the kit with so many groups looks for in one and
   the same group, by this hasher: "fold", which the kit's maps have where none is named, over the length and then each byte;
   "quick", the same over 32 bytes, zeros behind the name, begun with the digest of no names; or "sip", SipHash-1-3 with keys 0,
   over these 32 bytes. */
#include <stdint.h>
#include <stdio.h>
#include <stdlib.h>
#include <string.h>

#define SIZE 7
#define MULTIPLIER 0x9e3779b97f4a7c15ULL
static const char LETTERS[] = "abcdefghijklmnopqrstuvwxyz0123456789";
#define MANY_LETTERS 36

static uint64_t folded(uint64_t a, uint64_t b) {
    __uint128_t product = (__uint128_t)a * b;
    return (uint64_t)product ^ (uint64_t)(product >> 64);
}

static uint64_t fold(const uint8_t *name) {
    uint64_t state = folded(0x243f6a8885a308d3ULL ^ SIZE, MULTIPLIER ^ 16);
    for (int i = 0; i < SIZE; i++)
        state = folded(state ^ name[i] * 0x10101ULL, MULTIPLIER ^ 2);
    return state;
}

static uint64_t rotated(uint64_t x, int by) { return x << by | x >> (64 - by); }

static void sip_round(uint64_t v[4]) {
    v[0] += v[1], v[2] += v[3];
    v[1] = rotated(v[1], 13) ^ v[0], v[3] = rotated(v[3], 16) ^ v[2];
    v[0] = rotated(v[0], 32);
    v[2] += v[1], v[0] += v[3];
    v[1] = rotated(v[1], 17) ^ v[2], v[3] = rotated(v[3], 21) ^ v[0];
    v[2] = rotated(v[2], 32);
}

static void sip_word(uint64_t v[4], uint64_t word) {
    v[3] ^= word;
    sip_round(v);
    v[0] ^= word;
}

/* SipHash-1-3 of so many words. */
static uint64_t sip_words(const uint64_t *words, int count) {
    uint64_t v[4] = {0x736f6d6570736575ULL, 0x646f72616e646f6dULL, 0x6c7967656e657261ULL, 0x7465646279746573ULL};
    for (int i = 0; i < count; i++)
        sip_word(v, words[i]);
    sip_word(v, (uint64_t)count * 8 << 56);
    v[2] ^= 0xff;
    for (int i = 0; i < 3; i++)
        sip_round(v);
    return v[0] ^ v[1] ^ v[2] ^ v[3];
}

/* The first word of a name; the others of its 32 bytes are zeros. */
static uint64_t first_word(const uint8_t *name) {
    uint64_t first = 0;
    for (int i = 0; i < SIZE; i++)
        first |= (uint64_t)name[i] << 8 * i;
    return first;
}

static uint64_t sip(const uint8_t *name) {
    uint64_t words[4] = {first_word(name)};
    return sip_words(words, 4);
}

static uint64_t quick(const uint8_t *name) {
    uint64_t begun = folded(0x243f6a8885a308d3ULL ^ sip_words(NULL, 0), MULTIPLIER ^ 16);
    return folded(folded(first_word(name) ^ (begun + 32), MULTIPLIER), MULTIPLIER);
}

int main(int count, char **words) {
    if (count != 4)
        return 2;
    uint64_t (*hash)(const uint8_t *) = !strcmp(words[1], "sip") ? sip : !strcmp(words[1], "quick") ? quick : fold;
    uint32_t groups = strtoul(words[2], NULL, 10);
    long left = strtol(words[3], NULL, 10);
    for (uint64_t number = 0; left > 0; number++) {
        uint8_t name[SIZE + 1] = {0};
        uint64_t rest = number;
        for (int i = SIZE - 1; i >= 0; i--, rest /= MANY_LETTERS)
            name[i] = LETTERS[rest % MANY_LETTERS];
        uint64_t h = hash(name);
        if (((uint32_t)(h ^ h >> 32) & (groups - 1)) == 0) {
            puts((char *)name);
            left--;
        }
    }
    return 0;
}
