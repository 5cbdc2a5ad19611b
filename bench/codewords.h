// Codewords in C, shared by the peers for speed: check bits by three tables of 128 entries.
#ifndef CODEWORDS_H
#define CODEWORDS_H
#include <stdint.h>
#include <stdio.h>
#include <stdlib.h>
#include <string.h>

enum { PREAMBLE = 72, SLOTS = 16 };

#define SYNC 0x7CD215D8u
#define IDLE 0x7A89C197u
#define MESSAGE (1u << 20) // the data bits of a message codeword without message bits

static const char DIGITS[] = "0123456789*U -][";

static uint32_t low_checks[128], middle_checks[128], high_checks[128];
static uint8_t reversed[128]; // the seven bits of each character in reversed order

// The check bits and the parity bit of data bits, by division.
static uint32_t divided(uint32_t data) {
    uint32_t rest = data << 10;
    for (int place = 30; place >= 10; place--)
        if (rest >> place & 1) rest ^= 0x769u << (place - 10);
    return rest << 1 | (__builtin_popcount(data) + __builtin_popcount(rest)) % 2;
}

static void make_tables(void) {
    for (uint32_t i = 0; i < 128; i++) {
        low_checks[i] = divided(i);
        middle_checks[i] = divided(i << 7);
        high_checks[i] = divided(i << 14);
        for (int bit = 0; bit < 7; bit++) reversed[i] |= (i >> bit & 1) << (6 - bit);
    }
}

static inline uint32_t check_bits(uint32_t data) {
    return low_checks[data % 128] ^ middle_checks[data / 128 % 128] ^ high_checks[data / 16384];
}

static void fail(const char *why) {
    fprintf(stderr, "%s\n", why);
    exit(1);
}

#define FILE_LIMIT ((size_t)256 << 20)
#define SLACK 32 // bytes behind those of a file, so that a block may be loaded at its last byte

// The bytes of a file, read whole; behind them is slack.
static uint8_t *bytes_of(const char *path, size_t *size) {
    FILE *file = fopen(path, "rb");
    if (!file || fseek(file, 0, SEEK_END)) fail("cannot open");
    *size = ftell(file);
    if (*size > FILE_LIMIT) fail("too large");
    rewind(file);
    setvbuf(file, NULL, _IONBF, 0);
    uint8_t *bytes = malloc(*size + SLACK);
    if (!bytes || fread(bytes, 1, *size, file) != *size) fail("cannot read");
    memset(bytes + *size, 0, SLACK);
    fclose(file);
    return bytes;
}
#endif
