/* The key stream of ChaCha20 (the block function of RFC 8439 with a counter and a stream number of 64 bits each, and the seed before 24
   zero bytes as the key), several blocks side by side, read word by word. The random bits of a generation are those of the stream of its
   number: a row has whole words of 32 bits, a bit for each cell, and the row below it goes on where it ended. */
#ifndef KEY_STREAM_H
#define KEY_STREAM_H
#include "cells.h"
#include <immintrin.h>

#ifdef __AVX2__
enum { LANES = 8 };
#else
enum { LANES = 4 };
#endif
enum { BLOCK = 16, CHUNK = BLOCK * LANES };
typedef uint32_t Lanes __attribute__((vector_size(4 * LANES)));
typedef uint64_t RowBits __attribute__((may_alias, aligned(4))); /* a word of 64 bits, wherever its two words of 32 bits lie */

struct key_stream {
    uint64_t seed, stream, next_block;
    int place, end;
    _Alignas(64) uint32_t words[CHUNK];
    uint32_t row[MOST_SIDE / 32 + 1];
};

#define ROTATED(x, by) ((x) << (by) | (x) >> (32 - (by)))
#define QUARTER(a, b, c, d) \
    a += b, d = ROTATED(d ^ a, 16), c += d, b = ROTATED(b ^ c, 12), a += b, d = ROTATED(d ^ a, 8), c += d, b = ROTATED(b ^ c, 7)

/* Four words of four blocks, which lie word by word, into their places block by block. */
static void put_blocks(uint32_t *out, const uint32_t *words) {
    __m128i x[4];
    for (int i = 0; i < 4; i++) x[i] = _mm_loadu_si128((const __m128i *)(const void *)(words + i * LANES));
    __m128i low = _mm_unpacklo_epi32(x[0], x[1]), low_next = _mm_unpacklo_epi32(x[2], x[3]);
    __m128i high = _mm_unpackhi_epi32(x[0], x[1]), high_next = _mm_unpackhi_epi32(x[2], x[3]);
    _mm_storeu_si128((__m128i *)(void *)out, _mm_unpacklo_epi64(low, low_next));
    _mm_storeu_si128((__m128i *)(void *)(out + BLOCK), _mm_unpackhi_epi64(low, low_next));
    _mm_storeu_si128((__m128i *)(void *)(out + 2 * BLOCK), _mm_unpacklo_epi64(high, high_next));
    _mm_storeu_si128((__m128i *)(void *)(out + 3 * BLOCK), _mm_unpackhi_epi64(high, high_next));
}

static void make_chunk(struct key_stream *key) {
    const uint32_t given[BLOCK] = {0x61707865, 0x3320646e, 0x79622d32, 0x6b206574, (uint32_t)key->seed, (uint32_t)(key->seed >> 32),
                                   0, 0, 0, 0, 0, 0, 0, 0, (uint32_t)key->stream, (uint32_t)(key->stream >> 32)};
    Lanes start[BLOCK], x[BLOCK];
    for (int i = 0; i < BLOCK; i++) start[i] = given[i] - (Lanes){0};
    for (int lane = 0; lane < LANES; lane++) {
        start[12][lane] = (uint32_t)(key->next_block + (uint64_t)lane);
        start[13][lane] = (uint32_t)((key->next_block + (uint64_t)lane) >> 32);
    }
    memcpy(x, start, sizeof x);
    for (int twice = 0; twice < 10; twice++) {
        QUARTER(x[0], x[4], x[8], x[12]), QUARTER(x[1], x[5], x[9], x[13]);
        QUARTER(x[2], x[6], x[10], x[14]), QUARTER(x[3], x[7], x[11], x[15]);
        QUARTER(x[0], x[5], x[10], x[15]), QUARTER(x[1], x[6], x[11], x[12]);
        QUARTER(x[2], x[7], x[8], x[13]), QUARTER(x[3], x[4], x[9], x[14]);
    }
    _Alignas(64) uint32_t made[CHUNK];
    for (int i = 0; i < BLOCK; i++) x[i] += start[i];
    memcpy(made, x, sizeof made);
    for (int first = 0; first < LANES; first += 4)
        for (int i = 0; i < BLOCK; i += 4) put_blocks(key->words + first * BLOCK + i, made + i * LANES + first);
    key->next_block += LANES;
    key->place = 0, key->end = CHUNK;
}

/* Lets the next word be that of this place in the stream of a generation. */
static void start_stream(struct key_stream *key, uint64_t generation, uint64_t place) {
    key->stream = generation, key->next_block = place / BLOCK;
    key->place = key->end = 0;
    if (place % BLOCK) make_chunk(key), key->place = (int)(place % BLOCK);
}

/* the random bits of the next row, `count` words of 32 bits, as words of 64 bits */
static const RowBits *next_row_bits(struct key_stream *key, int count) {
    if (key->place == key->end) make_chunk(key);
    if (key->end - key->place >= count && count % 2 == 0) {
        key->place += count;
        return (const RowBits *)(key->words + key->place - count);
    }
    for (int done = 0; done < count;) {
        if (key->place == key->end) make_chunk(key);
        int part = key->end - key->place < count - done ? key->end - key->place : count - done;
        memcpy(key->row + done, key->words + key->place, (size_t)part * sizeof *key->row);
        key->place += part, done += part;
    }
    key->row[count] = 0;
    return (const RowBits *)key->row;
}

static struct key_stream *new_key_stream(uint64_t seed) {
    struct key_stream *key = zeros(sizeof *key);
    key->seed = seed;
    return key;
}
#endif
