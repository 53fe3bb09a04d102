/*
 * What the examples share: a (64,32) code, and messages and noise that are the same on every machine.
 */
#ifndef SHARED_H
#define SHARED_H

#include <stdint.h>

enum { M = 6, N = 64, K = 32 };

/* A (64,32) code: 1 frozen, 0 information. */
static const uint8_t mask[N] = {
    1, 1, 1, 1, 1, 1, 1, 0, 1, 1, 1, 0, 1, 0, 0, 0,
    1, 1, 1, 0, 1, 0, 0, 0, 1, 0, 1, 0, 1, 0, 0, 0,
    1, 1, 1, 0, 1, 0, 1, 0, 1, 1, 1, 0, 1, 0, 0, 0,
    1, 1, 1, 0, 1, 0, 0, 0, 1, 0, 0, 0, 0, 0, 0, 0
};

/* The next of a fixed run of numbers, from 0 to 65535. */
static inline int32_t next_number(uint32_t *state)
{
    *state = *state * 1664525u + 1013904223u;
    return (int32_t)(*state >> 16);
}

static inline void next_message(uint32_t *state, uint8_t *message)
{
    for (int i = 0; i < K; i++) {
        message[i] = (uint8_t)(next_number(state) % 2);
    }
}

/*
 * What an antenna hears of a coded block: the amplitude for a coded 0, minus the amplitude for a coded 1, and noise.
 * Both are given in eighths. With 8 eighths the noise is a sum of six numbers from -1/2 to 1/2, so its variance is 1/2
 * and its standard deviation about 0.71. All of it is counted in whole 65536ths, so that the samples are the same on
 * every machine.
 */
static inline void channel(uint32_t *state, int32_t amplitude, int32_t noise, const uint8_t *block, float *samples)
{
    for (int i = 0; i < N; i++) {
        int32_t sum = 0;
        for (int term = 0; term < 6; term++) {
            sum += next_number(state) - 32768;
        }
        samples[i] = (float)((block[i] == 0 ? 8192 : -8192) * amplitude + noise * sum / 8) / 65536.0f;
    }
}

#endif
