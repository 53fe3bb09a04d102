/*
 * A van with two antennas: decodes the same blocks from the first antenna, from the second, which is weaker, and from
 * both together, and counts how that ended. examples/c/run builds and runs it.
 */
#include <math.h>
#include <stdio.h>
#include <string.h>

#include "shared.h"
#include "vedrogne.h"

enum { CEILING = 2047, BLOCKS = 200 };

/* The amplitude and the noise of an antenna, in eighths. */
struct antenna { int32_t amplitude, noise; };
static const struct antenna first = { 8, 11 }, second = { 5, 9 };

/* How blocks ended, and what was wrong in their messages. */
struct count { int criterion, limit, iterations, wrong_blocks, wrong_bits; };

/* 16 times the exact factor, which is twice the amplitude over the variance; 8 eighths of noise have variance 1/2. */
static float factor(struct antenna antenna)
{
    float amplitude = (float)antenna.amplitude / 8, noise = (float)antenna.noise / 8;
    return 16 * 2 * amplitude / (noise * noise / 2);
}

static uint32_t front_two(const float *first_samples, const float *second_samples, int16_t *llr)
{
    return vedrogne_front_two(M, CEILING, factor(first), factor(second), first_samples, N, second_samples, N, llr, N);
}

/* Decodes a block and counts how it ended; 1 where a call was refused. */
static int receive(const uint8_t *message, const int16_t *llr, struct count *count)
{
    static const uint32_t settings[VEDROGNE_SETTINGS_LENGTH] = {
        M, CEILING, 15, 50, VEDROGNE_CRITERION_G_MATRIX, 0
    };
    static int16_t soft[N], coded_soft[N], work[VEDROGNE_WORK_LENGTH(M)];
    static uint8_t mark[N], coded_mark[N], received[K];
    uint32_t iterations = 0, reason = 0;
    int wrong = 0;

    if (vedrogne_decode(settings, VEDROGNE_SETTINGS_LENGTH, mask, N, llr, N, soft, N, mark, N, coded_soft, N,
                        coded_mark, N, work, VEDROGNE_WORK_LENGTH(M), &iterations, &reason) != VEDROGNE_DONE
        || vedrogne_read_out(M, mask, N, mark, N, received, K) != VEDROGNE_DONE) {
        return 1;
    }
    for (int i = 0; i < K; i++) {
        wrong += received[i] != message[i];
    }
    count->criterion += reason == VEDROGNE_REASON_CRITERION;
    count->limit += reason == VEDROGNE_REASON_LIMIT;
    count->iterations += (int)iterations;
    count->wrong_blocks += wrong > 0;
    count->wrong_bits += wrong;
    return 0;
}

/* A NaN among the second branch's samples. The LLRs are set before the call, so that a written one would show. */
static void try_nan(const float *first_samples, float *second_samples)
{
    static int16_t llr[N], before[N];
    uint32_t number;

    memset(llr, 0x55, sizeof llr);
    memcpy(before, llr, sizeof before);
    second_samples[N - 1] = NAN;
    number = front_two(first_samples, second_samples, llr);
    printf("NaN in the second branch: refused %u, %s\n", (unsigned)number,
           memcmp(before, llr, sizeof llr) == 0 ? "nothing was written" : "LLRs were written");
}

int main(void)
{
    static const char *const names[3] = { "first antenna", "second antenna", "both together" };
    static struct count counts[3];
    static uint8_t message[K], block[N];
    static float first_samples[N], second_samples[N];
    static int16_t llr[3][N];
    uint32_t state = 1;

    for (int n = 0; n < BLOCKS; n++) {
        next_message(&state, message);
        if (vedrogne_encode(M, mask, N, message, K, block, N) != VEDROGNE_DONE) {
            return 1;
        }
        channel(&state, first.amplitude, first.noise, block, first_samples);
        channel(&state, second.amplitude, second.noise, block, second_samples);
        if (vedrogne_front_gaussian(M, CEILING, factor(first), first_samples, N, llr[0], N) != VEDROGNE_DONE
            || vedrogne_front_gaussian(M, CEILING, factor(second), second_samples, N, llr[1], N) != VEDROGNE_DONE
            || front_two(first_samples, second_samples, llr[2]) != VEDROGNE_DONE || receive(message, llr[0], &counts[0])
            || receive(message, llr[1], &counts[1]) || receive(message, llr[2], &counts[2])) {
            return 1;
        }
    }
    printf("%d blocks       criterion  limit  iterations  wrong blocks  wrong bits\n", BLOCKS);
    for (int i = 0; i < 3; i++) {
        printf("%-16s %9d %6d %11.1f %13d %11d\n", names[i], counts[i].criterion, counts[i].limit,
               (double)counts[i].iterations / BLOCKS, counts[i].wrong_blocks, counts[i].wrong_bits);
    }
    try_nan(first_samples, second_samples);
    return 0;
}
