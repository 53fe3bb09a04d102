/*
 * A desk that keeps a tally for each radio: decodes blocks from four radios, each heard through noise of its own, and
 * prints the tallies as the list that ./radios reads. examples/c/run builds and runs it.
 */
#include <stdio.h>

#include "shared.h"
#include "vedrogne.h"

enum { CEILING = 127, BLOCKS = 200 };

/* Radios, and how strong the noise is that each is heard through, in eighths of link.c's. */
static const struct { uint32_t radio; int32_t noise; } net[4] = { { 3, 7 }, { 7, 10 }, { 12, 8 }, { 40, 5 } };

/* Decodes a block of one radio and counts it in the tallies. */
static uint32_t receive(uint32_t radio, uint32_t *tallies, const int16_t *llr)
{
    static const uint32_t settings[VEDROGNE_SETTINGS_LENGTH] = {
        M, CEILING, 15, 50, VEDROGNE_CRITERION_G_MATRIX, 0
    };
    static int16_t soft[N], coded_soft[N], work[VEDROGNE_WORK_LENGTH(M)];
    static uint8_t mark[N], coded_mark[N];
    uint32_t iterations = 0, reason = 0;
    return vedrogne_decode_radio(radio, tallies, VEDROGNE_TALLIES_LENGTH, settings, VEDROGNE_SETTINGS_LENGTH, mask, N,
                                 llr, N, soft, N, mark, N, coded_soft, N, coded_mark, N, work, VEDROGNE_WORK_LENGTH(M),
                                 &iterations, &reason);
}

int main(void)
{
    static uint32_t tallies[VEDROGNE_TALLIES_LENGTH];
    static uint8_t message[K], block[N];
    static float samples[N];
    static int16_t llr[N];
    uint32_t state = 1;

    for (int n = 0; n < 4 * BLOCKS; n++) {
        next_message(&state, message);
        if (vedrogne_encode(M, mask, N, message, K, block, N) != VEDROGNE_DONE) {
            return 1;
        }
        channel(&state, 8, net[n % 4].noise, block, samples);
        if (vedrogne_front_gaussian(M, CEILING, 8.0f, samples, N, llr, N) != VEDROGNE_DONE
            || receive(net[n % 4].radio, tallies, llr) != VEDROGNE_DONE) {
            return 1;
        }
    }

    /* An LLR above the ceiling is refused with 10 and counts for its radio; radio 64 is refused with 16 and doesn't. */
    llr[0] = CEILING + 1;
    if (receive(12, tallies, llr) != VEDROGNE_REFUSED_LLR_ABOVE_CEILING
        || receive(VEDROGNE_RADIOS, tallies, llr) != VEDROGNE_REFUSED_RADIO_NUMBER) {
        return 1;
    }

    printf("radio blocks criterion limit refusals iterations\n");
    for (unsigned radio = 0; radio < VEDROGNE_RADIOS; radio++) {
        const uint32_t *own = &tallies[VEDROGNE_TALLY_LENGTH * radio];
        if (own[VEDROGNE_TALLY_BLOCKS] > 0) {
            printf("%u %u %u %u %u %u\n", radio, (unsigned)own[VEDROGNE_TALLY_BLOCKS],
                   (unsigned)own[VEDROGNE_TALLY_BY_CRITERION], (unsigned)own[VEDROGNE_TALLY_BY_LIMIT],
                   (unsigned)own[VEDROGNE_TALLY_REFUSALS], (unsigned)own[VEDROGNE_TALLY_ITERATIONS]);
        }
    }
    return 0;
}
