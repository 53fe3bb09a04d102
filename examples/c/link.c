/*
 * A message the whole way: coded, sent over a noisy channel, decoded and read out; and decoded by a handset and by a
 * desk, under criteria 4 and 2, which leave the same behind. examples/c/run builds and runs it.
 */
#include <stdio.h>
#include <string.h>

#include "shared.h"
#include "vedrogne.h"

enum { CEILING = 127 };

/* What a call of the decoder leaves. */
struct decoded {
    int16_t soft[N], coded_soft[N], work[VEDROGNE_WORK_LENGTH(M)];
    uint8_t mark[N], coded_mark[N];
    uint32_t iterations, reason;
};

static int wrong_signs(const uint8_t *block, const int16_t *llr)
{
    int count = 0;
    for (int i = 0; i < N; i++) {
        count += block[i] == 0 ? llr[i] < 0 : llr[i] > 0;
    }
    return count;
}

static void print_bits(const char *name, const uint8_t *bits)
{
    printf("%s ", name);
    for (int i = 0; i < K; i++) {
        printf("%d", bits[i]);
    }
    printf("\n");
}

/* 1 where a call was refused, after saying so. */
static int refused(const char *call, uint32_t number)
{
    if (number != VEDROGNE_DONE) {
        printf("%s refused %u\n", call, (unsigned)number);
    }
    return number != VEDROGNE_DONE;
}

/* Calls the decoder and prints how it ended; 1 where it was refused. */
static int decode(uint32_t criterion, uint32_t operand, const int16_t *llr, struct decoded *to)
{
    const uint32_t settings[VEDROGNE_SETTINGS_LENGTH] = { M, CEILING, 15, 50, criterion, operand };
    if (refused("decode", vedrogne_decode(settings, VEDROGNE_SETTINGS_LENGTH, mask, N, llr, N, to->soft, N, to->mark, N,
                                          to->coded_soft, N, to->coded_mark, N, to->work, VEDROGNE_WORK_LENGTH(M),
                                          &to->iterations, &to->reason))) {
        return 1;
    }
    printf("criterion %u operand %u: iterations %u reason %u\n", (unsigned)criterion, (unsigned)operand,
           (unsigned)to->iterations, (unsigned)to->reason);
    return 0;
}

int main(void)
{
    static uint8_t message[K], block[N], received[K];
    static float samples[N];
    static int16_t llr[N];
    static struct decoded decoded, handset, desk;
    uint32_t message_state = 7, noise_state = 1;

    next_message(&message_state, message);
    print_bits("message ", message);
    if (refused("encode", vedrogne_encode(M, mask, N, message, K, block, N))) {
        return 1;
    }
    channel(&noise_state, 8, 8, block, samples);
    if (refused("front", vedrogne_front_gaussian(M, CEILING, 8.0f, samples, N, llr, N))) {
        return 1;
    }
    printf("%d of %d LLRs have the wrong sign\n", wrong_signs(block, llr), N);
    if (decode(VEDROGNE_CRITERION_G_MATRIX, 0, llr, &decoded)) {
        return 1;
    }
    if (refused("read_out", vedrogne_read_out(M, mask, N, decoded.mark, N, received, K))) {
        return 1;
    }
    print_bits("received", received);
    printf(memcmp(message, received, K) == 0 ? "the message came back\n" : "the message did not come back\n");
    if (decode(VEDROGNE_CRITERION_LEAST_INFORMATION_SIZE, 12, llr, &handset)
        || decode(VEDROGNE_CRITERION_LEAST_SIZE, 12, llr, &desk)) {
        return 1;
    }
    printf("criteria 4 and 2: %s outputs\n", memcmp(&handset, &desk, sizeof desk) == 0 ? "the same" : "different");
    return 0;
}
