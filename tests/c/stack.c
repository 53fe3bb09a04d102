/*
 * Measures how much of the stack each function of vedrogne.h takes, and ends with 1 where one takes more than the
 * header says. A call runs on a stack of its own that is filled with one byte; where that byte still stands, the call
 * has used nothing. tests/c/run builds and runs it.
 */
#define _XOPEN_SOURCE 700
#include <stdio.h>
#include <string.h>
#include <ucontext.h>

#include "vedrogne.h"

enum {
    N = VEDROGNE_BLOCK_LENGTH(VEDROGNE_LARGEST_M),
    WORK = VEDROGNE_WORK_LENGTH(VEDROGNE_LARGEST_M),
    ROOM = 1 << 18,
    UNUSED = 0xa5
};

static uint8_t stack[ROOM];
static ucontext_t here, there;
static uint32_t (*call)(void);
static uint32_t number;

static uint32_t settings[VEDROGNE_SETTINGS_LENGTH] = { VEDROGNE_LARGEST_M, 2047, 16, 64, 0, 0 };
static uint32_t tallies[VEDROGNE_TALLIES_LENGTH], iterations, reason;
static uint8_t mask[N], message[N], block[N], mark[N], coded_mark[N];
static uint8_t text[VEDROGNE_LONGEST_TIDY_TEXT], out[VEDROGNE_REPORT_LENGTH];
static int16_t llr[N], soft[N], coded_soft[N], work[WORK];
static float samples[N];
static size_t text_len, written;

static uint32_t encode(void)
{
    return vedrogne_encode(settings[VEDROGNE_SETTING_M], mask, N, message, N, block, N);
}

static uint32_t read_out(void)
{
    return vedrogne_read_out(settings[VEDROGNE_SETTING_M], mask, N, block, N, message, N);
}

static uint32_t front_gaussian(void)
{
    return vedrogne_front_gaussian(settings[VEDROGNE_SETTING_M], 2047, 99.0f, samples, N, llr, N);
}

static uint32_t front_flipping(void)
{
    return vedrogne_front_flipping(settings[VEDROGNE_SETTING_M], 2047, 99.0f, samples, N, llr, N);
}

static uint32_t front_erasing(void)
{
    return vedrogne_front_erasing(settings[VEDROGNE_SETTING_M], 2047, samples, N, llr, N);
}

static uint32_t front_two(void)
{
    return vedrogne_front_two(settings[VEDROGNE_SETTING_M], 2047, 9.0f, 99.0f, samples, N, samples, N, llr, N);
}

static uint32_t decode(void)
{
    return vedrogne_decode(settings, VEDROGNE_SETTINGS_LENGTH, mask, N, llr, N, soft, N, mark, N, coded_soft, N,
                           coded_mark, N, work, WORK, &iterations, &reason);
}

static uint32_t decode_radio(void)
{
    return vedrogne_decode_radio(9, tallies, VEDROGNE_TALLIES_LENGTH, settings, VEDROGNE_SETTINGS_LENGTH, mask, N, llr,
                                 N, soft, N, mark, N, coded_soft, N, coded_mark, N, work, WORK, &iterations, &reason);
}

static uint32_t write_text(void)
{
    return vedrogne_write(settings, VEDROGNE_SETTINGS_LENGTH, mask, N, llr, N, text, sizeof text, &text_len);
}

static uint32_t read_text(void)
{
    return vedrogne_read(text, text_len, settings, VEDROGNE_SETTINGS_LENGTH, mask, N, llr, N);
}

static uint32_t report(void)
{
    return vedrogne_report(text, text_len, out, sizeof out, &written);
}

/* In the order in which each finds what it needs: LLRs for the decoder, a text for the reader. */
static const struct { const char *name; uint32_t (*call)(void); size_t bound; } functions[] = {
    { "vedrogne_encode", encode, VEDROGNE_STACK },
    { "vedrogne_read_out", read_out, VEDROGNE_STACK },
    { "vedrogne_front_flipping", front_flipping, VEDROGNE_STACK },
    { "vedrogne_front_erasing", front_erasing, VEDROGNE_STACK },
    { "vedrogne_front_two", front_two, VEDROGNE_STACK },
    { "vedrogne_front_gaussian", front_gaussian, VEDROGNE_STACK },
    { "vedrogne_decode", decode, VEDROGNE_STACK },
    { "vedrogne_decode_radio", decode_radio, VEDROGNE_STACK },
    { "vedrogne_write", write_text, VEDROGNE_STACK_WRITE },
    { "vedrogne_read", read_text, VEDROGNE_STACK },
    { "vedrogne_report", report, VEDROGNE_STACK_REPORT },
};
enum { FUNCTIONS = sizeof functions / sizeof functions[0] };

static void run(void)
{
    number = call();
}

/* The bytes that a call uses, from the stack's upper end to the last byte that it changed. */
static size_t used(void)
{
    size_t unused = 0;

    memset(stack, UNUSED, ROOM);
    getcontext(&there);
    there.uc_stack.ss_sp = stack;
    there.uc_stack.ss_size = ROOM;
    there.uc_link = &here;
    makecontext(&there, run, 0);
    swapcontext(&here, &there);
    while (unused < ROOM && stack[unused] == UNUSED) {
        unused++;
    }
    return ROOM - unused;
}

/* Every function once, with the settings as they are; the most bytes that each has taken so far. 1 where all accept. */
static int measure(size_t *most)
{
    for (int f = 0; f < FUNCTIONS; f++) {
        size_t bytes;
        call = functions[f].call;
        bytes = used();
        most[f] = bytes > most[f] ? bytes : most[f];
        if (number != VEDROGNE_DONE) {
            printf("%s: refused %u\n", functions[f].name, (unsigned)number);
            return 0;
        }
    }
    return 1;
}

int main(void)
{
    size_t most[FUNCTIONS] = { 0 };
    int failed = 0;

    for (int i = 0; i < N; i++) {
        mask[i] = i % 2 == 0;
        samples[i] = (float)(i * 37 % 101 - 40) / 8;
    }
    for (uint32_t m = 1; m <= VEDROGNE_LARGEST_M; m++) {
        for (uint32_t criterion = 0; criterion <= VEDROGNE_CRITERION_LEAST_INFORMATION_SIZE; criterion++) {
            settings[VEDROGNE_SETTING_M] = m;
            settings[VEDROGNE_SETTING_CRITERION] = criterion;
            settings[VEDROGNE_SETTING_OPERAND] = criterion < VEDROGNE_CRITERION_LEAST_SIZE ? 0 : 8;
            if (!measure(most)) {
                return 1;
            }
        }
    }
    for (int f = 0; f < FUNCTIONS; f++) {
        int above = most[f] > functions[f].bound;
        printf("%-24s %5u of %5u bytes of stack%s\n", functions[f].name, (unsigned)most[f],
               (unsigned)functions[f].bound, above ? ": TOO MANY" : "");
        failed |= above;
    }
    return failed;
}
