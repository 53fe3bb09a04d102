/*
 * Tries every name of vedrogne.h against the library: each refusal, reason, criterion and place by a call that shows
 * it, each length as exactly enough, or as the first that is too much. Ends with 1 and names what fails. tests/c/run
 * builds and runs it.
 */
#include <math.h>
#include <stdio.h>
#include <string.h>

#include "vedrogne.h"

enum { N = VEDROGNE_BLOCK_LENGTH(VEDROGNE_LARGEST_M), WORK = VEDROGNE_WORK_LENGTH(VEDROGNE_LARGEST_M) };

static int tried, failed;

#define EXPECT(what, value)                                                                    \
    do {                                                                                       \
        unsigned long found = (unsigned long)(what), expected = (unsigned long)(value);        \
        tried++;                                                                               \
        if (found != expected) {                                                               \
            failed++;                                                                          \
            printf("%s is %lu; expected: %s, which is %lu\n", #what, found, #value, expected); \
        }                                                                                      \
    } while (0)

/* Everything that a call is handed. */
static uint32_t settings[VEDROGNE_SETTINGS_LENGTH], tallies[VEDROGNE_TALLIES_LENGTH], iterations, reason;
static uint8_t mask[N], message[N], block[N], mark[N], coded_mark[N];
static uint8_t text[VEDROGNE_LONGEST_TEXT + 1], out[VEDROGNE_REPORT_LENGTH];
static int16_t llr[N], soft[N], coded_soft[N], work[WORK];
static float samples[N];
static size_t written;

/* Document 01's block: position 0 frozen, LLRs 5 and -3, under a ceiling of 31. */
static void reset(void)
{
    settings[VEDROGNE_SETTING_M] = 1;
    settings[VEDROGNE_SETTING_CEILING] = 31;
    settings[VEDROGNE_SETTING_SCALE] = 16;
    settings[VEDROGNE_SETTING_LIMIT] = 10;
    settings[VEDROGNE_SETTING_CRITERION] = VEDROGNE_CRITERION_G_MATRIX;
    settings[VEDROGNE_SETTING_OPERAND] = 0;
    memset(mask, 0, sizeof mask);
    memset(llr, 0, sizeof llr);
    mask[0] = 1;
    llr[0] = 5;
    llr[1] = -3;
}

static uint32_t decode_with(size_t work_len)
{
    return vedrogne_decode(settings, VEDROGNE_SETTINGS_LENGTH, mask, N, llr, N, soft, N, mark, N, coded_soft, N,
                           coded_mark, N, work, work_len, &iterations, &reason);
}

static uint32_t decode(void)
{
    return decode_with(WORK);
}

static uint32_t decode_radio(uint32_t radio, size_t tallies_len)
{
    return vedrogne_decode_radio(radio, tallies, tallies_len, settings, VEDROGNE_SETTINGS_LENGTH, mask, N, llr, N, soft,
                                 N, mark, N, coded_soft, N, coded_mark, N, work, WORK, &iterations, &reason);
}

/* The number of a call of the decoder with one setting changed. */
static uint32_t decode_set(int place, uint32_t value)
{
    reset();
    settings[place] = value;
    return decode();
}

static uint32_t write_text(size_t room)
{
    return vedrogne_write(settings, VEDROGNE_SETTINGS_LENGTH, mask, N, llr, N, text, room, &written);
}

static void refusals_of_settings(void)
{
    EXPECT(decode_set(VEDROGNE_SETTING_M, 1), VEDROGNE_DONE);
    EXPECT(decode_set(VEDROGNE_SETTING_M, VEDROGNE_LARGEST_M), VEDROGNE_DONE);
    EXPECT(decode_set(VEDROGNE_SETTING_M, VEDROGNE_LARGEST_M + 1), VEDROGNE_REFUSED_BLOCK_LENGTH);
    EXPECT(decode_set(VEDROGNE_SETTING_CEILING, 2048), VEDROGNE_REFUSED_CEILING);
    EXPECT(decode_set(VEDROGNE_SETTING_SCALE, 17), VEDROGNE_REFUSED_SCALE);
    EXPECT(decode_set(VEDROGNE_SETTING_LIMIT, 65), VEDROGNE_REFUSED_LIMIT);
    EXPECT(decode_set(VEDROGNE_SETTING_CRITERION, VEDROGNE_CRITERION_LEAST_INFORMATION_SIZE + 1),
           VEDROGNE_REFUSED_CRITERION);
    EXPECT(decode_set(VEDROGNE_SETTING_OPERAND, 1), VEDROGNE_REFUSED_OPERAND);
}

static void other_refusals(void)
{
    const float factor = 1.0f;

    reset();
    mask[1] = 2;
    EXPECT(decode(), VEDROGNE_REFUSED_MASK_VALUE);
    mask[1] = 1;
    EXPECT(decode(), VEDROGNE_REFUSED_NO_INFORMATION);
    reset();
    llr[1] = 32;
    EXPECT(decode(), VEDROGNE_REFUSED_LLR_ABOVE_CEILING);
    EXPECT(vedrogne_front_gaussian(1, 31, -factor, samples, N, llr, N), VEDROGNE_REFUSED_CHANNEL_FACTOR);
    samples[1] = NAN;
    EXPECT(vedrogne_front_gaussian(1, 31, factor, samples, N, llr, N), VEDROGNE_REFUSED_SAMPLE_NOT_FINITE);
    message[0] = 2;
    EXPECT(vedrogne_encode(1, mask, N, message, N, block, N), VEDROGNE_REFUSED_MESSAGE_BIT);
    tallies[VEDROGNE_TALLY_BLOCKS] = 1;
    EXPECT(decode_radio(0, VEDROGNE_TALLIES_LENGTH), VEDROGNE_REFUSED_UNUSABLE_TALLY);
    tallies[VEDROGNE_TALLY_BLOCKS] = 0;
    EXPECT(decode_radio(VEDROGNE_RADIOS, VEDROGNE_TALLIES_LENGTH), VEDROGNE_REFUSED_RADIO_NUMBER);
}

/* The block ends by criterion 1 at once, never by 0; its least soft output is 2, and its marks stay from the start. */
static void endings(void)
{
    static const struct { uint32_t criterion, operand, iterations, reason; } cases[] = {
        { VEDROGNE_CRITERION_NEVER, 0, 10, VEDROGNE_REASON_LIMIT },
        { VEDROGNE_CRITERION_G_MATRIX, 0, 1, VEDROGNE_REASON_CRITERION },
        { VEDROGNE_CRITERION_LEAST_SIZE, 2, 1, VEDROGNE_REASON_CRITERION },
        { VEDROGNE_CRITERION_LEAST_SIZE, 3, 10, VEDROGNE_REASON_LIMIT },
        { VEDROGNE_CRITERION_STEADY, 8, 9, VEDROGNE_REASON_CRITERION },
        { VEDROGNE_CRITERION_LEAST_INFORMATION_SIZE, 2, 1, VEDROGNE_REASON_CRITERION },
        { VEDROGNE_CRITERION_LEAST_INFORMATION_SIZE, 31, 10, VEDROGNE_REASON_LIMIT },
    };
    for (size_t i = 0; i < sizeof cases / sizeof cases[0]; i++) {
        reset();
        settings[VEDROGNE_SETTING_CRITERION] = cases[i].criterion;
        settings[VEDROGNE_SETTING_OPERAND] = cases[i].operand;
        EXPECT(decode(), VEDROGNE_DONE);
        EXPECT(iterations, cases[i].iterations);
        EXPECT(reason, cases[i].reason);
    }
    reset();
    llr[0] = 3;
    EXPECT(decode(), VEDROGNE_DONE);
    EXPECT(mark[1], VEDROGNE_TIE);
}

/* Two blocks by the criterion, one of them after 2 iterations, three by the limit of 10, and four refusals. */
static void tally(void)
{
    const uint32_t *last = &tallies[VEDROGNE_TALLY_LENGTH * (VEDROGNE_RADIOS - 1)];

    for (int i = 0; i < 9; i++) {
        reset();
        if (i == 1) {
            settings[VEDROGNE_SETTING_CRITERION] = VEDROGNE_CRITERION_STEADY;
            settings[VEDROGNE_SETTING_OPERAND] = 1;
        } else if (i >= 2 && i < 5) {
            settings[VEDROGNE_SETTING_CRITERION] = VEDROGNE_CRITERION_NEVER;
        } else if (i >= 5) {
            settings[VEDROGNE_SETTING_LIMIT] = 0;
        }
        EXPECT(decode_radio(VEDROGNE_RADIOS - 1, VEDROGNE_TALLIES_LENGTH),
               i < 5 ? VEDROGNE_DONE : VEDROGNE_REFUSED_LIMIT);
    }
    EXPECT(last[VEDROGNE_TALLY_BLOCKS], 9);
    EXPECT(last[VEDROGNE_TALLY_BY_CRITERION], 2);
    EXPECT(last[VEDROGNE_TALLY_BY_LIMIT], 3);
    EXPECT(last[VEDROGNE_TALLY_REFUSALS], 4);
    EXPECT(last[VEDROGNE_TALLY_ITERATIONS], 33);
}

static void lengths_of_a_block(void)
{
    for (uint32_t m = 1; m <= VEDROGNE_LARGEST_M; m++) {
        const size_t n = VEDROGNE_BLOCK_LENGTH(m);
        reset();
        settings[VEDROGNE_SETTING_M] = m;
        EXPECT(decode_with(VEDROGNE_WORK_LENGTH(m)), VEDROGNE_DONE);
        EXPECT(decode_with(VEDROGNE_WORK_LENGTH(m) - 1), VEDROGNE_REFUSED_SHORT_LIST);
        memset(message, 0, sizeof message);
        EXPECT(vedrogne_encode(m, mask, n, message, N, block, n), VEDROGNE_DONE);
        EXPECT(vedrogne_encode(m, mask, n, message, N, block, n - 1), VEDROGNE_REFUSED_SHORT_LIST);
    }
    reset();
    EXPECT(decode_radio(0, VEDROGNE_TALLIES_LENGTH), VEDROGNE_DONE);
    EXPECT(decode_radio(0, VEDROGNE_TALLIES_LENGTH - 1), VEDROGNE_REFUSED_SHORT_LIST);
}

/* Reads document 01's block with other settings, spaces between them making it a text of this length. */
static uint32_t read_spaced(size_t length, size_t settings_len)
{
    static const char begin[] = "m ceiling scale limit criterion operand\n1 31 15 10 3";
    static const char end[] = "4\nposition frozen llr\n0 1 5\n1 0 -3\n";

    memset(text, ' ', sizeof text);
    memcpy(text, begin, strlen(begin));
    memcpy(text + length - strlen(end), end, strlen(end));
    return vedrogne_read(text, length, settings, settings_len, mask, N, llr, N);
}

static void reading(void)
{
    EXPECT(read_spaced(VEDROGNE_LONGEST_TEXT + 1, VEDROGNE_SETTINGS_LENGTH), VEDROGNE_REFUSED_MALFORMED_TEXT);
    EXPECT(read_spaced(VEDROGNE_LONGEST_TEXT, VEDROGNE_SETTINGS_LENGTH - 1), VEDROGNE_REFUSED_SHORT_LIST);
    EXPECT(read_spaced(VEDROGNE_LONGEST_TEXT, VEDROGNE_SETTINGS_LENGTH), VEDROGNE_DONE);
    EXPECT(settings[VEDROGNE_SETTING_M], 1);
    EXPECT(settings[VEDROGNE_SETTING_CEILING], 31);
    EXPECT(settings[VEDROGNE_SETTING_SCALE], 15);
    EXPECT(settings[VEDROGNE_SETTING_LIMIT], 10);
    EXPECT(settings[VEDROGNE_SETTING_CRITERION], VEDROGNE_CRITERION_STEADY);
    EXPECT(settings[VEDROGNE_SETTING_OPERAND], 4);
}

/* The longest tidy text has 1,024 positions, four-digit LLRs with a minus, and the longest value of each setting. */
static void writing(void)
{
    static const uint32_t longest[] = { VEDROGNE_LARGEST_M, 2047, 16, 64, VEDROGNE_CRITERION_LEAST_SIZE, 2047 };

    memcpy(settings, longest, sizeof longest);
    for (int i = 0; i < N; i++) {
        llr[i] = -2047;
    }
    EXPECT(write_text(VEDROGNE_LONGEST_TIDY_TEXT - 1), VEDROGNE_REFUSED_SHORT_LIST);
    EXPECT(write_text(VEDROGNE_LONGEST_TIDY_TEXT), VEDROGNE_DONE);
    EXPECT(written, VEDROGNE_LONGEST_TIDY_TEXT);
    EXPECT(vedrogne_report(text, written, out, VEDROGNE_REPORT_LENGTH, &written), VEDROGNE_DONE);
    EXPECT(vedrogne_report(text, written, out, VEDROGNE_REPORT_LENGTH - 1, &written), VEDROGNE_REFUSED_SHORT_LIST);
}

static void version(void)
{
    char number[32];

    snprintf(number, sizeof number, "%d.%d.%d", VEDROGNE_VERSION_NUMBER / 10000, VEDROGNE_VERSION_NUMBER / 100 % 100,
             VEDROGNE_VERSION_NUMBER % 100);
    EXPECT(strcmp(number, VEDROGNE_VERSION), 0);
}

int main(void)
{
    refusals_of_settings();
    other_refusals();
    endings();
    tally();
    lengths_of_a_block();
    reading();
    writing();
    version();
    printf("header: %d tried, %d failed\n", tried, failed);
    return failed != 0;
}
