/*
 * Vedrogne: polar coder, channel fronts, belief-propagation decoder, a tally for each radio, and the texts of blocks
 * and of their reports.
 *
 * x86-64 Linux only: the archive is code for that processor and system. It needs the C library alone.
 *   from the repository    make                            (proves the library, builds target/staticlib/libvedrogne.a)
 *                          cc -Iinclude yours.c target/staticlib/libvedrogne.a -o yours
 *   after `make install`   cc yours.c $(pkg-config --cflags --libs vedrogne) -o yours
 *
 * No function allocates memory, keeps a state between calls, or fails to return; different threads may call them at the
 * same time. VEDROGNE_STACK, below, is how much of the stack a call takes.
 *
 * A block has N = 2^m positions, m from 1 to 10. The mask has a byte for each: 1 frozen, 0 information. K is the number
 * of its information positions. Message bits fill these in rising order. The code's matrix is the m-th power of rows
 * (1,0) and (1,1), without bit reversal. A mask from a usual construction has to be bit-reversed for this decoder, at
 * both ends: a peer that codes with the mask in its natural order sends other blocks.
 *
 * Lists are pointers with a length in elements, which may be longer than needed: what is behind is neither read nor
 * written. (A message byte or a sample there refuses nothing.) A text to be read is the exception: all of it counts, to
 * its last byte. The caller sees to it that
 *   - every pointer is aligned for its type, is not NULL, not even with a length of 0, and points to as many elements
 *     as its length says;
 *   - each of these elements has been given some value, also where a function only writes it: clear or set such memory
 *     once, before its first use;
 *   - what a function may write overlaps with nothing else that the same call is handed, and no other thread uses it
 *     meanwhile.
 * Nothing else is required: every value of every number, float and byte is answered.
 *
 * Every function returns 0, or the number of a refusal (enum vedrogne_refusal). After a refusal no memory has changed,
 * save a tally that counts the refusal. Where several numbers apply the lowest is returned, save where a place is
 * named.
 */
#ifndef VEDROGNE_H
#define VEDROGNE_H

#include <stddef.h>
#include <stdint.h>

#ifdef __cplusplus
extern "C" {
#endif

/*
 * The version of header and archive. The second number is that of the last change request in it (2026-07), the third
 * counts what has changed for a user since. VEDROGNE_VERSION_NUMBER is 10000, 100 and 1 times the three, for #if.
 */
#define VEDROGNE_VERSION "0.7.0"
#define VEDROGNE_VERSION_NUMBER 700

/*
 * What a function returns: 0, or the number of a refusal. Behind each number: why a call is refused with it, and the
 * functions that do so; decode and front stand for every function whose name begins so.
 */
enum vedrogne_refusal {
    VEDROGNE_DONE = 0,
    VEDROGNE_REFUSED_BLOCK_LENGTH = 1,       /* m is outside 1..10: all but report */
    VEDROGNE_REFUSED_CEILING = 2,            /* the ceiling C is outside 1..2047: front, decode, read, write */
    VEDROGNE_REFUSED_SCALE = 3,              /* the scale k is outside 1..16: decode, read, write */
    VEDROGNE_REFUSED_LIMIT = 4,              /* the limit T is outside 1..64: decode, read, write */
    VEDROGNE_REFUSED_CRITERION = 5,          /* the criterion is outside 0..4: decode, read, write */
    VEDROGNE_REFUSED_OPERAND = 6,            /* the operand is outside its criterion's range: decode, read, write */
    VEDROGNE_REFUSED_SHORT_LIST = 7,         /* a list is shorter than needed: all. The list of settings and that of the
                                                tallies are tested before everything; a message list shorter than K
                                                after 9; the text that write fills after 10 */
    VEDROGNE_REFUSED_MASK_VALUE = 8,         /* a mask value in the first N is neither 0 nor 1: encode, read_out,
                                                decode, read, write */
    VEDROGNE_REFUSED_NO_INFORMATION = 9,     /* the mask has no information position: as 8 */
    VEDROGNE_REFUSED_LLR_ABOVE_CEILING = 10, /* a log-likelihood ratio (LLR) in the first N has a size above C: decode,
                                                read, write */
    VEDROGNE_REFUSED_CHANNEL_FACTOR = 11,    /* a factor or the weight is not finite or not above zero: front, save
                                                front_erasing */
    VEDROGNE_REFUSED_SAMPLE_NOT_FINITE = 12, /* a sample in the first N is not finite: front */
    VEDROGNE_REFUSED_MESSAGE_BIT = 13,       /* a message byte in the first K is above 1: encode */
    VEDROGNE_REFUSED_MALFORMED_TEXT = 14,    /* the text of a block is malformed: read. Its length and first three lines
                                                are tested before 1, the rest of it before 2 */
    VEDROGNE_REFUSED_UNUSABLE_TALLY = 15,    /* the radio's tally can't be counted on: decode_radio. Blocks at or above
                                                1,000,000; or blocks not the sum of endings and refusals; or iterations
                                                below the endings or above 200 times them. Tested before 1 to 10 */
    VEDROGNE_REFUSED_RADIO_NUMBER = 16       /* the radio number is above 63: decode_radio. Tested before 15 */
};

/* The places of the list of settings, and how many this version knows. */
enum vedrogne_setting {
    VEDROGNE_SETTING_M,         /* 1 to 10: a block has 2^m positions */
    VEDROGNE_SETTING_CEILING,   /* C, 1 to 2047: every message of the decoder lies from -C to C */
    VEDROGNE_SETTING_SCALE,     /* k, 1 to 16: a message is k/16 of the min-sum value, cut down to a whole number */
    VEDROGNE_SETTING_LIMIT,     /* T, 1 to 64: the most iterations */
    VEDROGNE_SETTING_CRITERION, /* what is tried after each iteration: enum vedrogne_criterion */
    VEDROGNE_SETTING_OPERAND,   /* the criterion's operand */
    VEDROGNE_SETTINGS_LENGTH
};

/* The criteria. */
enum vedrogne_criterion {
    /* never holds; operand 0 */
    VEDROGNE_CRITERION_NEVER = 0,
    /* no ties, and the marks coded are the coded marks; operand 0 */
    VEDROGNE_CRITERION_G_MATRIX = 1,
    /* every soft output has at least the operand's size, as C at a frozen position has; operand 1 to C */
    VEDROGNE_CRITERION_LEAST_SIZE = 2,
    /* the marks at the information positions stayed the same at each of the last W iterations; operand W, 1 to 8 */
    VEDROGNE_CRITERION_STEADY = 3,
    /* every information position's soft output has at least the operand's size; operand 1 to C. Whatever else is handed
       in, a call under 4 returns and leaves the same as a call under 2 */
    VEDROGNE_CRITERION_LEAST_INFORMATION_SIZE = 4
};

/* Why the decoder ended. */
enum vedrogne_reason {
    VEDROGNE_REASON_CRITERION = 1, /* the criterion held */
    VEDROGNE_REASON_LIMIT = 2      /* the limit was reached without it */
};

/* A mark is a bit, 0 or 1, or this: the soft output is 0. */
enum { VEDROGNE_TIE = 2 };

/* The places of the five numbers of a tally, and the lengths of one tally and of the list of all. */
enum vedrogne_tally {
    VEDROGNE_TALLY_BLOCKS,
    VEDROGNE_TALLY_BY_CRITERION, /* endings for the reason VEDROGNE_REASON_CRITERION */
    VEDROGNE_TALLY_BY_LIMIT,     /* endings for the reason VEDROGNE_REASON_LIMIT */
    VEDROGNE_TALLY_REFUSALS,
    VEDROGNE_TALLY_ITERATIONS,
    VEDROGNE_TALLY_LENGTH,
    VEDROGNE_RADIOS = 64,
    VEDROGNE_TALLIES_LENGTH = VEDROGNE_RADIOS * VEDROGNE_TALLY_LENGTH
};

/* N, and the elements of a workspace, for m from 1 to 10; constant where m is. */
#define VEDROGNE_BLOCK_LENGTH(m) ((size_t)1 << (m))
#define VEDROGNE_WORK_LENGTH(m) (2 * ((size_t)(m) + 1) << (m))

/* The largest m, and bytes of texts. */
enum {
    VEDROGNE_LARGEST_M = 10,
    VEDROGNE_LONGEST_TEXT = 32768,      /* of a text that is read; a longer one is refused */
    VEDROGNE_LONGEST_TIDY_TEXT = 12283, /* enough for vedrogne_write, whatever the block */
    VEDROGNE_REPORT_LENGTH = 32768      /* what vedrogne_report asks for */
};

/* Bytes of stack that a call takes at most: measured, not proved (tests/c/stack.c). */
enum {
    VEDROGNE_STACK_REPORT = 60 * 1024, /* vedrogne_report */
    VEDROGNE_STACK_WRITE = 14 * 1024,  /* vedrogne_write */
    VEDROGNE_STACK = 4 * 1024          /* every other function */
};

/*
 * Codes a message: block[0..N-1] become the coded bits, a byte of 0 or 1 each.
 * Needed: N elements of mask and block, K of message. Numbers: 1, 7, 8, 9, 7 for the message, 13.
 */
uint32_t vedrogne_encode(
    uint32_t m,
    const uint8_t *mask, size_t mask_len,
    const uint8_t *message, size_t message_len,
    uint8_t *block, size_t block_len);

/*
 * Copies the bytes at the information positions of bits[0..N-1], in rising order, to message[0..K-1]. The bytes are
 * copied whatever they are: handed the marks of the decoder, it gives the decoded message, with a 2 for each tie.
 * Needed: N elements of mask and bits, K of message. Numbers: 1, 7, 8, 9, 7 for the message.
 */
uint32_t vedrogne_read_out(
    uint32_t m,
    const uint8_t *mask, size_t mask_len,
    const uint8_t *bits, size_t bits_len,
    uint8_t *message, size_t message_len);

/*
 * The front: samples[0..N-1] become the log-likelihood ratios llr[0..N-1], whole numbers from -ceiling to ceiling. A
 * positive one speaks for 0.
 *   gaussian   the product of sample and factor, a 32-bit float rounded once, to the nearest, ties to even
 *   flipping   the weight with the sample's sign; 0 for a sample of either zero
 *   erasing    the ceiling with the sample's sign; 0 for a sample of either zero
 * A value of size at least the ceiling becomes the ceiling with its sign, any other the nearest whole number, halves
 * away from zero.
 * Needed: N elements of samples and llr. Numbers: 1, 2, 7, 11, 12; vedrogne_front_erasing has no 11.
 */
uint32_t vedrogne_front_gaussian(
    uint32_t m, uint32_t ceiling, float factor,
    const float *samples, size_t samples_len,
    int16_t *llr, size_t llr_len);

uint32_t vedrogne_front_flipping(
    uint32_t m, uint32_t ceiling, float weight,
    const float *samples, size_t samples_len,
    int16_t *llr, size_t llr_len);

uint32_t vedrogne_front_erasing(
    uint32_t m, uint32_t ceiling,
    const float *samples, size_t samples_len,
    int16_t *llr, size_t llr_len);

/*
 * The front for two antennas of a Gaussian channel, each a branch with its own samples and its own factor: each pair
 * first[i], second[i] becomes one log-likelihood ratio llr[i].
 *   - Each branch's product of sample and factor is a 32-bit float, rounded once, and then cut to -4096..4096. One too
 *     large for the format is cut to 4096 with its sign, so two opposite ones give 0.
 *   - The two are added as 32-bit floats, with one rounding.
 *   - The sum becomes a whole number as above.
 * Every rounding of a float is to the nearest, ties to even.
 *
 * Where a branch has the amplitude a and noise of variance v, its exact factor is 2 a / v; take the same multiple of it
 * for both. It makes no difference which branch is the first. With zeros in a branch the answer and the LLRs are those
 * of vedrogne_front_gaussian for the other.
 * Needed: N elements of first, second and llr. Numbers: 1, 2, 7, 11 (either factor), 12 (a sample of either branch).
 */
uint32_t vedrogne_front_two(
    uint32_t m, uint32_t ceiling, float first_factor, float second_factor,
    const float *first, size_t first_len,
    const float *second, size_t second_len,
    int16_t *llr, size_t llr_len);

/*
 * Decodes llr[0..N-1].
 *
 * settings has six elements, at the places of enum vedrogne_setting. Fewer are refused with 7, before every other test.
 *
 * Written where the call returns 0, else unchanged:
 *   soft, coded_soft    [0..N-1]: how sure each position and each coded bit is; positive for 0, negative for 1;
 *                       soft at a frozen position is C
 *   mark, coded_mark    [0..N-1]: their bits, 0 or 1, or VEDROGNE_TIE for a soft output of 0;
 *                       mark at a frozen position is 0
 *   work                the decoder's messages as they stand at the end; its contents before don't matter
 *   *iterations         the iteration at which the decoder ended, 1 to T
 *   *reason             enum vedrogne_reason
 *
 * Needed: N elements of mask, llr, soft, mark, coded_soft and coded_mark, 2 (m + 1) N of work, which is
 * VEDROGNE_WORK_LENGTH(m). Numbers: 7 for settings, then 1 to 10.
 */
uint32_t vedrogne_decode(
    const uint32_t *settings, size_t settings_len,
    const uint8_t *mask, size_t mask_len,
    const int16_t *llr, size_t llr_len,
    int16_t *soft, size_t soft_len,
    uint8_t *mark, size_t mark_len,
    int16_t *coded_soft, size_t coded_soft_len,
    uint8_t *coded_mark, size_t coded_mark_len,
    int16_t *work, size_t work_len,
    uint32_t *iterations,
    uint32_t *reason);

/*
 * Decodes as vedrogne_decode does, and counts the answer in the tally of the radio, whose number is 0 to 63.
 *
 * tallies has 320 elements (VEDROGNE_TALLIES_LENGTH): 64 tallies of five numbers, radio r's in
 * tallies[5 r .. 5 r + 4], in the order of enum vedrogne_tally. It starts with zeros. Refusals 1 to 10 are counted, as
 * a block with no iterations. The five numbers of the radio are all that is read and written there; yet the whole list
 * counts as memory that the function may write, and no other thread uses it meanwhile.
 *
 * Numbers: 7 for fewer than 320 elements of tallies, 7 for fewer than six of settings, 16, 15; none of these is
 * counted, and all tallies stay as they were. Then 1 to 10. What the other 63 tallies hold refuses nothing. From zeros
 * none of the first 1,000,000 calls is refused with 15. A tally allows 200 iterations for each ending, more than a call
 * can have, so that tallies counted while the limit ran to 200 go on.
 */
uint32_t vedrogne_decode_radio(
    uint32_t radio,
    uint32_t *tallies, size_t tallies_len,
    const uint32_t *settings, size_t settings_len,
    const uint8_t *mask, size_t mask_len,
    const int16_t *llr, size_t llr_len,
    int16_t *soft, size_t soft_len,
    uint8_t *mark, size_t mark_len,
    int16_t *coded_soft, size_t coded_soft_len,
    uint8_t *coded_mark, size_t coded_mark_len,
    int16_t *work, size_t work_len,
    uint32_t *iterations,
    uint32_t *reason);

/*
 * The text of a block, as the report program reads it:
 *
 *   m ceiling scale limit criterion operand
 *   1 31 16 10 1 0
 *   position frozen llr
 *   0 1 5
 *   1 0 -3
 *
 * Two lines of names, byte for byte as here; the six settings; then for each position, 0 to N-1 in order, its number,
 * its mask value and its LLR. A value is an optional minus and 1 to 6 digits, leading zeros allowed. Values are parted
 * by one or more spaces, none stands at either end of a line. Every line ends with byte 10 and nothing follows the last
 * one. A text has at most 32,768 bytes. It is tidy where it has single spaces, no leading zeros and no minus before 0:
 * settings and a block that the decoder accepts have one tidy text, of at most 12,283 bytes.
 */

/*
 * Reads the text of a block.
 *
 * Written where the call returns 0, else unchanged:
 *   settings    [0..5]: the settings, at the places of enum vedrogne_setting
 *   mask        [0..N-1]: 1 frozen, 0 information
 *   llr         [0..N-1]: the LLRs
 *
 * The decoder accepts what was read. 1,024 elements of mask and llr are enough for every block.
 * Needed: VEDROGNE_SETTINGS_LENGTH elements of settings (six), N of mask and llr. Numbers: 7 for settings; 14 for the
 * text's length and its first three lines; 1; 14 for the rest; 2 to 6; 7 for mask and llr; 8, 9, 10.
 */
uint32_t vedrogne_read(
    const uint8_t *text, size_t text_len,
    uint32_t *settings, size_t settings_len,
    uint8_t *mask, size_t mask_len,
    int16_t *llr, size_t llr_len);

/*
 * Writes the tidy text of a block, whose settings, mask and LLRs are handed in as to vedrogne_decode.
 *
 * Written where the call returns 0, else unchanged:
 *   text        [0..*written-1]: the tidy text, without a byte 0 behind it
 *   *written    its length
 *
 * Handed text and *written for its length, vedrogne_read reads the same settings and the first N elements of mask and
 * llr. (Every byte of a text counts, so what is behind must not be handed over with it.) Two texts that vedrogne_read
 * accepts are written alike exactly when it reads the same from both.
 * Needed: six elements of settings, N of mask and llr, and of text as many as the tidy text has bytes; 12,283 are
 * enough for every block. Numbers: 7 for settings, then 1 to 10, then 7 for the text.
 */
uint32_t vedrogne_write(
    const uint32_t *settings, size_t settings_len,
    const uint8_t *mask, size_t mask_len,
    const int16_t *llr, size_t llr_len,
    uint8_t *text, size_t text_len,
    size_t *written);

/*
 * Writes the report on the text of a block, the bytes that the report program prints. A refused text has a report as
 * well, the line `refused` and a line with the number: the call returns 0 then too.
 *
 * Written where the call returns 0, else unchanged:
 *   out         [0..*written-1]: the report, without a byte 0 behind it
 *   *written    its length
 *
 * Needed: 32,768 elements of out, whatever the text is. Numbers: 7.
 */
uint32_t vedrogne_report(
    const uint8_t *text, size_t text_len,
    uint8_t *out, size_t out_len,
    size_t *written);

#ifdef __cplusplus
}
#endif

#endif
