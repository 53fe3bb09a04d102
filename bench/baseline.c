/* The baseline of the benchmark: message passing as document 01 defines it, hand-tuned in block loops that the compiler
   vectorises, with the distances 1, 2, 4 and 8 as constants; and the coder, the read-out and the fronts for one antenna
   and for two, in plain loops. Built with -O3. It tests nothing, save two fronts at the end that test their samples:
   the benchmark hands it what the proved functions accept. */
#include <math.h>
#include <stddef.h>
#include <stdint.h>
#include <string.h>

#define ALWAYS static inline __attribute__((always_inline))

ALWAYS int16_t smaller(int16_t a, int16_t b) { return a < b ? a : b; }
ALWAYS int16_t greater(int16_t a, int16_t b) { return a < b ? b : a; }

/* the sum, cut to the ceiling */
ALWAYS int16_t add(int16_t a, int16_t b, int16_t top) {
    return greater(smaller((int16_t)(a + b), top), (int16_t)-top);
}

/* k sixteenths of the smaller size, with the product of the signs; both sizes are at most 2047 and k at most 16, so
   the product fits */
ALWAYS int16_t f(int16_t a, int16_t b, int16_t k) {
    int16_t size = smaller((int16_t)(a < 0 ? -a : a), (int16_t)(b < 0 ? -b : b));
    int16_t scaled = (int16_t)((uint16_t)(size * k) >> 4);
    int16_t sign = (int16_t)((int16_t)(a ^ b) >> 15);
    return (int16_t)((scaled ^ sign) - sign);
}

/* one step over the distance d, both sides of each pair */
ALWAYS void pairs(int16_t *restrict out, const int16_t *restrict x, const int16_t *restrict y, size_t n,
                  size_t d, int16_t top, int16_t k) {
    for (size_t p = 0; p < n; p += 2 * d) {
        for (size_t i = 0; i < d; i++) {
            int16_t xu = x[p + i], xl = x[p + d + i], yu = y[p + i], yl = y[p + d + i];
            out[p + i] = f(xu, add(xl, yl, top), k);
            out[p + d + i] = add(f(xu, yu, k), xl, top);
        }
    }
}

static void step(int16_t *out, const int16_t *x, const int16_t *y, size_t n, size_t d, int16_t top, int16_t k) {
    switch (d) {
    case 1: pairs(out, x, y, n, 1, top, k); break;
    case 2: pairs(out, x, y, n, 2, top, k); break;
    case 4: pairs(out, x, y, n, 4, top, k); break;
    case 8: pairs(out, x, y, n, 8, top, k); break;
    default: pairs(out, x, y, n, d, top, k);
    }
}

static void iterate(int16_t *work, unsigned m, int16_t top, int16_t k) {
    size_t n = (size_t)1 << m;
    int16_t *left = work, *right = work + (m + 1) * n;
    for (unsigned s = m; s-- > 0;)
        step(left + s * n, left + (s + 1) * n, right + s * n, n, n >> (s + 1), top, k);
    for (unsigned s = 0; s < m; s++)
        step(right + (s + 1) * n, right + s * n, left + (s + 1) * n, n, n >> (s + 1), top, k);
}

/* 0 for a positive value, 1 for a negative one, 2 for zero */
ALWAYS uint8_t mark_of(int16_t v) { return (uint8_t)((v < 0) + 2 * (v == 0)); }

/* soft outputs and their marks. Column 0 of R keeps its start: the ceiling where a position is frozen, which is its
   soft output, and 0 elsewhere, so that the sum is L */
static void soft_outputs(const int16_t *restrict left, const int16_t *restrict prior, size_t n,
                         int16_t *restrict soft, uint8_t *restrict mark) {
    for (size_t i = 0; i < n; i++) {
        int16_t l = left[i], r = prior[i], v = r ? r : l;
        soft[i] = v;
        mark[i] = mark_of(v);
    }
}

/* coded soft outputs and their marks */
static void coded_outputs(const int16_t *restrict left, const int16_t *restrict right, size_t n, int16_t top,
                          int16_t *restrict soft, uint8_t *restrict mark) {
    for (size_t i = 0; i < n; i++) {
        int16_t v = add(left[i], right[i], top);
        soft[i] = v;
        mark[i] = mark_of(v);
    }
}

static void outputs(const int16_t *work, unsigned m, int16_t top, int16_t *soft, uint8_t *mark,
                    int16_t *coded_soft, uint8_t *coded_mark) {
    size_t n = (size_t)1 << m;
    soft_outputs(work, work + (m + 1) * n, n, soft, mark);
    coded_outputs(work + m * n, work + (m + 1) * n + m * n, n, top, coded_soft, coded_mark);
}

/* criterion 1: no tie, and the marks coded are the coded marks */
static int g_matrix(unsigned m, const uint8_t *mark, const uint8_t *coded_mark) {
    size_t n = (size_t)1 << m;
    uint8_t bits[1024], tie = 0, differ = 0;
    memcpy(bits, mark, n);
    for (size_t d = n / 2; d > 0; d /= 2)
        for (size_t p = 0; p < n; p += 2 * d)
            for (size_t i = 0; i < d; i++)
                bits[p + i] ^= bits[p + d + i];
    for (size_t i = 0; i < n; i++) {
        tie |= (uint8_t)((mark[i] | coded_mark[i]) & 2);
        differ |= (uint8_t)(bits[i] ^ coded_mark[i]);
    }
    return !tie && !differ;
}

/* criterion 0 or 1; returns the iteration at which it ends */
uint32_t baseline_decode(unsigned m, int16_t top, int16_t k, uint32_t limit, uint32_t criterion,
                         const uint8_t *mask, const int16_t *llr, int16_t *soft,
                         uint8_t *mark, int16_t *coded_soft, uint8_t *coded_mark, int16_t *work) {
    size_t n = (size_t)1 << m;
    memset(work, 0, 2 * (m + 1) * n * sizeof *work);
    memcpy(work + m * n, llr, n * sizeof *llr);
    for (size_t i = 0; i < n; i++)
        work[(m + 1) * n + i] = mask[i] ? top : 0;
    for (uint32_t t = 1;; t++) {
        iterate(work, m, top, k);
        if (criterion == 1 || t == limit)
            outputs(work, m, top, soft, mark, coded_soft, coded_mark);
        if (t == limit || (criterion == 1 && g_matrix(m, mark, coded_mark)))
            return t;
    }
}

void baseline_encode(unsigned m, const uint8_t *restrict mask, const uint8_t *restrict message,
                     uint8_t *restrict block) {
    size_t n = (size_t)1 << m, next = 0;
    for (size_t i = 0; i < n; i++)
        block[i] = mask[i] ? 0 : message[next++];
    for (size_t d = n / 2; d > 0; d /= 2)
        for (size_t p = 0; p < n; p += 2 * d)
            for (size_t i = 0; i < d; i++)
                block[p + i] ^= block[p + d + i];
}

void baseline_read_out(unsigned m, const uint8_t *restrict mask, const uint8_t *restrict bits,
                       uint8_t *restrict message) {
    size_t n = (size_t)1 << m, next = 0;
    for (size_t i = 0; i < n; i++)
        if (!mask[i])
            message[next++] = bits[i];
}

/* one comparison after the other, so that they become a packed minimum and a packed maximum */
ALWAYS float cut(float value, float top) {
    float low = value < top ? value : top;
    return low > -top ? low : -top;
}

/* The nearest whole number, halves away from zero, cut to the ceiling. What is added is the largest float below 1/2:
   with 1/2 itself, that float would become 1. */
ALWAYS int16_t whole(float value, float top) {
    return (int16_t)(cut(value, top) + copysignf(0x1.fffffep-2f, value));
}

/* The fronts return 0, or, where they test, the number of the refusal. */
uint32_t baseline_front_gaussian(unsigned m, int16_t top, float factor, const float *restrict samples,
                                 int16_t *restrict llr) {
    size_t n = (size_t)1 << m;
    for (size_t i = 0; i < n; i++)
        llr[i] = whole(samples[i] * factor, top);
    return 0;
}

/* What each branch's product is cut to. As a constant it would keep the compiler from a minimum and a maximum. */
float branch_top = 4096;

uint32_t baseline_front_two(unsigned m, int16_t top, float first_factor, float second_factor,
                            const float *restrict first, const float *restrict second, int16_t *restrict llr) {
    size_t n = (size_t)1 << m;
    for (size_t i = 0; i < n; i++)
        llr[i] = whole(cut(first[i] * first_factor, branch_top) + cut(second[i] * second_factor, branch_top), top);
    return 0;
}

static int all_finite(const float *samples, size_t n) {
    int other = 0;
    for (size_t i = 0; i < n; i++)
        other |= !isfinite(samples[i]);
    return !other;
}

uint32_t tested_front_gaussian(unsigned m, int16_t top, float factor, const float *restrict samples,
                               int16_t *restrict llr) {
    return all_finite(samples, (size_t)1 << m) ? baseline_front_gaussian(m, top, factor, samples, llr) : 12;
}

uint32_t tested_front_two(unsigned m, int16_t top, float first_factor, float second_factor,
                          const float *restrict first, const float *restrict second, int16_t *restrict llr) {
    size_t n = (size_t)1 << m;
    if (!all_finite(first, n) || !all_finite(second, n))
        return 12;
    return baseline_front_two(m, top, first_factor, second_factor, first, second, llr);
}
