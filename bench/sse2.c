/* Two decoders for the benchmark, written by hand with SSE2 intrinsics, which every x86-64 has: eight messages in a
   register. They leave what baseline.c leaves, share no code with it, and test nothing either. The file is compiled
   once for each, and they differ in f alone:
   - sse2_decode keeps the proved decoder's rule: what is scaled is the size, by a product and a shift, and the sign is
     given back afterwards.
   - sse2_signed_decode, compiled with SIGNED_PRODUCT, is what one can have without that rule: it scales the signed
     value.

   In both, the sum inside f is not cut, and the messages are the same. Its other side is a message, of the ceiling's
   size at most, so the smaller size is the same with and without the cut; and the sum has at most 4094, far from the
   end of 16 bits. The smaller size has at most 2047, so its product by k fits too.

   Two more things, in sse2_signed_decode alone, are not in the definitions and leave the same messages:
   - f takes no sizes: the larger of min(a, b) and -max(a, b) is the smaller size with the product of the signs.
   - Scaling multiplies the signed value v by 2048 k + 1 and keeps the upper half of 2 v times that, which is v k / 16,
     moved away from zero by |v| / 32768, which is below a sixteenth, and then cut down. So a positive value becomes
     what it should, and a negative one what it should less 1, which is added. 2048 k + 1 fits for k up to 15; 16 needs
     no scaling. */
#include <emmintrin.h>
#include <stddef.h>
#include <stdint.h>
#include <string.h>

#define ALWAYS static inline __attribute__((always_inline))

/* what the sums are cut to, the factor of the scaling, and whether there is none */
typedef struct {
    __m128i top, bottom, factor;
    int whole;
} Rule;

ALWAYS __m128i load(const int16_t *from) { return _mm_loadu_si128((const __m128i *)from); }
ALWAYS void store(int16_t *to, __m128i value) { _mm_storeu_si128((__m128i *)to, value); }

ALWAYS __m128i cut(__m128i sum, Rule rule) { return _mm_max_epi16(_mm_min_epi16(sum, rule.top), rule.bottom); }

/* f of a and b, plus more, which is added to what is ready before the product: at a small m each step waits for the
   one before. Both messages of a pair have the same a, whose size the compiler takes once. */
#ifdef SIGNED_PRODUCT
#define DECODE sse2_signed_decode
#define FACTOR(k) (2048 * (k) + 1)
#define WHOLE(k) ((k) == 16)

ALWAYS __m128i f(__m128i a, __m128i b, __m128i more, Rule rule) {
    __m128i opposite = _mm_sub_epi16(_mm_setzero_si128(), _mm_max_epi16(a, b));
    __m128i value = _mm_max_epi16(_mm_min_epi16(a, b), opposite);
    if (rule.whole)
        return _mm_add_epi16(value, more);
    __m128i missing = _mm_srli_epi16(value, 15);
    return _mm_add_epi16(_mm_mulhi_epi16(_mm_add_epi16(value, value), rule.factor), _mm_add_epi16(missing, more));
}
#else
#define DECODE sse2_decode
#define FACTOR(k) (k)
#define WHOLE(k) 0

ALWAYS __m128i size_of(__m128i v) { return _mm_max_epi16(v, _mm_sub_epi16(_mm_setzero_si128(), v)); }

ALWAYS __m128i f(__m128i a, __m128i b, __m128i more, Rule rule) {
    __m128i size = _mm_min_epi16(size_of(a), size_of(b));
    __m128i scaled = _mm_srli_epi16(_mm_mullo_epi16(size, rule.factor), 4);
    __m128i sign = _mm_srai_epi16(_mm_xor_si128(a, b), 15);
    return _mm_add_epi16(_mm_xor_si128(scaled, sign), _mm_sub_epi16(more, sign));
}
#endif

/* eight pairs: the upper and the lower positions; or two neighbouring registers of a column */
typedef struct {
    __m128i upper, lower;
} Two;

ALWAYS Two load_two(const int16_t *from, size_t apart) { return (Two){load(from), load(from + apart)}; }

ALWAYS void store_two(int16_t *to, size_t apart, Two two) {
    store(to, two.upper);
    store(to + apart, two.lower);
}

ALWAYS Two messages(Two x, Two y, Rule rule) {
    return (Two){f(x.upper, _mm_add_epi16(x.lower, y.lower), _mm_setzero_si128(), rule),
                 cut(f(x.upper, y.upper, x.lower, rule), rule)};
}

#define SHUFFLE(a, b, order) \
    _mm_castps_si128(_mm_shuffle_ps(_mm_castsi128_ps(a), _mm_castsi128_ps(b), order))

/* the even words of each half, then the odd ones */
ALWAYS __m128i even_first(__m128i v) {
    return _mm_shufflehi_epi16(_mm_shufflelo_epi16(v, _MM_SHUFFLE(3, 1, 2, 0)), _MM_SHUFFLE(3, 1, 2, 0));
}

/* from sixteen positions in order to their upper and lower ones over the distance d */
ALWAYS Two part(Two v, size_t d) {
    if (d == 8)
        return v;
    if (d == 4)
        return (Two){_mm_unpacklo_epi64(v.upper, v.lower), _mm_unpackhi_epi64(v.upper, v.lower)};
    if (d == 1)
        v = (Two){even_first(v.upper), even_first(v.lower)};
    return (Two){SHUFFLE(v.upper, v.lower, _MM_SHUFFLE(2, 0, 2, 0)),
                 SHUFFLE(v.upper, v.lower, _MM_SHUFFLE(3, 1, 3, 1))};
}

/* and back */
ALWAYS Two join(Two v, size_t d) {
    switch (d) {
    case 1: return (Two){_mm_unpacklo_epi16(v.upper, v.lower), _mm_unpackhi_epi16(v.upper, v.lower)};
    case 2: return (Two){_mm_unpacklo_epi32(v.upper, v.lower), _mm_unpackhi_epi32(v.upper, v.lower)};
    case 4: return (Two){_mm_unpacklo_epi64(v.upper, v.lower), _mm_unpackhi_epi64(v.upper, v.lower)};
    default: return v;
    }
}

/* sixteen positions in order, over a distance of 1, 2, 4 or 8 */
ALWAYS Two sixteen(Two x, Two y, size_t d, Rule rule) { return join(messages(part(x, d), part(y, d), rule), d); }

/* one step over a distance of 8 or less */
ALWAYS void near(int16_t *out, const int16_t *x, const int16_t *y, size_t n, size_t d, Rule rule) {
    for (size_t p = 0; p < n; p += 16)
        store_two(out + p, 8, sixteen(load_two(x + p, 8), load_two(y + p, 8), d, rule));
}

/* one step over a distance of 16 or more */
ALWAYS void far(int16_t *out, const int16_t *x, const int16_t *y, size_t n, size_t d, Rule rule) {
    for (size_t p = 0; p < n; p += 2 * d)
        for (size_t i = p; i < p + d; i += 8)
            store_two(out + i, d, messages(load_two(x + i, d), load_two(y + i, d), rule));
}

ALWAYS void step(int16_t *out, const int16_t *x, const int16_t *y, size_t n, size_t d, Rule rule) {
    switch (d) {
    case 1: near(out, x, y, n, 1, rule); break;
    case 2: near(out, x, y, n, 2, rule); break;
    case 4: near(out, x, y, n, 4, rule); break;
    case 8: near(out, x, y, n, 8, rule); break;
    default: far(out, x, y, n, d, rule);
    }
}

/* an iteration for m = 6 and above */
ALWAYS void iterate_rows(int16_t *work, unsigned m, Rule rule) {
    size_t n = (size_t)1 << m;
    int16_t *left = work, *right = work + (m + 1) * n;
    for (unsigned s = m; s-- > 0;)
        step(left + s * n, left + (s + 1) * n, right + s * n, n, n >> (s + 1), rule);
    for (unsigned s = 0; s < m; s++)
        step(right + (s + 1) * n, right + s * n, left + (s + 1) * n, n, n >> (s + 1), rule);
}

/* For m = 5 a column is four registers, 32 positions. */
typedef struct {
    Two first, second;
} Four;

ALWAYS Four load_four(const int16_t *from) { return (Four){load_two(from, 8), load_two(from + 16, 8)}; }

ALWAYS void store_four(int16_t *to, Four four) {
    store_two(to, 8, four.first);
    store_two(to + 16, 8, four.second);
}

/* 32 positions in order, over a distance of 16 or less */
ALWAYS Four thirty_two(Four x, Four y, size_t d, Rule rule) {
    if (d < 16)
        return (Four){sixteen(x.first, y.first, d, rule), sixteen(x.second, y.second, d, rule)};
    Two even = messages((Two){x.first.upper, x.second.upper}, (Two){y.first.upper, y.second.upper}, rule);
    Two odd = messages((Two){x.first.lower, x.second.lower}, (Two){y.first.lower, y.second.lower}, rule);
    return (Four){{even.upper, odd.upper}, {even.lower, odd.lower}};
}

/* Iterations for m = 4 and 5, where a column fits in registers: no step waits for what the one before has stored. The
   loops have to be unrolled, so that each distance is a constant. */
ALWAYS void iterate_sixteen(int16_t *work, Rule rule) {
    int16_t *right = work + 5 * 16;
    Two l = load_two(work + 4 * 16, 8), r = load_two(right, 8);
#pragma GCC unroll 4
    for (int s = 3; s >= 0; s--) {
        l = sixteen(l, load_two(right + s * 16, 8), (size_t)8 >> s, rule);
        store_two(work + s * 16, 8, l);
    }
#pragma GCC unroll 4
    for (int s = 0; s < 4; s++) {
        r = sixteen(r, load_two(work + (s + 1) * 16, 8), (size_t)8 >> s, rule);
        store_two(right + (s + 1) * 16, 8, r);
    }
}

ALWAYS void iterate_thirty_two(int16_t *work, Rule rule) {
    int16_t *right = work + 6 * 32;
    Four l = load_four(work + 5 * 32), r = load_four(right);
#pragma GCC unroll 5
    for (int s = 4; s >= 0; s--) {
        l = thirty_two(l, load_four(right + s * 32), (size_t)16 >> s, rule);
        store_four(work + s * 32, l);
    }
#pragma GCC unroll 5
    for (int s = 0; s < 5; s++) {
        r = thirty_two(r, load_four(work + (s + 1) * 32), (size_t)16 >> s, rule);
        store_four(right + (s + 1) * 32, r);
    }
}

/* For m below 4 a column is at most one register, and a step computes its upper and its lower messages in place: f of
   the upper x and either the lower sum or the upper y, plus nothing or the lower x. */

/* each upper word, at its own place and at the lower one */
ALWAYS __m128i upper_twice(__m128i x, size_t d) {
    if (d == 4)
        return _mm_shuffle_epi32(x, _MM_SHUFFLE(1, 0, 1, 0));
    if (d == 2)
        return _mm_shuffle_epi32(x, _MM_SHUFFLE(2, 2, 0, 0));
    return _mm_shufflehi_epi16(_mm_shufflelo_epi16(x, _MM_SHUFFLE(2, 2, 0, 0)), _MM_SHUFFLE(2, 2, 0, 0));
}

/* the lower words of one at the upper places, the upper words of the other at the lower ones */
ALWAYS __m128i crossed(__m128i one, __m128i other, size_t d) {
    if (d == 4)
        return SHUFFLE(one, other, _MM_SHUFFLE(1, 0, 3, 2));
    if (d == 2)
        return _mm_or_si128(_mm_srli_epi64(one, 32), _mm_slli_epi64(other, 32));
    return _mm_or_si128(_mm_srli_epi32(one, 16), _mm_slli_epi32(other, 16));
}

ALWAYS __m128i lower_only(__m128i x, size_t d) {
    if (d == 4)
        return _mm_and_si128(x, _mm_set_epi32(-1, -1, 0, 0));
    return _mm_and_si128(x, d == 2 ? _mm_set_epi32(-1, 0, -1, 0) : _mm_set1_epi32(-65536));
}

ALWAYS __m128i in_place(__m128i x, __m128i y, size_t d, Rule rule) {
    return cut(f(upper_twice(x, d), crossed(_mm_add_epi16(x, y), y, d), lower_only(x, d), rule), rule);
}

/* the first 2, 4 or 8 positions of a column */
ALWAYS __m128i load_few(const int16_t *from, unsigned m) {
    int32_t two;
    memcpy(&two, from, sizeof two);
    return m == 3 ? load(from) : m == 2 ? _mm_loadl_epi64((const __m128i *)from) : _mm_cvtsi32_si128(two);
}

ALWAYS void store_few(int16_t *to, unsigned m, __m128i value) {
    int32_t two = _mm_cvtsi128_si32(value);
    if (m == 3)
        store(to, value);
    else if (m == 2)
        _mm_storel_epi64((__m128i *)to, value);
    else
        memcpy(to, &two, sizeof two);
}

ALWAYS void iterate_few(int16_t *work, unsigned m, Rule rule) {
    size_t n = (size_t)1 << m;
    int16_t *right = work + (m + 1) * n;
    __m128i l[4], r = load_few(right, m);
    l[m] = load_few(work + m * n, m);
    for (unsigned s = m; s-- > 0;) {
        l[s] = in_place(l[s + 1], load_few(right + s * n, m), n >> (s + 1), rule);
        store_few(work + s * n, m, l[s]);
    }
    for (unsigned s = 0; s < m; s++) {
        r = in_place(r, l[s + 1], n >> (s + 1), rule);
        store_few(right + (s + 1) * n, m, r);
    }
}

ALWAYS void iterate(int16_t *work, unsigned m, Rule rule) {
    switch (m) {
    case 1: iterate_few(work, 1, rule); break;
    case 2: iterate_few(work, 2, rule); break;
    case 3: iterate_few(work, 3, rule); break;
    case 4: iterate_sixteen(work, rule); break;
    case 5: iterate_thirty_two(work, rule); break;
    default: iterate_rows(work, m, rule);
    }
}

/* Column 0 of R is the ceiling where a position is frozen, else 0. The later columns of R are read before they are
   written, the others of L are not. */
static void start(int16_t *work, unsigned m, int16_t top, const uint8_t *mask, const int16_t *llr) {
    size_t n = (size_t)1 << m, i = 0;
    int16_t *right = work + (m + 1) * n;
    memcpy(work + m * n, llr, n * sizeof *llr);
    memset(right + n, 0, m * n * sizeof *right);
    __m128i zero = _mm_setzero_si128(), ceiling = _mm_set1_epi16(top);
    for (; i + 16 <= n; i += 16) {
        __m128i open = _mm_cmpeq_epi8(_mm_loadu_si128((const __m128i *)(mask + i)), zero);
        store(right + i, _mm_andnot_si128(_mm_unpacklo_epi8(open, open), ceiling));
        store(right + i + 8, _mm_andnot_si128(_mm_unpackhi_epi8(open, open), ceiling));
    }
    for (; i < n; i++)
        right[i] = mask[i] ? top : 0;
}

/* L where R is 0, else R, which is the ceiling of a frozen position */
ALWAYS __m128i soft_of(__m128i l, __m128i r) {
    return _mm_or_si128(_mm_and_si128(l, _mm_cmpeq_epi16(r, _mm_setzero_si128())), r);
}

ALWAYS void put_marks(uint8_t *mark, __m128i first, __m128i second) {
    __m128i bytes = _mm_packs_epi16(first, second), zero = _mm_setzero_si128();
    __m128i one = _mm_and_si128(_mm_cmplt_epi8(bytes, zero), _mm_set1_epi8(1));
    __m128i tie = _mm_and_si128(_mm_cmpeq_epi8(bytes, zero), _mm_set1_epi8(2));
    _mm_storeu_si128((__m128i *)mark, _mm_or_si128(one, tie));
}

/* For m below 4: the same in a register of which n positions are written. */
ALWAYS void put_few(int16_t *soft, uint8_t *mark, unsigned m, __m128i value) {
    uint8_t marks[16];
    put_marks(marks, value, value);
    store_few(soft, m, value);
    memcpy(mark, marks, (size_t)1 << m);
}

ALWAYS void outputs_few(const int16_t *work, unsigned m, Rule rule, int16_t *soft, uint8_t *mark, int16_t *coded_soft,
                        uint8_t *coded_mark) {
    size_t n = (size_t)1 << m;
    const int16_t *right = work + (m + 1) * n;
    __m128i coded = _mm_add_epi16(load_few(work + m * n, m), load_few(right + m * n, m));
    put_few(soft, mark, m, soft_of(load_few(work, m), load_few(right, m)));
    put_few(coded_soft, coded_mark, m, cut(coded, rule));
}

static void outputs(const int16_t *work, unsigned m, Rule rule, int16_t *soft, uint8_t *mark, int16_t *coded_soft,
                    uint8_t *coded_mark) {
    size_t n = (size_t)1 << m;
    const int16_t *right = work + (m + 1) * n, *last_l = work + m * n, *last_r = right + m * n;
    switch (m) {
    case 1: outputs_few(work, 1, rule, soft, mark, coded_soft, coded_mark); return;
    case 2: outputs_few(work, 2, rule, soft, mark, coded_soft, coded_mark); return;
    case 3: outputs_few(work, 3, rule, soft, mark, coded_soft, coded_mark); return;
    }
    for (size_t i = 0; i < n; i += 16) {
        __m128i first = soft_of(load(work + i), load(right + i));
        __m128i second = soft_of(load(work + i + 8), load(right + i + 8));
        store_two(soft + i, 8, (Two){first, second});
        put_marks(mark + i, first, second);
        first = cut(_mm_add_epi16(load(last_l + i), load(last_r + i)), rule);
        second = cut(_mm_add_epi16(load(last_l + i + 8), load(last_r + i + 8)), rule);
        store_two(coded_soft + i, 8, (Two){first, second});
        put_marks(coded_mark + i, first, second);
    }
}

/* Criterion 1 needs the signs alone and whether one value is 0, so nothing is written before the last iteration. The
   soft output has the sign of L + 2 R, the coded one that of its sum before the cut. */
ALWAYS __m128i signed_soft(__m128i l, __m128i r) { return _mm_add_epi16(l, _mm_add_epi16(r, r)); }

/* the code's transform inside a word, of 2 to 64 bits */
ALWAYS uint64_t coded_word(uint64_t bits) {
    bits ^= bits >> 32 & 0x00000000ffffffff;
    bits ^= bits >> 16 & 0x0000ffff0000ffff;
    bits ^= bits >> 8 & 0x00ff00ff00ff00ff;
    bits ^= bits >> 4 & 0x0f0f0f0f0f0f0f0f;
    bits ^= bits >> 2 & 0x3333333333333333;
    return bits ^ (bits >> 1 & 0x5555555555555555);
}

/* sixteen signs as bits; a value of 0 sets a byte of *tie */
ALWAYS uint16_t signs(__m128i first, __m128i second, __m128i *tie) {
    __m128i bytes = _mm_packs_epi16(first, second);
    *tie = _mm_or_si128(*tie, _mm_cmpeq_epi8(bytes, _mm_setzero_si128()));
    return (uint16_t)_mm_movemask_epi8(bytes);
}

ALWAYS int holds_few(const int16_t *work, unsigned m) {
    size_t n = (size_t)1 << m;
    const int16_t *right = work + (m + 1) * n;
    __m128i soft = signed_soft(load_few(work, m), load_few(right, m)), tie = _mm_setzero_si128();
    __m128i coded = _mm_add_epi16(load_few(work + m * n, m), load_few(right + m * n, m));
    unsigned all = (1u << n) - 1, bits = signs(soft, soft, &tie) & all, coded_bits = signs(coded, coded, &tie) & all;
    return !(_mm_movemask_epi8(tie) & (int)all) && coded_word(bits) == coded_bits;
}

/* For m = 4 and above: the marks' bits, coded, against those of the coded marks, 64 in a word. */
static int holds_many(const int16_t *work, unsigned m) {
    size_t n = (size_t)1 << m, words = n < 64 ? 1 : n / 64;
    const int16_t *right = work + (m + 1) * n, *last_l = work + m * n, *last_r = right + m * n;
    uint64_t bits[16] = {0}, coded[16] = {0}, differ = 0;
    __m128i tie = _mm_setzero_si128();
    for (size_t i = 0; i < n; i += 16) {
        uint64_t soft_signs = signs(signed_soft(load(work + i), load(right + i)),
                                    signed_soft(load(work + i + 8), load(right + i + 8)), &tie);
        uint64_t coded_signs = signs(_mm_add_epi16(load(last_l + i), load(last_r + i)),
                                     _mm_add_epi16(load(last_l + i + 8), load(last_r + i + 8)), &tie);
        bits[i / 64] |= soft_signs << i % 64;
        coded[i / 64] |= coded_signs << i % 64;
    }
    if (_mm_movemask_epi8(tie))
        return 0;
    for (size_t d = words / 2; d > 0; d /= 2)
        for (size_t w = 0; w < words; w++)
            bits[w] ^= w & d ? 0 : bits[w + d];
    for (size_t w = 0; w < words; w++)
        differ |= coded_word(bits[w]) ^ coded[w];
    return !differ;
}

static int holds(const int16_t *work, unsigned m) {
    switch (m) {
    case 1: return holds_few(work, 1);
    case 2: return holds_few(work, 2);
    case 3: return holds_few(work, 3);
    default: return holds_many(work, m);
    }
}

ALWAYS uint32_t run(int16_t *work, unsigned m, uint32_t limit, uint32_t criterion, Rule rule) {
    for (uint32_t t = 1;; t++) {
        iterate(work, m, rule);
        if (t == limit || (criterion == 1 && holds(work, m)))
            return t;
    }
}

/* criterion 0 or 1; returns the iteration at which it ends */
uint32_t DECODE(unsigned m, int16_t top, int16_t k, uint32_t limit, uint32_t criterion, const uint8_t *mask,
                     const int16_t *llr, int16_t *soft, uint8_t *mark, int16_t *coded_soft, uint8_t *coded_mark,
                     int16_t *work) {
    Rule rule = {_mm_set1_epi16(top), _mm_set1_epi16((int16_t)-top), _mm_set1_epi16((int16_t)FACTOR(k)), 0};
    uint32_t end;
    start(work, m, top, mask, llr);
    if (WHOLE(k)) {
        rule.whole = 1;
        end = run(work, m, limit, criterion, rule);
    } else
        end = run(work, m, limit, criterion, rule);
    outputs(work, m, rule, soft, mark, coded_soft, coded_mark);
    return end;
}
