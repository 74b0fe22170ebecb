/* loops.h - composites and conversions as plain loops in C: one pixel after the other, in whole numbers. The operator is known in each
 * loop, so that the compiler can take several pixels at a time. What the operators and formats mean stands in plain.h. */
#ifndef LOOPS_H
#define LOOPS_H

#include "bench.h"
#include "plain.h"
#include <string.h>

#define INLINE static inline __attribute__((always_inline))

/* x * y / max, rounded to the nearest, where max is 2^bits - 1 and neither factor is above it. */
INLINE uint32_t product(uint32_t bits, uint32_t x, uint32_t y) {
    uint32_t wide = x * y + (1u << (bits - 1));
    return (wide + (wide >> bits)) >> bits;
}

INLINE uint32_t term(uint32_t bits, char by, uint32_t channel, uint32_t alpha) {
    const uint32_t max = (1u << bits) - 1;
    return by == '0' ? 0 : by == '1' ? channel : product(bits, channel, by == 'a' ? alpha : max - alpha);
}

/* A row under one operator, for channels of type T, N to a pixel: of pixels, of a color, of a color through mattes, and of pixels through
 * mattes and at an opacity. */
#define ROW_(S, T, N, BITS)                                                                                            \
    INLINE void row##S(source_t source, char by, char dest_by, T *dst, const T *read, const T *color, const T *mask, size_t count) { \
        const uint32_t max = (1u << BITS) - 1;                                                                         \
        for (size_t i = 0; i < count; i++, dst += N) {                                                                 \
            T src[N];                                                                                                  \
            for (int k = 0; k < N; k++)                                                                                \
                src[k] = source == IMAGE ? read[N * i + k] : source == COLOR ? color[k]                                \
                    : source == MASK ? (T)product(BITS, color[k], read[i])                                             \
                                     : (T)product(BITS, read[N * i + k], source == MASKED ? mask[i] : max / 255 * OPACITY); \
            const uint32_t src_alpha = src[N - 1], dst_alpha = dst[N - 1];                                             \
            for (int k = 0; k < N; k++) {                                                                              \
                uint32_t sum = term(BITS, by, src[k], dst_alpha) + term(BITS, dest_by, dst[k], src_alpha);             \
                dst[k] = (T)(sum < max ? sum : max);                                                                   \
            }                                                                                                          \
        }                                                                                                              \
    }                                                                                                                  \
    INLINE void op##S(source_t source, uint32_t op, T *dst, const T *read, const T *color, const T *mask, size_t count) { \
        if (op == PIX_OP_DEST)                                                                                         \
            return;                                                                                                    \
        if (op == PIX_OP_CLEAR) {                                                                                      \
            memset(dst, 0, N * count * sizeof(T));                                                                     \
            return;                                                                                                    \
        }                                                                                                              \
        switch (op) { PIX_EACH_OP(OP_##S##_) }                                                                         \
    }                                                                                                                  \
    static void tiles##S(const job_t *job) {                                                                           \
        const size_t across = job->across, side = job->side;                                                           \
        for (size_t top = 0; top < across; top += side)                                                                \
            for (size_t left = 0; left < across; left += side)                                                         \
                for (size_t y = top; y < top + side; y++) {                                                            \
                    T *dst = (T *)job->pixels + N * (y * across + left);                                               \
                    const T *read = (const T *)job->read, *color = (const T *)job->color, *mask = (const T *)job->mask; \
                    const size_t at = y * across + left;                                                               \
                    switch (job->source) {                                                                             \
                    case IMAGE: op##S(IMAGE, job->op, dst, read + N * at, color, mask, side); break;                   \
                    case COLOR: op##S(COLOR, job->op, dst, read, color, mask, side); break;                            \
                    case MASKED: op##S(MASKED, job->op, dst, read + N * at, color, mask + at, side); break;            \
                    case FADED: op##S(FADED, job->op, dst, read + N * at, color, mask, side); break;                   \
                    default: op##S(MASK, job->op, dst, read + at, color, mask, side);                                  \
                    }                                                                                                  \
                }                                                                                                      \
    }

/* The row of an operator; the compiler knows its coefficients. */
#define OP_(S, NAME)                                                                                                   \
    case PIX_OP_##NAME:                                                                                                \
        row##S(source, plain_source_by[PIX_OP_##NAME], plain_dest_by[PIX_OP_##NAME], dst, read, color, mask, count);   \
        break;
#define OP__rgba8_(NAME, WORD) OP_(_rgba8, NAME)
#define OP__rgba16_(NAME, WORD) OP_(_rgba16, NAME)
#define OP__graya8_(NAME, WORD) OP_(_graya8, NAME)

ROW_(_rgba8, uint8_t, 4, 8)
ROW_(_rgba16, uint16_t, 4, 16)
ROW_(_graya8, uint8_t, 2, 8)

static int run_loops(const job_t *job) {
    const size_t bytes = pixel_size(job->kind) * job->across * job->across;
    if (job->source == COPY)
        memcpy(job->pixels, job->read, bytes);
    else if (job->source == CLEAR)
        memset(job->pixels, 0, bytes);
    else if (job->kind == RGBA8)
        tiles_rgba8(job);
    else if (job->kind == RGBA16)
        tiles_rgba16(job);
    else
        tiles_graya8(job);
    return 1;
}

/* ---- Conversions ---- */

/* The sRGB curve by tables. */
typedef struct {
    uint8_t to_linear[256], from_linear[256];
} curve_t;

static const curve_t *curve(void) {
    static curve_t made;
    static int is_made;
    for (; !is_made; is_made = 1)
        for (uint64_t i = 0; i < 256; i++) {
            made.to_linear[i] = (uint8_t)plain_to_linear(i);
            made.from_linear[i] = (uint8_t)plain_from_linear(i);
        }
    return &made;
}

/* 256 * x / alpha, rounded down, at most 255, and 0 where the alpha is 0. */
INLINE uint32_t quotient(uint32_t x, uint32_t alpha) {
    uint32_t number = alpha ? 256 * x / alpha : 0;
    return number < 255 ? number : 255;
}

INLINE uint8_t recoded(const curve_t *by, plain_format from, plain_format to, uint32_t color, uint32_t alpha) {
    if (from.is_premultiplied == to.is_premultiplied && from.is_srgb == to.is_srgb)
        return (uint8_t)color;
    if (from.is_srgb)
        color = by->to_linear[color];
    if (from.is_premultiplied && !to.is_premultiplied)
        color = quotient(color, alpha);
    if (!from.is_premultiplied && to.is_premultiplied)
        color = product(8, color, alpha);
    return to.is_srgb ? by->from_linear[color] : (uint8_t)color;
}

/* Pixels of one format in another, both known to the compiler. Of a source with an alpha the target has one too, or is gray and its source
 * is not. */
INLINE void converted(plain_format from, plain_format to, const uint8_t *src, uint8_t *dst, size_t count) {
    const size_t wide = (from.model == 'g' ? 1u : 3u) + (size_t)from.has_alpha;
    const size_t to_wide = (to.model == 'g' ? 1u : 3u) + (size_t)to.has_alpha;
    const curve_t *by = curve();
    for (size_t i = 0; i < count; i++, src += wide, dst += to_wide) {
        const uint32_t alpha = from.has_alpha ? src[wide - 1] : 255;
        uint8_t rgb[3];
        for (int k = 0; k < 3; k++)
            rgb[k] = recoded(by, from, to, src[from.model == 'g' ? 0 : from.model == 'b' ? 2 - k : k], alpha);
        if (to.model == 'g')
            dst[0] = (uint8_t)((2126u * rgb[0] + 7152u * rgb[1] + 722u * rgb[2] + 5000u) / 10000u);
        else
            for (int k = 0; k < 3; k++)
                dst[k] = rgb[to.model == 'b' ? 2 - k : k];
        if (to.has_alpha)
            dst[to_wide - 1] = (uint8_t)alpha;
    }
}

static int convert_loops(const conversion_t *it) {
#define PAIR_(FROM, TO)                                                                                                \
    if (it->from == PIX_FORMAT_##FROM && it->to == PIX_FORMAT_##TO) {                                                  \
        converted(plain_formats[PIX_FORMAT_##FROM], plain_formats[PIX_FORMAT_##TO], it->src, it->dst, it->count);      \
        return 1;                                                                                                      \
    }
    PAIR_(SRGBA8, RGBA8P) PAIR_(RGBA8P, SRGBA8) PAIR_(RGBA8P, SBGRA8) PAIR_(SBGRA8, RGBA8P) PAIR_(RGBA8, RGBA8P)
    PAIR_(RGBA8P, RGBA8) PAIR_(RGBA8, BGRA8) PAIR_(SRGBA8, RGBA8) PAIR_(RGBA8, SRGBA8) PAIR_(SRGB8, RGBA8P)
    PAIR_(SGRAY8, RGBA8P) PAIR_(SRGBA8, SGRAY8)
    return 0;
}

#endif
