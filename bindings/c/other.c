/* other.c - another library of the same calls, made of the plain models beside it and of nothing that is proved.
 *
 * tools/bindings sees by it that a program refuses a library of another version or layout: the fact whose number is
 * `other_fact`, which -DOTHER_FACT=n sets, or PIX_OTHER_FACT in the environment, is one too large. Where no fact is
 * another it stands in for the archive, which takes long to build: tools/bindings and tools/border-faults have the word
 * --stand-in for that. */
#include "pix.h"
#include "indexed.h"
#include "other_seen.h"
#include "plain.h"
#include "plain_bitmap.h"
#include "plain_scale.h"
#include <stdlib.h>

static const uint32_t facts[] = {PIX_FACTS_};

#ifndef OTHER_FACT
#define OTHER_FACT SIZE_MAX
#endif
size_t other_fact = OTHER_FACT;

uint32_t pix_layout(size_t index) {
    const size_t count = sizeof facts / sizeof *facts;
    const char *said = getenv("PIX_OTHER_FACT");
    if (said)
        other_fact = strtoul(said, NULL, 10);
    return index < count ? facts[index] + (index == other_fact) : index == count && index == other_fact ? 1 : UINT32_MAX;
}

static int is_sized(uint64_t width, uint64_t height, uint64_t stride, uint64_t count) {
    return width <= INT32_MAX && height <= INT32_MAX && width <= stride
           && (height == 0 || (height - 1) * stride + width <= count);
}

static int is_within(pix_region it) {
    return it.width <= INT32_MAX && it.height <= INT32_MAX;
}

static plain_region plain(pix_region it) {
    plain_region same = {it.x, it.y, it.width, it.height};
    return same;
}

/* Whether a command reads mattes of 8 bits. */
static int has_bytes(const pix_command_rgba16 *it) {
    return it->matte8_count && (it->kind == PLAIN_MATTE || it->kind == PLAIN_MASKED);
}

#define OTHER_(S, PIXEL, KIND, COLOR, BYTES, MATTES, COUNT)                                                            \
    static uint32_t fault##S(const pix_command##S *it) {                                                               \
        if (it->kind >= PLAIN_KINDS)                                                                                   \
            return PIX_BAD_KIND;                                                                                       \
        if (!is_within(it->to) || !is_within(it->from) || !is_within(it->mask))                                        \
            return PIX_BAD_REGION;                                                                                     \
        if (it->op >= PLAIN_OPERATORS)                                                                                 \
            return PIX_BAD_OP;                                                                                         \
        if (it->kind == PLAIN_COPY || it->kind >= PLAIN_SOURCE)                                                        \
            if (!is_sized(it->width, it->height, it->stride,                                                           \
                          it->kind == PLAIN_MATTE ? COUNT : it->pixel_count))                                          \
                return PIX_BAD_SOURCE;                                                                                 \
        if (it->kind == PLAIN_MASKED && !is_sized(it->mask_width, it->mask_height, it->mask_stride, COUNT))            \
            return PIX_BAD_SOURCE;                                                                                     \
        return PIX_OK;                                                                                                 \
    }                                                                                                                  \
    uint32_t pix_raw_run_window##S(PIXEL *pixels, size_t pixel_count, uint32_t left, uint32_t top, uint32_t width,     \
                                   uint32_t height, uint32_t stride, const pix_command##S *commands,                   \
                                   size_t command_count, size_t *done) {                                               \
        const plain_kind kind = KIND;                                                                                  \
        plain_rows image = {(unsigned char *)pixels, width, height, stride};                                           \
        *done = 0;                                                                                                     \
        if ((uint64_t)left + width > INT32_MAX || (uint64_t)top + height > INT32_MAX)                                  \
            return PIX_BAD_SIZE;                                                                                       \
        if (!is_sized(width, height, stride, pixel_count))                                                             \
            return PIX_BAD_SIZE;                                                                                       \
        for (; *done < command_count; ++*done)                                                                         \
            if (fault##S(&commands[*done]))                                                                            \
                return fault##S(&commands[*done]);                                                                     \
        for (size_t i = 0; i < command_count; i++) {                                                                   \
            const pix_command##S *it = &commands[i];                                                                   \
            const void *mattes = MATTES, *read = it->kind == PLAIN_MATTE ? mattes : (const void *)it->pixels;          \
            plain_rows source = {(unsigned char *)(uintptr_t)read, it->width, it->height, it->stride};                 \
            plain_rows mask = {(unsigned char *)(uintptr_t)mattes, it->mask_width, it->mask_height, it->mask_stride};  \
            plain_command same = {it->kind, it->op,    plain(it->to), plain(it->from), plain(it->mask),                \
                                  COLOR,    it->alpha, &source,       &mask,           BYTES};                         \
            plain_run_in(&kind, &image, left, top, &same, 1);                                                          \
        }                                                                                                              \
        return PIX_OK;                                                                                                 \
    }

#define FOUR_ {it->color.r, it->color.g, it->color.b, it->color.a}
#define TWO_ {it->color.value, it->color.a}
#define RGBA8_ {255, 1, 4}
#define RGBA16_ {65535, 2, 4}
#define GRAYA8_ {255, 1, 2}
OTHER_(, pix_rgba8, RGBA8_, FOUR_, 0, it->mattes, it->matte_count)
OTHER_(_rgba16, pix_rgba16, RGBA16_, FOUR_, has_bytes(it),
       has_bytes(it) ? (const void *)it->mattes8 : (const void *)it->mattes,
       has_bytes(it) ? it->matte8_count : it->matte_count)
OTHER_(_graya8, pix_graya8, GRAYA8_, TWO_, 0, it->mattes, it->matte_count)

uint32_t pix_raw_convert(uint32_t from, uint32_t to, const uint8_t *src, size_t src_len, uint8_t *dst, size_t dst_len,
                         size_t count) {
    if (from >= PLAIN_FORMATS || to >= PLAIN_FORMATS)
        return PIX_BAD_FORMAT;
    const plain_format *source = &plain_formats[from], *target = &plain_formats[to];
    size_t src_size = plain_size(source), dst_size = plain_size(target);
    if (count > SIZE_MAX / 4 || src_len != count * src_size || dst_len != count * dst_size)
        return PIX_BAD_LENGTH;
    for (size_t i = 0; i < count; i++)
        plain_convert(source, target, src + i * src_size, dst + i * dst_size);
    return PIX_OK;
}

/* Bitmaps. */
uint32_t pix_raw_format_size(uint32_t format) {
    const plain_stored it = plain_stored_of(format);
    return it.model ? (uint32_t)plain_stored_size(&it) : 0;
}

static int is_held(uint64_t width, uint64_t height, uint64_t wide, int64_t stride, uint64_t count) {
    uint64_t apart = stride < 0 ? 0 - (uint64_t)stride : (uint64_t)stride;
    return width <= INT32_MAX && height <= INT32_MAX && wide <= apart
           && (height == 0 || (wide <= count && (height == 1 || apart <= (count - wide) / (height - 1))));
}

static const uint8_t *row_at(const uint8_t *bytes, int64_t stride, uint64_t height, uint64_t y) {
    return stride < 0 ? bytes + (height - 1 - y) * (0 - (uint64_t)stride) : bytes + y * (uint64_t)stride;
}

uint32_t pix_raw_convert_bitmap(uint32_t from, uint32_t to, const uint8_t *src, size_t src_len, uint8_t *dst, size_t dst_len,
                                int64_t src_stride, int64_t dst_stride, uint32_t width, uint32_t height) {
    plain_stored source = plain_stored_of(from), target = plain_stored_of(to);
    size_t size = plain_stored_size(&source), to_size = plain_stored_size(&target);
    if (!source.model || !target.model)
        return PIX_BAD_FORMAT;
    if (!is_held(width, height, (uint64_t)width * to_size, dst_stride, dst_len))
        return PIX_BAD_SIZE;
    if (!is_held(width, height, (uint64_t)width * size, src_stride, src_len))
        return PIX_BAD_SOURCE;
    for (uint32_t y = 0; width && y < height; y++)
        for (uint32_t x = 0; x < width; x++)
            plain_cross(&source, &target, row_at(src, src_stride, height, y) + x * size,
                        (uint8_t *)(uintptr_t)row_at(dst, dst_stride, height, y) + x * to_size);
    return PIX_OK;
}

/* Pictures at another size. */
static uint32_t scaling_fault(const plain_scaling *it) {
    uint64_t across, down;
    if (it->filter >= PLAIN_FILTERS)
        return PIX_BAD_FILTER;
    if (!it->from.width || !it->from.height || !it->across || !it->down)
        return PIX_NO_SIDE;
    if (it->from.width > 65535 || it->from.height > 65535)
        return PIX_TOO_LARGE;
    across = (uint64_t)axis_whole(scaled_across(it));
    down = (uint64_t)axis_whole(scaled_down(it));
    if (down * it->kind.max > UINT32_MAX || across * down > INT32_MAX)
        return PIX_TOO_LARGE;
    return PIX_OK;
}

#define OTHER_SCALE_(S, PIXEL, KIND)                                                                                   \
    uint32_t pix_raw_scale##S(PIXEL *pixels, size_t pixel_count, uint32_t left, uint32_t top, uint32_t width,          \
                              uint32_t height, uint32_t stride, uint32_t across, uint32_t down, const PIXEL *source,   \
                              size_t source_count, uint32_t source_width, uint32_t source_height,                      \
                              uint32_t source_stride, uint32_t filter, uint32_t *work, size_t work_count) {            \
        const plain_rows to = {(unsigned char *)pixels, width, height, stride};                                        \
        const plain_rows from = {(unsigned char *)(uintptr_t)source, source_width, source_height, source_stride};      \
        const plain_scaling it = {KIND, to, from, left, top, across, down, filter};                                    \
        const uint32_t fault = scaling_fault(&it);                                                                     \
        if (fault)                                                                                                     \
            return fault;                                                                                              \
        if ((uint64_t)left + width > across || (uint64_t)top + height > down)                                          \
            return PIX_OUTSIDE;                                                                                        \
        if (!is_sized(width, height, stride, pixel_count))                                                             \
            return PIX_BAD_SIZE;                                                                                       \
        if (!is_sized(source_width, source_height, source_stride, source_count))                                       \
            return PIX_BAD_SOURCE;                                                                                     \
        if (work_count < plain_scale_words(&it))                                                                       \
            return PIX_SMALL_WORK;                                                                                     \
        plain_scale(&it, (int32_t *)work);                                                                             \
        return PIX_OK;                                                                                                 \
    }
OTHER_SCALE_(, pix_rgba8, RGBA8_)
OTHER_SCALE_(_rgba16, pix_rgba16, RGBA16_)
OTHER_SCALE_(_graya8, pix_graya8, GRAYA8_)

uint32_t pix_raw_scale_work(uint32_t width, uint32_t height, uint32_t across, uint32_t down, uint32_t source_width,
                            uint32_t source_height, uint32_t channels, uint32_t bits, uint32_t filter, uint64_t *words) {
    const plain_kind kind = {bits > 8 ? 65535 : 255, bits / 8, channels};
    const plain_rows to = {NULL, width, height, width}, from = {NULL, source_width, source_height, source_width};
    const plain_scaling it = {kind, to, from, 0, 0, across, down, filter};
    const uint32_t fault = scaling_fault(&it);
    *words = 0;
    if (fault)
        return fault;
    *words = plain_scale_words(&it);
    return PIX_OK;
}

/* Pictures at another size by tables of the caller's own. */
static uint32_t source_fault(uint32_t width, uint32_t height) {
    if (!width || !height)
        return PIX_NO_SIDE;
    return width > 65535 || height > 65535 ? PIX_TOO_LARGE : PIX_OK;
}

#define OTHER_SCALE_BY_(S, PIXEL, KIND)                                                                                \
    uint32_t pix_raw_scale_by##S(PIXEL *pixels, size_t pixel_count, uint32_t width, uint32_t height, uint32_t stride,  \
                                 const PIXEL *source, size_t source_count, uint32_t source_width,                      \
                                 uint32_t source_height, uint32_t source_stride, const uint32_t *firsts,               \
                                 size_t first_count, uint32_t taps, const int32_t *weights, size_t weight_count,       \
                                 const uint32_t *row_firsts, size_t row_first_count, uint32_t row_taps,                \
                                 const int32_t *row_weights, size_t row_weight_count, uint32_t *work,                  \
                                 size_t work_count) {                                                                  \
        const plain_kind kind = KIND;                                                                                  \
        const plain_rows to = {(unsigned char *)pixels, width, height, stride};                                        \
        const plain_rows from = {(unsigned char *)(uintptr_t)source, source_width, source_height, source_stride};      \
        const plain_weights across = {firsts, weights, width, taps}, down = {row_firsts, row_weights, height, row_taps}; \
        const uint32_t fault = source_fault(source_width, source_height);                                              \
        (void)work;                                                                                                    \
        if (fault)                                                                                                     \
            return fault;                                                                                              \
        if (!is_sized(width, height, stride, pixel_count))                                                             \
            return PIX_BAD_SIZE;                                                                                       \
        if (!is_sized(source_width, source_height, source_stride, source_count))                                       \
            return PIX_BAD_SOURCE;                                                                                     \
        if (first_count != width || weight_count != (uint64_t)width * taps || !plain_is_whole(across, source_width))   \
            return PIX_BAD_WEIGHTS;                                                                                    \
        if (row_first_count != height || row_weight_count != (uint64_t)height * row_taps                               \
            || !plain_is_whole(down, source_height))                                                                   \
            return PIX_BAD_WEIGHTS;                                                                                    \
        if (work_count < plain_by_words(&kind, width, height, source_width, taps, row_taps))                           \
            return PIX_SMALL_WORK;                                                                                     \
        plain_scale_by(&kind, to, from, across, down);                                                                 \
        return PIX_OK;                                                                                                 \
    }
OTHER_SCALE_BY_(, pix_rgba8, RGBA8_)
OTHER_SCALE_BY_(_rgba16, pix_rgba16, RGBA16_)
OTHER_SCALE_BY_(_graya8, pix_graya8, GRAYA8_)

uint32_t pix_raw_scale_by_work(uint32_t width, uint32_t height, uint32_t source_width, uint32_t source_height, uint32_t taps,
                               uint32_t row_taps, uint32_t channels, uint32_t bits, uint64_t *words) {
    const plain_kind kind = {bits > 8 ? 65535 : 255, bits / 8, channels};
    uint32_t fault = source_fault(source_width, source_height);
    *words = 0;
    if (!(channels == 4 && (bits == 8 || bits == 16)) && !(channels == 2 && bits == 8))
        return PIX_BAD_FORMAT;
    if (!fault && (taps > source_width || row_taps > source_height))
        fault = PIX_BAD_WEIGHTS;
    if (!fault)
        *words = plain_by_words(&kind, width, height, source_width, taps, row_taps);
    return fault;
}

/* Tables of colors. */
uint32_t pix_raw_nearest(const pix_srgb8 *entries, size_t len, const pix_srgb8 *color, uint8_t *index) {
    if (!len || len > 256)
        return PIX_BAD_TABLE;
    *index = plain_nearest(entries, len, *color);
    return PIX_OK;
}

uint32_t pix_raw_map_indexed(const pix_srgb8 *entries, size_t len, const pix_srgb8 *pixels, size_t pixel_count,
                             uint8_t *indices, size_t index_count) {
    if (!len || len > 256)
        return PIX_BAD_TABLE;
    if (index_count != pixel_count)
        return PIX_BAD_LENGTH;
    for (size_t i = 0; i < pixel_count; i++)
        indices[i] = plain_nearest(entries, len, pixels[i]);
    return PIX_OK;
}

uint32_t pix_raw_map_indexed_alpha(const pix_srgb8 *entries, size_t len, const pix_srgba8 *pixels, size_t pixel_count,
                                   uint8_t alpha, uint8_t transparent_index, uint8_t *indices, size_t index_count) {
    if (len > 256)
        return PIX_BAD_TABLE;
    if (index_count != pixel_count)
        return PIX_BAD_LENGTH;
    for (size_t i = 0; !len && i < pixel_count; i++)
        if (pixels[i].a >= alpha)
            return PIX_BAD_TABLE;
    for (size_t i = 0; i < pixel_count; i++) {
        pix_srgb8 color = {pixels[i].r, pixels[i].g, pixels[i].b};
        indices[i] = pixels[i].a < alpha ? transparent_index : plain_nearest(entries, len, color);
    }
    return PIX_OK;
}

uint32_t pix_raw_index_pixels(pix_srgb8 *entries, size_t len, size_t *used, const pix_srgb8 *threshold,
                              const pix_srgb8 *pixels, size_t pixel_count, uint8_t *indices, size_t index_count) {
    pix_srgb8 copy[256];
    uint8_t *found;
    size_t now = *used;
    int all;
    if (!len || len > 256)
        return PIX_BAD_TABLE;
    if (*used > len || index_count != pixel_count)
        return PIX_BAD_LENGTH;
    found = malloc(pixel_count + 1);
    if (!found)
        abort();
    memcpy(copy, entries, len * sizeof *copy);
    all = plain_index(copy, len, &now, *threshold, pixels, pixel_count, found) == pixel_count;
    if (all) {
        memcpy(entries, copy, len * sizeof *copy);
        memcpy(indices, found, pixel_count);
        *used = now;
    }
    free(found);
    return all ? PIX_OK : PIX_FULL_TABLE;
}

uint32_t pix_raw_look_up(const pix_srgb8 *entries, size_t len, const uint8_t *indices, size_t index_count,
                         pix_srgb8 *pixels, size_t pixel_count) {
    if (index_count != pixel_count)
        return PIX_BAD_LENGTH;
    for (size_t i = 0; i < index_count; i++)
        if (indices[i] >= len)
            return PIX_BAD_INDEX;
    for (size_t i = 0; i < index_count; i++)
        pixels[i] = entries[indices[i]];
    return PIX_OK;
}

uint32_t pix_raw_count_indices(const uint8_t *indices, size_t index_count, size_t *counts, size_t len) {
    for (size_t i = 0; i < index_count; i++)
        if (indices[i] >= len)
            return PIX_BAD_INDEX;
    memset(counts, 0, len * sizeof *counts);
    for (size_t i = 0; i < index_count; i++)
        counts[indices[i]]++;
    return PIX_OK;
}

uint32_t pix_raw_pack_row(uint32_t bits, const uint8_t *indices, size_t index_count, uint8_t *bytes, size_t byte_count) {
    if (!bits || bits > 8 || 8 % bits)
        return PIX_BAD_DEPTH;
    if (byte_count != pix_row_size(bits, index_count))
        return PIX_BAD_LENGTH;
    for (size_t i = 0; i < index_count; i++)
        if (indices[i] >> bits)
            return PIX_BAD_INDEX;
    memset(bytes, 0, byte_count);
    for (size_t i = 0; i < index_count; i++)
        bytes[i * bits / 8] |= (uint8_t)(indices[i] << (8 - bits - i * bits % 8));
    return PIX_OK;
}

uint32_t pix_raw_unpack_row(uint32_t bits, const uint8_t *bytes, size_t byte_count, uint8_t *indices, size_t index_count) {
    if (!bits || bits > 8 || 8 % bits)
        return PIX_BAD_DEPTH;
    if (byte_count != pix_row_size(bits, index_count))
        return PIX_BAD_LENGTH;
    for (size_t i = 0; i < index_count; i++)
        indices[i] = (uint8_t)(bytes[i * bits / 8] >> (8 - bits - i * bits % 8) & ((1 << bits) - 1));
    return PIX_OK;
}

uint32_t pix_raw_quantize_refined(const pix_srgb8 *pixels, size_t pixel_count, uint8_t rounds, pix_srgb8 *work,
                                  size_t work_len, pix_srgb8 *entries, size_t len, size_t *made) {
    if (!len || len > 256)
        return PIX_BAD_TABLE;
    if (work_len < pixel_count)
        return PIX_BAD_LENGTH;
    (void)work;
    *made = plain_refined(pixels, pixel_count, entries, len, rounds);
    return PIX_OK;
}

uint32_t pix_raw_quantize_refined_alpha(const pix_srgba8 *pixels, size_t pixel_count, uint8_t alpha, uint8_t rounds,
                                        pix_srgb8 *work, size_t work_len, pix_srgb8 *entries, size_t len, size_t *made) {
    size_t count = 0;
    if (!len || len > 256)
        return PIX_BAD_TABLE;
    if (work_len < pixel_count)
        return PIX_BAD_LENGTH;
    for (size_t i = 0; i < pixel_count; i++)
        if (pixels[i].a >= alpha) {
            pix_srgb8 color = {pixels[i].r, pixels[i].g, pixels[i].b};
            work[count++] = color;
        }
    *made = plain_refined(work, count, entries, len, rounds);
    return PIX_OK;
}

/* What a diffusion of so many pixels is refused with. */
static uint32_t diffusion_fault(size_t len, size_t count, size_t width, uint8_t strength, uint8_t serpentine, size_t work_len,
                                size_t index_count) {
    if (!len || len > 256)
        return PIX_BAD_TABLE;
    if (strength > 16)
        return PIX_BAD_STRENGTH;
    if (!width || width > SIZE_MAX / 4 || work_len != 4 * width || index_count != count || (serpentine && count % width))
        return PIX_BAD_LENGTH;
    return PIX_OK;
}

/* To entries without an alpha: the color of a pixel that counts is taken as it is. */
static void diffuse_colors(const pix_srgb8 *entries, size_t len, const pix_srgba8 *pixels, size_t count, size_t width,
                           uint8_t alpha, uint8_t transparent_index, uint8_t strength, uint8_t serpentine, uint8_t *indices) {
    seen table[256], *colors = zeros(count, sizeof *colors);
    uint8_t *is_apart = zeros(count, 1);
    diffusion it = {table, colors, is_apart, len, count, width, transparent_index, strength, serpentine, NULL, NULL, 0};
    for (size_t i = 0; i < len; i++)
        table[i] = opaque_seen(entries[i]);
    for (size_t i = 0; i < count; i++) {
        colors[i] = seen_as(pixels[i].r, pixels[i].g, pixels[i].b, 255);
        is_apart[i] = pixels[i].a < alpha;
    }
    diffuse_all(&it, indices);
    free(colors);
    free(is_apart);
}

uint32_t pix_raw_diffuse_indexed_by_alpha(const pix_srgb8 *entries, size_t len, const pix_srgba8 *pixels, size_t pixel_count,
                                          size_t width, uint8_t alpha, uint8_t transparent_index, uint8_t strength,
                                          uint8_t serpentine, pix_srgb8 *work, size_t work_len, uint8_t *indices,
                                          size_t index_count) {
    /* a table of no entry serves pixels that are all clear, and refuses others last */
    const uint32_t fault = diffusion_fault(len + !len, pixel_count, width, strength, serpentine, work_len, index_count);
    (void)work;
    for (size_t i = 0; i < pixel_count && !len && !fault; i++)
        if (pixels[i].a >= alpha)
            return PIX_BAD_TABLE;
    if (!fault)
        diffuse_colors(entries, len, pixels, pixel_count, width, alpha, transparent_index, strength, serpentine, indices);
    return fault;
}

uint32_t pix_raw_diffuse_indexed_by(const pix_srgb8 *entries, size_t len, const pix_srgb8 *pixels, size_t pixel_count,
                                    size_t width, uint8_t strength, uint8_t serpentine, pix_srgb8 *work, size_t work_len,
                                    uint8_t *indices, size_t index_count) {
    const uint32_t fault = diffusion_fault(len, pixel_count, width, strength, serpentine, work_len, index_count);
    pix_srgba8 *opaque;
    (void)work;
    if (fault)
        return fault;
    opaque = zeros(pixel_count, sizeof *opaque);
    for (size_t i = 0; i < pixel_count; i++) {
        const pix_srgba8 pixel = {pixels[i].r, pixels[i].g, pixels[i].b, 255};
        opaque[i] = pixel;
    }
    diffuse_colors(entries, len, opaque, pixel_count, width, 0, 0, strength, serpentine, indices);
    free(opaque);
    return PIX_OK;
}

/* Tables of colors with an alpha. */
uint32_t pix_raw_diffuse_indexed_rgba(const pix_srgba8 *entries, size_t len, const pix_srgba8 *pixels, size_t pixel_count,
                                      size_t width, uint8_t strength, uint8_t serpentine, pix_srgba8 *work, size_t work_len,
                                      uint8_t *indices, size_t index_count) {
    const uint32_t fault = diffusion_fault(len, pixel_count, width, strength, serpentine, work_len, index_count);
    seen *table, *colors;
    uint8_t *is_apart;
    (void)work;
    if (fault)
        return fault;
    table = all_seen(entries, len);
    colors = all_seen(pixels, pixel_count);
    is_apart = zeros(pixel_count, 1);
    for (size_t i = 0; i < pixel_count; i++)
        is_apart[i] = !pixels[i].a;
    diffusion it = {table, colors, is_apart, len, pixel_count, width, -1, strength, serpentine, NULL, NULL, 0};
    diffuse_all(&it, indices);
    free(table);
    free(colors);
    free(is_apart);
    return PIX_OK;
}

uint32_t pix_raw_map_indexed_rgba(const pix_srgba8 *entries, size_t len, const pix_srgba8 *pixels, size_t pixel_count,
                                  uint8_t *indices, size_t index_count) {
    seen *table;
    if (!len || len > 256)
        return PIX_BAD_TABLE;
    if (index_count != pixel_count)
        return PIX_BAD_LENGTH;
    table = all_seen(entries, len);
    for (size_t i = 0; i < pixel_count; i++)
        indices[i] = seen_nearest(table, len, pixel_seen(pixels[i]));
    free(table);
    return PIX_OK;
}

uint32_t pix_raw_look_up_rgba(const pix_srgba8 *entries, size_t len, const uint8_t *indices, size_t index_count,
                              pix_srgba8 *pixels, size_t pixel_count) {
    if (index_count != pixel_count)
        return PIX_BAD_LENGTH;
    for (size_t i = 0; i < index_count; i++)
        if (indices[i] >= len)
            return PIX_BAD_INDEX;
    for (size_t i = 0; i < index_count; i++)
        pixels[i] = entries[indices[i]];
    return PIX_OK;
}

uint32_t pix_raw_quantize_rgba(const pix_srgba8 *pixels, size_t pixel_count, uint8_t rounds, pix_srgba8 *work,
                               size_t work_len, pix_srgba8 *entries, size_t len, size_t *made) {
    seen table[256], *colors;
    size_t places[256];
    int is_cut;
    if (!len || len > 256)
        return PIX_BAD_TABLE;
    if (work_len < pixel_count)
        return PIX_BAD_LENGTH;
    (void)work;
    colors = all_seen(pixels, pixel_count);
    *made = distinct_seen(colors, pixel_count, places, len);
    is_cut = *made > len;
    if (is_cut)
        *made = cut_seen(colors, pixel_count, table, len);
    for (; is_cut && rounds; rounds--)
        round_seen(colors, pixel_count, table, *made);
    if (is_cut)
        make_opaque(colors, pixel_count, table, *made);
    for (size_t i = 0; i < *made; i++)
        entries[i] = is_cut ? straight_of(table[i]) : pixels[places[i]];
    free(colors);
    return PIX_OK;
}
