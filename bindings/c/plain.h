/* plain.h - what the calls of pix.h promise, written down from the definitions: one point after the other, in whole
 * numbers, and with nothing of the library. fuzz.c compares the two.
 */
#ifndef PLAIN_H
#define PLAIN_H

#include <math.h>
#include <stddef.h>
#include <stdint.h>

/* A kind of pixels: the greatest channel, the bytes of one, and how many there are, the last one the alpha. */
typedef struct {
    uint64_t max;
    size_t bytes, channels;
} plain_kind;

/* Rows of pixels or of mattes that start a stride apart, in `bytes`. */
typedef struct {
    unsigned char *bytes;
    uint64_t width, height, stride;
} plain_rows;

typedef struct {
    int64_t x, y, width, height;
} plain_region;

enum {
    PLAIN_CLEAR, PLAIN_COPY_COLOR, PLAIN_COPY, PLAIN_COLOR, PLAIN_SOURCE, PLAIN_MATTE, PLAIN_MASKED, PLAIN_FADED, PLAIN_KINDS
};

/* A command; `source` has the pixels or the mattes that it reads, and `mask` the mattes of an image. With `are_bytes` its
 * mattes have 8 bits, whatever the channels have. */
typedef struct {
    uint32_t kind, op;
    plain_region to, from, mask_from;
    uint64_t color[4], alpha;
    const plain_rows *source, *mask;
    int are_bytes;
} plain_command;

/* The coefficients of the operators, by their numbers: 0, 1, the other side's alpha (a), or one minus it (m). */
/* made by tools/names: operators */
static const char plain_source_by[] = "101mm0a0amm01";
static const char plain_dest_by[] = "01m10m0amam01";
/* made by tools/names: end */
enum { PLAIN_OPERATORS = sizeof plain_source_by - 1 };

static inline uint64_t plain_channel(const plain_kind *kind, const unsigned char *at, size_t channel) {
    if (kind->bytes == 1)
        return at[channel];
    uint16_t wide;
    unsigned char *to = (unsigned char *)&wide;
    to[0] = at[2 * channel];
    to[1] = at[2 * channel + 1];
    return wide;
}

static inline void plain_set_channel(const plain_kind *kind, unsigned char *at, size_t channel, uint64_t number) {
    if (kind->bytes == 1) {
        at[channel] = (unsigned char)number;
        return;
    }
    uint16_t wide = (uint16_t)number;
    const unsigned char *from = (const unsigned char *)&wide;
    at[2 * channel] = from[0];
    at[2 * channel + 1] = from[1];
}

/* x * y / max, rounded to the nearest. */
static inline uint64_t plain_product(uint64_t max, uint64_t x, uint64_t y) {
    return (2 * x * y + max) / (2 * max);
}

/* (max + 1) * x / y, rounded down, at most max, and 0 where y is 0. */
static inline uint64_t plain_quotient(uint64_t max, uint64_t x, uint64_t y) {
    uint64_t quotient = y ? (max + 1) * x / y : 0;
    return quotient < max ? quotient : max;
}

static inline uint64_t plain_term(uint64_t max, char by, uint64_t channel, uint64_t alpha) {
    switch (by) {
    case '0': return 0;
    case '1': return channel;
    case 'a': return plain_product(max, channel, alpha);
    default: return plain_product(max, channel, max - alpha);
    }
}

/* Composites a source with the destination: each channel by both alphas from before, and sums saturate. */
static inline void plain_composite(const plain_kind *kind, uint32_t op, const uint64_t *src, uint64_t *dst) {
    uint64_t sa = src[kind->channels - 1], da = dst[kind->channels - 1];
    for (size_t i = 0; i < kind->channels; i++) {
        uint64_t sum = plain_term(kind->max, plain_source_by[op], src[i], da)
            + plain_term(kind->max, plain_dest_by[op], dst[i], sa);
        dst[i] = sum < kind->max ? sum : kind->max;
    }
}

/* Whether a point lies at an offset in a region: the offset is set then. */
static inline int plain_covers(const plain_region *reg, int64_t x, int64_t y, int64_t *column, int64_t *row) {
    *column = x - reg->x;
    *row = y - reg->y;
    return *column >= 0 && *column < reg->width && *row >= 0 && *row < reg->height;
}

/* The bytes of the point of a source that is paired with a point, or null where there is none. */
static inline const unsigned char *plain_paired(const plain_region *to, const plain_rows *source, const plain_region *from,
                                                size_t size, int64_t x, int64_t y) {
    int64_t column, row;
    if (!plain_covers(to, x, y, &column, &row) || column >= from->width || row >= from->height)
        return NULL;
    column += from->x;
    row += from->y;
    if (column < 0 || row < 0 || column >= (int64_t)source->width || row >= (int64_t)source->height)
        return NULL;
    return source->bytes + ((uint64_t)row * source->stride + (uint64_t)column) * size;
}

/* A matte in the channels of an image: as many of their greatest number as it is of its own. */
static inline uint64_t plain_matte(const plain_kind *kind, const plain_command *command, const unsigned char *at) {
    return command->are_bytes ? *at * kind->max / 255 : plain_channel(kind, at, 0);
}

/* What a command makes of the pixel at a point: it stays where the command does not reach it. */
static inline void plain_step(const plain_kind *kind, const plain_command *command, int64_t x, int64_t y, uint64_t *pixel) {
    uint64_t src[4] = {0, 0, 0, 0};
    int64_t column, row;
    const unsigned char *paired, *covered = NULL;
    size_t matte = command->are_bytes ? 1 : kind->bytes;
    size_t size = command->kind == PLAIN_MATTE ? matte : kind->bytes * kind->channels;
    switch (command->kind) {
    case PLAIN_COPY_COLOR:
    case PLAIN_COLOR:
        if (!plain_covers(&command->to, x, y, &column, &row))
            return;
        for (size_t i = 0; i < kind->channels; i++)
            src[i] = command->color[i];
        break;
    case PLAIN_COPY:
    case PLAIN_SOURCE:
    case PLAIN_MATTE:
    case PLAIN_MASKED:
    case PLAIN_FADED:
        paired = plain_paired(&command->to, command->source, &command->from, size, x, y);
        if (command->kind == PLAIN_MASKED)
            covered = plain_paired(&command->to, command->mask, &command->mask_from, matte, x, y);
        if (!paired || (command->kind == PLAIN_MASKED && !covered))
            return;
        for (size_t i = 0; i < kind->channels; i++)
            src[i] = command->kind == PLAIN_MATTE
                ? plain_product(kind->max, command->color[i], plain_matte(kind, command, paired))
                : plain_channel(kind, paired, i);
        for (size_t i = 0; command->kind >= PLAIN_MASKED && i < kind->channels; i++)
            src[i] = plain_product(kind->max, src[i], covered ? plain_matte(kind, command, covered) : command->alpha);
        break;
    default: break;
    }
    if (command->kind >= PLAIN_COLOR)
        plain_composite(kind, command->op, src, pixel);
    else
        for (size_t i = 0; i < kind->channels; i++)
            pixel[i] = src[i];
}

/* Runs commands on a window of a picture, whose first pixel is the point (left, top) of the picture: at each point of
 * the window the fold of those that reach the picture's point there. */
static inline void plain_run_in(const plain_kind *kind, const plain_rows *image, int64_t left, int64_t top,
                         const plain_command *commands, size_t count) {
    for (uint64_t y = 0; image->width && y < image->height; y++)
        for (uint64_t x = 0; x < image->width; x++) {
            unsigned char *at = image->bytes + (y * image->stride + x) * kind->channels * kind->bytes;
            uint64_t pixel[4];
            for (size_t i = 0; i < kind->channels; i++)
                pixel[i] = plain_channel(kind, at, i);
            for (size_t i = 0; i < count; i++)
                plain_step(kind, &commands[i], left + (int64_t)x, top + (int64_t)y, pixel);
            for (size_t i = 0; i < kind->channels; i++)
                plain_set_channel(kind, at, i, pixel[i]);
        }
}

/* Runs commands on an image. */
static inline void plain_run(const plain_kind *kind, const plain_rows *image, const plain_command *commands,
                             size_t count) {
    plain_run_in(kind, image, 0, 0, commands, count);
}

/* A format of bytes: its model (r, b for the reverse order, g for gray), whether it has an alpha, whether colors are
 * multiplied by it, and whether they are encoded by the sRGB curve. */
typedef struct {
    char model;
    int has_alpha, is_premultiplied, is_srgb;
} plain_format;

static const plain_format plain_formats[] = {
    {'r', 1, 0, 1}, {'r', 1, 1, 1}, {'r', 1, 0, 0}, {'r', 1, 1, 0}, {'b', 1, 0, 0}, {'b', 1, 1, 0},
    {'r', 0, 0, 0}, {'g', 0, 0, 0}, {'b', 1, 0, 1}, {'b', 1, 1, 1}, {'r', 0, 0, 1}, {'g', 0, 0, 1},
};
enum { PLAIN_FORMATS = sizeof plain_formats / sizeof *plain_formats };

static inline size_t plain_size(const plain_format *format) {
    return (format->model == 'g' ? 1 : 3) + (size_t)format->has_alpha;
}

/* The sRGB curve of IEC 61966-2-1 on bytes, to the nearest. */
static inline uint64_t plain_to_linear(uint64_t byte) {
    double s = (double)byte / 255;
    return (uint64_t)floor(255 * (s <= 0.04045 ? s / 12.92 : pow((s + 0.055) / 1.055, 2.4)) + 0.5);
}

static inline uint64_t plain_from_linear(uint64_t byte) {
    double l = (double)byte / 255;
    return (uint64_t)floor(255 * (l <= 0.0031308 ? l * 12.92 : 1.055 * pow(l, 1 / 2.4) - 0.055) + 0.5);
}

/* A color in another alpha mode and gamma mode, at an alpha. */
static inline uint64_t plain_recoded(const plain_format *from, const plain_format *to, uint64_t color, uint64_t alpha) {
    if (from->is_premultiplied == to->is_premultiplied && from->is_srgb == to->is_srgb)
        return color;
    if (from->is_srgb)
        color = plain_to_linear(color);
    if (from->is_premultiplied && !to->is_premultiplied)
        color = plain_quotient(255, color, alpha);
    if (!from->is_premultiplied && to->is_premultiplied)
        color = plain_product(255, color, alpha);
    return to->is_srgb ? plain_from_linear(color) : color;
}

/* Converts one pixel. Within a model its alpha counts only where the target has one. */
static inline void plain_convert(const plain_format *from, const plain_format *to, const unsigned char *src, unsigned char *dst) {
    size_t colors = from->model == 'g' ? 1 : 3;
    uint64_t alpha = from->has_alpha ? src[colors] : 255, rgb[3];
    for (size_t i = 0; i < 3; i++) {
        uint64_t color = src[from->model == 'g' ? 0 : from->model == 'b' ? 2 - i : i];
        rgb[i] = plain_recoded(from, to, color, from->model == to->model && !to->has_alpha ? 255 : alpha);
    }
    if (from->model == 'g' && to->model == 'g')
        dst[0] = (unsigned char)rgb[0];
    else if (to->model == 'g')
        dst[0] = (unsigned char)((2 * (2126 * rgb[0] + 7152 * rgb[1] + 722 * rgb[2]) + 10000) / 20000);
    else
        for (size_t i = 0; i < 3; i++)
            dst[i] = (unsigned char)rgb[to->model == 'b' ? 2 - i : i];
    if (to->has_alpha)
        dst[3] = (unsigned char)alpha;
}

#endif
