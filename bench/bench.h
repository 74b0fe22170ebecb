/* bench.h - what the files of the benchmark share: a piece of work, and the builds of the library that do it. */
#ifndef BENCH_H
#define BENCH_H

#include "pix.h"
#include <stddef.h>
#include <stdint.h>

/* Kinds of pixels: 8 or 16 bits of red, green, blue and alpha, and 8 bits of gray and alpha. */
typedef enum { RGBA8, RGBA16, GRAYA8, KINDS } kind_t;

/* What is composited, or copied: an image, a color, a color through a mask, an image through a mask and one at an opacity; the
 * last three are a copy of an image and of a color, and a clear. */
typedef enum { IMAGE, COLOR, MASK, MASKED, FADED, COPY, FILL, CLEAR, SOURCES } source_t;

_Static_assert(SOURCES == PIX_KIND_COUNT, "each kind of commands is timed");

enum { OPERATORS = PIX_OP_COUNT, DEST = PIX_OP_DEST, MOST = 1024, OPACITY = 160 };

/* A command on each tile of an image, whose tiles are all that it has. */
typedef struct {
    kind_t kind;
    source_t source;
    uint32_t op;           /* a pix_op */
    uint32_t across, side; /* the sides of the image and of a tile, in pixels; an image of this size is read */
    void *pixels;          /* of the image */
    const void *read;      /* the pixels of the source, or the values of the mask */
    const void *color;     /* a pixel */
    const void *mask;      /* the values of an image's mask */
} job_t;

/* A conversion of pixels of 8 bits a channel, by the numbers of pix_format. */
typedef struct {
    uint32_t from, to;
    const uint8_t *src;
    uint8_t *dst;
    size_t count;
} conversion_t;

/* What is timed. Each answers whether it could do the work. */
typedef struct {
    int (*run)(const job_t *job);
    int (*convert)(const conversion_t *conversion);
} runner_t;

/* A build of the library for one processor, and loops in plain C that are compiled for the same one. */
typedef struct {
    runner_t pix, plain;
} build_t;

/* The bytes of a pixel, and of a value of a mask. */
static inline size_t pixel_size(kind_t kind) {
    return kind == RGBA8 ? 4 : kind == RGBA16 ? 8 : 2;
}

static inline size_t value_size(kind_t kind) {
    return kind == RGBA16 ? 2 : 1;
}

#endif
