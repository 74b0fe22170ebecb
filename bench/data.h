/* data.h - what is composited: pixels, colors and masks of three shapes, in the sizes that are timed. */
#ifndef DATA_H
#define DATA_H

#include "bench.h"

/* At random; as sprites, which are clear or opaque in runs; and masks of text at 12 and at 20 pixels. */
typedef enum { RANDOM, SPRITES, TEXT12, TEXT20, FLAT, SHAPES } shape_t;

extern const char *const shape_names[SHAPES];

/* Reads the masks of text in this folder. Answers whether they are there. */
int read_text(const char *folder);

/* Fills an image of `across` by `across` pixels, which is the same each time: image number 0 or 1. Colors don't exceed the alpha. */
void fill_pixels(kind_t kind, shape_t shape, int number, uint32_t across, void *pixels);

/* Fills a mask of `across` by `across` values. */
void fill_mask(kind_t kind, shape_t shape, uint32_t across, void *values);

/* Pixels of 256 colors of three channels, at random or in runs of 8. */
void fill_few(int run, size_t count, uint8_t *pixels);

/* The color that is composited: a pixel of the kind, of alpha 128 of 255. */
const void *color_of(kind_t kind);

#endif
