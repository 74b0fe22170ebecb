/* scale.h - pictures of their own, and windows of pictures at other sizes. */
#ifndef SCALE_H
#define SCALE_H

#include "pix.h"

/* A picture of its own in linear light of 16 bits a channel, in memory of malloc and with rows without padding. */
typedef struct {
    pix_rgba16 *pixels;
    uint32_t width, height;
} canvas;

/* Makes a transparent picture, or ends the program where there is no memory. */
canvas canvas_of(uint32_t width, uint32_t height);
void canvas_free(canvas *it);
pix_image_rgba16 canvas_image(const canvas *it);
pix_view_rgba16 canvas_view(const canvas *it);

/* Ends the program with a sentence where a call was refused, which no call of this program should be. */
void insist(pix_status status);
void *insist_memory(void *memory);

/* Makes a window of a picture at the size `whole`: each of its pixels is the mean of the part of the source that it
 * covers, of parts of pixels too. */
canvas scale_window(pix_view_rgba16 source, pix_size whole, pix_region window);

#endif
