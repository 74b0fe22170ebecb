/* Times some calls on an image of 1024 by 1024 pixels: the least of 15 rounds. */
#define _POSIX_C_SOURCE 199309L
#include "pix.h"
#include <stdio.h>
#include <stdlib.h>
#include <time.h>

enum { SIDE = 1024, POINTS = SIDE * SIDE, SPRITE = 32, ROUNDS = 15 };

static double now(void) {
    struct timespec time;
    clock_gettime(CLOCK_MONOTONIC, &time);
    return (double)time.tv_sec * 1e9 + (double)time.tv_nsec;
}

static uint32_t below(uint32_t limit) {
    static uint64_t state = 88172645463325252u;
    state ^= state << 13;
    state ^= state >> 7;
    state ^= state << 17;
    return (uint32_t)((state >> 32) * limit >> 32);
}

/* A premultiplied pixel of any alpha. */
static pix_rgba8 any_pixel(void) {
    uint32_t alpha = below(256);
    uint8_t red = (uint8_t)below(alpha + 1), green = (uint8_t)below(alpha + 1), blue = (uint8_t)below(alpha + 1);
    return pix_rgba8_of(red, green, blue, (uint8_t)alpha);
}

/* Prints the least time of a command: of one call, and of one of its pixels. A round does it `times` times. */
static void row(const char *name, pix_image image, pix_command command, int times, double points) {
    double least = 1e300;
    for (int round = 0; round < ROUNDS; round++) {
        double start = now();
        for (int i = 0; i < times; i++)
            if (pix_do(image, command) != PIX_OK)
                exit(1);
        double took = (now() - start) / times;
        least = took < least ? took : least;
    }
    printf("%-32s %10.2f us", name, least / 1e3);
    if (points > 0)
        printf(" %8.3f ns a pixel", least / points);
    printf("\n");
}

static pix_rgba8 pixels[POINTS], other[POINTS];
static uint8_t bytes[4 * POINTS], values[POINTS];

int main(void) {
    for (int i = 0; i < POINTS; i++) {
        pixels[i] = any_pixel();
        other[i] = any_pixel();
        values[i] = (uint8_t)below(256);
    }
    const pix_image image = pix_image_of(pixels, SIDE, SIDE);
    const pix_view source = pix_view_of(other, SIDE, SIDE);
    const pix_region whole = pix_region_of(0, 0, SIDE, SIDE), nothing = pix_region_of(0, 0, 0, 0);
    const pix_rgba8 color = pix_rgba8_of(96, 32, 64, 128);
    row("SrcOver of an image", image, pix_composite_image(whole, source, whole, PIX_OP_SRC_OVER), 1, POINTS);
    row("SrcOver of a color", image, pix_composite_color(whole, color, PIX_OP_SRC_OVER), 1, POINTS);
    row("SrcOver of a color by a matte", image,
        pix_composite_matte(whole, pix_matte_of(values, SIDE, SIDE), whole, color, PIX_OP_SRC_OVER), 1, POINTS);
    row("copy of an image", image, pix_copy_image(whole, source, whole), 1, POINTS);
    row("copy of a color", image, pix_copy_color(whole, color), 1, POINTS);
    row("SrcOver of 32x32 of an atlas", image,
        pix_composite_image(pix_region_of(40, 40, SPRITE, SPRITE), source, pix_region_of(9, 9, SPRITE, SPRITE),
                            PIX_OP_SRC_OVER), 1000, SPRITE * SPRITE);
    row("a call that changes nothing", image, pix_composite_color(nothing, color, PIX_OP_SRC_OVER), 1000, 0);
    double least = 1e300;
    for (int round = 0; round < ROUNDS; round++) {
        double start = now();
        if (pix_convert(PIX_FORMAT_RGBA8P, PIX_FORMAT_SRGBA8, other, bytes, POINTS) != PIX_OK)
            return 1;
        double took = now() - start;
        least = took < least ? took : least;
    }
    printf("%-32s %10.2f us %8.3f ns a pixel\n", "RGBA8P to SRGBA8", least / 1e3, least / POINTS);
    return 0;
}
