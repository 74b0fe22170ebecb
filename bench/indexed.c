/* Makes an image of indices of a picture, times that, or measures how far two pictures are apart: bench/indexed asks for it.
 *
 *   indexed make WAY COLORS PICTURE MADE    prints the processor's seconds for the table and for the indices, the least of RUNS
 *   indexed apart PICTURE MADE              prints the mean squared error over black, over white and over a checkerboard,
 *                                           and then the same after a blur
 *
 * A picture is a line with its width and its height, and then red, green, blue and alpha of each pixel. What is made is the
 * entry of each pixel's index. A picture with an alpha gets a table with alpha. */
#define _POSIX_C_SOURCE 199309L
#include "pix.h"
#include <libimagequant.h>
#include <math.h>
#include <stdio.h>
#include <stdlib.h>
#include <time.h>

#ifndef RUNS
#define RUNS 3
#endif

enum { SAMPLE = 200000, SQUARE = 8, REACH = 6 };
static const double SIGMA = 1.5;

/* How an image of indices is made: by libimagequant of some speed, or by the library with some rounds; of all pixels or of a
 * sample; with the nearest entries, or with error diffusion. */
typedef struct {
    const char *name;
    int speed;
    float dithering;
    uint8_t rounds;
    int of_sample, diffused;
    uint8_t strength;
    bool serpentine;
} way;

static const way WAYS[] = {
    {"cut", 0, 0, 0, 0, 0, 0, false},          {"rounds", 0, 0, 6, 0, 0, 0, false},
    {"sample-cut", 0, 0, 0, 1, 0, 0, false},   {"sample-rounds", 0, 0, 6, 1, 0, 0, false},
    {"diffused", 0, 0, 6, 0, 1, 16, false},    {"weaker", 0, 0, 6, 0, 1, 12, true},
    {"liq", 4, 0, 0, 0, 0, 0, false},          {"liq-fast", 10, 0, 0, 0, 0, 0, false},
    {"liq-dithered", 4, 1, 0, 0, 0, 0, false},
};

static double now(void) {
    struct timespec t;
    clock_gettime(CLOCK_PROCESS_CPUTIME_ID, &t);
    return (double)t.tv_sec + 1e-9 * (double)t.tv_nsec;
}

static void fail(const char *what) {
    fprintf(stderr, "indexed: %s\n", what);
    exit(1);
}

static void *room(size_t bytes) {
    void *memory = malloc(bytes + 1);
    if (!memory)
        fail("no memory");
    return memory;
}

typedef struct {
    size_t width, height, count;
    bool is_opaque;
    pix_srgba8 *pixels;
} picture;

static picture read_picture(const char *name) {
    picture it;
    FILE *file = fopen(name, "rb");
    if (!file || fscanf(file, "%zu %zu", &it.width, &it.height) != 2 || fgetc(file) == EOF)
        fail(name);
    it.count = it.width * it.height;
    it.pixels = room(it.count * sizeof *it.pixels);
    if (fread(it.pixels, sizeof *it.pixels, it.count, file) != it.count)
        fail(name);
    fclose(file);
    it.is_opaque = true;
    for (size_t i = 0; i < it.count; i++)
        it.is_opaque = it.is_opaque && it.pixels[i].a == 255;
    return it;
}

static void write_picture(const char *name, const picture *it, const pix_srgba8 *entries, const uint8_t *indices) {
    FILE *file = fopen(name, "wb");
    if (!file)
        fail(name);
    fprintf(file, "%zu %zu\n", it->width, it->height);
    for (size_t i = 0; i < it->count; i++)
        fwrite(&entries[indices[i]], sizeof *entries, 1, file);
    if (fclose(file))
        fail(name);
}

typedef struct {
    double table, map;
} seconds;

static void note(seconds *least, double start, double middle, double end) {
    least->table = middle - start < least->table ? middle - start : least->table;
    least->map = end - middle < least->map ? end - middle : least->map;
}

/* The library, on the colors of an opaque picture. */
static void by_colors(const picture *it, const way *how, size_t colors, pix_srgba8 *entries, uint8_t *indices, seconds *least) {
    size_t step = how->of_sample ? (it->count + SAMPLE - 1) / SAMPLE : 1, count = 0, made = 0;
    pix_srgb8 *pixels = room(it->count * sizeof *pixels), *sample = room(it->count * sizeof *pixels);
    pix_srgb8 own[256], *work = room((it->count + 4 * it->width) * sizeof *work);
    const pix_diffusion diffusion = {how->strength, how->serpentine};
    double start, middle;
    uint32_t status;
    for (size_t i = 0; i < it->count; i++)
        memcpy(&pixels[i], &it->pixels[i], 3);
    start = now();
    for (size_t i = 0; i < it->count && step > 1; i += step)
        sample[count++] = pixels[i];
    status = pix_quantize_refined(step > 1 ? sample : pixels, step > 1 ? count : it->count, how->rounds, work, own, colors, &made);
    middle = now();
    if (status == PIX_OK && how->diffused)
        status = pix_diffuse_indexed_by(pix_table_of(own, made), pixels, it->count, it->width, diffusion, work, indices);
    else if (status == PIX_OK)
        status = pix_map_indexed(pix_table_of(own, made), pixels, it->count, indices);
    if (status != PIX_OK)
        fail("the library makes no indices");
    note(least, start, middle, now());
    for (size_t i = 0; i < made; i++) {
        memcpy(&entries[i], &own[i], 3);
        entries[i].a = 255;
    }
    free(pixels);
    free(sample);
    free(work);
}

/* The library, on a picture with an alpha. */
static void by_alphas(const picture *it, const way *how, size_t colors, pix_srgba8 *entries, uint8_t *indices, seconds *least) {
    pix_srgba8 *work = room((it->count + 4 * it->width) * sizeof *work);
    const pix_diffusion diffusion = {how->strength, how->serpentine};
    size_t made = 0;
    double start = now(), middle;
    uint32_t status = pix_quantize_rgba(it->pixels, it->count, how->rounds, work, entries, colors, &made);
    const pix_table_rgba table = {entries, made};
    middle = now();
    if (status == PIX_OK && how->diffused)
        status = pix_diffuse_indexed_rgba(table, it->pixels, it->count, it->width, diffusion, work, indices);
    else if (status == PIX_OK)
        status = pix_map_indexed_rgba(table, it->pixels, it->count, indices);
    if (status != PIX_OK)
        fail("the library makes no indices");
    note(least, start, middle, now());
    free(work);
}

static void by_liq(const picture *it, const way *how, size_t colors, pix_srgba8 *entries, uint8_t *indices, seconds *least) {
    double start = now(), middle;
    liq_attr *attributes = liq_attr_create();
    liq_image *image;
    liq_result *result;
    const liq_palette *palette;
    liq_set_max_colors(attributes, (int)colors);
    liq_set_speed(attributes, how->speed);
    image = liq_image_create_rgba(attributes, it->pixels, (int)it->width, (int)it->height, 0);
    if (liq_image_quantize(image, attributes, &result) != LIQ_OK)
        fail("libimagequant makes no table");
    middle = now();
    liq_set_dithering_level(result, how->dithering);
    if (liq_write_remapped_image(result, image, indices, it->count) != LIQ_OK)
        fail("libimagequant makes no indices");
    note(least, start, middle, now());
    palette = liq_get_palette(result);
    for (unsigned i = 0; i < palette->count; i++)
        memcpy(&entries[i], &palette->entries[i], sizeof *entries);
    liq_result_destroy(result);
    liq_image_destroy(image);
    liq_attr_destroy(attributes);
}

static int make(const char *name, const char *colors, const char *from, const char *to) {
    const picture it = read_picture(from);
    uint8_t *indices = room(it.count);
    pix_srgba8 entries[256];
    seconds least = {1e9, 1e9};
    const way *how = NULL;
    for (size_t i = 0; i < sizeof WAYS / sizeof *WAYS; i++)
        if (!strcmp(WAYS[i].name, name))
            how = &WAYS[i];
    if (!how)
        fail(name);
    for (int run = 0; run < RUNS; run++)
        (how->speed ? by_liq : it.is_opaque ? by_colors : by_alphas)(&it, how, strtoul(colors, NULL, 10), entries, indices, &least);
    write_picture(to, &it, entries, indices);
    printf("%.6f %.6f\n", least.table, least.map);
    return 0;
}

/* The level of a channel of a pixel that is seen over another level. */
static double over(const pix_srgba8 *pixel, int channel, double ground) {
    const uint8_t levels[] = {pixel->r, pixel->g, pixel->b};
    return ground + (levels[channel] - ground) * pixel->a / 255;
}

/* The difference of two pictures over a ground, -1 for a checkerboard of grays, in one channel. */
static void differ(const picture *it, const picture *other, double ground, int channel, double *apart) {
    for (size_t i = 0; i < it->count; i++) {
        size_t square = i % it->width / SQUARE + i / it->width / SQUARE;
        double level = ground >= 0 ? ground : square % 2 ? 153 : 102;
        apart[i] = over(&it->pixels[i], channel, level) - over(&other->pixels[i], channel, level);
    }
}

/* A Gaussian blur along the rows or along the columns; what lies outside is as at the edge. */
static void blur(const picture *it, const double *from, double *to, bool down) {
    long width = (long)it->width, height = (long)it->height;
    double shares[2 * REACH + 1], sum = 0;
    for (int k = -REACH; k <= REACH; k++)
        sum += shares[k + REACH] = exp(-k * k / (2 * SIGMA * SIGMA));
    for (long y = 0; y < height; y++)
        for (long x = 0; x < width; x++) {
            double mean = 0;
            for (int k = -REACH; k <= REACH; k++) {
                long at = (down ? y : x) + k, last = (down ? height : width) - 1;
                at = at < 0 ? 0 : at > last ? last : at;
                mean += shares[k + REACH] * from[down ? at * width + x : y * width + at];
            }
            to[y * width + x] = mean / sum;
        }
}

static double sum_of_squares(const double *numbers, size_t count) {
    double sum = 0;
    for (size_t i = 0; i < count; i++)
        sum += numbers[i] * numbers[i];
    return sum;
}

static int apart(const char *name, const char *other_name) {
    static const double grounds[] = {0, 255, -1};
    const picture it = read_picture(name), other = read_picture(other_name);
    double *difference = room(it.count * sizeof *difference), *half = room(it.count * sizeof *half), blurred[3] = {0, 0, 0};
    if (it.width != other.width || it.height != other.height)
        fail("pictures of other sizes");
    for (int ground = 0; ground < 3; ground++) {
        double plain = 0;
        for (int channel = 0; channel < 3; channel++) {
            differ(&it, &other, grounds[ground], channel, difference);
            plain += sum_of_squares(difference, it.count);
            blur(&it, difference, half, false);
            blur(&it, half, difference, true);
            blurred[ground] += sum_of_squares(difference, it.count);
        }
        printf("%.4f ", plain / (double)it.count);
    }
    for (int ground = 0; ground < 3; ground++)
        printf("%.4f ", blurred[ground] / (double)it.count);
    printf("\n");
    return 0;
}

int main(int argc, char **argv) {
    if (argc == 6 && !strcmp(argv[1], "make"))
        return make(argv[2], argv[3], argv[4], argv[5]);
    if (argc == 4 && !strcmp(argv[1], "apart"))
        return apart(argv[2], argv[3]);
    fail("make WAY COLORS PICTURE MADE, or apart PICTURE MADE");
    return 2;
}
