/* data.c - see data.h. */
#include "data.h"
#include <stdio.h>
#include <string.h>

enum { TEXT_WIDE = 256, TEXT_HIGH = 128 };

const char *const shape_names[SHAPES] = {"random", "sprites", "text 12", "text 20", "flat"};

static uint8_t text[2][TEXT_HIGH][TEXT_WIDE];

int read_text(const char *folder) {
    static const char *const names[] = {"text-12.pgm", "text-20.pgm"};
    for (int i = 0; i < 2; i++) {
        char path[4096];
        int wide = 0, high = 0;
        snprintf(path, sizeof path, "%s/%s", folder, names[i]);
        FILE *file = fopen(path, "rb");
        int is_read = file && fscanf(file, "P5 %d %d 255", &wide, &high) == 2 && fgetc(file) == '\n'
            && wide == TEXT_WIDE && high == TEXT_HIGH && fread(text[i], sizeof text[i], 1, file) == 1;
        if (file)
            fclose(file);
        if (!is_read)
            return 0;
    }
    return 1;
}

static uint64_t state;

/* A random number below `count` (xorshift of Marsaglia, 64 bits). */
static uint32_t below(uint32_t count) {
    state ^= state << 13;
    state ^= state >> 7;
    state ^= state << 17;
    return (uint32_t)((state >> 32) * count >> 32);
}

/* The next value of a mask or alpha of a shape. Sprites have runs of up to 32: of twenty, seven clear and seven opaque. */
static uint32_t next(shape_t shape, uint32_t max) {
    static uint32_t left, which;
    if (shape != SPRITES && shape != FLAT)
        return below(max + 1);
    if (!left) {
        left = 1 + below(32);
        which = below(shape == FLAT ? 14 : 20);
    }
    left--;
    return which < 7 ? 0 : which < 14 ? max : below(max + 1);
}

static void put(kind_t kind, void *values, size_t at, uint32_t value) {
    if (kind == RGBA16)
        ((uint16_t *)values)[at] = (uint16_t)value;
    else
        ((uint8_t *)values)[at] = (uint8_t)value;
}

void fill_pixels(kind_t kind, shape_t shape, int number, uint32_t across, void *pixels) {
    const uint32_t max = kind == RGBA16 ? 65535 : 255, count = kind == GRAYA8 ? 2 : 4;
    state = 88172645463325252u * (uint64_t)(2 * number + 1);
    for (size_t i = 0; i < (size_t)across * across; i++) {
        uint32_t alpha = next(shape, max);
        for (uint32_t k = 0; k + 1 < count; k++)
            put(kind, pixels, count * i + k, below(alpha + 1));
        put(kind, pixels, count * i + count - 1, alpha);
    }
}

void fill_mask(kind_t kind, shape_t shape, uint32_t across, void *values) {
    state = 4101842887655102017u;
    for (uint32_t y = 0; y < across; y++)
        for (uint32_t x = 0; x < across; x++) {
            size_t at = (size_t)y * across + x;
            if (shape == TEXT12 || shape == TEXT20) {
                uint32_t value = text[shape - TEXT12][y % TEXT_HIGH][x % TEXT_WIDE];
                put(kind, values, at, kind == RGBA16 ? 257 * value : value);
            } else {
                put(kind, values, at, next(shape, kind == RGBA16 ? 65535 : 255));
            }
        }
}

void fill_few(int run, size_t count, uint8_t *pixels) {
    uint8_t colors[3 * 256];
    const uint8_t *one = colors;
    state = 88172645463325252u;
    for (size_t i = 0; i < sizeof colors; i++)
        colors[i] = (uint8_t)below(256);
    for (size_t i = 0; i < count; i++) {
        if (i % (size_t)run == 0)
            one = colors + 3 * below(256);
        memcpy(pixels + 3 * i, one, 3);
    }
}

const void *color_of(kind_t kind) {
    static const uint8_t bytes[] = {96, 32, 64, 128}, grays[] = {96, 128};
    static const uint16_t wide[] = {96 * 257, 32 * 257, 64 * 257, 128 * 257};
    return kind == RGBA8 ? (const void *)bytes : kind == RGBA16 ? (const void *)wide : (const void *)grays;
}
