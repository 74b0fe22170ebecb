/* A picture of 24 megapixels in sRGB, decoded into light of 16 bits, painted on by ten sprites and encoded again, on one thread.
 *
 *     cc -O2 -Ibindings/c bench/light.c crates/pix_c/out/libpix_c.a -lm
 *     ./a.out [ROUNDS]
 *
 * The least of ROUNDS rounds counts (7): the time of the processor. Of a photograph, which is opaque, and of a picture with any
 * alphas. Beside both ways stands a plain loop in C over the same tables, whose outcomes are compared: the status is 1 where one
 * differs, or where a pixel that no sprite reaches did not come back. */
#define _POSIX_C_SOURCE 200112L
#include "pix.h"
#include <math.h>
#include <stdio.h>
#include <stdlib.h>
#include <time.h>

enum { WIDE = 6000, HIGH = 4000, POINTS = WIDE * HIGH, SPRITES = 10, SIDE = 256 };
enum { DECODED, PLAIN_DECODED, PAINTED, ENCODED, PLAIN_ENCODED, WAYS };

static uint8_t photo[4 * (size_t)POINTS], back[4 * (size_t)POINTS], plain_back[4 * (size_t)POINTS];
static pix_rgba16 light[POINTS], plain_light[POINTS], sprite[SIDE * SIDE];
static uint16_t decoded[256];
static uint8_t encoded[65536];

static uint32_t below(uint32_t count) {
    static uint64_t state = UINT64_C(88172645463325252);
    state ^= state << 13;
    state ^= state >> 7;
    state ^= state << 17;
    return (uint32_t)((state >> 32) * count >> 32);
}

static double seconds(void) {
    struct timespec now;
    clock_gettime(CLOCK_THREAD_CPUTIME_ID, &now);
    return (double)now.tv_sec + 1e-9 * (double)now.tv_nsec;
}

/* The nearest channel to the curve of the standard, and the nearest level. */
static void fill_tables(void) {
    for (int i = 0; i < 256; i++) {
        const double v = i / 255.0;
        decoded[i] = (uint16_t)(65535 * (v <= 0.04045 ? v / 12.92 : pow((v + 0.055) / 1.055, 2.4)) + 0.5);
    }
    for (int i = 0; i < 65536; i++) {
        const double v = i / 65535.0;
        encoded[i] = (uint8_t)(255 * (v <= 0.0031308 ? 12.92 * v : 1.055 * pow(v, 1 / 2.4) - 0.055) + 0.5);
    }
}

/* Gradients and noise, opaque or of any alpha that keeps all levels; and a sprite with a soft edge. */
static void shoot(int is_opaque) {
    for (size_t i = 0; i < POINTS; i++) {
        const size_t x = i % WIDE, y = i / WIDE;
        photo[4 * i] = (uint8_t)(x * 240 / WIDE + below(16));
        photo[4 * i + 1] = (uint8_t)(y * 240 / HIGH + below(16));
        photo[4 * i + 2] = (uint8_t)((x + y) / 40 % 240 + below(16));
        photo[4 * i + 3] = (uint8_t)(is_opaque ? 255 : 13 + below(243));
    }
    for (int i = 0; i < SIDE * SIDE; i++) {
        const int x = i % SIDE - SIDE / 2, y = i / SIDE - SIDE / 2, far = x * x + y * y;
        const uint16_t alpha = (uint16_t)(far >= 16384 ? 0 : far < 12288 ? 65535 : (16384 - far) * 15);
        sprite[i] = pix_rgba16_of(alpha, (uint16_t)(alpha / 2), 0, alpha);
    }
}

static void decode_plainly(void) {
    for (size_t i = 0; i < POINTS; i++) {
        const uint32_t alpha = photo[4 * i + 3] * 257u;
        uint16_t *to = &plain_light[i].r;
        for (int c = 0; c < 3; c++) {
            const uint32_t sum = decoded[photo[4 * i + c]] * alpha + 32768;
            to[c] = (uint16_t)((sum + (sum >> 16)) >> 16);
        }
        to[3] = (uint16_t)alpha;
    }
}

static void encode_plainly(void) {
    for (size_t i = 0; i < POINTS; i++) {
        const uint16_t *from = &light[i].r;
        const uint32_t alpha = from[3];
        for (int c = 0; c < 3; c++) {
            const uint32_t ratio = alpha == 65535 ? from[c] : alpha ? ((uint32_t)from[c] << 16) / alpha : 0;
            plain_back[4 * i + c] = encoded[ratio < 65535 ? ratio : 65535];
        }
        plain_back[4 * i + 3] = (uint8_t)(alpha >> 8);
    }
}

static int paint(void) {
    pix_command_rgba16 list[SPRITES];
    const pix_view_rgba16 source = pix_view_of_rgba16(sprite, SIDE, SIDE);
    const pix_region whole = pix_region_of(0, 0, SIDE, SIDE);
    for (int i = 0; i < SPRITES; i++)
        list[i] = pix_composite_image_rgba16(pix_region_of(550 * i + 100, 380 * i + 20, SIDE, SIDE), source, whole, PIX_OP_SRC_OVER);
    return pix_run_rgba16(pix_image_of_rgba16(light, WIDE, HIGH), list, SPRITES, NULL) == PIX_OK;
}

static int is_painted(size_t x, size_t y) {
    for (size_t i = 0; i < SPRITES; i++)
        if (x - (550 * i + 100) < SIDE && y - (380 * i + 20) < SIDE)
            return 1;
    return 0;
}

static int comes_back(void) {
    for (size_t i = 0; i < POINTS; i++)
        if (memcmp(photo + 4 * i, back + 4 * i, 4) && !is_painted(i % WIDE, i / WIDE))
            return 0;
    return 1;
}

static int times(const char *name, int is_opaque, int rounds) {
    const pix_bitmap_view picture = pix_bitmap_view_of(photo, WIDE, HIGH, PIX_FORMAT_SRGBA8);
    const pix_bitmap shown = pix_bitmap_of(back, WIDE, HIGH, PIX_FORMAT_SRGBA8);
    const pix_bitmap image = pix_bitmap_of_image_rgba16(pix_image_of_rgba16(light, WIDE, HIGH));
    double least[WAYS], all = 1e9;
    for (int way = 0; way < WAYS; way++)
        least[way] = 1e9;
    shoot(is_opaque);
    for (int round = 0; round < rounds; round++) {
        double at[WAYS + 1], took[WAYS];
        at[DECODED] = seconds();
        int is_well = pix_convert_bitmap(picture, image) == PIX_OK;
        at[PLAIN_DECODED] = seconds();
        decode_plainly();
        at[PAINTED] = seconds();
        is_well &= !memcmp(light, plain_light, sizeof light);
        const double start = seconds();
        is_well &= paint();
        at[ENCODED] = seconds();
        is_well &= pix_convert_bitmap(pix_bitmap_view_of_bitmap(image), shown) == PIX_OK;
        at[PLAIN_ENCODED] = seconds();
        encode_plainly();
        at[WAYS] = seconds();
        if (!is_well || memcmp(back, plain_back, sizeof back) || !comes_back()) {
            fprintf(stderr, "light: %s: an outcome differs\n", name);
            return 1;
        }
        for (int way = 0; way < WAYS; way++) {
            took[way] = at[way + 1] - (way == PAINTED ? start : at[way]);
            least[way] = took[way] < least[way] ? took[way] : least[way];
        }
        const double sum = took[DECODED] + took[PAINTED] + took[ENCODED];
        all = sum < all ? sum : all;
    }
    const double ns = 1e9 / POINTS;
    printf("| %s | %.2f (%.2f) | %.1f | %.2f (%.2f) | %.3f |\n", name, ns * least[DECODED], ns * least[PLAIN_DECODED],
           1e3 * least[PAINTED], ns * least[ENCODED], ns * least[PLAIN_ENCODED], all);
    fflush(stdout);
    return 0;
}

int main(int argc, char **argv) {
    const int rounds = argc > 1 ? atoi(argv[1]) : 7;
    fill_tables();
    puts("| picture | decoded, ns a pixel (plain C) | ten sprites, ms | encoded, ns a pixel (plain C) | all, s |\n|---|--:|--:|--:|--:|");
    return times("photograph", 1, rounds) | times("any alphas", 0, rounds);
}
