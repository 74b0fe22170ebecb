/* Paints a sunset with the letters P, I and X, and writes it as a PPM file: demo FILE
 *
 * demo.cpp, the Rust example `demo` and demo.py paint the same picture, byte by byte. */
#include "pix.h"
#include <stdio.h>
#include <stdlib.h>

enum { WIDTH = 192, HEIGHT = 128, SUN = 48, LETTER = 32, LETTERS = 3, SWATCH = 12, SWATCHES = PIX_OP_COUNT, STEP = 14 };

static void insist(pix_status status, const char *what) {
    if (status != PIX_OK) {
        fprintf(stderr, "demo: %s: %s\n", what, pix_status_text(status));
        exit(1);
    }
}

/* The linear color of these channels of 8 bits, in 16. */
static pix_rgba16 color_of(unsigned r, unsigned g, unsigned b, unsigned a) {
    return pix_rgba16_of((uint16_t)(257 * r), (uint16_t)(257 * g), (uint16_t)(257 * b), (uint16_t)(257 * a));
}

/* Decodes a sprite into light from sRGB with a straight alpha, as image files hold it: a disk that fades to its rim. */
static void make_sun(pix_image_rgba16 sun) {
    static uint8_t bytes[4 * SUN * SUN];
    const int rim = (SUN - 1) * (SUN - 1);
    for (int i = 0; i < SUN * SUN; i++) {
        int dx = 2 * (i % SUN) - (SUN - 1), dy = 2 * (i / SUN) - (SUN - 1), from_center = dx * dx + dy * dy;
        if (from_center < rim) {
            int alpha = (rim - from_center) / 4;
            bytes[4 * i] = 255;
            bytes[4 * i + 1] = (uint8_t)(220 - 120 * from_center / rim);
            bytes[4 * i + 2] = 40;
            bytes[4 * i + 3] = (uint8_t)(alpha < 255 ? alpha : 255);
        }
    }
    insist(pix_convert_bitmap(pix_bitmap_view_of(bytes, SUN, SUN, PIX_FORMAT_SRGBA8),
                              pix_bitmap_of_image_rgba16(sun)),
           "sun");
}

/* Makes a mask of the three letters side by side, paler to the bottom. */
static void make_letters(uint16_t *values) {
    static const uint8_t rows[LETTERS][8] = {{0xFC, 0x66, 0x66, 0x7C, 0x60, 0x60, 0xF0, 0x00},
                                             {0x3C, 0x18, 0x18, 0x18, 0x18, 0x18, 0x3C, 0x00},
                                             {0xC6, 0xC6, 0x6C, 0x38, 0x6C, 0xC6, 0xC6, 0x00}};
    for (int y = 0; y < LETTER; y++)
        for (int x = 0; x < LETTERS * LETTER; x++) {
            int row = rows[x / LETTER][8 * y / LETTER], bit = 7 - 8 * (x % LETTER) / LETTER;
            values[y * LETTERS * LETTER + x] = (uint16_t)(row >> bit & 1 ? 257 * (255 - 4 * y) : 0);
        }
}

/* Paints two squares for each operator: an orange one, and a blue one that is composited with its corner. */
static void paint_swatches(pix_image_rgba16 image) {
    pix_command_rgba16 list[2 * SWATCHES];
    for (int op = 0; op < SWATCHES; op++) {
        pix_region under = pix_region_of(STEP * op, 0, 8, 8), over = pix_region_of(STEP * op + 4, 4, 8, 8);
        list[2 * op] = pix_copy_color_rgba16(under, color_of(160, 60, 0, 200));
        list[2 * op + 1] = pix_composite_color_rgba16(over, color_of(0, 40, 140, 160), (pix_op)op);
    }
    insist(pix_run_rgba16(image, list, 2 * SWATCHES, NULL), "swatches");
}

/* Paints the picture by one list. */
static void paint(pix_image_rgba16 image, pix_view_rgba16 sun, pix_matte16 letters, pix_view_rgba16 swatches) {
    const pix_region whole_sun = pix_region_of(0, 0, SUN, SUN);
    pix_command_rgba16 list[32];
    size_t count = 0, done = 0;
    list[count++] = pix_copy_color_rgba16(pix_region_of(0, 0, WIDTH, HEIGHT), color_of(8, 12, 48, 255));
    for (int band = 0; band < 10; band++)
        list[count++] = pix_composite_color_rgba16(pix_region_of(-10, 40 + 7 * band, 400, 400), color_of(20, 4, 0, 24),
                                            PIX_OP_SRC_OVER);
    list[count++] = pix_composite_image_rgba16(pix_region_of(160, -14, SUN, SUN), sun, whole_sun, PIX_OP_SRC_OVER);
    list[count++] = pix_composite_image_rgba16(pix_region_of(-20, 76, SUN, SUN), sun, whole_sun, PIX_OP_PLUS);
    for (int i = 0; i < LETTERS; i++) {
        pix_region letter = pix_region_of(LETTER * i, 0, LETTER, LETTER);
        list[count++] = pix_composite_matte_rgba16(pix_region_of(41 + 42 * i, 44, LETTER, LETTER), letters, letter,
                                            color_of(0, 0, 0, 160), PIX_OP_SRC_OVER);
        list[count++] = pix_composite_matte_rgba16(pix_region_of(38 + 42 * i, 41, LETTER, LETTER), letters, letter,
                                            color_of(255, 240, 200, 255), PIX_OP_SRC_OVER);
    }
    list[count++] = pix_composite_image_rgba16(pix_region_of(6, 110, STEP * SWATCHES, SWATCH), swatches,
                                        pix_region_of(0, 0, STEP * SWATCHES, SWATCH), PIX_OP_SRC_OVER);
    insist(pix_run_rgba16(image, list, count, &done), "picture");
    if (done != count)
        insist(PIX_BAD_KIND, "picture");
}

/* Writes the picture, encoded by the sRGB curve; it is opaque everywhere. */
static void save(pix_image_rgba16 image, const char *name) {
    static uint8_t bytes[3 * WIDTH * HEIGHT];
    insist(pix_convert_bitmap(pix_bitmap_view_of_bitmap(pix_bitmap_of_image_rgba16(image)),
                              pix_bitmap_of(bytes, WIDTH, HEIGHT, PIX_FORMAT_SRGB8)),
           "encoding");
    FILE *file = fopen(name, "wb");
    int failed = !file || fprintf(file, "P6\n%d %d\n255\n", WIDTH, HEIGHT) < 0 || fwrite(bytes, sizeof bytes, 1, file) != 1;
    if (!file || fclose(file) || failed) {
        perror(name);
        exit(1);
    }
}

int main(int argc, char **argv) {
    static pix_rgba16 pixels[WIDTH * HEIGHT], sun[SUN * SUN], swatches[STEP * SWATCHES * SWATCH];
    static uint16_t letters[LETTERS * LETTER * LETTER];
    const pix_image_rgba16 image = pix_image_of_rgba16(pixels, WIDTH, HEIGHT),
                           sun_image = pix_image_of_rgba16(sun, SUN, SUN),
                           swatch_image = pix_image_of_rgba16(swatches, STEP * SWATCHES, SWATCH);
    make_sun(sun_image);
    make_letters(letters);
    paint_swatches(swatch_image);
    paint(image, pix_view_of_image_rgba16(sun_image), pix_matte16_of(letters, LETTERS * LETTER, LETTER),
          pix_view_of_image_rgba16(swatch_image));
    save(image, argc > 1 ? argv[1] : "demo.ppm");
    return 0;
}
