/* Paints the pictures of CALLING.md into the folder that it is run in: calling LAKE
 *
 * LAKE is pictures/lake.ppm. The Rust example `calling` and calling.py paint the same pictures, byte
 * by byte. */
#include "pix.h"
#include <stdio.h>
#include <stdlib.h>

/* Ends the program if a call was refused, and says why. */
static void check(pix_status status) {
    if (status != PIX_OK) {
        fprintf(stderr, "%s\n", pix_status_text(status));
        exit(1);
    }
}

/* Makes a pixel to paint with from a color of sRGB, written as 0xRRGGBB. */
static pix_rgba8 srgb(unsigned long color) {
    uint8_t bytes[4] = {(uint8_t)(color >> 16), (uint8_t)(color >> 8), (uint8_t)color, 255};
    return pix_color_of(PIX_FORMAT_SRGBA8, bytes);
}

/* Writes sRGB bytes, three a pixel, as a PPM file. */
static void write_ppm(const char *name, const void *bytes, unsigned width, unsigned height) {
    FILE *file = fopen(name, "wb");
    if (!file || fprintf(file, "P6\n%u %u\n255\n", width, height) < 0
        || fwrite(bytes, 3, width * height, file) != width * height || fclose(file)) {
        perror(name);
        exit(1);
    }
}

/* Encodes an image of 64 by 36 pixels for a screen, and writes it as a PPM file. */
static void save(pix_image image, const char *name) {
    static uint8_t bytes[3 * 64 * 36];
    check(pix_convert_bitmap(pix_bitmap_view_of_bitmap(pix_bitmap_of_image(image)),
                             pix_bitmap_of(bytes, image.width, image.height, PIX_FORMAT_SRGB8)));
    write_ppm(name, bytes, image.width, image.height);
}

/* Fills a picture with the color of the sky. */
static void paint_sky(pix_image picture) {
    pix_region all = pix_region_of(0, 0, picture.width, picture.height);
    check(pix_do(picture, pix_copy_color(all, srgb(0xA0D0F0))));
}

/* Draws a ball into a sprite of 16 by 16 pixels, which is clear around it. */
static void draw_ball(pix_rgba8 *pixels) {
    for (int i = 0; i < 16 * 16; i++) {
        int x = 2 * (i % 16) - 15, y = 2 * (i / 16) - 15;
        if (x * x + y * y < 256)
            pixels[i] = srgb(0xE07020);
    }
}

/* Composites a sprite over a picture, with its corner at (x, y). Any part of it may lie outside. */
static void paste(pix_image picture, pix_view sprite, int32_t x, int32_t y) {
    pix_region to = pix_region_of(x, y, sprite.width, sprite.height);
    pix_region all = pix_region_of(0, 0, sprite.width, sprite.height);
    check(pix_do(picture, pix_composite_image(to, sprite, all, PIX_OP_SRC_OVER)));
}

/* Draws a glyph in one color, with its corner at (x, y). Its mask has a byte for each pixel. */
static void draw_glyph(pix_image picture, pix_matte glyph, int32_t x, int32_t y, pix_rgba8 ink) {
    pix_region to = pix_region_of(x, y, glyph.width, glyph.height);
    pix_region all = pix_region_of(0, 0, glyph.width, glyph.height);
    check(pix_do(picture, pix_composite_matte(to, glyph, all, ink, PIX_OP_SRC_OVER)));
}

/* Composites a sprite at one opacity, from 0 (nothing) to 255 (all of it). */
static void fade(pix_image picture, pix_view sprite, int32_t x, int32_t y, uint8_t opacity) {
    pix_region to = pix_region_of(x, y, sprite.width, sprite.height);
    pix_region all = pix_region_of(0, 0, sprite.width, sprite.height);
    check(pix_do(picture, pix_composite_image_alpha(to, sprite, all, opacity, PIX_OP_SRC_OVER)));
}

/* Lays a band over the middle of a photograph: sRGB bytes, three a pixel. `light` is room for it. */
static void glaze(uint8_t *photo, pix_rgba16 *light, uint32_t width, uint32_t height) {
    pix_bitmap bytes = pix_bitmap_of(photo, width, height, PIX_FORMAT_SRGB8);
    pix_image_rgba16 image = pix_image_of_rgba16(light, width, height);
    pix_bitmap in_light = pix_bitmap_of_image_rgba16(image);
    pix_region band = pix_region_of(0, (int32_t)height / 3, width, height / 3);
    uint8_t half_white[4] = {255, 255, 255, 128};
    pix_rgba16 color = pix_color_of_rgba16(PIX_FORMAT_SRGBA8, half_white);
    check(pix_convert_bitmap(pix_bitmap_view_of_bitmap(bytes), in_light));
    check(pix_do_rgba16(image, pix_composite_color_rgba16(band, color, PIX_OP_SRC_OVER)));
    check(pix_convert_bitmap(pix_bitmap_view_of_bitmap(in_light), bytes));
}

/* Makes a thumbnail of a photograph, both of bytes of sRGB: decodes them to light, scales by areas,
 * and encodes. `light` and `means` are room for both pictures in light. */
static void make_thumbnail(pix_bitmap photo, pix_bitmap thumbnail, pix_rgba16 *light,
                           pix_rgba16 *means) {
    pix_image_rgba16 large = pix_image_of_rgba16(light, photo.width, photo.height);
    pix_image_rgba16 small = pix_image_of_rgba16(means, thumbnail.width, thumbnail.height);
    pix_view_rgba16 source = pix_view_of_image_rgba16(large);
    pix_size from = {large.width, large.height}, size = {small.width, small.height};
    pix_point corner = {0, 0};
    size_t words = pix_scale_work_rgba16(size, size, from, PIX_FILTER_AREA);
    uint32_t *work = malloc(words * sizeof *work);
    if (!work)
        exit(1);
    check(pix_convert_bitmap(pix_bitmap_view_of_bitmap(photo), pix_bitmap_of_image_rgba16(large)));
    check(pix_scale_rgba16(small, corner, size, source, PIX_FILTER_AREA, work, words));
    check(pix_convert_bitmap(pix_bitmap_view_of_bitmap(pix_bitmap_of_image_rgba16(small)), thumbnail));
    free(work);
}

/* Makes a table of at most 16 colors of a picture, and the index of each pixel in it. Returns how
 * many colors the table has. */
static size_t index_picture(const pix_srgb8 *pixels, size_t count, size_t width, pix_srgb8 *table,
                            uint8_t *indices) {
    size_t made, room = pix_quantize_work(count) + pix_diffuse_indexed_work(width);
    pix_srgb8 *work = malloc(room * sizeof *work);
    if (!work)
        exit(1);
    check(pix_quantize(pixels, count, work, table, 16, &made));
    check(pix_diffuse_indexed(pix_table_of(table, made), pixels, count, width, work, indices));
    free(work);
    return made;
}

/* Draws a list of commands on a picture of 64 by 36 pixels, a tile of 32 by 18 at a time. */
static void draw_by_tiles(pix_image picture, const pix_command *commands, size_t count) {
    static pix_rgba8 pixels[32 * 18];
    pix_image tile = pix_image_of(pixels, 32, 18);
    for (uint32_t top = 0; top < 36; top += 18)
        for (uint32_t left = 0; left < 64; left += 32) {
            pix_region place = pix_region_of((int32_t)left, (int32_t)top, 32, 18);
            pix_region all = pix_region_of(0, 0, 32, 18);
            check(pix_run_window(tile, left, top, commands, count, NULL));
            check(pix_do(picture, pix_copy_image(place, pix_view_of_image(tile), all)));
        }
}

/* The letter P as a mask: each digit is a ninth of full coverage. */
static const char *const letter = "99999720"
                                  "99003892"
                                  "99000299"
                                  "99000299"
                                  "99003892"
                                  "99999720"
                                  "99000000"
                                  "99000000"
                                  "99000000";

/* Reads the photograph, pictures/lake.ppm, of 160 by 100 pixels. */
static void read_lake(const char *name, pix_srgb8 *photo) {
    FILE *file = fopen(name, "rb");
    if (!file || fseek(file, sizeof "P6\n160 100\n255\n" - 1, SEEK_SET)
        || fread(photo, sizeof *photo, 160 * 100, file) != 160 * 100 || fclose(file)) {
        perror(name);
        exit(1);
    }
}

int main(int count, char **words) {
    static pix_rgba8 pixels[64 * 36], ball[16 * 16];
    pix_image picture = pix_image_of(pixels, 64, 36);
    pix_view sprite = pix_view_of(ball, 16, 16);
    draw_ball(ball);

    paint_sky(picture);
    paste(picture, sprite, 24, 10);
    paste(picture, sprite, -6, 4);
    paste(picture, sprite, 56, 26);
    save(picture, "paste.ppm");

    static uint8_t mask[8 * 9];
    pix_matte glyph = pix_matte_of(mask, 8, 9);
    for (int i = 0; i < 8 * 9; i++)
        mask[i] = (uint8_t)(255 * (letter[i] - '0') / 9);
    paint_sky(picture);
    draw_glyph(picture, glyph, 10, 13, srgb(0x202040));
    draw_glyph(picture, glyph, 28, 13, srgb(0xC02020));
    draw_glyph(picture, glyph, 46, 13, srgb(0xFFFFFF));
    save(picture, "glyph.ppm");

    paint_sky(picture);
    for (int i = 0; i < 4; i++)
        fade(picture, sprite, 16 * i, 10, (uint8_t)(255 - 64 * i));
    save(picture, "fade.ppm");

    static pix_srgb8 photo[160 * 100];
    static pix_rgba16 light[160 * 100];
    if (count != 2)
        return 2;
    read_lake(words[1], photo);
    glaze(&photo[0].r, light, 160, 100);
    write_ppm("light.ppm", photo, 160, 100);

    static pix_srgb8 thumbnail[64 * 40];
    static pix_rgba16 means[64 * 40];
    read_lake(words[1], photo);
    make_thumbnail(pix_bitmap_of(photo, 160, 100, PIX_FORMAT_SRGB8),
                   pix_bitmap_of(thumbnail, 64, 40, PIX_FORMAT_SRGB8), light, means);
    write_ppm("thumbnail.ppm", thumbnail, 64, 40);

    static pix_srgb8 shown[160 * 100];
    static uint8_t indices[160 * 100];
    pix_srgb8 table[16];
    read_lake(words[1], photo);
    size_t colors = index_picture(photo, 160 * 100, 160, table, indices);
    check(pix_look_up(pix_table_of(table, colors), indices, 160 * 100, shown));
    write_ppm("indexed.ppm", shown, 160, 100);

    pix_region all = pix_region_of(0, 0, 16, 16);
    pix_command list[4];
    list[0] = pix_copy_color(pix_region_of(0, 0, 64, 36), srgb(0xA0D0F0));
    list[1] = pix_composite_image(pix_region_of(24, 10, 16, 16), sprite, all, PIX_OP_SRC_OVER);
    list[2] = pix_composite_image(pix_region_of(-6, 4, 16, 16), sprite, all, PIX_OP_SRC_OVER);
    list[3] = pix_composite_image(pix_region_of(56, 26, 16, 16), sprite, all, PIX_OP_SRC_OVER);
    draw_by_tiles(picture, list, 4);
    save(picture, "tiles.ppm");
    return 0;
}
