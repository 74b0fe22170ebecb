#include "pix.h"
#include <stdio.h>

enum { WIDTH = 240, HEIGHT = 160, DISC = 96 };

static pix_command light(pix_matte mask, int x, int y, pix_rgba8 color) {
    pix_region all = pix_region_of(0, 0, DISC, DISC);
    return pix_composite_matte(pix_region_of(x, y, DISC, DISC), mask, all, color, PIX_OP_PLUS);
}

int main(void) {
    static pix_rgba8 pixels[WIDTH * HEIGHT];
    static uint8_t disc[DISC * DISC], bytes[3 * WIDTH * HEIGHT];
    for (int i = 0; i < DISC * DISC; i++) { /* a mask: 255 within the disc, and less at its rim */
        int x = 2 * (i % DISC) - DISC + 1, y = 2 * (i / DISC) - DISC + 1;
        int inside = (DISC * DISC - x * x - y * y) / 2;
        disc[i] = (uint8_t)(inside < 0 ? 0 : inside < 255 ? inside : 255);
    }
    pix_matte mask = pix_matte_of(disc, DISC, DISC);
    pix_image image = pix_image_of(pixels, WIDTH, HEIGHT);
    pix_command list[4];
    list[0] = pix_copy_color(pix_region_of(0, 0, WIDTH, HEIGHT), pix_rgba8_of(3, 4, 16, 255));
    list[1] = light(mask, 72, 6, pix_rgba8_of(230, 30, 10, 255));
    list[2] = light(mask, 42, 58, pix_rgba8_of(10, 150, 40, 255));
    list[3] = light(mask, 102, 58, pix_rgba8_of(20, 60, 230, 255));
    pix_status status = pix_run(image, list, 4, NULL);
    if (status == PIX_OK) /* from light to the bytes of a screen */
        status = pix_convert_bitmap(pix_bitmap_view_of_bitmap(pix_bitmap_of_image(image)),
                                    pix_bitmap_of(bytes, WIDTH, HEIGHT, PIX_FORMAT_SRGB8));
    FILE *file = fopen("first.ppm", "wb");
    if (!file) return 1;
    fprintf(file, "P6\n%d %d\n255\n", WIDTH, HEIGHT);
    fwrite(bytes, sizeof bytes, 1, file);
    printf("first.ppm: %s\n", pix_status_text(status));
    return fclose(file) != 0 || status != PIX_OK;
}
