/* Bitmaps from each format to each, and of random formats, sizes and strides, from top to bottom and from bottom to top, beside the
 * plain model: each byte that is written, each that stays, and each status; in place too. And pictures in sRGB that come back from
 * light as they were.
 *
 *     bitmaps [COUNT [SEED]] */
#include "pix.h"
#include "plain_bitmap.h"
#include <stdio.h>
#include <stdlib.h>

enum { ROOM = 8192, SIDE = 9, PIXELS = 64, WIDTH = 640, HEIGHT = 480 };

static uint64_t seed = 1;

static uint32_t below(uint32_t count) {
    seed = seed * 6364136223846793005u + 1442695040888963407u;
    return (uint32_t)((seed >> 33) % count);
}

static void insist(int holds, const char *what) {
    if (!holds) {
        fprintf(stderr, "bitmaps: %s\n", what);
        exit(1);
    }
}

static pix_format any_format(void) {
    return (pix_format)below(PLAIN_STORED);
}

static void fill(uint8_t *bytes, size_t count) {
    for (size_t i = 0; i < count; i++)
        bytes[i] = (uint8_t)(below(4) ? below(256) : below(2) ? 255 : 0);
}

/* A stride of rows of so many bytes, often the width and often from bottom to top. */
static ptrdiff_t any_stride(size_t wide) {
    ptrdiff_t stride = (ptrdiff_t)wide + (ptrdiff_t)(below(2) ? below(7) : 0);
    return below(2) ? stride : -stride;
}

/* The top row of an image in a buffer, at an offset. */
static uint8_t *top(uint8_t *room, ptrdiff_t stride, uint32_t height) {
    return stride < 0 && height ? room + (height - 1) * (size_t)-stride : room;
}

static void plain_rows_of(pix_format from, pix_format to, const uint8_t *src, ptrdiff_t src_stride, uint8_t *dst,
                          ptrdiff_t dst_stride, uint32_t width, uint32_t height) {
    plain_stored source = plain_stored_of(from), target = plain_stored_of(to);
    for (uint32_t y = 0; y < height; y++)
        for (uint32_t x = 0; x < width; x++) {
            uint8_t made[8];
            plain_cross(&source, &target, src + (ptrdiff_t)y * src_stride + x * plain_stored_size(&source), made);
            memcpy(dst + (ptrdiff_t)y * dst_stride + x * plain_stored_size(&target), made, plain_stored_size(&target));
        }
}

/* A row of pixels, from each format to each. */
static void compare_each_pair(void) {
    static uint8_t src[8 * PIXELS], dst[8 * PIXELS], wanted[8 * PIXELS];
    for (uint32_t from = 0; from < PLAIN_STORED; from++)
        for (uint32_t to = 0; to < PLAIN_STORED; to++) {
            pix_format format = (pix_format)from, target = (pix_format)to;
            pix_bitmap image = pix_bitmap_of(dst, PIXELS, 1, target);
            fill(src, sizeof src);
            fill(dst, sizeof dst);
            memcpy(wanted, dst, sizeof dst);
            plain_rows_of(format, target, src, 0, wanted, 0, PIXELS, 1);
            insist(pix_convert_bitmap(pix_bitmap_view_of(src, PIXELS, 1, format), image) == PIX_OK, "a row is refused");
            if (memcmp(dst, wanted, sizeof dst)) {
                fprintf(stderr, "formats %u and %u: ", from, to);
                insist(0, "another row than the model's");
            }
        }
}

static void compare_with_the_model(void) {
    static uint8_t src[ROOM], dst[ROOM], wanted[ROOM];
    uint32_t width = below(8) ? below(SIDE) : 60 + below(10), height = below(SIDE), shift = below(4);
    pix_format from = any_format(), to = any_format();
    ptrdiff_t src_stride = any_stride(width * pix_format_size(from)), dst_stride = any_stride(width * pix_format_size(to));
    fill(src, ROOM);
    fill(dst, ROOM);
    memcpy(wanted, dst, ROOM);
    uint8_t *src_top = top(src + shift, src_stride, height);
    pix_bitmap_view source = {src_top, width, height, src_stride, from};
    pix_bitmap target = {top(dst + shift, dst_stride, height), width, height, dst_stride, to};
    plain_rows_of(from, to, src_top, src_stride, top(wanted + shift, dst_stride, height), dst_stride, width, height);
    insist(pix_convert_bitmap(source, target) == PIX_OK, "a bitmap is refused");
    if (memcmp(dst, wanted, ROOM)) {
        fprintf(stderr, "formats %u and %u, %u x %u, strides %td and %td: ", from, to, width, height, src_stride, dst_stride);
        insist(0, "another bitmap than the model's");
    }
    /* in place, where pixels are no larger; else nothing is written */
    memcpy(dst, src, ROOM);
    memcpy(wanted, src, ROOM);
    pix_bitmap image = {top(dst + shift, src_stride, height), width, height, src_stride, from};
    pix_status status = pix_convert_in_place(image, to);
    if (pix_format_size(to) > pix_format_size(from))
        insist(status == PIX_BAD_FORMAT, "larger pixels in place are not refused");
    else {
        insist(status == PIX_OK, "a bitmap in place is refused");
        plain_rows_of(from, to, src_top, src_stride, top(wanted + shift, src_stride, height), src_stride, width, height);
    }
    insist(!memcmp(dst, wanted, ROOM), "another bitmap in place than the model's");
}

static void refusals(void) {
    static uint8_t src[64 + 64], dst[64];
    pix_bitmap_view source = pix_bitmap_view_of(src, 4, 4, PIX_FORMAT_SRGBA8);
    pix_bitmap target = pix_bitmap_of(dst, 4, 4, PIX_FORMAT_RGBA8P), other;
    insist(pix_convert_bitmap(source, target) == PIX_OK, "a bitmap of four by four is refused");
    other = target, other.format = (pix_format)PIX_FORMAT_COUNT;
    insist(pix_convert_bitmap(source, other) == PIX_BAD_FORMAT, "no format past the last");
    insist(pix_convert_in_place(target, (pix_format)PIX_FORMAT_COUNT) == PIX_BAD_FORMAT, "no format past the last in place");
    insist(pix_convert_in_place(target, PIX_FORMAT_RGBA16) == PIX_BAD_FORMAT, "no larger pixel in place");
    other = target, other.stride = 15;
    insist(pix_convert_bitmap(source, other) == PIX_BAD_SIZE, "rows of 16 bytes are 15 apart");
    other = target, other.stride = -15;
    insist(pix_convert_bitmap(source, other) == PIX_BAD_SIZE, "rows of 16 bytes are 15 apart, upwards");
    insist(pix_convert_in_place(other, PIX_FORMAT_RGBA8) == PIX_BAD_SIZE, "rows of 16 bytes are 15 apart, in place");
    other = target, other.height = 3;
    insist(pix_convert_bitmap(source, other) == PIX_BAD_SOURCE, "the sizes differ");
    other = target, other.pixels = NULL;
    insist(pix_convert_bitmap(source, other) == PIX_NULL, "no pixels");
    insist(pix_convert_in_place(other, PIX_FORMAT_RGBA8) == PIX_NULL, "no pixels in place");
    other = target, other.pixels = src + 60;
    insist(pix_convert_bitmap(source, other) == PIX_OVERLAP, "the two share four bytes");
    other = target, other.pixels = src + 48 + 60, other.stride = -16;
    insist(pix_convert_bitmap(source, other) == PIX_OVERLAP, "the two share four bytes, upwards");
    /* the library tests the true lengths */
    insist(pix_raw_convert_bitmap(0, 3, src, 63, dst, 64, 16, 16, 4, 4) == PIX_BAD_SOURCE, "a byte is missing in the source");
    insist(pix_raw_convert_bitmap(0, 3, src, 64, dst, 63, 16, 16, 4, 4) == PIX_BAD_SIZE, "a byte is missing");
    insist(pix_raw_convert_bitmap(0, 3, src, 64, dst, 64, 16, INT64_MIN, 4, 1) == PIX_OK, "one row, however far apart");
    insist(pix_raw_convert_bitmap(0, 3, src, 64, dst, 64, 16, INT64_MIN, 4, 4) == PIX_BAD_SIZE, "rows too far apart");
    insist(pix_raw_convert_bitmap(0, 3, src, 64, dst, 64, 0, 0, 0, 2147483648u) == PIX_BAD_SIZE, "too many rows");
    other = target, other.width = 2147483648u, other.stride = PTRDIFF_MIN;
    insist(pix_convert_in_place(other, PIX_FORMAT_RGBA8) == PIX_BAD_SIZE, "too wide in place");
    other = target, other.height = 2147483648u;
    insist(pix_convert_in_place(other, PIX_FORMAT_RGBA8) == PIX_BAD_SIZE, "too high in place");
    other = target, other.stride = PTRDIFF_MIN;
    insist(pix_convert_in_place(other, PIX_FORMAT_RGBA8) == PIX_BAD_SIZE, "rows too far apart in place");
}

/* A photograph of no camera: gradients, edges and noise, at all alphas from 13 on, and clear. */
static void shoot(uint8_t *photo, int channels) {
    for (int y = 0; y < HEIGHT; y++)
        for (int x = 0; x < WIDTH; x++) {
            uint8_t *pixel = photo + (y * WIDTH + x) * channels;
            int noise = (int)below(17) - 8, alpha = (x + y) % 256;
            for (int c = 0; c < 3 && c < channels; c++) {
                int level = (c == 0 ? x * 256 / WIDTH : c == 1 ? y * 256 / HEIGHT : (x ^ y) & 255) + noise;
                pixel[c] = (uint8_t)(level < 0 ? 0 : level > 255 ? 255 : level);
            }
            if (channels == 2 || channels == 4) {
                pixel[channels - 1] = (uint8_t)(alpha < 13 ? 0 : alpha);
                if (alpha < 13)
                    memset(pixel, 0, (size_t)channels);
            }
        }
}

static void comes_back(pix_format format, int channels) {
    size_t size = WIDTH * HEIGHT * (size_t)channels;
    uint8_t *photo = (uint8_t *)malloc(size), *back = (uint8_t *)malloc(size);
    pix_rgba16 *light = (pix_rgba16 *)malloc(WIDTH * HEIGHT * sizeof *light);
    insist(photo && back && light, "no memory");
    shoot(photo, channels);
    pix_image_rgba16 image = pix_image_of_rgba16(light, WIDTH, HEIGHT);
    pix_bitmap out = pix_bitmap_of(back, WIDTH, HEIGHT, format);
    insist(pix_convert_bitmap(pix_bitmap_view_of(photo, WIDTH, HEIGHT, format), pix_bitmap_of_image_rgba16(image)) == PIX_OK,
           "a photograph is refused");
    pix_region painted = pix_region_of(100, 50, 64, 64);
    insist(pix_do_rgba16(image, pix_composite_color_rgba16(painted, pix_rgba16_of(9000, 0, 0, 30000), PIX_OP_SRC_OVER)) == PIX_OK,
           "a color is refused");
    insist(pix_convert_bitmap(pix_bitmap_view_of_bitmap(pix_bitmap_of_image_rgba16(image)), out) == PIX_OK, "light is refused");
    size_t changed = 0;
    for (int y = 0; y < HEIGHT; y++)
        for (int x = 0; x < WIDTH; x++)
            if (memcmp(photo + (y * WIDTH + x) * channels, back + (y * WIDTH + x) * channels, (size_t)channels)) {
                insist(x >= 100 && x < 164 && y >= 50 && y < 114, "a pixel changed where nothing was painted");
                changed++;
            }
    insist(changed > 4000, "nothing was painted");
    free(photo);
    free(back);
    free(light);
}

/* Pixels of each alpha: from 13 on they come back, and below that only their alpha does; clear ones come back as 0. */
static void alphas(void) {
    static uint8_t bytes[256 * 256 * 4], back[256 * 256 * 4];
    static pix_rgba16 light[256 * 256];
    pix_bitmap wide = pix_bitmap_of_image_rgba16(pix_image_of_rgba16(light, 256, 256));
    for (size_t i = 0; i < sizeof bytes; i++)
        bytes[i] = (uint8_t)(i % 4 == 3 ? i / 1024 : i % 4 * 70 + i / 4 % 256);
    insist(pix_convert_bitmap(pix_bitmap_view_of(bytes, 256, 256, PIX_FORMAT_SRGBA8), wide) == PIX_OK
               && pix_convert_bitmap(pix_bitmap_view_of_bitmap(wide), pix_bitmap_of(back, 256, 256, PIX_FORMAT_SRGBA8)) == PIX_OK,
           "pixels of each alpha are refused");
    for (int alpha = 0; alpha < 256; alpha++) {
        const uint8_t *row = bytes + alpha * 1024, *same = back + alpha * 1024;
        for (int x = 0; x < 1024; x++)
            insist(x % 4 < 3 ? alpha < 13 || same[x] == row[x] : same[x] == alpha, "a pixel or an alpha does not come back");
        for (int x = 0; x < 1024 && alpha == 0; x++)
            insist(same[x] == 0, "a clear pixel has a color");
        insist(alpha > 12 || memcmp(row, same, 1024), "all colors of a small alpha come back");
    }
}

static void parts(void) {
    static uint8_t bytes[12 * 10 * 3];
    pix_bitmap image = pix_bitmap_of(bytes, 12, 10, PIX_FORMAT_SRGB8), part = pix_part_of_bitmap(image, pix_region_of(-2, 3, 6, 99));
    insist(part.pixels == bytes + 3 * 36 && part.width == 4 && part.height == 7 && part.stride == 36, "a part of a bitmap");
    part = pix_part_of_bitmap(image, pix_region_of(12, 0, 1, 1));
    insist(part.width == 0 && part.height == 1, "a part beside a bitmap");
    static pix_rgba8 pixels[12 * 10];
    pix_image view = pix_part_of(pix_image_of(pixels, 12, 10), pix_region_of(5, 6, 4, 2));
    insist(view.pixels == pixels + 6 * 12 + 5 && view.width == 4 && view.height == 2 && view.stride == 12, "a part of an image");
    insist(pix_do(view, pix_copy_color(pix_region_of(0, 0, 9, 9), pix_rgba8_of(1, 2, 3, 4))) == PIX_OK, "a part is refused");
    int painted = 0;
    for (int i = 0; i < 120; i++)
        painted += pixels[i].a == 4;
    insist(painted == 8 && pixels[6 * 12 + 5].r == 1 && pixels[7 * 12 + 8].b == 3, "what is painted on a part");
}

static void colors(void) {
    static const uint8_t white[] = {255, 255, 255, 128}, mixed[] = {200, 100, 50, 128}, red[] = {188, 0, 0};
    pix_rgba16 light = pix_color_of_rgba16(PIX_FORMAT_SRGBA8, white), wide = pix_color_of_rgba16(PIX_FORMAT_SRGB8, red);
    pix_rgba8 bytes = pix_color_of(PIX_FORMAT_RGBA8, mixed), none = pix_color_of((pix_format)PIX_FORMAT_COUNT, mixed);
    pix_graya8 gray = pix_color_of_graya8(PIX_FORMAT_GRAYA8, mixed + 2);
    insist(light.r == 32896 && light.g == 32896 && light.b == 32896 && light.a == 32896, "half a white in light");
    insist(wide.r == 32957 && wide.g == 0 && wide.b == 0 && wide.a == 65535, "half a red in light");
    insist(bytes.r == 100 && bytes.g == 50 && bytes.b == 25 && bytes.a == 128, "half a color of bytes");
    insist(gray.value == 25 && gray.a == 128, "half a gray");
    insist(!none.r && !none.g && !none.b && !none.a, "a color of no format");
    insist(!pix_color_of_rgba16(PIX_FORMAT_SRGBA8, NULL).a, "no color");
}

/* A pattern, beside the pixel that stands at each point's place in it. */
static void patterns(void) {
    enum { WIDE = 23, HIGH = 17 };
    static pix_rgba8 pixels[WIDE * HIGH], tile[6 * 5];
    static pix_command list[WIDE * HIGH];
    for (int i = 0; i < 30; i++)
        tile[i] = pix_rgba8_of((uint8_t)(8 * i), 0, 0, 255);
    for (int i = 0; i < 2000; i++) {
        const pix_region to = pix_region_of((int32_t)below(40) - 20, (int32_t)below(40) - 20, below(30), below(30));
        const pix_region from = pix_region_of((int32_t)below(4), (int32_t)below(3), below(3), below(3));
        const pix_view source = pix_view_of(tile, 6, 5);
        const uint64_t count = pix_repeat_image(NULL, 0, to, source, from, PIX_OP_SRC_OVER);
        insist(count <= 900 && count == (from.width && from.height
                                             ? (uint64_t)((to.width + from.width - 1) / from.width)
                                                   * ((to.height + from.height - 1) / from.height)
                                             : 0),
               "the count of a pattern");
        memset(pixels, 0, sizeof pixels);
        list[0] = pix_clear();
        insist(count > WIDE * HIGH || pix_repeat_image(list, count, to, source, from, PIX_OP_SRC_OVER) == count, "a pattern");
        if (count > WIDE * HIGH)
            continue;
        insist(pix_run(pix_image_of(pixels, WIDE, HIGH), list, (size_t)count, NULL) == PIX_OK, "a pattern is refused");
        for (int32_t y = 0; y < HIGH; y++)
            for (int32_t x = 0; x < WIDE; x++) {
                const int64_t column = (int64_t)x - to.x, row = (int64_t)y - to.y;
                const int is_painted = count && column >= 0 && column < to.width && row >= 0 && row < to.height;
                const pix_rgba8 wanted = is_painted ? tile[(from.y + row % from.height) * 6 + from.x + column % from.width]
                                                    : pix_rgba8_of(0, 0, 0, 0);
                insist(!memcmp(&pixels[y * WIDE + x], &wanted, sizeof wanted), "a pixel of a pattern");
            }
    }
    const pix_region far = pix_region_of(INT32_MAX - 1, INT32_MIN, INT32_MAX, 7), one = pix_region_of(0, 0, 1, 3);
    insist(pix_repeat_image(list, 1, far, pix_view_of(tile, 6, 5), one, PIX_OP_PLUS) == 6, "a pattern at the greatest place");
    insist(list[0].to.x == INT32_MAX - 1 && list[0].to.y == INT32_MIN && list[0].to.width == 1, "its first copy");
}

int main(int argc, char **argv) {
    unsigned long count = argc > 1 ? strtoul(argv[1], NULL, 10) : 20000;
    seed = argc > 2 ? strtoull(argv[2], NULL, 10) : 1;
    refusals();
    parts();
    colors();
    patterns();
    comes_back(PIX_FORMAT_SRGBA8, 4);
    comes_back(PIX_FORMAT_SBGRA8, 4);
    comes_back(PIX_FORMAT_SRGB8, 3);
    comes_back(PIX_FORMAT_SBGR8, 3);
    alphas();
    compare_each_pair();
    for (unsigned long i = 0; i < count; i++)
        compare_with_the_model();
    printf("%d pairs of formats and %lu bitmaps are those of the plain model\n", PLAIN_STORED * PLAIN_STORED, count);
    return 0;
}
