/* Pictures painted tile by tile beside the same pictures painted whole, by random lists of commands; pictures larger than
 * the nearest cache, painted by a list and command by command; and windows whose places and regions lie at the ends of
 * 32 bits.
 *
 *     tiles [LISTS]
 *
 * LISTS is 3000 where it isn't given. */
#include "each.h"
#include <stdio.h>
#include <stdlib.h>

enum { SIDE = 40, COMMANDS = 8, WIDE = 4000, HIGH = 2 * SIDE, STRIDE = WIDE + 3 };

static pix_rgba8 whole[SIDE * SIDE], parts[SIDE * SIDE], source[SIDE * SIDE], tile[SIDE * SIDE];
static pix_rgba8 large[2][STRIDE * HIGH];
static uint8_t values[SIDE * SIDE];
static unsigned long windows;

/* ---- Random lists (xorshift of Marsaglia, 64 bits) ---- */

static uint64_t state = UINT64_C(88172645463325252);

static uint32_t below(uint32_t count) {
    state ^= state << 13;
    state ^= state >> 7;
    state ^= state << 17;
    return (uint32_t)((state >> 32) * count >> 32);
}

static pix_rgba8 color(void) {
    uint32_t a = below(256);
    return pix_rgba8_of((uint8_t)below(a + 1), (uint8_t)below(a + 1), (uint8_t)below(a + 1), (uint8_t)a);
}

static int32_t coordinate(void) {
    switch (below(12)) {
    case 0: return INT32_MIN;
    case 1: return INT32_MAX;
    case 2: return INT32_MIN + (int32_t)below(3000);
    case 3: return INT32_MAX - (int32_t)below(100);
    default: return (int32_t)below(2 * SIDE) - SIDE / 2;
    }
}

static uint32_t side(void) {
    switch (below(8)) {
    case 0: return INT32_MAX;
    case 1: return INT32_MAX - 1;
    case 2: return 0;
    default: return below(SIDE + 5);
    }
}

static pix_command command(uint32_t width, uint32_t height) {
    pix_region to = pix_region_of(coordinate(), coordinate(), side(), side());
    pix_region from = pix_region_of(coordinate(), coordinate(), side(), side());
    pix_view image = pix_view_of(source, width, height);
    pix_matte matte = pix_matte_of(values, width, height);
    pix_region mask_from = pix_region_of(coordinate(), coordinate(), side(), side());
    pix_kind kind = (pix_kind)(below(12) ? 1 + below(PIX_KIND_COUNT - 1) : PIX_KIND_CLEAR);
    if (!below(3)) {
        from.x = to.x;
        from.y = to.y;
    }
    if (!below(2))
        mask_from = from;
    return command_of(kind, to, image, from, matte, mask_from, color(), (uint8_t)below(256), (pix_op)below(PIX_OP_COUNT));
}

/* ---- Tiles ---- */

static int fail(const char *what) {
    fprintf(stderr, "tiles: %s\n", what);
    return 1;
}

/* Paints the tile of that size at a point of `parts`, which has rows of `width`: in place, or in memory of its own. */
static pix_status paint(uint32_t x, uint32_t y, uint32_t columns, uint32_t rows, uint32_t width, int in_place,
                        const pix_command *list, size_t count) {
    pix_rgba8 *start = parts + y * width + x;
    windows++;
    if (in_place) {
        pix_image strided = pix_image_of(start, columns, rows);
        strided.stride = width;
        return pix_run_window(strided, x, y, list, count, NULL);
    }
    for (uint32_t row = 0; row < rows; row++)
        memcpy(tile + row * columns, start + row * width, columns * sizeof *tile);
    pix_status status = pix_run_window(pix_image_of(tile, columns, rows), x, y, list, count, NULL);
    for (uint32_t row = 0; row < rows; row++)
        memcpy(start + row * width, tile + row * columns, columns * sizeof *tile);
    return status;
}

static int try_list(void) {
    uint32_t width = below(SIDE), height = below(SIDE), columns = below(width + 3) + 1, rows = below(height + 3) + 1;
    uint32_t src_width = below(SIDE - 1) + 1, src_height = below(SIDE - 1) + 1;
    size_t count = below(COMMANDS + 1);
    int in_place = (int)below(2);
    pix_command list[COMMANDS];
    for (size_t i = 0; i < SIDE * SIDE; i++) {
        whole[i] = parts[i] = color();
        source[i] = color();
        values[i] = (uint8_t)below(256);
    }
    for (size_t i = 0; i < count; i++)
        list[i] = command(src_width, src_height);
    if (pix_run(pix_image_of(whole, width, height), list, count, NULL) != PIX_OK)
        return fail("the whole is refused");
    for (uint32_t y = 0; y < height; y += rows)
        for (uint32_t x = 0; x < width; x += columns)
            if (paint(x, y, width - x < columns ? width - x : columns, height - y < rows ? height - y : rows, width,
                      in_place, list, count) != PIX_OK)
                return fail("a tile is refused");
    return memcmp(whole, parts, sizeof whole) ? fail("the tiles are not the whole") : 0;
}

/* ---- Large pictures ---- */

/* The library goes over a large picture by bands of rows, and over one that gets a single command at once. */
static int try_large(void) {
    const uint32_t height = HIGH - below(SIDE);
    pix_command list[COMMANDS];
    pix_image at_once = pix_image_of(large[0], WIDE, height), one_by_one = pix_image_of(large[1], WIDE, height);
    at_once.stride = one_by_one.stride = STRIDE;
    for (size_t i = 0; i < STRIDE * HIGH; i++)
        large[0][i] = large[1][i] = color();
    for (size_t i = 0; i < COMMANDS; i++)
        list[i] = command(SIDE, SIDE);
    if (pix_run(at_once, list, COMMANDS, NULL) != PIX_OK)
        return fail("a large picture is refused");
    for (size_t i = 0; i < COMMANDS; i++)
        if (pix_run(one_by_one, list + i, 1, NULL) != PIX_OK)
            return fail("a command on a large picture is refused");
    return memcmp(large[0], large[1], sizeof large[0]) ? fail("a list is not its commands, one by one") : 0;
}

/* ---- The ends of 32 bits ---- */

/* The alphas of the window of two columns and two rows that ends at the limit, after a command. */
static int is_far(pix_command it, uint8_t a, uint8_t b, uint8_t c, uint8_t d) {
    static pix_rgba8 pixels[4];
    const pix_image window = pix_image_of(pixels, 2, 2);
    for (uint8_t i = 0; i < 4; i++)
        pixels[i] = pix_rgba8_of(0, 0, 0, (uint8_t)(i + 1));
    if (pix_run_window(window, INT32_MAX - 2, INT32_MAX - 2, &it, 1, NULL) != PIX_OK)
        return 0;
    return pixels[0].a == a && pixels[1].a == b && pixels[2].a == c && pixels[3].a == d;
}

static int try_ends(void) {
    const pix_region all = pix_region_of(INT32_MIN, INT32_MIN, INT32_MAX, INT32_MAX);
    const pix_view two = pix_view_of(source, 2, 2);
    const int32_t last = INT32_MAX - 1;
    for (uint8_t i = 0; i < 4; i++)
        source[i] = pix_rgba8_of(0, 0, 0, (uint8_t)(10 * (i + 1)));
    const pix_region long_row = pix_region_of(last - 1, last, INT32_MAX, 2);
    const pix_region from_second = pix_region_of(0, 1, INT32_MAX, 2);
    const pix_region square = pix_region_of(last - 1, last - 1, 2, 2);
    const pix_region outside = pix_region_of(-1, -1, INT32_MAX, INT32_MAX);
    const pix_rgba8 nine = pix_rgba8_of(0, 0, 0, 9);
    if (!is_far(pix_copy_color(pix_region_of(last, last, 1, 1), nine), 1, 2, 3, 9))
        return fail("a color at the last point");
    if (!is_far(pix_copy_color(pix_region_of(last, last, INT32_MAX, INT32_MAX), nine), 1, 2, 3, 9))
        return fail("a color past the last point");
    if (!is_far(pix_copy_image(square, two, pix_region_of(0, 0, 2, 2)), 10, 20, 30, 40))
        return fail("an image in the last points");
    if (!is_far(pix_copy_image(long_row, two, from_second), 1, 2, 30, 40))
        return fail("a row in the last points");
    if (!is_far(pix_copy_image(square, two, outside), 1, 2, 3, 10))
        return fail("an image whose corner lies outside");
    if (!is_far(pix_copy_image(all, two, all), 1, 2, 3, 4) || !is_far(pix_copy_color(all, nine), 1, 2, 3, 4))
        return fail("a region that ends before the window");
    return is_far(pix_clear(), 0, 0, 0, 0) ? 0 : fail("a window that is cleared");
}

int main(int count, char **words) {
    unsigned long lists = count > 1 ? strtoul(words[1], NULL, 10) : 3000;
    for (unsigned long i = 0; i < lists; i++)
        if (try_list())
            return 1;
    for (unsigned long i = 0; i < lists / 15; i++)
        if (try_large())
            return 1;
    if (try_ends())
        return 1;
    printf("tiles: %lu pictures painted in %lu tiles are the pictures painted whole, and %lu large ones by lists\n", lists,
           windows, lists / 15);
    return 0;
}
