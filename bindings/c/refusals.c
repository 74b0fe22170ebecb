/* Tries each status, and that a refusal changes nothing; then strides, operators, formats and the other kinds of
 * pixels.
 *
 * It is C99 and C++11, and says which line failed. */
#include "pix.h"
#include <stdio.h>
#include <stdlib.h>

static int failures;

static void check(int holds, const char *what, int line) {
    if (!holds) {
        fprintf(stderr, "refusals: line %d: %s\n", line, what);
        failures++;
    }
}

#define CHECK(condition) check((condition) ? 1 : 0, #condition, __LINE__)

enum { SIDE = 4, POINTS = SIDE * SIDE };
static const uint32_t LONG = 2147483648u; /* the least side that is refused */

static pix_rgba8 pixels[POINTS], other[POINTS];
static uint8_t values[POINTS];

static void reset(void) {
    for (int i = 0; i < POINTS; i++) {
        pixels[i] = pix_rgba8_of((uint8_t)i, 20, 30, 200);
        other[i] = pix_rgba8_of(100, (uint8_t)i, 50, 150);
        values[i] = (uint8_t)(15 * i);
    }
}

static int is_reset(void) {
    int equal = 1;
    for (int i = 0; i < POINTS; i++)
        equal &= pixels[i].r == i && pixels[i].g == 20 && pixels[i].b == 30 && pixels[i].a == 200;
    return equal;
}

/* Whether a list of a good command, this one and another good one is refused so at index 1, and nothing is changed. */
static int is_refused(pix_command command, pix_status status) {
    pix_command list[3];
    size_t done = 77;
    list[0] = pix_copy_color(pix_region_of(0, 0, SIDE, SIDE), pix_rgba8_of(1, 1, 1, 1));
    list[1] = command;
    list[2] = pix_clear();
    return pix_run(pix_image_of(pixels, SIDE, SIDE), list, 3, &done) == status && done == 1 && is_reset()
           && pix_do(pix_image_of(pixels, SIDE, SIDE), command) == status && is_reset();
}

/* Whether an image of this size is refused so. */
static int is_refused_image(pix_rgba8 *memory, uint32_t width, uint32_t height, uint32_t stride, pix_status status) {
    pix_command command = pix_clear();
    pix_image image = pix_image_of(memory, width, height);
    size_t done = 77;
    image.stride = stride;
    return pix_run(image, &command, 1, &done) == status && done == 0 && is_reset();
}

static void images(void) {
    CHECK(is_refused_image(pixels, LONG, 0, 0, PIX_BAD_SIZE));
    CHECK(is_refused_image(pixels, 0, LONG, 0, PIX_BAD_SIZE));
    CHECK(is_refused_image(pixels, SIDE, SIDE, SIDE - 1, PIX_BAD_SIZE));
    CHECK(is_refused_image(pixels, 2147483647, 2147483647, UINT32_MAX, PIX_BAD_SIZE));
    CHECK(is_refused_image(NULL, 1, 1, 0, PIX_NULL));
    CHECK(pix_do(pix_image_of(NULL, 0, 5), pix_clear()) == PIX_OK);
    CHECK(pix_do(pix_image_of(NULL, 5, 0), pix_clear()) == PIX_OK);
}

static void commands(void) {
    const pix_region whole = pix_region_of(0, 0, SIDE, SIDE);
    const pix_rgba8 color = pix_rgba8_of(9, 9, 9, 9);
    const pix_view source = pix_view_of(other, SIDE, SIDE);
    const pix_matte matte = pix_matte_of(values, SIDE, SIDE);
    pix_command command = pix_clear();
    command.kind = 8;
    CHECK(is_refused(command, PIX_BAD_KIND));
    command.kind = UINT32_MAX;
    CHECK(is_refused(command, PIX_BAD_KIND));
    CHECK(is_refused(pix_copy_color(pix_region_of(0, 0, LONG, 1), color), PIX_BAD_REGION));
    CHECK(is_refused(pix_composite_color(pix_region_of(0, 0, 1, UINT32_MAX), color, PIX_OP_XOR), PIX_BAD_REGION));
    CHECK(is_refused(pix_copy_image(pix_region_of(0, 0, 1, LONG), source, whole), PIX_BAD_REGION));
    CHECK(is_refused(pix_copy_image(whole, source, pix_region_of(0, 0, LONG, 1)), PIX_BAD_REGION));
    CHECK(is_refused(pix_composite_image(whole, source, pix_region_of(0, 0, 1, LONG), PIX_OP_PLUS), PIX_BAD_REGION));
    CHECK(is_refused(pix_composite_matte(whole, matte, pix_region_of(0, 0, LONG, 1), color, PIX_OP_SRC),
                     PIX_BAD_REGION));
    CHECK(is_refused(pix_composite_image_matte(whole, source, whole, matte, pix_region_of(0, 0, 1, LONG), PIX_OP_SRC),
                     PIX_BAD_REGION));
    CHECK(is_refused(pix_composite_image_alpha(whole, source, pix_region_of(0, 0, LONG, 1), 9, PIX_OP_SRC), PIX_BAD_REGION));
    CHECK(is_refused(pix_composite_color(whole, color, (pix_op)PIX_OP_COUNT), PIX_BAD_OP));
    CHECK(is_refused(pix_composite_image(whole, source, whole, (pix_op)(PIX_OP_COUNT + 2)), PIX_BAD_OP));
    CHECK(is_refused(pix_composite_matte(whole, matte, whole, color, (pix_op)(PIX_OP_COUNT + 1)), PIX_BAD_OP));
}

/* Whether a source of this size is refused so by a copy and a composite, and a matte too. */
static int is_refused_source(const pix_rgba8 *memory, uint32_t width, uint32_t height, uint32_t stride,
                             pix_status status) {
    const pix_region whole = pix_region_of(0, 0, SIDE, SIDE);
    pix_view source = pix_view_of(memory, width, height);
    pix_matte matte = pix_matte_of((const uint8_t *)memory, width, height);
    source.stride = matte.stride = stride;
    return is_refused(pix_copy_image(whole, source, whole), status)
           && is_refused(pix_composite_image(whole, source, whole, PIX_OP_SRC_OVER), status)
           && is_refused(pix_composite_matte(whole, matte, whole, other[0], PIX_OP_SRC_OVER), status);
}

static void sources(void) {
    const pix_region whole = pix_region_of(0, 0, SIDE, SIDE);
    pix_command list[2];
    size_t done = 77;
    CHECK(is_refused_source(other, LONG, 0, 0, PIX_BAD_SOURCE));
    CHECK(is_refused_source(other, 0, LONG, 0, PIX_BAD_SOURCE));
    CHECK(is_refused_source(other, SIDE, SIDE, SIDE - 1, PIX_BAD_SOURCE));
    CHECK(is_refused_source(NULL, 1, 1, 0, PIX_NULL));
    CHECK(is_refused_source(pixels, 1, 1, 0, PIX_OVERLAP));
    CHECK(is_refused_source(pixels + POINTS - 1, SIDE, SIDE, 0, PIX_OVERLAP));
    CHECK(pix_do(pix_image_of(pixels, SIDE, SIDE), pix_copy_image(whole, pix_view_of(NULL, 0, 9), whole)) == PIX_OK);
    CHECK(pix_run(pix_image_of(pixels, SIDE, SIDE), NULL, 0, &done) == PIX_OK && done == 0);
    CHECK(pix_run(pix_image_of(pixels, SIDE, SIDE), NULL, 2, &done) == PIX_NULL && done == 0);
    CHECK(is_reset());
    /* The list itself in the memory that is written. */
    list[0] = list[1] = pix_clear();
    CHECK(pix_run(pix_image_of((pix_rgba8 *)(void *)&list[1], 1, 1), list, 2, &done) == PIX_OVERLAP && done == 0);
    /* The two halves of one image share nothing. */
    CHECK(pix_do(pix_image_of(pixels, SIDE, SIDE / 2),
                 pix_copy_image(whole, pix_view_of(pixels + POINTS / 2, SIDE, SIDE / 2), whole)) == PIX_OK);
    CHECK(pixels[0].r == POINTS / 2 && pixels[POINTS / 2 - 1].r == POINTS - 1 && pixels[POINTS - 1].r == POINTS - 1);
    reset();
}

/* Whether a window of this size and place is refused so, of each kind of pixels, and nothing is changed. */
static int is_refused_window(uint32_t left, uint32_t top, uint32_t width, uint32_t height, pix_status status) {
    pix_command command = pix_clear();
    pix_command_rgba16 wide = pix_clear_rgba16();
    pix_command_graya8 gray = pix_clear_graya8();
    pix_rgba16 words[POINTS];
    pix_graya8 pairs[POINTS];
    size_t done = 77, done16 = 77, done_gray = 77;
    int equal = 1;
    memset(words, 5, sizeof words);
    memset(pairs, 5, sizeof pairs);
    equal &= pix_run_window(pix_image_of(pixels, width, height), left, top, &command, 1, &done) == status;
    equal &= pix_run_window_rgba16(pix_image_of_rgba16(words, width, height), left, top, &wide, 1, &done16) == status;
    equal &= pix_run_window_graya8(pix_image_of_graya8(pairs, width, height), left, top, &gray, 1, &done_gray) == status;
    for (int i = 0; i < POINTS; i++)
        equal &= words[i].r == 0x505 && words[i].a == 0x505 && pairs[i].value == 5 && pairs[i].a == 5;
    return equal && done == 0 && done16 == 0 && done_gray == 0 && is_reset();
}

static void windows(void) {
    const pix_region first = pix_region_of(2147483643, 0, 1, 1);
    const pix_rgba8 color = pix_rgba8_of(9, 9, 9, 9);
    pix_command list[2];
    size_t done = 77;
    CHECK(is_refused_window(2147483644, 0, SIDE, SIDE, PIX_BAD_SIZE));
    CHECK(is_refused_window(0, 2147483644, SIDE, SIDE, PIX_BAD_SIZE));
    CHECK(is_refused_window(UINT32_MAX, 0, SIDE, SIDE, PIX_BAD_SIZE));
    CHECK(is_refused_window(0, UINT32_MAX, SIDE, SIDE, PIX_BAD_SIZE));
    CHECK(is_refused_window(LONG, LONG, 0, 0, PIX_BAD_SIZE));
    CHECK(is_refused_window(1, 0, 2147483647, 0, PIX_BAD_SIZE));
    CHECK(is_refused_window(0, 1, 0, 2147483647, PIX_BAD_SIZE));
    CHECK(is_refused_window(0, 0, LONG, 0, PIX_BAD_SIZE));
    CHECK(pix_run_window(pix_image_of(NULL, 0, 0), 2147483647, 2147483647, NULL, 0, &done) == PIX_OK && done == 0);
    CHECK(pix_run_window(pix_image_of(NULL, 1, 1), 0, 0, NULL, 0, &done) == PIX_NULL && done == 0);
    list[0] = pix_copy_color(first, color);
    list[1] = pix_composite_color(first, color, (pix_op)PIX_OP_COUNT);
    CHECK(pix_run_window(pix_image_of(pixels, SIDE, SIDE), 2147483643, 0, list, 2, &done) == PIX_BAD_OP && done == 1);
    list[1] = pix_copy_image(first, pix_view_of(pixels, 1, 1), first);
    CHECK(pix_run_window(pix_image_of(pixels, SIDE, SIDE), 2147483643, 0, list, 2, &done) == PIX_OVERLAP && done == 1);
    CHECK(is_reset());
    CHECK(pix_run_window(pix_image_of(pixels, SIDE, SIDE), 2147483643, 0, list, 1, &done) == PIX_OK && done == 1);
    CHECK(pixels[0].a == 9 && pixels[1].a == 200);
    reset();
}

/* What the header computes by itself, and the library tests all the same: the lengths. */
static void lengths(void) {
    const pix_region whole = pix_region_of(0, 0, SIDE, SIDE);
    pix_command command = pix_copy_image(whole, pix_view_of(other, SIDE, SIDE), whole);
    uint8_t from[16] = {0}, to[16] = {0};
    size_t done = 77;
    CHECK(pix_raw_run_window(pixels, POINTS - 1, 0, 0, SIDE, SIDE, SIDE, &command, 1, &done) == PIX_BAD_SIZE && done == 0);
    command.pixel_count = POINTS - 1;
    CHECK(pix_raw_run_window(pixels, POINTS, 0, 0, SIDE, SIDE, SIDE, &command, 1, &done) == PIX_BAD_SOURCE && done == 0);
    CHECK(is_reset());
    CHECK(pix_raw_convert(PIX_FORMAT_RGBA8, PIX_FORMAT_BGRA8, from, 7, to, 8, 2) == PIX_BAD_LENGTH);
    CHECK(pix_raw_convert(PIX_FORMAT_RGBA8, PIX_FORMAT_BGRA8, from, 8, to, 7, 2) == PIX_BAD_LENGTH);
    CHECK(pix_raw_convert(15, PIX_FORMAT_BGRA8, from, 8, to, 8, 2) == PIX_BAD_FORMAT);
    CHECK(pix_raw_convert(PIX_FORMAT_RGBA8, 15, from, 8, to, 7, 2) == PIX_BAD_FORMAT);
    CHECK(pix_convert((pix_format)15, PIX_FORMAT_BGRA8, from, to, 2) == PIX_BAD_FORMAT);
    CHECK(pix_convert(PIX_FORMAT_RGBA8, (pix_format)15, from, to, 2) == PIX_BAD_FORMAT);
    CHECK(pix_convert(PIX_FORMAT_RGBA8, PIX_FORMAT_BGRA8, from, to, SIZE_MAX) == PIX_BAD_LENGTH);
    CHECK(pix_convert(PIX_FORMAT_RGBA8, PIX_FORMAT_BGRA8, NULL, to, 1) == PIX_NULL);
    CHECK(pix_convert(PIX_FORMAT_RGBA8, PIX_FORMAT_BGRA8, from, NULL, 1) == PIX_NULL);
    CHECK(pix_convert(PIX_FORMAT_RGBA8, PIX_FORMAT_BGRA8, from, from, 1) == PIX_OVERLAP);
    CHECK(pix_convert(PIX_FORMAT_RGBA8, PIX_FORMAT_GRAY8, from, from + 7, 2) == PIX_OVERLAP);
    CHECK(pix_convert(PIX_FORMAT_RGBA8, PIX_FORMAT_BGRA8, NULL, NULL, 0) == PIX_OK);
    for (int i = 0; i < 8; i++)
        CHECK(from[i] == 0 && to[i] == 0);
}

/* Rows of 3 pixels, 5 apart: an image, a source and a matte. */
static void strides(void) {
    enum { WIDE = 3, HIGH = 3, APART = 5, LENGTH = APART * (HIGH - 1) + WIDE };
    pix_rgba8 padded[LENGTH], rows[LENGTH];
    uint8_t mask[LENGTH];
    pix_image image = pix_image_of(padded, WIDE, HIGH);
    pix_view source = pix_view_of(rows, WIDE, HIGH);
    pix_matte matte = pix_matte_of(mask, WIDE, HIGH);
    const pix_region whole = pix_region_of(0, 0, WIDE, HIGH), large = pix_region_of(0, 0, 9, 9);
    const pix_rgba8 color = pix_rgba8_of(7, 7, 7, 255);
    image.stride = source.stride = matte.stride = APART;
    for (int i = 0; i < LENGTH; i++) {
        padded[i] = pix_rgba8_of(1, 2, 3, 4);
        rows[i] = pix_rgba8_of((uint8_t)i, 0, 0, 255);
        mask[i] = i % APART < WIDE ? 255 : 0;
    }
    CHECK(pix_do(image, pix_copy_image(pix_region_of(-1, -1, 9, 9), source, large)) == PIX_OK);
    for (int i = 0; i < LENGTH; i++) {
        int x = i % APART, y = i / APART, inside = x < WIDE - 1 && y < HIGH - 1;
        CHECK(padded[i].r == (inside ? i + APART + 1 : 1) && padded[i].a == (inside ? 255 : 4));
    }
    CHECK(pix_do(image, pix_composite_matte(whole, matte, whole, color, PIX_OP_SRC_OVER)) == PIX_OK);
    for (int i = 0; i < LENGTH; i++)
        CHECK(padded[i].r == (i % APART < WIDE ? 7 : 1));
    CHECK(pix_do(image, pix_composite_color(pix_region_of(-1, 1, 9, 9), color, PIX_OP_CLEAR)) == PIX_OK);
    for (int i = 0; i < LENGTH; i++)
        CHECK(padded[i].r == (i % APART >= WIDE ? 1 : i / APART == 0 ? 7 : 0));
    CHECK(pix_do(image, pix_clear()) == PIX_OK);
    for (int i = 0; i < LENGTH; i++)
        CHECK(padded[i].r == (i % APART < WIDE ? 0 : 1) && padded[i].a == (i % APART < WIDE ? 0 : 4));
}

/* The channel product of 8 bits. */
static unsigned times(unsigned a, unsigned b) { return (2 * a * b + 255) / 510; }

/* Each operator on one channel, by its two terms. */
static unsigned composite(pix_op op, unsigned s, unsigned d, unsigned sa, unsigned da) {
    unsigned source = 0, dest = 0, sum;
    switch (op) {
    /* made by tools/names: operators */
    case PIX_OP_SRC: source = 255; break;
    case PIX_OP_DEST: dest = 255; break;
    case PIX_OP_SRC_OVER: source = 255, dest = 255 - sa; break;
    case PIX_OP_DEST_OVER: source = 255 - da, dest = 255; break;
    case PIX_OP_SRC_OUT: source = 255 - da; break;
    case PIX_OP_DEST_OUT: dest = 255 - sa; break;
    case PIX_OP_SRC_IN: source = da; break;
    case PIX_OP_DEST_IN: dest = sa; break;
    case PIX_OP_SRC_ATOP: source = da, dest = 255 - sa; break;
    case PIX_OP_DEST_ATOP: source = 255 - da, dest = sa; break;
    case PIX_OP_XOR: source = 255 - da, dest = 255 - sa; break;
    case PIX_OP_CLEAR: break;
    case PIX_OP_PLUS: source = 255, dest = 255; break;
    /* made by tools/names: end */
    }
    sum = times(s, source) + times(d, dest);
    return sum < 255 ? sum : 255;
}

static void operators(void) {
    const pix_region one = pix_region_of(1, 1, 1, 1);
    for (int i = 0; i < PIX_OP_COUNT; i++) {
        const pix_op op = (pix_op)i;
        pix_rgba8 s = pix_rgba8_of(90, 17, 0, 130), d = pixels[SIDE + 1];
        CHECK(pix_do(pix_image_of(pixels, SIDE, SIDE), pix_composite_color(one, s, op)) == PIX_OK);
        CHECK(pixels[SIDE + 1].r == composite(op, s.r, d.r, s.a, d.a));
        CHECK(pixels[SIDE + 1].g == composite(op, s.g, d.g, s.a, d.a));
        CHECK(pixels[SIDE + 1].b == composite(op, s.b, d.b, s.a, d.a));
        CHECK(pixels[SIDE + 1].a == composite(op, s.a, d.a, s.a, d.a));
        pixels[SIDE + 1] = d;
        CHECK(is_reset());
    }
}

/* White, red and no color at all keep their meaning between all formats. */
static void formats(void) {
    const uint8_t red_of_three[3] = {255, 0, 0}, white[4] = {255, 255, 255, 255};
    for (int from = 0; from <= PIX_FORMAT_SGRAY8; from++)
        for (int to = 0; to <= PIX_FORMAT_SGRAY8; to++) {
            uint8_t there[4] = {7, 7, 7, 7}, back[4] = {7, 7, 7, 7};
            size_t size = pix_format_size((pix_format)to);
            CHECK(pix_convert((pix_format)from, (pix_format)to, white, there, 1) == PIX_OK);
            for (size_t i = 0; i < 4; i++)
                CHECK(there[i] == (i < size ? 255 : 7));
            if (pix_format_size((pix_format)from) == 1 || size == 1)
                continue;
            CHECK(pix_convert(PIX_FORMAT_RGB8, (pix_format)from, red_of_three, there, 1) == PIX_OK);
            CHECK(pix_convert((pix_format)from, (pix_format)to, there, back, 1) == PIX_OK);
            CHECK(pix_convert((pix_format)to, PIX_FORMAT_RGB8, back, there, 1) == PIX_OK);
            CHECK(there[0] == 255 && there[1] == 0 && there[2] == 0);
        }
}

/* Colors that were multiplied by an alpha that is dropped: they stay so within one order of channels alone. */
static void dropped_alphas(void) {
    const uint8_t half[4] = {64, 64, 64, 128};
    uint8_t to[3];
    CHECK(pix_convert(PIX_FORMAT_RGBA8P, PIX_FORMAT_RGB8, half, to, 1) == PIX_OK);
    CHECK(to[0] == 64 && to[1] == 64 && to[2] == 64);
    CHECK(pix_convert(PIX_FORMAT_BGRA8P, PIX_FORMAT_RGB8, half, to, 1) == PIX_OK);
    CHECK(to[0] == 128 && to[1] == 128 && to[2] == 128);
    CHECK(pix_convert(PIX_FORMAT_RGBA8P, PIX_FORMAT_GRAY8, half, to, 1) == PIX_OK);
    CHECK(to[0] == 128);
}

/* 16 bits a channel: half of a color over another one, and through a mask. */
static void wide_pixels(void) {
    pix_rgba16 image[4], source[4] = {{9, 8, 7, 65535}, {0, 0, 0, 0}, {6, 5, 4, 65535}, {1, 2, 3, 65535}};
    const uint16_t mask[4] = {65535, 0, 32768, 0};
    const pix_region whole = pix_region_of(0, 0, 2, 2);
    pix_command_rgba16 list[3];
    size_t done = 77;
    list[0] = pix_copy_color_rgba16(whole, pix_rgba16_of(1000, 2000, 3000, 65535));
    list[1] = pix_composite_matte_rgba16(whole, pix_matte16_of(mask, 2, 2), whole, pix_rgba16_of(65535, 0, 0, 65535),
                                         PIX_OP_SRC_OVER);
    CHECK(pix_run_rgba16(pix_image_of_rgba16(image, 2, 2), list, 2, &done) == PIX_OK && done == 2);
    CHECK(image[0].r == 65535 && image[0].g == 0 && image[0].a == 65535);
    CHECK(image[1].r == 1000 && image[1].b == 3000 && image[3].g == 2000);
    CHECK(image[2].r == 32768 + 500 && image[2].g == 1000 && image[2].b == 1500 && image[2].a == 65535);
    list[2] = pix_composite_image_rgba16(whole, pix_view_of_rgba16(source, 2, 2), whole, (pix_op)PIX_OP_COUNT);
    CHECK(pix_run_rgba16(pix_image_of_rgba16(image, 2, 2), list, 3, &done) == PIX_BAD_OP && done == 2);
    CHECK(image[1].r == 1000);
    list[2].pixels = image;
    CHECK(pix_run_rgba16(pix_image_of_rgba16(image, 2, 2), list, 3, &done) == PIX_OVERLAP && done == 2);
    CHECK(pix_do_rgba16(pix_image_of_rgba16(image, 2, 2),
                        pix_copy_image_rgba16(whole, pix_view_of_rgba16(source, 2, 2), whole)) == PIX_OK);
    CHECK(image[0].r == 9 && image[1].a == 0 && image[3].b == 3);
}

/* Gray with an alpha. */
static void gray_pixels(void) {
    pix_graya8 image[4], source[4] = {{9, 255}, {0, 0}, {100, 200}, {1, 255}};
    const uint8_t mask[4] = {255, 0, 51, 0};
    const pix_region whole = pix_region_of(0, 0, 2, 2);
    pix_command_graya8 list[3];
    size_t done = 77;
    list[0] = pix_copy_color_graya8(whole, pix_graya8_of(50, 255));
    list[1] = pix_composite_image_graya8(whole, pix_view_of_graya8(source, 2, 2), whole, PIX_OP_SRC_OVER);
    list[2] = pix_composite_matte_graya8(whole, pix_matte_of(mask, 2, 2), whole, pix_graya8_of(255, 255),
                                         PIX_OP_SRC_OVER);
    CHECK(pix_run_graya8(pix_image_of_graya8(image, 2, 2), list, 2, &done) == PIX_OK && done == 2);
    CHECK(image[0].value == 9 && image[1].value == 50 && image[2].value == 100 + times(50, 55) && image[2].a == 255);
    CHECK(pix_do_graya8(pix_image_of_graya8(image, 2, 2), list[2]) == PIX_OK);
    CHECK(image[0].value == 255 && image[1].value == 50 && image[2].value == 51 + times(100 + times(50, 55), 204));
    list[1].kind = 8;
    CHECK(pix_run_graya8(pix_image_of_graya8(image, 2, 2), list, 3, &done) == PIX_BAD_KIND && done == 1);
    CHECK(image[0].value == 255 && image[3].value == 1);
}

int main(void) {
    reset();
    images();
    commands();
    sources();
    windows();
    lengths();
    strides();
    operators();
    formats();
    dropped_alphas();
    wide_pixels();
    gray_pixels();
    CHECK(is_reset());
    printf("refusals: %d failures\n", failures);
    return failures != 0;
}
