/* plain_bitmap.h - bitmaps of every format, a second time: a plain model, written from the definitions, one pixel after the
 * other. The library is compared with it, and other.c is made of it. */
#ifndef PLAIN_BITMAP_H
#define PLAIN_BITMAP_H

#include "plain.h"

/* The color models, and that of no format. */
/* made by tools/names: models */
typedef enum {
    MODEL_NONE, MODEL_Rgb, MODEL_Bgr, MODEL_Cmy, MODEL_Gray, MODEL_Hsv, MODEL_Hsl, MODEL_Hwb, MODEL_YCbCr,
    MODEL_Xyz, MODEL_Matte
} plain_model;
/* made by tools/names: end */

/* A format: its model, whether it has an alpha, whether colors are multiplied by it and encoded by the sRGB curve, whether
 * channels have 16 bits, and whether a byte follows that says nothing. */
typedef struct {
    plain_model model;
    int has_alpha, is_premultiplied, is_srgb, is_wide, is_opaque;
} plain_stored;

/* The formats in the order of their numbers. */
/* made by tools/names: formats */
enum { PLAIN_STORED = 81 };
static const plain_stored plain_stored_formats[] = {
    {MODEL_Rgb, 1, 0, 1, 0, 0}, {MODEL_Rgb, 1, 1, 1, 0, 0}, {MODEL_Rgb, 1, 0, 0, 0, 0}, {MODEL_Rgb, 1, 1, 0, 0, 0},
    {MODEL_Bgr, 1, 0, 0, 0, 0}, {MODEL_Bgr, 1, 1, 0, 0, 0}, {MODEL_Rgb, 0, 0, 0, 0, 0}, {MODEL_Gray, 0, 0, 0, 0, 0},
    {MODEL_Bgr, 1, 0, 1, 0, 0}, {MODEL_Bgr, 1, 1, 1, 0, 0}, {MODEL_Rgb, 0, 0, 1, 0, 0}, {MODEL_Gray, 0, 0, 1, 0, 0},
    {MODEL_Rgb, 1, 0, 0, 1, 0}, {MODEL_Rgb, 1, 1, 0, 1, 0}, {MODEL_Rgb, 0, 0, 0, 1, 0}, {MODEL_Bgr, 1, 0, 0, 1, 0},
    {MODEL_Bgr, 1, 1, 0, 1, 0}, {MODEL_Bgr, 0, 0, 0, 1, 0}, {MODEL_Bgr, 0, 0, 0, 0, 0}, {MODEL_Bgr, 0, 0, 1, 0, 0},
    {MODEL_Gray, 1, 0, 0, 0, 0}, {MODEL_Gray, 1, 1, 0, 0, 0}, {MODEL_Gray, 1, 0, 1, 0, 0},
    {MODEL_Gray, 1, 1, 1, 0, 0}, {MODEL_Gray, 0, 0, 0, 1, 0}, {MODEL_Gray, 1, 0, 0, 1, 0},
    {MODEL_Gray, 1, 1, 0, 1, 0}, {MODEL_Matte, 1, 1, 0, 0, 0}, {MODEL_Matte, 1, 1, 0, 1, 0},
    {MODEL_Cmy, 0, 0, 0, 0, 0}, {MODEL_Cmy, 1, 0, 0, 0, 0}, {MODEL_Cmy, 1, 1, 0, 0, 0}, {MODEL_Cmy, 0, 0, 0, 1, 0},
    {MODEL_Cmy, 1, 0, 0, 1, 0}, {MODEL_Cmy, 1, 1, 0, 1, 0}, {MODEL_Cmy, 0, 0, 1, 0, 0}, {MODEL_Cmy, 1, 0, 1, 0, 0},
    {MODEL_Cmy, 1, 1, 1, 0, 0}, {MODEL_Hsv, 0, 0, 0, 0, 0}, {MODEL_Hsv, 1, 0, 0, 0, 0}, {MODEL_Hsv, 1, 1, 0, 0, 0},
    {MODEL_Hsv, 0, 0, 0, 1, 0}, {MODEL_Hsv, 1, 0, 0, 1, 0}, {MODEL_Hsv, 1, 1, 0, 1, 0}, {MODEL_Hsv, 0, 0, 1, 0, 0},
    {MODEL_Hsv, 1, 0, 1, 0, 0}, {MODEL_Hsv, 1, 1, 1, 0, 0}, {MODEL_Hsl, 0, 0, 0, 0, 0}, {MODEL_Hsl, 1, 0, 0, 0, 0},
    {MODEL_Hsl, 1, 1, 0, 0, 0}, {MODEL_Hsl, 0, 0, 0, 1, 0}, {MODEL_Hsl, 1, 0, 0, 1, 0}, {MODEL_Hsl, 1, 1, 0, 1, 0},
    {MODEL_Hsl, 0, 0, 1, 0, 0}, {MODEL_Hsl, 1, 0, 1, 0, 0}, {MODEL_Hsl, 1, 1, 1, 0, 0}, {MODEL_Hwb, 0, 0, 0, 0, 0},
    {MODEL_Hwb, 1, 0, 0, 0, 0}, {MODEL_Hwb, 1, 1, 0, 0, 0}, {MODEL_Hwb, 0, 0, 0, 1, 0}, {MODEL_Hwb, 1, 0, 0, 1, 0},
    {MODEL_Hwb, 1, 1, 0, 1, 0}, {MODEL_Hwb, 0, 0, 1, 0, 0}, {MODEL_Hwb, 1, 0, 1, 0, 0}, {MODEL_Hwb, 1, 1, 1, 0, 0},
    {MODEL_YCbCr, 0, 0, 0, 0, 0}, {MODEL_YCbCr, 1, 0, 0, 0, 0}, {MODEL_YCbCr, 1, 1, 0, 0, 0},
    {MODEL_YCbCr, 0, 0, 0, 1, 0}, {MODEL_YCbCr, 1, 0, 0, 1, 0}, {MODEL_YCbCr, 1, 1, 0, 1, 0},
    {MODEL_Xyz, 0, 0, 0, 0, 0}, {MODEL_Xyz, 1, 0, 0, 0, 0}, {MODEL_Xyz, 1, 1, 0, 0, 0}, {MODEL_Xyz, 0, 0, 0, 1, 0},
    {MODEL_Xyz, 1, 0, 0, 1, 0}, {MODEL_Xyz, 1, 1, 0, 1, 0}, {MODEL_Rgb, 0, 0, 1, 0, 1}, {MODEL_Bgr, 0, 0, 1, 0, 1},
    {MODEL_Rgb, 0, 0, 0, 0, 1}, {MODEL_Bgr, 0, 0, 0, 0, 1},
};
/* made by tools/names: end */

static inline plain_stored plain_stored_of(uint32_t number) {
    const plain_stored none = {MODEL_NONE, 0, 0, 0, 0, 0};
    return number < PLAIN_STORED ? plain_stored_formats[number] : none;
}

/* How many colors a model has before the alpha. */
static inline size_t plain_colors(plain_model model) {
    return model == MODEL_Matte ? 0 : model == MODEL_Gray ? 1 : 3;
}

/* The number of the first color that is no hue. */
static inline size_t plain_first(plain_model model) {
    return model == MODEL_Hsv || model == MODEL_Hsl || model == MODEL_Hwb;
}

static inline size_t plain_stored_size(const plain_stored *it) {
    return (plain_colors(it->model) + (size_t)it->has_alpha + (size_t)it->is_opaque) * (it->is_wide ? 2 : 1);
}

static inline uint64_t plain_max(const plain_stored *it) {
    return it->is_wide ? 65535 : 255;
}

static inline uint64_t plain_sample(const plain_stored *it, const unsigned char *pixel, size_t number) {
    return it->is_wide ? pixel[2 * number] + 256u * pixel[2 * number + 1] : pixel[number];
}

static inline void plain_set_sample(const plain_stored *it, unsigned char *pixel, size_t number, uint64_t value) {
    pixel[it->is_wide ? 2 * number : number] = (unsigned char)(value % 256);
    if (it->is_wide)
        pixel[2 * number + 1] = (unsigned char)(value / 256);
}

/* ---- Color models: their formulas into red, green and blue and back, over whole numbers ---- */

/* The number nearest to n / d, ties up, at most max; 0 over 0. */
static inline uint64_t plain_near(uint64_t max, uint64_t n, uint64_t d) {
    uint64_t nearest = d ? (2 * n + d) / (2 * d) : 0;
    return nearest < max ? nearest : max;
}

/* x - y, at least 0, and x + y, at most max. */
static inline uint64_t plain_less(uint64_t x, uint64_t y) {
    return x > y ? x - y : 0;
}

static inline uint64_t plain_sum(uint64_t max, uint64_t x, uint64_t y) {
    return x + y < max ? x + y : max;
}

static inline void plain_set_color(uint64_t color[3], uint64_t one, uint64_t two, uint64_t three) {
    color[0] = one;
    color[1] = two;
    color[2] = three;
}

/* Red, green and blue of a hue at a chroma, with `lift` added to each. */
static inline void plain_of_hue(uint64_t max, uint64_t color[3], uint64_t hue, uint64_t chroma, uint64_t lift) {
    uint64_t part = 6 * hue % max, rising = plain_product(max, chroma, part), falling = plain_product(max, chroma, max - part);
    switch (6 * hue / max) {
    case 1: plain_set_color(color, falling, chroma, 0); break;
    case 2: plain_set_color(color, 0, chroma, rising); break;
    case 3: plain_set_color(color, 0, falling, chroma); break;
    case 4: plain_set_color(color, rising, 0, chroma); break;
    case 5: plain_set_color(color, chroma, 0, falling); break;
    default: plain_set_color(color, chroma, rising, 0); break;
    }
    for (size_t i = 0; i < 3; i++)
        color[i] = plain_sum(max, color[i], lift);
}

static inline void plain_to_rgb(plain_model model, uint64_t max, uint64_t color[3]) {
    uint64_t one = color[0], two = color[1], three = color[2], chroma, white, black, room;
    switch (model) {
    case MODEL_Bgr: plain_set_color(color, three, two, one); break;
    case MODEL_Cmy: plain_set_color(color, max - one, max - two, max - three); break;
    case MODEL_Gray: plain_set_color(color, one, one, one); break;
    case MODEL_Matte: plain_set_color(color, max, max, max); break;
    case MODEL_Hsv:
        chroma = plain_product(max, three, two);
        plain_of_hue(max, color, one, chroma, three - chroma);
        break;
    case MODEL_Hsl:
        room = max - (2 * three > max ? 2 * three - max : max - 2 * three);
        chroma = plain_product(max, room, two);
        plain_of_hue(max, color, one, chroma, plain_less(three, plain_product(max, chroma, max / 2 + 1)));
        break;
    case MODEL_Hwb:
        white = two + three > max ? plain_near(max, two * max, two + three) : two;
        black = two + three > max ? plain_near(max, three * max, two + three) : three;
        chroma = plain_less(max - black, white);
        plain_of_hue(max, color, one, chroma, max - black - chroma);
        break;
    case MODEL_YCbCr:
        plain_set_color(color, plain_near(max, plain_less(1000 * one + 1402 * three, 701 * max), 1000),
                  plain_near(max, plain_less(1000000 * one + 529136 * max, 344136 * two + 714136 * three), 1000000),
                  plain_near(max, plain_less(1000 * one + 1772 * two, 886 * max), 1000));
        break;
    case MODEL_Xyz:
        plain_set_color(color, plain_near(max, plain_less(32406 * one, 15372 * two + 4986 * three), 10000),
                  plain_near(max, plain_less(18758 * two + 415 * three, 9689 * one), 10000),
                  plain_near(max, plain_less(557 * one + 10570 * three, 2040 * two), 10000));
        break;
    case MODEL_NONE: case MODEL_Rgb: break;
    }
}

static inline uint64_t plain_greatest(const uint64_t color[3]) {
    uint64_t two = color[0] > color[1] ? color[0] : color[1];
    return two > color[2] ? two : color[2];
}

static inline uint64_t plain_least(const uint64_t color[3]) {
    uint64_t two = color[0] < color[1] ? color[0] : color[1];
    return two < color[2] ? two : color[2];
}

/* The hue of red, green and blue, the greatest of which are `chroma` above the least. */
static inline uint64_t plain_hue(uint64_t max, const uint64_t color[3], uint64_t chroma) {
    uint64_t red = color[0], green = color[1], blue = color[2], greatest = plain_greatest(color), turn;
    if (red == greatest)
        turn = green >= blue ? green - blue : 6 * chroma + green - blue;
    else
        turn = green == greatest ? 2 * chroma + blue - red : 4 * chroma + red - green;
    return plain_near(max, max * turn, 6 * chroma);
}

static inline void plain_of_rgb(plain_model model, uint64_t max, uint64_t color[3]) {
    uint64_t red = color[0], green = color[1], blue = color[2], greatest = plain_greatest(color);
    uint64_t chroma = greatest - plain_least(color), hue = plain_hue(max, color, chroma), light, room;
    uint64_t luminance = plain_near(max, 2126 * red + 7152 * green + 722 * blue, 10000);
    switch (model) {
    case MODEL_Bgr: plain_set_color(color, blue, green, red); break;
    case MODEL_Cmy: plain_set_color(color, max - red, max - green, max - blue); break;
    case MODEL_Gray: plain_set_color(color, luminance, 0, 0); break;
    case MODEL_Matte: plain_set_color(color, 0, 0, 0); break;
    case MODEL_Hsv: plain_set_color(color, hue, plain_quotient(max, chroma, greatest), greatest); break;
    case MODEL_Hsl:
        light = plain_less(greatest, plain_product(max, chroma, max / 2 + 1));
        room = light < max - light ? light : max - light;
        plain_set_color(color, hue, plain_quotient(max, plain_less(greatest, light), room), light);
        break;
    case MODEL_Hwb:
        light = max - plain_quotient(max, chroma, greatest);
        plain_set_color(color, hue, plain_product(max, light, greatest), max - greatest);
        break;
    case MODEL_YCbCr:
        plain_set_color(color, plain_near(max, 299 * red + 587 * green + 114 * blue, 1000),
                  plain_near(max, plain_less(500000 * max + 500000 * blue, 168736 * red + 331264 * green), 1000000),
                  plain_near(max, plain_less(500000 * max + 500000 * red, 418688 * green + 81312 * blue), 1000000));
        break;
    case MODEL_Xyz:
        plain_set_color(color, plain_near(max, 4124 * red + 3576 * green + 1805 * blue, 10000), luminance,
                  plain_near(max, 193 * red + 1192 * green + 9505 * blue, 10000));
        break;
    case MODEL_NONE: case MODEL_Rgb: break;
    }
}

/* ---- Pixels ---- */

static inline uint64_t plain_at_depth(uint64_t max, uint64_t to_max, uint64_t value) {
    return max == to_max ? value : to_max > max ? 257 * value : value / 256;
}

static inline uint64_t plain_decoded16(uint64_t level) {
    double s = (double)level / 255;
    return (uint64_t)floor(65535 * (s <= 0.04045 ? s / 12.92 : pow((s + 0.055) / 1.055, 2.4)) + 0.5);
}

static inline uint64_t plain_encoded8(uint64_t channel) {
    double l = (double)channel / 65535;
    return (uint64_t)floor(255 * (l <= 0.0031308 ? l * 12.92 : 1.055 * pow(l, 1 / 2.4) - 0.055) + 0.5);
}

static inline uint64_t plain_mode_changed(int from, int to, uint64_t max, uint64_t color, uint64_t alpha) {
    return from == to ? color : to ? plain_product(max, color, alpha) : plain_quotient(max, color, alpha);
}

/* A color at an alpha, from the modes of one format to those of another. */
static inline uint64_t plain_reencoded(const plain_stored *from, const plain_stored *to, uint64_t color, uint64_t alpha) {
    int recodes = from->is_premultiplied != to->is_premultiplied || from->is_srgb != to->is_srgb;
    if (recodes && from->is_srgb)
        color = plain_to_linear(color);
    color = plain_mode_changed(from->is_premultiplied, to->is_premultiplied, plain_max(to), color, alpha);
    return recodes && to->is_srgb ? plain_from_linear(color) : color;
}

static inline void plain_change_model(const plain_stored *from, const plain_stored *to, uint64_t max, uint64_t color[3]) {
    if (from->model != to->model) {
        plain_to_rgb(from->model, max, color);
        plain_of_rgb(to->model, max, color);
    }
}

/* From sRGB of 8 bits to 16 bits: by way of light, in the model of the source. The answer is the alpha. */
static inline uint64_t plain_decode(const plain_stored *from, const plain_stored *to, uint64_t color[3], uint64_t alpha) {
    int mode = from->is_premultiplied, to_mode = to->is_premultiplied;
    alpha = plain_at_depth(255, 65535, alpha);
    for (size_t i = 0; i < 3; i++)
        color[i] = i < plain_first(from->model)
            ? plain_at_depth(255, 65535, color[i])
            : plain_mode_changed(mode, to_mode, 65535, plain_decoded16(color[i]), alpha);
    plain_change_model(from, to, 65535, color);
    return alpha;
}

/* From 16 bits to sRGB of 8: by way of light, in the model of the target. */
static inline uint64_t plain_encode(const plain_stored *from, const plain_stored *to, uint64_t color[3], uint64_t alpha) {
    int mode = from->is_premultiplied, to_mode = to->is_premultiplied;
    plain_change_model(from, to, 65535, color);
    for (size_t i = 0; i < 3; i++)
        color[i] = i < plain_first(to->model)
            ? plain_at_depth(65535, 255, color[i])
            : plain_encoded8(plain_mode_changed(mode, to_mode, 65535, color[i], alpha));
    return plain_at_depth(65535, 255, alpha);
}

/* Between any other two: first the depth, and then each color but a hue; from model to model in red, green and blue. */
static inline uint64_t plain_converted(const plain_stored *from, const plain_stored *to, uint64_t color[3], uint64_t alpha) {
    uint64_t max = plain_max(from), to_max = plain_max(to);
    int is_within = from->model == to->model;
    alpha = is_within && !to->has_alpha ? to_max : plain_at_depth(max, to_max, alpha);
    if (!is_within)
        plain_to_rgb(from->model, max, color);
    for (size_t i = 0; i < 3; i++) {
        color[i] = plain_at_depth(max, to_max, color[i]);
        if (!is_within || i >= plain_first(to->model))
            color[i] = plain_reencoded(from, to, color[i], alpha);
    }
    if (!is_within)
        plain_of_rgb(to->model, to_max, color);
    return alpha;
}

static inline void plain_cross(const plain_stored *from, const plain_stored *to, const unsigned char *src, unsigned char *dst) {
    size_t colors = plain_colors(from->model), to_colors = plain_colors(to->model);
    uint64_t color[3] = {0, 0, 0}, alpha = from->has_alpha ? plain_sample(from, src, colors) : plain_max(from);
    for (size_t i = 0; i < colors; i++)
        color[i] = plain_sample(from, src, i);
    if (from->is_srgb && to->is_wide)
        alpha = plain_decode(from, to, color, alpha);
    else if (from->is_wide && to->is_srgb)
        alpha = plain_encode(from, to, color, alpha);
    else
        alpha = plain_converted(from, to, color, alpha);
    for (size_t i = 0; i < to_colors; i++)
        plain_set_sample(to, dst, i, color[i]);
    if (to->has_alpha || to->is_opaque)
        plain_set_sample(to, dst, to_colors, to->has_alpha ? alpha : plain_max(to));
}

#endif
