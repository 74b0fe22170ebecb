/* Tables of colors and images of indices by plain loops, which the tests compare the calls with. */
#ifndef PIX_INDEXED_H
#define PIX_INDEXED_H
#include "pix.h"
#include <stdlib.h>
#include <string.h>

static inline int plain_square(int x) {
    return x * x;
}

static inline int plain_distance(pix_srgb8 p, pix_srgb8 q) {
    return plain_square(p.r - q.r) + plain_square(p.g - q.g) + plain_square(p.b - q.b);
}

/* The nearest entry, by all of them. */
static inline uint8_t plain_nearest(const pix_srgb8 *entries, size_t len, pix_srgb8 color) {
    size_t at = 0, i;
    for (i = 1; i < len; i++)
        if (plain_distance(entries[i], color) < plain_distance(entries[at], color))
            at = i;
    return (uint8_t)at;
}

static inline int plain_apart(int x, int y) {
    return x < y ? y - x : x - y;
}

/* Whether two colors differ by no more than this in each channel. */
static inline int plain_within(pix_srgb8 p, pix_srgb8 q, int red, int green, int blue) {
    return plain_apart(p.r, q.r) <= red && plain_apart(p.g, q.g) <= green && plain_apart(p.b, q.b) <= blue;
}

/* Sets a color in a table: writes its index, and answers whether it has one. */
static inline int plain_set(pix_srgb8 *entries, size_t len, size_t *used, pix_srgb8 threshold, pix_srgb8 color, uint8_t *index) {
    size_t at = 0, i;
    for (i = 1; i < *used; i++) {
        int red = plain_apart(entries[at].r, color.r), green = plain_apart(entries[at].g, color.g);
        int blue = plain_apart(entries[at].b, color.b);
        int equal = plain_apart(entries[i].r, color.r) == red && plain_apart(entries[i].g, color.g) == green
                    && plain_apart(entries[i].b, color.b) == blue;
        if (plain_within(entries[i], color, red, green, blue) && !equal)
            at = i;
    }
    if (!*used || !plain_within(entries[at], color, threshold.r, threshold.g, threshold.b)) {
        if (*used == len)
            return 0;
        at = (*used)++;
        entries[at] = color;
    }
    *index = (uint8_t)at;
    return 1;
}

/* Sets the colors of pixels; answers how many were set before the first that has no index. */
static inline size_t plain_index(pix_srgb8 *entries, size_t len, size_t *used, pix_srgb8 threshold, const pix_srgb8 *pixels,
                                 size_t count, uint8_t *indices) {
    size_t i;
    for (i = 0; i < count; i++)
        if (!plain_set(entries, len, used, threshold, pixels[i], &indices[i]))
            break;
    return i;
}

static inline unsigned plain_number(pix_srgb8 color, int channel) {
    return channel == 0 ? color.r : channel == 1 ? color.g : color.b;
}

/* A box of colors, and its cut that lowers the squared error most: where the numbers of a channel are below a value, and by
 * how much. The channel is 3 where all of its colors are the same, so that there is no cut. */
typedef struct plain_box {
    pix_srgb8 *colors;
    size_t count;
    int channel;
    unsigned value;
    uint64_t gain;
} plain_box;

/* How many colors of a box have a number from `from` to `to` in a channel, and their weight: the part of the sum of their
 * squares that their mean accounts for, rounded down. For no more than eight million colors. */
static inline size_t plain_weight(const plain_box *box, int channel, unsigned from, unsigned to, uint64_t *weight) {
    uint64_t sums[3] = {0, 0, 0};
    size_t count = 0, i;
    int k;
    for (i = 0; i < box->count; i++)
        if (from <= plain_number(box->colors[i], channel) && plain_number(box->colors[i], channel) <= to) {
            count++;
            for (k = 0; k < 3; k++)
                sums[k] += plain_number(box->colors[i], k);
        }
    *weight = count ? (sums[0] * sums[0] + sums[1] * sums[1] + sums[2] * sums[2]) / count : 0;
    return count;
}

/* Compares the cut of a box at a value of a channel with the best one so far. */
static inline void plain_try(plain_box *box, int channel, unsigned value, uint64_t whole) {
    uint64_t low, high;
    const size_t below = plain_weight(box, channel, 0, value - 1, &low);
    const size_t others = plain_weight(box, channel, value, 255, &high);
    const uint64_t gain = low + high > whole ? low + high - whole : 0;
    if (below && others && (box->channel == 3 || gain > box->gain)) {
        box->channel = channel;
        box->value = value;
        box->gain = gain;
    }
}

/* The box of these colors, with its best cut, the first of equals. Only values that come right after that of a color are tried:
 * another one parts the box as the last of them does. */
static inline plain_box plain_box_of(pix_srgb8 *colors, size_t count) {
    plain_box box = {colors, count, 3, 0, 0};
    uint64_t whole;
    unsigned value;
    size_t i;
    int channel;
    plain_weight(&box, 0, 0, 255, &whole);
    for (channel = 0; channel < 3; channel++) {
        char comes_after[257] = {0};
        for (i = 0; i < count; i++)
            comes_after[plain_number(colors[i], channel) + 1] = 1;
        for (value = 1; value <= 255; value++)
            if (comes_after[value])
                plain_try(&box, channel, value, whole);
    }
    return box;
}

/* Puts the colors that are below the cut of a box before its others; answers how many they are. */
static inline size_t plain_part(const plain_box *box) {
    size_t low = 0, i;
    for (i = 0; i < box->count; i++)
        if (plain_number(box->colors[i], box->channel) < box->value) {
            const pix_srgb8 color = box->colors[i];
            box->colors[i] = box->colors[low];
            box->colors[low++] = color;
        }
    return low;
}

/* How many colors a box has, and the sums of their numbers. */
typedef struct plain_sums {
    uint64_t count, sums[3];
} plain_sums;

static inline plain_sums plain_sums_of(const plain_box *box) {
    plain_sums all = {0, {0, 0, 0}};
    int k;
    for (; all.count < box->count; all.count++)
        for (k = 0; k < 3; k++)
            all.sums[k] += plain_number(box->colors[all.count], k);
    return all;
}

static inline plain_sums plain_both(plain_sums p, plain_sums q) {
    int k;
    p.count += q.count;
    for (k = 0; k < 3; k++)
        p.sums[k] += q.sums[k];
    return p;
}

static inline uint64_t plain_weight_of(plain_sums it) {
    return (it.sums[0] * it.sums[0] + it.sums[1] * it.sums[1] + it.sums[2] * it.sums[2]) / it.count;
}

/* By how much the squared error rises where two boxes become one. */
static inline uint64_t plain_cost(plain_sums p, plain_sums q) {
    const uint64_t apart = plain_weight_of(p) + plain_weight_of(q), both = plain_weight_of(plain_both(p, q));
    return apart > both ? apart - both : 0;
}

/* Joins boxes until there is room: of all pairs that of least cost, the first of equals. One stands where the first of both
 * stood. Answers how many there are. */
static inline size_t plain_join(plain_sums *boxes, size_t used, size_t room) {
    while (used > room) {
        size_t i, j, first = 0, second = 1;
        uint64_t least = plain_cost(boxes[0], boxes[1]);
        for (i = 0; i < used; i++)
            for (j = i + 1; j < used; j++)
                if (plain_cost(boxes[i], boxes[j]) < least) {
                    first = i;
                    second = j;
                    least = plain_cost(boxes[i], boxes[j]);
                }
        boxes[first] = plain_both(boxes[first], boxes[second]);
        for (used--; second < used; second++)
            boxes[second] = boxes[second + 1];
    }
    return used;
}

static inline uint8_t plain_mean(plain_sums it, int channel) {
    return (uint8_t)((2 * it.sums[channel] + it.count) / (2 * it.count));
}

/* How many boxes are cut for so many entries: twice as many, but at most 64 more. */
static inline size_t plain_more(size_t room) {
    return room + (room < 64 ? room : 64);
}

/* The means of at most so many boxes. First more are cut: each time that box whose cut lowers the squared error most, the first of
 * equals, and its parts stand where it stood. Then boxes are joined. */
static inline size_t plain_cut(pix_srgb8 *colors, size_t count, pix_srgb8 *entries, size_t room) {
    plain_box boxes[256 + 64];
    plain_sums sums[256 + 64];
    size_t used = 1, i;
    boxes[0] = plain_box_of(colors, count);
    while (used < plain_more(room)) {
        size_t at = used, low;
        plain_box cut;
        for (i = 0; i < used; i++)
            if (boxes[i].channel < 3 && (at == used || boxes[i].gain > boxes[at].gain))
                at = i;
        if (at == used)
            break;
        cut = boxes[at];
        low = plain_part(&cut);
        for (i = used++; i > at + 1; i--)
            boxes[i] = boxes[i - 1];
        boxes[at] = plain_box_of(cut.colors, low);
        boxes[at + 1] = plain_box_of(cut.colors + low, cut.count - low);
    }
    for (i = 0; i < used; i++)
        sums[i] = plain_sums_of(&boxes[i]);
    used = plain_join(sums, used, room);
    for (i = 0; i < used; i++) {
        entries[i].r = plain_mean(sums[i], 0);
        entries[i].g = plain_mean(sums[i], 1);
        entries[i].b = plain_mean(sums[i], 2);
    }
    return used;
}

/* Whether all colors are grays. */
static inline int plain_grays(const pix_srgb8 *colors, size_t count) {
    size_t i;
    for (i = 0; i < count && colors[i].g == colors[i].r && colors[i].b == colors[i].r; i++) {
    }
    return i == count;
}

/* The squared error of the levels from one up to another, of so many colors each, in one channel, where all are shown by their
 * mean, and that mean. */
static inline uint64_t plain_span(const uint64_t *counts, size_t low, size_t high, uint8_t *mean) {
    uint64_t count = 0, sum = 0, error = 0;
    size_t v;
    for (v = low; v < high; v++) {
        count += counts[v];
        sum += counts[v] * v;
    }
    *mean = (uint8_t)(count ? (2 * sum + count) / (2 * count) : low);
    for (v = low; v < high; v++)
        error += counts[v] * (v > *mean ? v - *mean : *mean - v) * (v > *mean ? v - *mean : *mean - v);
    return error;
}

/* A table of grays with the least squared error: the levels are split in every way, by one more entry each time. */
static inline size_t plain_gray_table(const pix_srgb8 *colors, size_t count, pix_srgb8 *entries, size_t room) {
    static uint64_t errors[256][257], spans[256][257];
    static size_t begins[256][257];
    uint64_t counts[256] = {0};
    uint8_t mean;
    size_t i, k, low, high, used = 0;
    for (i = 0; i < count; i++)
        counts[colors[i].r]++;
    for (low = 0; low < 256; low++)
        for (high = low + 1; high <= 256; high++)
            spans[low][high] = plain_span(counts, low, high, &mean);
    for (k = 0; k < room; k++)
        for (high = 1; high <= 256; high++) {
            errors[k][high] = spans[0][high];
            begins[k][high] = 0;
            for (low = 1; k && low < high; low++)
                if (errors[k - 1][low] + spans[low][high] < errors[k][high]) {
                    errors[k][high] = errors[k - 1][low] + spans[low][high];
                    begins[k][high] = low;
                }
        }
    for (high = 256, k = room; high; high = low) {
        low = begins[--k][high];
        plain_span(counts, low, high, &mean);
        entries[used].r = entries[used].g = entries[used].b = mean;
        used++;
    }
    return used;
}

/* The table of colors: the distinct ones in order of first place, where there is room; of grays one with the least squared error;
 * or else the means of boxes. */
static inline size_t plain_table(const pix_srgb8 *colors, size_t count, pix_srgb8 *entries, size_t room) {
    pix_srgb8 *copy;
    size_t used = 0, i, j;
    for (i = 0; i < count; i++) {
        for (j = 0; j < used && plain_distance(entries[j], colors[i]); j++) {
        }
        if (j < used)
            continue;
        if (used == room)
            break;
        entries[used++] = colors[i];
    }
    if (i == count)
        return used;
    if (plain_grays(colors, count))
        return plain_gray_table(colors, count, entries, room);
    copy = (pix_srgb8 *)malloc(count * sizeof *copy);
    if (!copy)
        abort();
    memcpy(copy, colors, count * sizeof *copy);
    used = plain_cut(copy, count, entries, room);
    free(copy);
    return used;
}

/* Moves each entry to the mean of the colors to which it is the nearest. One without colors stays. */
static inline void plain_round(const pix_srgb8 *colors, size_t count, pix_srgb8 *entries, size_t used) {
    size_t sums[256][4] = {{0}}, i;
    for (i = 0; i < count; i++) {
        size_t *to = sums[plain_nearest(entries, used, colors[i])];
        to[0] += colors[i].r;
        to[1] += colors[i].g;
        to[2] += colors[i].b;
        to[3]++;
    }
    for (i = 0; i < used; i++) {
        const size_t n = sums[i][3];
        if (!n)
            continue;
        entries[i].r = (uint8_t)((2 * sums[i][0] + n) / (2 * n));
        entries[i].g = (uint8_t)((2 * sums[i][1] + n) / (2 * n));
        entries[i].b = (uint8_t)((2 * sums[i][2] + n) / (2 * n));
    }
}

/* The table of colors after so many rounds, which leave distinct colors and tables of grays as they are. */
static inline size_t plain_refined(const pix_srgb8 *colors, size_t count, pix_srgb8 *entries, size_t room, unsigned rounds) {
    const size_t used = plain_table(colors, count, entries, room);
    while (rounds-- && !plain_grays(colors, count))
        plain_round(colors, count, entries, used);
    return used;
}

/* The sum of the squared errors of colors that are shown by their nearest entries. */
static inline uint64_t plain_error(const pix_srgb8 *entries, size_t used, const pix_srgb8 *colors, size_t count) {
    uint64_t error = 0;
    size_t i;
    for (i = 0; i < count; i++)
        error += (uint64_t)plain_distance(entries[plain_nearest(entries, used, colors[i])], colors[i]);
    return error;
}

/* Hands on a part of an error, where the pixel is there. The numbers are red, green, blue and, of pixels that are seen, alpha. */
static inline void plain_hand(int (*errors)[4], size_t count, size_t width, size_t from, long across, size_t down, int weight,
                              const int *error) {
    long column = (long)(from % width) + across;
    size_t to = (from / width + down) * width + (size_t)column;
    int channel;
    if (column < 0 || column >= (long)width || to >= count)
        return;
    for (channel = 0; channel < 4; channel++)
        errors[to][channel] += weight * error[channel];
}

/* Hands on an error from a pixel in a row that goes to the right, where `ahead` is 1, or to the left, where it is -1. */
static inline void plain_hand_all(int (*errors)[4], size_t count, size_t width, size_t from, long ahead, const int *error) {
    plain_hand(errors, count, width, from, ahead, 0, 7, error);
    plain_hand(errors, count, width, from, -ahead, 1, 3, error);
    plain_hand(errors, count, width, from, 0, 1, 5, error);
    plain_hand(errors, count, width, from, ahead, 1, 1, error);
}

/* The place of a step in the order in which pixels are done, and which way its row goes. */
static inline size_t plain_place(size_t step, size_t width, int serpentine, long *ahead) {
    *ahead = serpentine && step / width % 2 ? -1 : 1;
    return *ahead == 1 ? step : step - step % width + (width - 1 - step % width);
}

static inline uint8_t plain_corrected(int number, int sixteenths, int strength) {
    int sum = 256 * number + 128 + strength * sixteenths;
    return (uint8_t)(sum < 0 ? 0 : sum / 256 > 255 ? 255 : sum / 256);
}

/* The widest step from a level of a channel to the next, of levels that are marked. */
static inline int plain_widest(const uint8_t *is_level) {
    int level, last = -1, widest = 0;
    for (level = 0; level < 256; level++)
        if (is_level[level]) {
            if (last >= 0 && level - last > widest)
                widest = level - last;
            last = level;
        }
    return widest;
}

/* The greatest error that is handed on, for the levels of four channels: half of the widest step, rounded up, but at least 24. */
static inline int plain_bound(uint8_t is_level[4][256]) {
    int channel, bound = 24;
    for (channel = 0; channel < 4; channel++) {
        const int half = (plain_widest(is_level[channel]) + 1) / 2;
        bound = half > bound ? half : bound;
    }
    return bound;
}

/* What is handed on of an error: at most the bound either way, so that no color that is looked up is further from its pixel. */
static inline int plain_bounded(int error, int bound) {
    return error < -bound ? -bound : error > bound ? bound : error;
}

/* Indices by error diffusion: each pixel hands its error on to those that come after it, within a bound. */
static inline void plain_diffuse(const pix_srgb8 *entries, size_t len, const pix_srgba8 *pixels, size_t count, size_t width,
                                 uint8_t alpha, uint8_t transparent_index, pix_diffusion how, uint8_t *indices) {
    int(*errors)[4] = (int(*)[4])calloc(count + 1, sizeof *errors);
    uint8_t is_level[4][256] = {{0}};
    size_t step, i;
    int bound;
    if (!errors)
        abort();
    for (i = 0; i < len; i++)
        is_level[0][entries[i].r] = is_level[1][entries[i].g] = is_level[2][entries[i].b] = 1;
    bound = plain_bound(is_level);
    for (step = 0; step < count; step++) {
        long ahead;
        const size_t k = plain_place(step, width, how.serpentine, &ahead);
        pix_srgb8 wanted;
        int error[4] = {0, 0, 0, 0};
        if (pixels[k].a < alpha) {
            indices[k] = transparent_index;
            continue;
        }
        wanted.r = plain_corrected(pixels[k].r, errors[k][0], how.strength);
        wanted.g = plain_corrected(pixels[k].g, errors[k][1], how.strength);
        wanted.b = plain_corrected(pixels[k].b, errors[k][2], how.strength);
        indices[k] = plain_nearest(entries, len, wanted);
        error[0] = plain_bounded(wanted.r - entries[indices[k]].r, bound);
        error[1] = plain_bounded(wanted.g - entries[indices[k]].g, bound);
        error[2] = plain_bounded(wanted.b - entries[indices[k]].b, bound);
        plain_hand_all(errors, count, width, k, ahead, error);
    }
    free(errors);
}

#endif
