/* plain_scale.h - pictures at another size, by their definition alone: each pixel is one rounding of an exact double sum.
 * scale.c compares pix_scale with it, and other.c is made of it.
 */
#ifndef PLAIN_SCALE_H
#define PLAIN_SCALE_H

#include "plain.h"

enum { PLAIN_NEAREST, PLAIN_AREA, PLAIN_LINEAR, PLAIN_CATMULL_ROM, PLAIN_MITCHELL, PLAIN_LANCZOS, PLAIN_FILTERS };
/* What the rounded weights of a place add up to, where the plain ones have no sum of their own. */
enum { PLAIN_SCALED = 1 << 15, PLAIN_SIGNED = 1 << 14 };

/* A side of `from` places that becomes one of `to`, both divided by what divides both. */
typedef struct {
    uint32_t filter;
    int64_t from, to;
} plain_axis;

static inline plain_axis plain_axis_of(uint32_t filter, uint32_t from, uint32_t to) {
    uint32_t one = from, two = to;
    while (two) {
        const uint32_t rest = one % two;
        one = two;
        two = rest;
    }
    const plain_axis it = {filter, from / one, to / one};
    return it;
}

static inline int64_t axis_least(int64_t x, int64_t y) {
    return x < y ? x : y;
}

/* How far the center of place j is from that of the new place i: a place of `from` is 2 * to long. */
static inline int64_t axis_distance(plain_axis it, int64_t i, int64_t j) {
    const int64_t apart = (2 * j + 1) * it.to - (2 * i + 1) * it.from;
    return apart < 0 ? -apart : apart;
}

/* How far a new place reaches from its center, in those parts. */
static inline int64_t axis_reach(plain_axis it) {
    return 2 * (it.from > it.to ? it.from : it.to);
}

/* How much of the new place i lies over place j. */
static inline int64_t axis_overlap(plain_axis it, int64_t i, int64_t j) {
    const int64_t first = i * it.from > j * it.to ? i * it.from : j * it.to;
    const int64_t last = axis_least((i + 1) * it.from, (j + 1) * it.to);
    return first < last ? last - first : 0;
}

/* Whether weights may be negative. */
static inline int axis_is_signed(plain_axis it) {
    return it.filter >= PLAIN_CATMULL_ROM;
}

/* The values of Lanczos' sine of three lobes at 64ths of a place, in 2^14ths. */
static const int16_t plain_lanczos[] = {
    16384, 16377, 16355, 16318, 16267, 16202, 16122, 16028, 15921, 15799, 15664, 15515, 15354, 15179, 14993, 14794,
    14583, 14361, 14128, 13884, 13630, 13366, 13093, 12811, 12521, 12223, 11917, 11605, 11287, 10962, 10633, 10299,
    9960, 9618, 9273, 8926, 8576, 8226, 7874, 7522, 7170, 6819, 6470, 6122, 5776, 5434, 5094, 4758, 4427, 4100, 3778,
    3462, 3151, 2847, 2549, 2258, 1975, 1699, 1431, 1171, 919, 676, 442, 216, 0, -207, -405, -593, -772, -941, -1101,
    -1251, -1391, -1522, -1643, -1755, -1858, -1951, -2035, -2111, -2177, -2235, -2284, -2325, -2358, -2383, -2400,
    -2410, -2413, -2409, -2398, -2381, -2359, -2330, -2296, -2257, -2213, -2165, -2113, -2056, -1996, -1933, -1867,
    -1799, -1728, -1654, -1580, -1504, -1426, -1348, -1269, -1190, -1111, -1032, -953, -875, -798, -721, -646, -573,
    -501, -431, -362, -296, -232, -170, -111, -54, 0, 52, 100, 147, 190, 230, 268, 303, 335, 364, 390, 414, 435, 453,
    468, 481, 492, 500, 506, 509, 511, 510, 507, 503, 497, 489, 479, 469, 457, 444, 429, 414, 398, 382, 365, 347, 329,
    311, 292, 274, 256, 237, 219, 202, 184, 167, 151, 136, 121, 106, 93, 80, 68, 57, 47, 38, 30, 23, 17, 12, 7, 4, 2,
    0, 0,
};

/* A quotient, rounded to the nearest, ties up. Condition: the divisor is positive. */
static inline int64_t axis_nearest(int64_t part, int64_t of) {
    const int64_t twice = 2 * part + of;
    return twice >= 0 ? twice / (2 * of) : -((2 * of - 1 - twice) / (2 * of));
}

/* The value of a filter at k 64ths of a place, in 2^14ths: the cubics are polynomials of k. */
static inline int64_t axis_value(plain_axis it, int64_t k) {
    const int64_t one = 64 * 64 * 64;
    if (it.filter == PLAIN_LANCZOS)
        return k < 192 ? plain_lanczos[k] : 0;
    if (k >= 128)
        return 0;
    if (it.filter == PLAIN_CATMULL_ROM)
        return axis_nearest(PLAIN_SIGNED * (k < 64 ? 3 * k * k * k - 320 * k * k + 2 * one
                                                    : -k * k * k + 320 * k * k - 32768 * k + 4 * one), 2 * one);
    return axis_nearest(PLAIN_SIGNED * (k < 64 ? 21 * k * k * k - 2304 * k * k + 16 * one
                                                : -7 * k * k * k + 2304 * k * k - 245760 * k + 32 * one), 18 * one);
}

/* What place j counts for the new place i, wherever it is. */
static inline int64_t axis_weight(plain_axis it, int64_t i, int64_t j) {
    if (it.filter == PLAIN_NEAREST)
        return j == (2 * i + 1) * it.from / (2 * it.to);
    if (it.filter == PLAIN_AREA)
        return axis_overlap(it, i, j);
    return axis_reach(it) - axis_least(axis_reach(it), axis_distance(it, i, j));
}

/* Whether the weights are rounded, so that they add up to PLAIN_SCALED. */
static inline int axis_is_rounded(plain_axis it) {
    return it.filter == PLAIN_LINEAR && it.to < it.from;
}

/* What all weights of a new place add up to. */
static inline int64_t axis_whole(plain_axis it) {
    if (axis_is_signed(it))
        return PLAIN_SIGNED;
    if (axis_is_rounded(it))
        return PLAIN_SCALED;
    return it.filter == PLAIN_NEAREST ? 1 : it.filter == PLAIN_AREA ? it.from : 2 * it.to;
}

/* How many places count for a new one, at the most. */
static inline uint64_t axis_taps(plain_axis it) {
    if (axis_is_signed(it))
        return (uint64_t)(3 * axis_reach(it) / it.to + 1);
    return (uint64_t)(axis_reach(it) / it.to + 3);
}

/* Rounds the part that the weights up to each one have of all, to the nearest, ties up: a weight is the step of that. */
static inline void axis_round(int32_t *weights, int64_t count) {
    int64_t sum = 0, before = 0, mark = 0, k;
    for (k = 0; k < count; k++)
        sum += weights[k];
    for (k = 0; k < count; k++) {
        const int64_t last = mark;
        before += weights[k];
        mark = (2 * before * PLAIN_SCALED + sum) / (2 * sum);
        weights[k] = (int32_t)(mark - last);
    }
}

/* The same by weights that may be negative: those that are positive, and the others, are rounded apart, as they add up. Where a
 * side keeps its length the nearest place counts alone, and where so much is negative that it is half of the sum. */
static inline void axis_weigh_signed(plain_axis it, int64_t i, int64_t places, int32_t *row) {
    const int64_t wide = axis_reach(it) / 2, reach = it.filter == PLAIN_LANCZOS ? 6 * wide : 4 * wide;
    const int64_t count = axis_least(places, reach / it.to + 1), middle = (2 * i + 1) * it.from;
    const int64_t before = middle + it.to - reach, near = middle / (2 * it.to);
    int64_t first = axis_least(places - count, before < 0 ? 0 : before / (2 * it.to)), sums[2] = {0, 0}, marks[2] = {0, 0}, k;
    for (int turn = 0; turn < 2; turn++) {
        const int64_t whole = sums[0] - sums[1];
        if (turn && (it.from == it.to || whole <= 0 || axis_nearest(sums[1] * PLAIN_SIGNED, whole) >= 8192)) {
            first = axis_least(places - count, near);
            for (k = 0; k < count; k++)
                row[2 + k] = first + k == near ? PLAIN_SIGNED : 0;
            break;
        }
        sums[0] = sums[1] = 0;
        for (k = 0; k < count; k++) {
            const int64_t apart = axis_least(axis_distance(it, i, first + k), 8 * wide) * 32768 / wide, part = apart % 1024;
            const int64_t value = axis_value(it, apart / 1024) * (1024 - part) + axis_value(it, apart / 1024 + 1) * part;
            sums[value < 0] += value < 0 ? -value : value;
            if (turn) {
                const int64_t plus = axis_nearest(sums[0] * PLAIN_SIGNED, whole), minus = axis_nearest(sums[1] * PLAIN_SIGNED, whole);
                row[2 + k] = (int32_t)(plus - marks[0] - (minus - marks[1]));
                marks[0] = plus;
                marks[1] = minus;
            }
        }
    }
    row[0] = (int32_t)first;
    row[1] = (int32_t)count;
}

/* Writes what counts for the new place i: the first of the places, how many there are, and the weight of each. A place
 * beyond an edge counts for the edge where pictures grow; where they shrink it does not count. */
static inline void axis_weigh(plain_axis it, int64_t i, int64_t places, int32_t *row) {
    const int64_t low = ((2 * i + 1) * it.from - axis_reach(it)) / (2 * it.to) - 1;
    const int64_t high = low + (int64_t)axis_taps(it), first = low < 0 ? 0 : low, last = axis_least(high, places) - 1;
    int64_t j;
    if (axis_is_signed(it)) {
        axis_weigh_signed(it, i, places, row);
        return;
    }
    for (j = first; j <= last; j++)
        row[2 + j - first] = 0;
    for (j = low; j < high; j++) {
        const int64_t held = j < 0 ? 0 : axis_least(j, places - 1);
        if (held == j || it.to >= it.from)
            row[2 + held - first] += (int32_t)axis_weight(it, i, j);
    }
    row[0] = (int32_t)first;
    row[1] = (int32_t)(last + 1 - first);
    if (axis_is_rounded(it))
        axis_round(row + 2, row[1]);
}

/* The double sum of a channel, by the weights of a column and of a row of places. */
static inline int64_t scaled_sum(const plain_kind *kind, const plain_rows *from, const int32_t *column, const int32_t *row,
                                size_t channel) {
    const size_t size = kind->bytes * kind->channels;
    int64_t sum = 0;
    for (int32_t v = 0; v < row[1]; v++)
        for (int32_t u = 0; u < column[1]; u++) {
            const uint64_t at = (uint64_t)(row[0] + v) * from->stride + (uint64_t)(column[0] + u);
            sum += (int64_t)row[2 + v] * column[2 + u] * (int64_t)plain_channel(kind, from->bytes + at * size, channel);
        }
    return sum;
}

/* A picture that is scaled: its window, the corner of that in the whole new picture, and both sides of that. */
typedef struct {
    plain_kind kind;
    plain_rows to, from;
    uint32_t left, top, across, down, filter;
} plain_scaling;

static inline plain_axis scaled_across(const plain_scaling *it) {
    return plain_axis_of(it->filter, (uint32_t)it->from.width, it->across);
}

static inline plain_axis scaled_down(const plain_scaling *it) {
    return plain_axis_of(it->filter, (uint32_t)it->from.height, it->down);
}

/* How many words plain_scale takes: what counts for each column of the window, and for a row. */
static inline uint64_t plain_scale_words(const plain_scaling *it) {
    return it->to.width * (axis_taps(scaled_across(it)) + 2) + axis_taps(scaled_down(it)) + 2;
}

/* A channel of a sum, rounded to the nearest, ties up, and cut at 0 and at a limit. */
static inline uint64_t scaled_channel(int64_t sum, uint64_t whole, uint64_t limit) {
    const uint64_t channel = sum < 0 ? 0 : (2 * (uint64_t)sum + whole) / (2 * whole);
    return channel < limit ? channel : limit;
}

/* Writes the window. Each channel is its sum over the whole, rounded to the nearest, ties up. Where weights may be negative it
 * is cut, and colors at the new alpha. */
static inline void plain_scale(const plain_scaling *it, int32_t *work) {
    const plain_axis across = scaled_across(it), down = scaled_down(it);
    const uint64_t apart = axis_taps(across) + 2, whole = (uint64_t)(axis_whole(across) * axis_whole(down));
    const size_t size = it->kind.bytes * it->kind.channels;
    int32_t *row = work + it->to.width * apart;
    for (uint64_t x = 0; x < it->to.width; x++)
        axis_weigh(across, (int64_t)(it->left + x), (int64_t)it->from.width, work + x * apart);
    for (uint64_t y = 0; it->to.width && y < it->to.height; y++) {
        axis_weigh(down, (int64_t)(it->top + y), (int64_t)it->from.height, row);
        for (uint64_t x = 0; x < it->to.width; x++) {
            uint64_t limit = it->kind.max;
            for (size_t c = it->kind.channels; c-- > 0;) {
                const int64_t sum = scaled_sum(&it->kind, &it->from, work + x * apart, row, c);
                const uint64_t channel = scaled_channel(sum, whole, limit);
                plain_set_channel(&it->kind, it->to.bytes + (y * it->to.stride + x) * size, c, channel);
                if (c + 1 == it->kind.channels && axis_is_signed(across))
                    limit = channel;
            }
        }
    }
}

/* A table of the caller's own: for each place of a new side the first of the places that count, and so many weights. */
typedef struct {
    const uint32_t *firsts;
    const int32_t *weights;
    uint64_t count;
    uint32_t taps;
} plain_weights;

/* Whether each row of a table lies in so many places, adds up, and has few weights below 0. */
static inline int plain_is_whole(plain_weights it, uint64_t places) {
    int is_whole = it.taps <= places;
    for (uint64_t i = 0; is_whole && i < it.count; i++) {
        int64_t sum = 0, below = 0;
        for (uint64_t k = i * it.taps; k < (i + 1) * it.taps; k++) {
            sum += it.weights[k];
            below += it.weights[k] < 0 ? it.weights[k] : 0;
        }
        is_whole = (uint64_t)it.firsts[i] + it.taps <= places && sum == PLAIN_SIGNED && below > -PLAIN_SIGNED / 2;
    }
    return is_whole;
}

/* How many words the library takes for it: what weights add and take away, and two rows of the source. */
static inline uint64_t plain_by_words(const plain_kind *kind, uint64_t width, uint64_t height, uint64_t places, uint32_t taps,
                                      uint32_t row_taps) {
    return 2 * (width * taps + height * row_taps + places * kind->channels);
}

/* Writes a picture by two tables, as plain_scale does by weights that may be negative. */
static inline void plain_scale_by(const plain_kind *kind, plain_rows to, plain_rows from, plain_weights across,
                                  plain_weights down) {
    const size_t size = kind->bytes * kind->channels;
    for (uint64_t i = 0; i < across.count * down.count; i++) {
        const uint64_t x = i % across.count, y = i / across.count;
        uint64_t limit = kind->max;
        for (size_t c = kind->channels; c-- > 0;) {
            int64_t sum = 0;
            for (uint32_t v = 0; v < down.taps; v++)
                for (uint32_t u = 0; u < across.taps; u++) {
                    const uint64_t at = (uint64_t)(down.firsts[y] + v) * from.stride + across.firsts[x] + u;
                    sum += (int64_t)down.weights[y * down.taps + v] * across.weights[x * across.taps + u]
                           * (int64_t)plain_channel(kind, from.bytes + at * size, c);
                }
            const uint64_t channel = scaled_channel(sum, (uint64_t)PLAIN_SIGNED * PLAIN_SIGNED, limit);
            plain_set_channel(kind, to.bytes + (y * to.stride + x) * size, c, channel);
            if (c + 1 == kind->channels)
                limit = channel;
        }
    }
}

#endif
