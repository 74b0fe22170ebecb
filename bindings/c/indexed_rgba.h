/* Tables of colors with an alpha by plain loops, which the tests compare the calls with. */
#ifndef PIX_INDEXED_RGBA_H
#define PIX_INDEXED_RGBA_H
#include "indexed.h"

/* A pixel as it is seen: over black, over white, and how much of it. */
typedef struct plain_seen {
    pix_srgb8 black, white;
    uint8_t a;
} plain_seen;

static inline plain_seen plain_seen_of(pix_srgb8 black, uint8_t a) {
    plain_seen it;
    it.black = black;
    it.white.r = (uint8_t)(black.r + 255 - a);
    it.white.g = (uint8_t)(black.g + 255 - a);
    it.white.b = (uint8_t)(black.b + 255 - a);
    it.a = a;
    return it;
}

static inline plain_seen plain_see(pix_srgba8 pixel) {
    pix_srgb8 black;
    black.r = (uint8_t)((pixel.r * pixel.a + 127) / 255);
    black.g = (uint8_t)((pixel.g * pixel.a + 127) / 255);
    black.b = (uint8_t)((pixel.b * pixel.a + 127) / 255);
    return plain_seen_of(black, pixel.a);
}

/* A number that is divided by an alpha, to the nearest, a half up. */
static inline uint8_t plain_divided(int number, int alpha) {
    return (uint8_t)(alpha ? (255 * number + alpha / 2) / alpha : 0);
}

static inline pix_srgba8 plain_straight(plain_seen it) {
    pix_srgba8 pixel;
    pixel.r = plain_divided(it.black.r, it.a);
    pixel.g = plain_divided(it.black.g, it.a);
    pixel.b = plain_divided(it.black.b, it.a);
    pixel.a = it.a;
    return pixel;
}

static inline int plain_seen_distance(plain_seen p, plain_seen q) {
    return plain_distance(p.black, q.black) + plain_distance(p.white, q.white);
}

static inline uint8_t plain_seen_nearest(const plain_seen *entries, size_t len, plain_seen color) {
    size_t at = 0, i;
    for (i = 1; i < len; i++)
        if (plain_seen_distance(entries[i], color) < plain_seen_distance(entries[at], color))
            at = i;
    return (uint8_t)at;
}

static inline unsigned plain_seen_number(plain_seen it, int channel) {
    return channel == 3 ? it.a : plain_number(it.black, channel);
}

/* A box of colors and its best cut, as plain_box. The channel is 4 where there is no cut. */
typedef struct plain_seen_box {
    plain_seen *colors;
    size_t count;
    int channel;
    unsigned value;
    uint64_t gain;
} plain_seen_box;

/* How many colors of a box have a number from `from` to `to` in a channel, and their weight over black and over white. */
static inline size_t plain_seen_weight(const plain_seen_box *box, int channel, unsigned from, unsigned to, uint64_t *weight) {
    uint64_t black[3] = {0, 0, 0}, white[3] = {0, 0, 0};
    size_t count = 0, i;
    int k;
    for (i = 0; i < box->count; i++) {
        const unsigned number = plain_seen_number(box->colors[i], channel);
        if (number < from || number > to)
            continue;
        count++;
        for (k = 0; k < 3; k++) {
            black[k] += plain_number(box->colors[i].black, k);
            white[k] += plain_number(box->colors[i].white, k);
        }
    }
    *weight = 0;
    if (count) {
        *weight += (black[0] * black[0] + black[1] * black[1] + black[2] * black[2]) / count;
        *weight += (white[0] * white[0] + white[1] * white[1] + white[2] * white[2]) / count;
    }
    return count;
}

/* The box of these colors, with its best cut, the first of equals. Only values that a color has are tried: another one parts the
 * box as the next of them does. */
static inline plain_seen_box plain_seen_box_of(plain_seen *colors, size_t count) {
    plain_seen_box box;
    uint64_t whole, low, high;
    unsigned value;
    size_t i;
    int channel;
    box.colors = colors;
    box.count = count;
    box.channel = 4;
    box.value = 0;
    box.gain = 0;
    plain_seen_weight(&box, 0, 0, 255, &whole);
    for (channel = 0; channel < 4; channel++) {
        char stands[256] = {0};
        for (i = 0; i < count; i++)
            stands[plain_seen_number(colors[i], channel)] = 1;
        for (value = 1; value <= 255; value++)
            if (stands[value]) {
                const size_t below = plain_seen_weight(&box, channel, 0, value - 1, &low);
                uint64_t gain;
                plain_seen_weight(&box, channel, value, 255, &high);
                gain = low + high > whole ? low + high - whole : 0;
                if (below && (box.channel == 4 || gain > box.gain)) {
                    box.channel = channel;
                    box.value = value;
                    box.gain = gain;
                }
            }
    }
    return box;
}

static inline uint8_t plain_seen_mean_in(const plain_seen *colors, size_t count, int channel) {
    size_t sum = 0, i;
    for (i = 0; i < count; i++)
        sum += plain_seen_number(colors[i], channel);
    return (uint8_t)((2 * sum + count) / (2 * count));
}

static inline plain_seen plain_seen_mean(const plain_seen *colors, size_t count) {
    pix_srgb8 black;
    black.r = plain_seen_mean_in(colors, count, 0);
    black.g = plain_seen_mean_in(colors, count, 1);
    black.b = plain_seen_mean_in(colors, count, 2);
    return plain_seen_of(black, plain_seen_mean_in(colors, count, 3));
}

/* Puts the colors below the cut of a box before its others, and leaves the order of both as it was. */
static inline size_t plain_seen_part(const plain_seen_box *box) {
    plain_seen *copy = (plain_seen *)malloc(box->count * sizeof *copy);
    size_t low = 0, high = 0, i;
    if (!copy)
        abort();
    for (i = 0; i < box->count; i++)
        if (plain_seen_number(box->colors[i], box->channel) < box->value)
            box->colors[low++] = box->colors[i];
        else
            copy[high++] = box->colors[i];
    memcpy(box->colors + low, copy, high * sizeof *copy);
    free(copy);
    return low;
}

/* A box to be joined: its colors, in a block of its own, and their weight. */
typedef struct plain_seen_group {
    plain_seen *colors;
    size_t count;
    uint64_t weight;
} plain_seen_group;

static inline plain_seen_group plain_seen_group_of(const plain_seen *p, size_t p_count, const plain_seen *q, size_t q_count) {
    plain_seen_group it;
    plain_seen_box box;
    it.count = p_count + q_count;
    it.colors = (plain_seen *)malloc(it.count * sizeof *it.colors);
    if (!it.colors)
        abort();
    memcpy(it.colors, p, p_count * sizeof *p);
    if (q_count)
        memcpy(it.colors + p_count, q, q_count * sizeof *q);
    box.colors = it.colors;
    box.count = it.count;
    plain_seen_weight(&box, 0, 0, 255, &it.weight);
    return it;
}

/* By how much the squared error rises where two boxes become one. */
static inline uint64_t plain_seen_cost(const plain_seen_group *p, const plain_seen_group *q) {
    const plain_seen_group both = plain_seen_group_of(p->colors, p->count, q->colors, q->count);
    const uint64_t apart = p->weight + q->weight;
    free(both.colors);
    return apart > both.weight ? apart - both.weight : 0;
}

/* Joins boxes until there is room, as plain_join. The costs of all pairs are kept. */
static inline size_t plain_seen_join(plain_seen_group *boxes, size_t used, size_t room) {
    enum { MOST = 256 + 64 };
    static uint64_t costs[MOST][MOST];
    size_t i, j;
    for (i = 0; i < used; i++)
        for (j = i + 1; j < used; j++)
            costs[i][j] = plain_seen_cost(&boxes[i], &boxes[j]);
    while (used > room) {
        size_t first = 0, second = 1;
        plain_seen_group both;
        for (i = 0; i < used; i++)
            for (j = i + 1; j < used; j++)
                if (costs[i][j] < costs[first][second]) {
                    first = i;
                    second = j;
                }
        both = plain_seen_group_of(boxes[first].colors, boxes[first].count, boxes[second].colors, boxes[second].count);
        free(boxes[first].colors);
        free(boxes[second].colors);
        boxes[first] = both;
        used--;
        for (i = second; i < used; i++)
            boxes[i] = boxes[i + 1];
        for (i = 0; i < used; i++)
            for (j = i + 1; j < used; j++)
                if (i == first || j == first)
                    costs[i][j] = plain_seen_cost(&boxes[i], &boxes[j]);
                else
                    costs[i][j] = costs[i + (i >= second)][j + (j >= second)];
    }
    return used;
}

/* The means of at most so many boxes, as plain_cut. */
static inline size_t plain_seen_cut(plain_seen *colors, size_t count, plain_seen *entries, size_t room) {
    plain_seen_box boxes[256 + 64];
    plain_seen_group groups[256 + 64];
    size_t used = 1, i;
    boxes[0] = plain_seen_box_of(colors, count);
    while (used < plain_more(room)) {
        size_t at = used, low;
        plain_seen_box cut;
        for (i = used; i-- > 0;)
            if (boxes[i].channel < 4 && (at == used || boxes[i].gain >= boxes[at].gain))
                at = i;
        if (at == used)
            break;
        cut = boxes[at];
        low = plain_seen_part(&cut);
        for (i = used++; i > at + 1; i--)
            boxes[i] = boxes[i - 1];
        boxes[at] = plain_seen_box_of(cut.colors, low);
        boxes[at + 1] = plain_seen_box_of(cut.colors + low, cut.count - low);
    }
    for (i = 0; i < used; i++)
        groups[i] = plain_seen_group_of(boxes[i].colors, boxes[i].count, NULL, 0);
    used = plain_seen_join(groups, used, room);
    for (i = 0; i < used; i++) {
        entries[i] = plain_seen_mean(groups[i].colors, groups[i].count);
        free(groups[i].colors);
    }
    return used;
}

static inline uint64_t plain_seen_error_to(plain_seen entry, const plain_seen *colors, size_t count) {
    uint64_t error = 0;
    size_t i;
    for (i = 0; i < count; i++)
        error += (uint64_t)plain_seen_distance(entry, colors[i]);
    return error;
}

/* Moves each entry to the mean of the colors to which it is seen nearest, where that makes their squared error no greater. */
static inline void plain_seen_round(const plain_seen *colors, size_t count, plain_seen *entries, size_t used) {
    plain_seen before[256], *group = (plain_seen *)malloc((count + 1) * sizeof *group);
    size_t i, k;
    if (!group)
        abort();
    memcpy(before, entries, used * sizeof *before);
    for (i = 0; i < used; i++) {
        size_t many = 0;
        plain_seen mean;
        for (k = 0; k < count; k++)
            if (plain_seen_nearest(before, used, colors[k]) == i)
                group[many++] = colors[k];
        if (!many)
            continue;
        mean = plain_seen_mean(group, many);
        if (plain_seen_error_to(mean, group, many) <= plain_seen_error_to(before[i], group, many))
            entries[i] = mean;
    }
    free(group);
}

/* An entry after all rounds: opaque, where its alpha is at least 250 and more than half of the colors are opaque to which it is seen
 * nearest. */
static inline plain_seen plain_seen_last(const plain_seen *colors, size_t count, const plain_seen *entries, size_t used, size_t i) {
    const plain_seen entry = entries[i];
    const pix_srgba8 color = plain_straight(entry);
    pix_srgb8 opaque;
    size_t more = 0, less = 0, k;
    for (k = 0; k < count; k++)
        if (plain_seen_nearest(entries, used, colors[k]) == i)
            ++*(colors[k].a == 255 ? &more : &less);
    opaque.r = color.r;
    opaque.g = color.g;
    opaque.b = color.b;
    return entry.a >= 250 && more > less ? plain_seen_of(opaque, 255) : entry;
}

/* The sum of the squared errors of colors that are shown by the entries that are seen nearest. */
static inline uint64_t plain_seen_error(const plain_seen *entries, size_t used, const plain_seen *colors, size_t count) {
    uint64_t error = 0;
    size_t i;
    for (i = 0; i < count; i++)
        error += (uint64_t)plain_seen_distance(entries[plain_seen_nearest(entries, used, colors[i])], colors[i]);
    return error;
}

/* The pixels that are seen as none before them, in order, where there is room for all. Answers whether there is. */
static inline int plain_seen_distinct(const pix_srgba8 *pixels, size_t count, pix_srgba8 *entries, size_t room, size_t *used) {
    size_t i, j;
    *used = 0;
    for (i = 0; i < count; i++) {
        const plain_seen color = plain_see(pixels[i]);
        for (j = 0; j < *used; j++) {
            const plain_seen other = plain_see(entries[j]);
            if (!plain_distance(other.black, color.black) && other.a == color.a)
                break;
        }
        if (j < *used)
            continue;
        if (*used == room)
            return 0;
        entries[(*used)++] = pixels[i];
    }
    return 1;
}

/* The table before the rounds, as it is seen: of those pixels, or else the means of boxes. Answers whether it was cut. */
static inline int plain_seen_table(const pix_srgba8 *pixels, const plain_seen *colors, size_t count, plain_seen *entries,
                                   size_t room, size_t *used) {
    pix_srgba8 distinct[256];
    plain_seen *copy;
    size_t i;
    if (plain_seen_distinct(pixels, count, distinct, room, used)) {
        for (i = 0; i < *used; i++)
            entries[i] = plain_see(distinct[i]);
        return 0;
    }
    copy = (plain_seen *)malloc(count * sizeof *copy);
    if (!copy)
        abort();
    memcpy(copy, colors, count * sizeof *copy);
    *used = plain_seen_cut(copy, count, entries, room);
    free(copy);
    return 1;
}

static inline int plain_least(int x, int y) {
    return x < y ? x : y;
}

/* Indices by error diffusion, of pixels as they are seen. A clear pixel takes no share, and hands on no error. */
static inline void plain_seen_diffuse(const plain_seen *entries, size_t len, const pix_srgba8 *pixels, size_t count, size_t width,
                                      pix_diffusion how, uint8_t *indices) {
    int(*errors)[4] = (int(*)[4])calloc(count + 1, sizeof *errors);
    uint8_t is_level[4][256] = {{0}};
    size_t step;
    int bound;
    if (!errors)
        abort();
    for (step = 0; step < 4 * len; step++)
        is_level[step % 4][plain_seen_number(entries[step / 4], (int)(step % 4))] = 1;
    bound = plain_bound(is_level);
    for (step = 0; step < count; step++) {
        long ahead;
        const size_t k = plain_place(step, width, how.serpentine, &ahead);
        plain_seen wanted = plain_see(pixels[k]);
        int error[4], channel;
        if (wanted.a) {
            const uint8_t a = plain_corrected(wanted.a, errors[k][3], how.strength);
            wanted.black.r = (uint8_t)plain_least(plain_corrected(wanted.black.r, errors[k][0], how.strength), a);
            wanted.black.g = (uint8_t)plain_least(plain_corrected(wanted.black.g, errors[k][1], how.strength), a);
            wanted.black.b = (uint8_t)plain_least(plain_corrected(wanted.black.b, errors[k][2], how.strength), a);
            wanted = plain_seen_of(wanted.black, a);
        }
        indices[k] = plain_seen_nearest(entries, len, wanted);
        if (!pixels[k].a)
            continue;
        for (channel = 0; channel < 4; channel++)
            error[channel] = plain_bounded((int)plain_seen_number(wanted, channel) - (int)plain_seen_number(entries[indices[k]], channel), bound);
        plain_hand_all(errors, count, width, k, ahead, error);
    }
    free(errors);
}

#endif
