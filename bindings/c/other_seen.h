/* What other.c makes of pixels with an alpha as they are seen, and of error diffusion, from the definitions alone: the loops of
 * indexed.h, which the tests compare with, go other ways. */
#ifndef PIX_OTHER_SEEN_H
#define PIX_OTHER_SEEN_H
#include "pix.h"
#include <stdlib.h>

/* Red, green and blue over black, and the alpha. Those of a pixel that is opaque are its own. */
typedef struct { int n[4]; } seen;

static inline seen seen_as(int r, int g, int b, int a) {
    const seen it = {{(2 * r * a + 255) / 510, (2 * g * a + 255) / 510, (2 * b * a + 255) / 510, a}};
    return it;
}

static inline seen opaque_seen(pix_srgb8 it) {
    return seen_as(it.r, it.g, it.b, 255);
}

static inline seen pixel_seen(pix_srgba8 it) {
    return seen_as(it.r, it.g, it.b, it.a);
}

/* The squared differences over black, and over white, which is darker by as much as the alpha is more. */
static inline int64_t seen_apart(seen p, seen q) {
    int64_t sum = 0;
    for (int k = 0; k < 3; k++) {
        const int black = p.n[k] - q.n[k], white = black - (p.n[3] - q.n[3]);
        sum += black * black + white * white;
    }
    return sum;
}

static inline uint8_t seen_nearest(const seen *entries, size_t len, seen color) {
    size_t at = 0;
    for (size_t i = 1; i < len; i++)
        if (seen_apart(entries[i], color) < seen_apart(entries[at], color))
            at = i;
    return (uint8_t)at;
}

/* So many elements of a size, all of them 0. */
static inline void *zeros(size_t count, size_t size) {
    void *made = calloc(count + 1, size);
    if (!made)
        abort();
    return made;
}

static inline seen *all_seen(const pix_srgba8 *pixels, size_t count) {
    seen *all = zeros(count, sizeof *all);
    for (size_t i = 0; i < count; i++)
        all[i] = pixel_seen(pixels[i]);
    return all;
}

/* Pixels to be diffused, in rows: those that are set apart get the index `transparent_index`, or that of the nearest entry. */
typedef struct {
    const seen *entries, *pixels;
    const uint8_t *is_apart;
    size_t len, count, width;
    int transparent_index, strength, serpentine;
    seen *wanted, *found;
    int leeway;
} diffusion;

/* What was wanted less what was found at the pixel that lies so far before pixel k, against the way of its row, in a channel. */
static inline int miss(const diffusion *it, size_t k, long across, size_t up, int channel) {
    const size_t row = k / it->width;
    const long left = it->serpentine && row % 2 ? -across : across, column = (long)(k % it->width) + left;
    size_t from;
    if (up > row || column < 0 || column >= (long)it->width)
        return 0;
    from = (row - up) * it->width + (size_t)column;
    return it->wanted[from].n[channel] - it->found[from].n[channel];
}

/* A number of pixel k, and its share of the errors of four pixels: rounded to the nearest, and clamped. In the row above, which
 * may go the other way, the pixel that came before the one above it gives 1 sixteenth where both rows go one way. */
static inline int shared(const diffusion *it, size_t k, int channel) {
    const int behind = it->serpentine ? 3 : 1, ahead = it->serpentine ? 1 : 3;
    const int sixteenths = 7 * miss(it, k, -1, 0, channel) + behind * miss(it, k, -1, 1, channel) + 5 * miss(it, k, 0, 1, channel)
                           + ahead * miss(it, k, 1, 1, channel);
    const int sum = 256 * it->pixels[k].n[channel] + 128 + it->strength * sixteenths;
    return sum < 0 ? 0 : sum / 256 > 255 ? 255 : sum / 256;
}

/* How far the next greater number of an entry is above that of the entry i, in a channel, or 0 where there is none. */
static inline int step_above(const diffusion *it, size_t i, int channel) {
    int least = 0;
    for (size_t j = 0; j < it->len; j++) {
        const int step = it->entries[j].n[channel] - it->entries[i].n[channel];
        if (step > 0 && (!least || step < least))
            least = step;
    }
    return least;
}

/* How far what is found may be from what is wanted: 24, or half of a wider step of the entries in a channel, rounded up. */
static inline int leeway(const diffusion *it) {
    int most = 24;
    for (size_t i = 0; i < it->len; i++)
        for (int channel = 0; channel < 4; channel++)
            while (2 * most < step_above(it, i, channel))
                most++;
    return most;
}

/* The number that counts as found: the entry's, brought to one that is no further than that from what was wanted. */
static inline int brought(const diffusion *it, int found, int wanted) {
    while (found > wanted + it->leeway)
        found--;
    while (found < wanted - it->leeway)
        found++;
    return found;
}

static inline void diffuse_at(const diffusion *it, size_t k, uint8_t *indices) {
    seen *wanted = &it->wanted[k];
    if (it->is_apart[k]) {
        const int index = it->transparent_index;
        indices[k] = index < 0 ? seen_nearest(it->entries, it->len, it->pixels[k]) : (uint8_t)index;
        return;
    }
    wanted->n[3] = shared(it, k, 3);
    for (int channel = 0; channel < 3; channel++) {
        const int number = shared(it, k, channel);
        wanted->n[channel] = number < wanted->n[3] ? number : wanted->n[3];
    }
    indices[k] = seen_nearest(it->entries, it->len, *wanted);
    for (int channel = 0; channel < 4; channel++)
        it->found[k].n[channel] = brought(it, it->entries[indices[k]].n[channel], wanted->n[channel]);
}

static inline void diffuse_all(diffusion *it, uint8_t *indices) {
    it->leeway = leeway(it);
    it->wanted = zeros(it->count, sizeof *it->wanted);
    it->found = zeros(it->count, sizeof *it->found);
    for (size_t row = 0; row * it->width < it->count; row++)
        for (size_t i = 0; i < it->width; i++) {
            const size_t k = row * it->width + (it->serpentine && row % 2 ? it->width - 1 - i : i);
            if (k < it->count)
                diffuse_at(it, k, indices);
        }
    free(it->wanted);
    free(it->found);
}

/* ---- Tables of colors with an alpha ---- */

/* How many colors there are, and the sums of their numbers: three over black, three over white, and the alpha. */
typedef struct { uint64_t count, of[7]; } seen_sums;

static inline void add_seen(seen_sums *sums, seen it) {
    sums->count++;
    for (int k = 0; k < 3; k++) {
        sums->of[k] += (uint64_t)it.n[k];
        sums->of[3 + k] += (uint64_t)(it.n[k] + 255 - it.n[3]);
    }
    sums->of[6] += (uint64_t)it.n[3];
}

/* The part of the sum of squares that the mean accounts for, over black and over white. For no more than eight million colors. */
static inline uint64_t seen_weight(const seen_sums *it) {
    uint64_t black = 0, white = 0;
    for (int k = 0; k < 3; k++) {
        black += it->of[k] * it->of[k];
        white += it->of[3 + k] * it->of[3 + k];
    }
    return black / it->count + white / it->count;
}

static inline seen seen_mean(const seen_sums *it) {
    seen mean;
    for (int k = 0; k < 4; k++)
        mean.n[k] = (int)((2 * it->of[k < 3 ? k : 6] + it->count) / (2 * it->count));
    return mean;
}

/* A box, and its best cut. The channel is 4 where all of its colors are the same. */
typedef struct { seen *colors; size_t count; int channel, value; uint64_t gain, weight; seen_sums all; } seen_box;

/* Compares the cuts of a box at all values of a channel with the best one, by the sums of the colors of each value. */
static inline void cut_channel(seen_box *box, int channel) {
    static const seen_sums none;
    seen_sums values[256] = {{0, {0}}}, low = none;
    for (size_t i = 0; i < box->count; i++)
        add_seen(&values[box->colors[i].n[channel]], box->colors[i]);
    for (int value = 1; value < 256; value++) {
        seen_sums high = box->all;
        uint64_t parts;
        if (!values[value - 1].count)
            continue; /* it parts the colors as the value before */
        low.count += values[value - 1].count;
        high.count -= low.count;
        for (int k = 0; k < 7; k++) {
            low.of[k] += values[value - 1].of[k];
            high.of[k] -= low.of[k];
        }
        if (!high.count)
            break;
        parts = seen_weight(&low) + seen_weight(&high);
        parts = parts > box->weight ? parts - box->weight : 0;
        if (box->channel == 4 || parts > box->gain) {
            box->channel = channel;
            box->value = value;
            box->gain = parts;
        }
    }
}

static inline seen_box seen_box_of(seen *colors, size_t count) {
    seen_box box = {colors, count, 4, 0, 0, 0, {0, {0}}};
    for (size_t i = 0; i < count; i++)
        add_seen(&box.all, colors[i]);
    box.weight = seen_weight(&box.all);
    for (int channel = 0; channel < 4 && count > 1; channel++)
        cut_channel(&box, channel);
    return box;
}

/* The box of the colors of two, of which only the sums are needed any more. */
static inline seen_box both_boxes(seen_box p, const seen_box *q) {
    p.all.count += q->all.count;
    for (int k = 0; k < 7; k++)
        p.all.of[k] += q->all.of[k];
    p.weight = seen_weight(&p.all);
    return p;
}

/* By how much the squared error rises where two boxes become one. */
static inline uint64_t seen_cost(const seen_box *p, const seen_box *q) {
    const uint64_t apart = p->weight + q->weight, one = both_boxes(*p, q).weight;
    return apart > one ? apart - one : 0;
}

/* Joins the two boxes that cost least, the first of equals, again and again. The costs of all pairs are kept. */
static inline size_t join_seen(seen_box *boxes, size_t used, size_t room) {
    uint64_t (*costs)[320] = zeros(used, sizeof *costs);
    for (size_t j = 1; j < used; j++)
        for (size_t i = 0; i < j; i++)
            costs[i][j] = seen_cost(&boxes[i], &boxes[j]);
    while (used > room) {
        size_t first = 0, second = 1;
        for (size_t i = 0; i < used; i++)
            for (size_t j = i + 1; j < used; j++)
                if (costs[i][j] < costs[first][second]) {
                    first = i;
                    second = j;
                }
        boxes[first] = both_boxes(boxes[first], &boxes[second]);
        used--;
        memmove(&boxes[second], &boxes[second + 1], (used - second) * sizeof *boxes);
        memmove(&costs[second], &costs[second + 1], (used - second) * sizeof *costs);
        for (size_t i = 0; i < used; i++)
            memmove(&costs[i][second], &costs[i][second + 1], (used - second) * sizeof costs[i][0]);
        for (size_t i = 0; i < used; i++)
            if (i != first)
                costs[i < first ? i : first][i < first ? first : i] = seen_cost(&boxes[i], &boxes[first]);
    }
    free(costs);
    return used;
}

/* Cuts the box that gains most again and again, into more boxes than there is room for, joins them, and writes their means. */
static inline size_t cut_seen(seen *colors, size_t count, seen *entries, size_t room) {
    seen_box boxes[320];
    size_t used = 1;
    boxes[0] = seen_box_of(colors, count);
    for (; used < room + (room < 64 ? room : 64); used++) {
        seen_box *most = NULL, cut;
        size_t low = 0;
        for (size_t i = 0; i < used; i++)
            if (boxes[i].channel < 4 && (!most || boxes[i].gain > most->gain))
                most = &boxes[i];
        if (!most)
            break;
        cut = *most;
        for (size_t i = 0; i < cut.count; i++)
            if (cut.colors[i].n[cut.channel] < cut.value) {
                const seen color = cut.colors[i];
                cut.colors[i] = cut.colors[low];
                cut.colors[low++] = color;
            }
        for (size_t i = used; boxes + i > most; i--)
            boxes[i] = boxes[i - 1];
        most[0] = seen_box_of(cut.colors, low);
        most[1] = seen_box_of(cut.colors + low, cut.count - low);
    }
    used = join_seen(boxes, used, room);
    for (size_t i = 0; i < used; i++)
        entries[i] = seen_mean(&boxes[i].all);
    return used;
}

/* Whether the squared error of colors, by their sums, is no greater to one color than to another. What both have is left out. */
static inline int is_no_worse(const seen_sums *sums, seen one, seen other) {
    seen_sums first = {0, {0}}, second = {0, {0}};
    int64_t less = 0;
    add_seen(&first, one);
    add_seen(&second, other);
    for (int k = 0; k < 6; k++) {
        const int64_t x = (int64_t)first.of[k], y = (int64_t)second.of[k];
        less += (int64_t)sums->count * (y * y - x * x) + 2 * (x - y) * (int64_t)sums->of[k];
    }
    return less >= 0;
}

static inline void round_seen(const seen *colors, size_t count, seen *entries, size_t used) {
    seen_sums sums[256] = {{0, {0}}};
    for (size_t i = 0; i < count; i++)
        add_seen(&sums[seen_nearest(entries, used, colors[i])], colors[i]);
    for (size_t i = 0; i < used; i++)
        if (sums[i].count && is_no_worse(&sums[i], seen_mean(&sums[i]), entries[i]))
            entries[i] = seen_mean(&sums[i]);
}

static inline int same_seen(seen p, seen q) {
    return p.n[0] == q.n[0] && p.n[1] == q.n[1] && p.n[2] == q.n[2] && p.n[3] == q.n[3];
}

/* How many of the colors differ from all before them, and the places of these; or one more than there is room for. */
static inline size_t distinct_seen(const seen *colors, size_t count, size_t *places, size_t room) {
    size_t used = 0, j;
    for (size_t i = 0; i < count; i++) {
        for (j = 0; j < used && !same_seen(colors[places[j]], colors[i]); j++) {}
        if (j == room)
            return room + 1;
        if (j == used)
            places[used++] = i;
    }
    return used;
}

/* A number by an alpha, to the nearest. */
static inline uint8_t by_alpha(int number, int alpha) {
    return (uint8_t)(alpha ? (510 * number + alpha) / (2 * alpha) : 0);
}

/* The last step, after the rounds: an entry becomes opaque whose alpha is at least 250, where more than half of the colors to which
 * it is the nearest are opaque. */
static inline void make_opaque(const seen *colors, size_t count, seen *entries, size_t used) {
    size_t all[256] = {0}, opaque[256] = {0};
    for (size_t i = 0; i < count; i++) {
        const size_t at = seen_nearest(entries, used, colors[i]);
        all[at]++;
        opaque[at] += colors[i].n[3] == 255;
    }
    for (size_t i = 0; i < used; i++) {
        const int alpha = entries[i].n[3];
        for (int k = 0; k < 4 && alpha >= 250 && 2 * opaque[i] > all[i]; k++)
            entries[i].n[k] = by_alpha(entries[i].n[k], alpha);
    }
}

/* The pixel that is seen as a color. */
static inline pix_srgba8 straight_of(seen color) {
    const int *n = color.n;
    const pix_srgba8 pixel = {by_alpha(n[0], n[3]), by_alpha(n[1], n[3]), by_alpha(n[2], n[3]), (uint8_t)n[3]};
    return pixel;
}

#endif
