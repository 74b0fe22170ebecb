/* Tables of pictures that have more colors than there are entries, beside a plain model: boxes of colors
 * are cut, more of them than entries, and then joined; and rounds follow.
 *
 *     joins [PICTURES [SEED]]
 *
 * So many random pictures, 20000 without the word, have a table without alphas, one of those pixels that
 * count, and one with alphas. */
#include "other_seen.h"
#include <stdio.h>

enum { MOST = 3000, ROOM = 256 };

static uint64_t seed;
static pix_srgba8 pixels[MOST], work_rgba[MOST], entries_rgba[ROOM];
static pix_srgb8 opaque[MOST], work[MOST], entries[ROOM];
static seen colors[MOST], copy[MOST], table[ROOM];

/* A number below `count`. */
static unsigned any(unsigned count) {
    seed = seed * 6364136223846793005u + 1442695040888963407u;
    return (unsigned)((seed >> 33) % count);
}

static uint8_t clamped(int number) {
    return (uint8_t)(number < 0 ? 0 : number > 255 ? 255 : number);
}

static pix_srgba8 random_pixel(unsigned levels) {
    const unsigned step = 255 / (levels - 1);
    pix_srgba8 pixel;
    pixel.r = (uint8_t)(any(levels) * step);
    pixel.g = (uint8_t)(any(levels) * step);
    pixel.b = (uint8_t)(any(levels) * step);
    pixel.a = (uint8_t)(any(levels) * step);
    return pixel;
}

/* A pixel that differs from another one by less than `spread` in each channel. */
static pix_srgba8 near_to(pix_srgba8 pixel, unsigned spread) {
    pixel.r = clamped(pixel.r + (int)any(2 * spread) - (int)spread);
    pixel.g = clamped(pixel.g + (int)any(2 * spread) - (int)spread);
    pixel.b = clamped(pixel.b + (int)any(2 * spread) - (int)spread);
    pixel.a = clamped(pixel.a + (int)any(2 * spread) - (int)spread);
    return pixel;
}

static uint8_t between(int from, int to, size_t k, size_t count) {
    return (uint8_t)(from + (to - from) * (int)k / (int)count);
}

/* Pixel number k of a picture of one kind: any levels, few colors again and again, heaps of colors, or a
 * gradient with noise. */
static pix_srgba8 pixel_of(unsigned kind, const pix_srgba8 *some, unsigned many, unsigned levels,
                           unsigned spread, size_t k, size_t count) {
    pix_srgba8 pixel = some[any(1 + any(many))];
    switch (kind) {
    case 0: return random_pixel(levels);
    case 1: return pixel;
    case 2: return near_to(pixel, spread);
    default:
        pixel.r = between(some[0].r, some[1].r, k, count);
        pixel.g = between(some[0].g, some[1].g, k, count);
        pixel.b = between(some[0].b, some[1].b, k, count);
        pixel.a = between(some[0].a, some[1].a, k, count);
        return near_to(pixel, spread);
    }
}

/* A picture of few pixels, or now and then of many. Returns how many. */
static size_t paint(void) {
    static const unsigned all_levels[] = {2, 3, 4, 6, 16, 256};
    const size_t count = 2 + any(any(60) ? 70 : MOST - 1);
    const unsigned levels = all_levels[any(6)], kind = any(4), many = 2 + any(kind == 2 ? 9 : 400);
    const unsigned spread = 1 + any(any(2) ? 4 : 40), alphas = any(4);
    pix_srgba8 some[402];
    for (unsigned i = 0; i < many; i++)
        some[i] = random_pixel(levels);
    for (size_t k = 0; k < count; k++) {
        pixels[k] = pixel_of(kind, some, many, levels, spread, k, count);
        if (alphas < 2)
            pixels[k].a = alphas ? (uint8_t)(any(2) * 255) : 255;
        else if (alphas == 2)
            pixels[k].a = any(3) ? 255 : (uint8_t)(240 + any(16));
    }
    return count;
}

/* How many of the pixels a table is made of, as they are seen by it: all, or those that count, without
 * their alphas; or all with them. */
static size_t see(int way, size_t count, uint8_t alpha) {
    size_t left = 0;
    for (size_t k = 0; k < count; k++) {
        const pix_srgba8 it = pixels[k];
        opaque[k].r = it.r, opaque[k].g = it.g, opaque[k].b = it.b;
        if (way != 1 || it.a >= alpha)
            colors[left++] = way == 2 ? pixel_seen(it) : opaque_seen(opaque[k]);
    }
    return left;
}

/* So many entries that there is none for some color: few, as many as just too few, or any number. */
static size_t room_below(size_t differ) {
    const unsigned most = (unsigned)(differ - 1);
    return any(12) == 0 ? most : 1 + any(any(4) && most > 8 ? 8 : most);
}

/* Makes the table. Returns how many entries it has, and none where it is refused. */
static size_t make(int way, size_t count, uint8_t alpha, uint8_t rounds, size_t room) {
    size_t made = 0;
    pix_status status;
    if (way == 0)
        status = pix_quantize_refined(opaque, count, rounds, work, entries, room, &made);
    else if (way == 1)
        status = pix_quantize_refined_alpha(pixels, count, alpha, rounds, work, entries, room, &made);
    else
        status = pix_quantize_rgba(pixels, count, rounds, work_rgba, entries_rgba, room, &made);
    return status == PIX_OK ? made : 0;
}

static int is_entry(int way, size_t i) {
    const pix_srgba8 want = straight_of(table[i]);
    if (way == 2)
        return !memcmp(&entries_rgba[i], &want, sizeof want);
    return entries[i].r == want.r && entries[i].g == want.g && entries[i].b == want.b && want.a == 255;
}

/* Whether all of some colors are grays. */
static int are_grays(const seen *some, size_t count) {
    size_t k;
    for (k = 0; k < count && some[k].n[1] == some[k].n[0] && some[k].n[2] == some[k].n[0]; k++) {
    }
    return k == count;
}

/* Whether a table of the picture is that of the model. There is none to be compared where all of its colors are the same, or
 * where they are grays and their alphas do not count: such a table has the least squared error (table.c). */
static int is_same(int way, size_t count, unsigned *compared) {
    const uint8_t alpha = (uint8_t)any(256), rounds = (uint8_t)(any(2) ? any(4) : 0);
    const size_t left = see(way, count, alpha);
    size_t places[ROOM], differ = distinct_seen(colors, left, places, ROOM), room, used, i;
    if (differ < 2 || (way < 2 && are_grays(colors, left)))
        return 1;
    room = room_below(differ);
    memcpy(copy, colors, left * sizeof *copy);
    used = cut_seen(copy, left, table, room);
    for (unsigned round = 0; round < rounds; round++)
        round_seen(colors, left, table, used);
    make_opaque(colors, left, table, used);
    ++*compared;
    if (make(way, count, alpha, rounds, room) != used)
        return 0;
    for (i = 0; i < used && is_entry(way, i); i++) {
    }
    return i == used;
}

int main(int count, char **words) {
    const unsigned long pictures = count > 1 ? strtoul(words[1], NULL, 10) : 20000;
    unsigned long failures = 0;
    unsigned compared = 0;
    seed = count > 2 ? strtoull(words[2], NULL, 10) : 1;
    for (unsigned long i = 0; i < pictures && failures < 10; i++) {
        const uint64_t before = seed;
        const size_t many = paint();
        for (int way = 0; way < 3; way++)
            if (!is_same(way, many, &compared) && ++failures)
                printf("joins: picture %lu, from seed %llu: table %d is another one\n", i, (unsigned long long)before, way);
    }
    printf("joins: %lu of %u tables of %lu random pictures with more colors than entries differ from the model\n",
           failures, compared, pictures);
    return failures != 0;
}
