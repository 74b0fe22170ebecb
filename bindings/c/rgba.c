/* Tables of colors with an alpha, beside plain loops, and what is refused.
 *
 *     rgba [TABLES]
 *
 * So many random tables are made, refined, matched and diffused to; 1000 without the word. */
#include "indexed_rgba.h"
#include <stdio.h>

enum { MOST = 90, ROOM = 256 };

static int failures;
static uint32_t seed = 7;

static void check(int good, const char *what) {
    if (!good) {
        printf("rgba: %s\n", what);
        failures++;
    }
}

/* A number below `count`. */
static unsigned any(unsigned count) {
    seed = seed * 1664525u + 1013904223u;
    return (seed >> 16) % count;
}

/* A channel of so many levels. */
static uint8_t level(unsigned levels) {
    return (uint8_t)(any(levels) * (255 / (levels - 1)));
}

static pix_srgba8 pixels[MOST], work[4 * MOST];
static plain_seen seen[MOST];

/* Pixels of few or many levels, or such as differ by a few units, of which a mean may fit worse than its entry does. Their alphas
 * are any, the ends, or all of them, or most of them are opaque and the others nearly. */
static size_t random_pixels(int is_opaque) {
    static const unsigned counts[] = {2, 3, 6, 52, 256};
    const size_t count = any(MOST + 1);
    const unsigned levels = counts[any(5)], shades = counts[any(5)], near = any(3) ? 0 : 2 + any(6), base = any(248);
    const int is_solid = any(4) == 0;
    size_t i;
    for (i = 0; i < count; i++) {
        pixels[i].r = near ? (uint8_t)(base + any(near)) : level(levels);
        pixels[i].g = near ? (uint8_t)(base + any(near)) : level(levels);
        pixels[i].b = near ? (uint8_t)(base + any(near)) : level(any(4) ? levels : 2);
        pixels[i].a = near ? (uint8_t)(247 - base + any(near)) : level(any(3) ? shades : 2);
        if (is_solid)
            pixels[i].a = any(3) ? 255 : (uint8_t)(240 + any(16));
        if (is_opaque)
            pixels[i].a = 255;
        seen[i] = plain_see(pixels[i]);
    }
    return count;
}

/* Whether entries are seen as those of the plain loops, and are these divided by their alphas, or pixels as they are. */
static int are_equal(const pix_srgba8 *entries, const plain_seen *plain, const pix_srgba8 *distinct, size_t len) {
    size_t i;
    int equal = 1;
    for (i = 0; i < len; i++) {
        const pix_srgba8 want = distinct ? distinct[i] : plain_straight(plain[i]);
        const plain_seen shown = plain_see(entries[i]);
        equal &= !memcmp(&entries[i], &want, sizeof want) && !plain_seen_distance(shown, plain[i]) && shown.a == plain[i].a;
    }
    return equal;
}

/* Pixels that are matched and diffused to a table, and looked up in it. */
static void used(const pix_srgba8 *entries, const plain_seen *plain, size_t len, size_t count) {
    const pix_table_rgba table = pix_table_rgba_of(entries, len);
    const size_t width = 1 + any(20);
    uint8_t indices[MOST], wanted[MOST];
    pix_srgba8 shown[MOST];
    pix_diffusion how;
    size_t i;
    int same = 1;
    check(pix_map_indexed_rgba(table, pixels, count, indices) == PIX_OK, "pixels are matched");
    for (i = 0; i < count; i++)
        same &= indices[i] == plain_seen_nearest(plain, len, seen[i]);
    check(same, "a pixel has another index");
    check(pix_look_up_rgba(table, indices, count, shown) == PIX_OK, "indices are looked up");
    for (i = 0; i < count; i++)
        same &= !memcmp(&shown[i], &entries[indices[i]], sizeof *shown);
    check(same, "an index has another color");
    how.strength = (uint8_t)any(17);
    how.serpentine = any(2) == 0;
    if (how.serpentine)
        count -= count % width;
    plain_seen_diffuse(plain, len, pixels, count, width, how, wanted);
    check(pix_diffuse_indexed_rgba(table, pixels, count, width, how, work, indices) == PIX_OK, "errors are diffused");
    check(!memcmp(indices, wanted, count), "an index by error diffusion is another one");
}

/* Whether a table is that of the plain loops. These are then as the last step leaves them. */
static int is_made(const pix_srgba8 *entries, plain_seen *plain, size_t len, size_t count, const pix_srgba8 *distinct) {
    plain_seen last[ROOM];
    size_t i;
    for (i = 0; i < len; i++)
        last[i] = distinct ? plain[i] : plain_seen_last(seen, count, plain, len, i);
    memcpy(plain, last, len * sizeof *plain);
    return are_equal(entries, plain, distinct, len);
}

/* A table is that of the plain loops after each number of rounds, and no round makes its squared error greater. */
static void made(void) {
    const size_t count = random_pixels(0), room = any(3) ? 1 + any(8) : 1 + any(ROOM);
    const unsigned rounds = any(6);
    pix_srgba8 entries[ROOM], distinct[ROOM];
    plain_seen plain[ROOM], last[ROOM];
    size_t len, got = 999;
    uint64_t error = UINT64_MAX;
    unsigned round = 0;
    const int is_cut = plain_seen_table(pixels, seen, count, plain, room, &len);
    check(is_cut != plain_seen_distinct(pixels, count, distinct, room, &got), "the plain loops agree");
    for (;;) {
        check(pix_quantize_rgba(pixels, count, (uint8_t)round, work, entries, room, &got) == PIX_OK, "a table is made");
        memcpy(last, plain, sizeof last);
        check(got == len && is_made(entries, last, len, count, is_cut ? NULL : distinct), "a table is another one");
        check(plain_seen_error(plain, len, seen, count) <= error, "a round made the squared error greater");
        error = plain_seen_error(plain, len, seen, count);
        check(is_cut || !error, "a color has no entry, though there is room");
        if (round++ == rounds)
            break;
        if (is_cut)
            plain_seen_round(seen, count, plain, len);
    }
    if (len)
        used(entries, last, len, count);
}

/* Opaque pixels have just the answers of the calls without an alpha. */
static void opaque(void) {
    const size_t count = random_pixels(1), room = any(3) ? 1 + any(8) : 1 + any(ROOM), width = 1 + any(20);
    const uint8_t rounds = (uint8_t)any(4);
    const pix_diffusion how = {(uint8_t)any(17), false};
    pix_srgb8 colors[MOST], room_of[4 * MOST], entries[ROOM];
    pix_srgba8 with[ROOM];
    uint8_t one[MOST], other[MOST];
    size_t len = 999, got = 998, i;
    int same = 1;
    for (i = 0; i < count; i++) {
        colors[i].r = pixels[i].r;
        colors[i].g = pixels[i].g;
        colors[i].b = pixels[i].b;
    }
    check(pix_quantize_refined(colors, count, rounds, room_of, entries, room, &len) == PIX_OK, "an opaque table");
    check(pix_quantize_rgba(pixels, count, rounds, work, with, room, &got) == PIX_OK, "the same with alphas");
    for (i = 0; i < len && len == got; i++)
        same &= with[i].r == entries[i].r && with[i].g == entries[i].g && with[i].b == entries[i].b && with[i].a == 255;
    check(same && len == got, "the table of opaque pixels is another one with alphas");
    if (!len)
        return;
    check(pix_map_indexed(pix_table_of(entries, len), colors, count, one) == PIX_OK, "opaque pixels are matched");
    check(pix_map_indexed_rgba(pix_table_rgba_of(with, len), pixels, count, other) == PIX_OK, "and with alphas");
    check(!memcmp(one, other, count), "an opaque pixel has another index with alphas");
    check(pix_diffuse_indexed_by(pix_table_of(entries, len), colors, count, width, how, room_of, one) == PIX_OK, "diffused");
    check(pix_diffuse_indexed_rgba(pix_table_rgba_of(with, len), pixels, count, width, how, work, other) == PIX_OK, "with alphas");
    check(!memcmp(one, other, count), "an opaque pixel has another index by error diffusion with alphas");
}

/* Of each alpha, all levels: the entries are pixels, each the first that is seen so. With room for one entry less, each box but one
 * has one color that is seen, and this is divided by the alpha to the nearest and seen as it was. */
static void each_color(void) {
    pix_srgba8 all[256], room[256], entries[256];
    unsigned a, v;
    size_t len = 0;
    int same = 1;
    for (a = 0; a < 256; a++) {
        unsigned found = 0;
        for (v = 0; v < 256; v++)
            all[v].r = all[v].g = all[v].b = (uint8_t)v, all[v].a = (uint8_t)a;
        check(pix_quantize_rgba(all, 256, 3, room, entries, 256, &len) == PIX_OK, "a table of all levels");
        check(len == a + 1, "a table has not all colors of an alpha");
        for (v = 0; v < 256 && found < len; v++)
            if (plain_see(all[v]).black.g == found)
                same &= !memcmp(&entries[found++], &all[v], sizeof *all);
        check(same && found == len, "an entry is not the first pixel that is seen so");
        if (!a)
            continue;
        check(pix_quantize_rgba(all, 256, 0, room, entries, a, &len) == PIX_OK && len == a, "a table of one entry less");
        for (v = 0; v < len; v++) {
            const pix_srgba8 want = plain_straight(plain_see(entries[v]));
            same &= !memcmp(&entries[v], &want, sizeof want) && (!v || plain_see(want).black.r > plain_see(entries[v - 1]).black.r);
        }
        check(same, "an entry is not a color by its alpha");
    }
}

/* By hand. Half of 200 is 100 over black and 227 over white. The mean of an opaque white and a clear pixel is half of white. Of half
 * of 200, black and white, black has an entry of its own; the others have 178 at 192, which is 236 before it is multiplied. */
static void by_hand(void) {
    static const pix_srgba8 three[3] = {{200, 200, 200, 128}, {0, 0, 0, 255}, {255, 255, 255, 255}};
    static const pix_srgba8 some[4] = {{200, 200, 200, 128}, {255, 255, 255, 255}, {9, 9, 9, 0}, {0, 0, 0, 0}};
    static const pix_srgba8 table[3] = {{255, 255, 255, 255}, {0, 0, 0, 255}, {200, 200, 200, 127}};
    pix_srgba8 room[4], entries[4];
    uint8_t indices[4];
    size_t len = 0;
    check(pix_quantize_rgba(some, 4, 0, room, entries, 4, &len) == PIX_OK && len == 3, "clear pixels have one entry");
    check(!memcmp(entries, some, 3 * sizeof *some), "entries by hand are the first pixels that are seen so");
    check(pix_quantize_rgba(three, 3, 0, room, entries, 2, &len) == PIX_OK && len == 2, "two entries for three");
    check(entries[0].r == 0 && entries[0].a == 255 && entries[1].g == 236 && entries[1].a == 192, "entries by hand");
    check(pix_quantize_rgba(some + 1, 2, 0, room, entries, 1, &len) == PIX_OK && len == 1, "one entry for two");
    check(entries[0].r == 255 && entries[0].a == 128, "the mean of white and clear");
    check(pix_map_indexed_rgba(pix_table_rgba_of(table, 3), some, 4, indices) == PIX_OK, "matched by hand");
    check(indices[0] == 2 && indices[1] == 0 && indices[2] == 2 && indices[3] == 2, "indices by hand");
    /* A clear pixel is as far from white as from black, and the first is taken. */
    check(pix_map_indexed_rgba(pix_table_rgba_of(table, 2), some, 4, indices) == PIX_OK, "matched by hand to two");
    check(indices[2] == 0 && indices[3] == 0, "the first of equals");
}

static void refused(void) {
    static const pix_diffusion how = {16, false}, strong = {17, false}, turning = {16, true};
    pix_srgba8 entries[257] = {{1, 2, 3, 4}, {5, 6, 7, 8}}, some[8] = {{7, 8, 9, 10}, {1, 1, 1, 1}, {2, 2, 2, 2}};
    pix_srgba8 room[12] = {{5, 5, 5, 5}};
    const pix_table_rgba table = pix_table_rgba_of(entries, 2), none = pix_table_rgba_of(entries, 0);
    const pix_table_rgba large = pix_table_rgba_of(entries, 257);
    uint8_t index[3] = {1, 1, 2};
    size_t count = 77;
    check(pix_quantize_rgba(some, 3, 1, room, entries, 0, &count) == PIX_BAD_TABLE, "a table of no entry");
    check(pix_quantize_rgba(some, 3, 1, room, entries, 257, &count) == PIX_BAD_TABLE, "a table of 257 entries");
    check(pix_quantize_rgba(some, SIZE_MAX / 2, 1, room, entries, 2, &count) == PIX_BAD_LENGTH, "too many pixels");
    check(pix_quantize_rgba(NULL, 3, 1, room, entries, 2, &count) == PIX_NULL, "no pixels");
    check(pix_quantize_rgba(some, 3, 1, NULL, entries, 2, &count) == PIX_NULL, "no work memory");
    check(pix_quantize_rgba(some, 3, 1, room, NULL, 2, &count) == PIX_NULL, "no entries");
    check(pix_quantize_rgba(some, 3, 1, room, entries, 2, NULL) == PIX_NULL, "no count");
    check(pix_quantize_rgba(some, 3, 1, some, entries, 2, &count) == PIX_OVERLAP, "work memory in the pixels");
    check(pix_quantize_rgba(some, 3, 1, room, some + 2, 2, &count) == PIX_OVERLAP, "entries in the pixels");
    check(pix_quantize_rgba(some, 3, 1, room, room + 2, 2, &count) == PIX_OVERLAP, "entries in the work memory");
    check(pix_quantize_rgba(room + 3, 3, 1, some, room, 4, &count) == PIX_OVERLAP, "the last entry in the pixels");
    check(pix_raw_quantize_rgba(some, 3, 1, room, 2, entries, 2, &count) == PIX_BAD_LENGTH, "too little work memory");
    check(pix_raw_quantize_rgba(some, 3, 1, room, 2, entries, 0, &count) == PIX_BAD_TABLE, "a table before the work memory");
    check(count == 77, "what is refused makes no table");
    check(pix_map_indexed_rgba(none, some, 3, index) == PIX_BAD_TABLE, "no entry");
    check(pix_map_indexed_rgba(large, some, 3, index) == PIX_BAD_TABLE, "257 entries");
    check(pix_map_indexed_rgba(table, some, SIZE_MAX / 2, index) == PIX_BAD_LENGTH, "too many pixels to match");
    check(pix_map_indexed_rgba(table, NULL, 3, index) == PIX_NULL, "no pixels to match");
    check(pix_map_indexed_rgba(table, some, 3, NULL) == PIX_NULL, "no indices");
    check(pix_map_indexed_rgba(table, some, 3, &some[2].a) == PIX_OVERLAP, "indices in the pixels");
    check(pix_map_indexed_rgba(table, some, 3, &entries[1].a) == PIX_OVERLAP, "indices in the table");
    check(pix_raw_map_indexed_rgba(entries, 2, some, 3, index, 2) == PIX_BAD_LENGTH, "fewer indices than pixels");
    check(pix_look_up_rgba(table, index, 3, some) == PIX_BAD_INDEX, "an index past the end");
    check(pix_look_up_rgba(table, index, SIZE_MAX / 2, some) == PIX_BAD_LENGTH, "too many indices");
    check(pix_look_up_rgba(table, NULL, 2, some) == PIX_NULL, "no indices to look up");
    check(pix_look_up_rgba(table, index, 2, NULL) == PIX_NULL, "no pixels to look up");
    check(pix_look_up_rgba(table, index, 2, entries + 1) == PIX_OVERLAP, "pixels in the table");
    check(pix_look_up_rgba(table, &room[0].g, 2, room) == PIX_OVERLAP, "pixels in the indices");
    check(pix_raw_look_up_rgba(entries, 2, index, 2, some, 3) == PIX_BAD_LENGTH, "more pixels than indices");
    check(pix_diffuse_indexed_rgba(none, some, 3, 3, strong, room, index) == PIX_BAD_TABLE, "no entry to diffuse to");
    check(pix_diffuse_indexed_rgba(large, some, 3, 3, how, room, index) == PIX_BAD_TABLE, "257 entries to diffuse to");
    check(pix_diffuse_indexed_rgba(table, some, 3, 0, strong, room, index) == PIX_BAD_STRENGTH, "a strength of 17");
    check(pix_diffuse_indexed_rgba(table, some, 3, 0, how, room, index) == PIX_BAD_LENGTH, "rows of no pixel");
    check(pix_diffuse_indexed_rgba(table, some, 3, SIZE_MAX / 4 + 2, how, room, index) == PIX_BAD_LENGTH, "too long rows");
    check(pix_diffuse_indexed_rgba(table, some, 3, 2, turning, room, index) == PIX_BAD_LENGTH, "a row that is not whole");
    check(pix_diffuse_indexed_rgba(table, some, 3, 2, how, NULL, index) == PIX_NULL, "no work memory to diffuse in");
    check(pix_diffuse_indexed_rgba(table, some, 3, 1, how, some, index) == PIX_OVERLAP, "diffused in the pixels");
    check(pix_diffuse_indexed_rgba(table, some, 3, 1, how, entries + 1, index) == PIX_OVERLAP, "diffused in the table");
    check(pix_diffuse_indexed_rgba(table, some, 3, 1, how, room, &room[3].r) == PIX_OVERLAP, "indices in the work memory");
    check(pix_raw_diffuse_indexed_rgba(entries, 2, some, 3, 2, 17, 0, room, 7, index, 2) == PIX_BAD_STRENGTH, "in the archive");
    check(pix_raw_diffuse_indexed_rgba(entries, 2, some, 3, 2, 16, 0, room, 7, index, 3) == PIX_BAD_LENGTH, "too little of it");
    check(pix_raw_diffuse_indexed_rgba(entries, 2, some, 3, 2, 16, 0, room, 8, index, 2) == PIX_BAD_LENGTH, "too few indices");
    check(pix_raw_diffuse_indexed_rgba(entries, 2, some, 3, 2, 16, 1, room, 8, index, 3) == PIX_BAD_LENGTH, "a row in the archive");
    check(index[0] == 1 && index[2] == 2 && entries[1].a == 8 && some[2].a == 2 && room[0].r == 5, "what is refused stays");
    check(pix_quantize_rgba(NULL, 0, 9, NULL, entries, 2, &count) == PIX_OK && count == 0, "a table of no pixels");
    check(pix_map_indexed_rgba(table, NULL, 0, NULL) == PIX_OK, "no pixels are matched");
    check(pix_diffuse_indexed_rgba(table, NULL, 0, 2, turning, room, NULL) == PIX_OK, "no pixels are diffused");
    check(pix_look_up_rgba(pix_table_rgba_of(NULL, 0), NULL, 0, NULL) == PIX_OK, "no index is looked up");
    check(pix_look_up_rgba(large, index, 3, some) == PIX_OK && some[0].a == 8, "a table of 257 is looked up in");
}

int main(int count, char **words) {
    const long tables = count > 1 ? atol(words[1]) : 1000;
    long i;
    by_hand();
    refused();
    each_color();
    for (i = 0; i < tables; i++) {
        made();
        opaque();
    }
    if (!failures)
        printf("tables of colors with an alpha: 0 of %ld random tables differ from those of plain loops\n", tables);
    return failures != 0;
}
