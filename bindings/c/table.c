/* Tables of colors, beside plain loops: nearest entries, look-up, counts and packed rows, and what is refused. */
#include "indexed.h"
#include <stdio.h>

static int failures;
static uint32_t seed = 1;

static uint8_t random_byte(void) {
    seed = seed * 1664525u + 1013904223u;
    return (uint8_t)(seed >> 24);
}

static void check(int good, const char *what) {
    if (!good) {
        printf("table: %s\n", what);
        failures++;
    }
}

static pix_srgb8 random_color(unsigned levels) {
    pix_srgb8 color;
    color.r = (uint8_t)(random_byte() % levels * (255 / (levels - 1)));
    color.g = (uint8_t)(random_byte() % levels * (255 / (levels - 1)));
    color.b = (uint8_t)(random_byte() % levels * (255 / (levels - 1)));
    return color;
}

enum { PIXELS = 4000 };
static pix_srgb8 pixels[PIXELS], back[PIXELS];
static pix_srgba8 with_alpha[PIXELS];
static uint8_t indices[PIXELS], unpacked[PIXELS], bytes[PIXELS];

/* Tables of few levels have entries that are equally near, and entries that are equal. */
static void nearest(size_t len, unsigned levels) {
    pix_srgb8 entries[256];
    size_t i;
    uint8_t one = 0;
    int same = 1, alone = 1, clear = 1, colors = 1;
    pix_table table = pix_table_of(entries, len);
    for (i = 0; i < len; i++)
        entries[i] = random_color(levels);
    for (i = 0; i < PIXELS; i++) {
        pixels[i] = random_color(i % 3 ? 256 : levels);
        with_alpha[i].r = pixels[i].r;
        with_alpha[i].g = pixels[i].g;
        with_alpha[i].b = pixels[i].b;
        with_alpha[i].a = (uint8_t)(126 + i % 4);
    }
    check(pix_map_indexed(table, pixels, PIXELS, indices) == PIX_OK, "pixels are mapped");
    for (i = 0; i < PIXELS; i++)
        same &= indices[i] == plain_nearest(entries, len, pixels[i]);
    check(same, "a pixel has not the index of its nearest entry");
    for (i = 0; i < 50; i++)
        alone &= pix_nearest(table, pixels[i], &one) == PIX_OK && one == indices[i];
    check(alone, "a color alone has another index");
    check(pix_look_up(table, indices, PIXELS, back) == PIX_OK, "indices are looked up");
    for (i = 0; i < PIXELS; i++)
        colors &= !memcmp(&back[i], &entries[indices[i]], sizeof back[i]);
    check(colors, "an index has another color");
    check(pix_map_indexed_alpha(table, with_alpha, PIXELS, 128, 77, unpacked) == PIX_OK, "pixels with an alpha are mapped");
    for (i = 0; i < PIXELS; i++)
        clear &= unpacked[i] == (with_alpha[i].a < 128 ? 77 : indices[i]);
    check(clear, "a pixel with an alpha has another index");
}

enum { ROOM = 256 };
static pix_srgb8 work[PIXELS];

/* A table is that of the plain loops, entry by entry. Few levels have no more colors than entries. */
static void made(size_t count, size_t room, unsigned levels) {
    pix_srgb8 entries[ROOM], plain[ROOM], shown[PIXELS];
    size_t got = 999, want, i, left = 0;
    for (i = 0; i < count; i++) {
        pixels[i] = random_color(levels);
        if (i % 5 == 0)
            pixels[i].g = 200;
        with_alpha[i].r = pixels[i].r;
        with_alpha[i].g = pixels[i].g;
        with_alpha[i].b = pixels[i].b;
        with_alpha[i].a = (uint8_t)(126 + i % 4);
        if (with_alpha[i].a >= 128)
            shown[left++] = pixels[i];
    }
    want = plain_table(pixels, count, plain, room);
    check(pix_raw_quantize_refined(pixels, count, 0, work, count, entries, room, &got) == PIX_OK, "a table is made");
    check(got == want && !memcmp(entries, plain, want * sizeof *plain), "a table that is made is another one");
    want = plain_table(shown, left, plain, room);
    check(pix_raw_quantize_refined_alpha(with_alpha, count, 128, 0, work, count, entries, room, &got) == PIX_OK, "with an alpha");
    check(got == want && !memcmp(entries, plain, want * sizeof *plain), "a table of pixels with an alpha is another one");
}

/* A table of grays has the least squared error, whatever the rounds. Of those with the same error it may be any. */
static void made_of_grays(size_t count, size_t room, unsigned levels) {
    pix_srgb8 entries[ROOM], plain[ROOM];
    size_t got = 999, want, i;
    for (i = 0; i < count; i++) {
        pixels[i] = random_color(levels);
        pixels[i].g = pixels[i].b = pixels[i].r;
    }
    want = plain_table(pixels, count, plain, room);
    check(pix_quantize_refined(pixels, count, 0, work, entries, room, &got) == PIX_OK, "a table of grays is made");
    check(got && got <= room, "a table of grays has too many entries");
    check(plain_error(entries, got, pixels, count) == plain_error(plain, want, pixels, count), "another table of grays is better");
    check(pix_quantize_refined(pixels, count, 3, work, plain, room, &want) == PIX_OK, "a table of grays after rounds");
    check(got == want && !memcmp(entries, plain, want * sizeof *plain), "rounds move a table of grays");
}

/* A call without rounds refines by six. */
static void made_by_default(size_t count, size_t room) {
    pix_srgb8 entries[ROOM], plain[ROOM];
    size_t got = 999, want = 999;
    check(PIX_DEFAULT_ROUNDS == 6, "rounds by default");
    check(pix_quantize_refined(pixels, count, 6, work, plain, room, &want) == PIX_OK, "a table of six rounds");
    check(pix_quantize(pixels, count, work, entries, room, &got) == PIX_OK, "a table by default");
    check(got == want && !memcmp(entries, plain, want * sizeof *plain), "a table by default is another one");
    check(pix_quantize_refined_alpha(with_alpha, count, 128, 6, work, plain, room, &want) == PIX_OK, "six rounds, with an alpha");
    check(pix_quantize_alpha(with_alpha, count, 128, work, entries, room, &got) == PIX_OK, "by default, with an alpha");
    check(got == want && !memcmp(entries, plain, want * sizeof *plain), "a table with an alpha by default is another one");
}

/* Whether a refined table is the one of the plain loops. */
static int is_refined(size_t count, size_t room, uint8_t rounds, const pix_srgb8 *plain, size_t want) {
    pix_srgb8 entries[ROOM];
    size_t got = 999;
    check(pix_quantize_refined(pixels, count, rounds, work, entries, room, &got) == PIX_OK, "a table is refined");
    return got == want && !memcmp(entries, plain, want * sizeof *plain);
}

static int is_refined_alpha(size_t count, size_t room, uint8_t rounds, const pix_srgb8 *plain, size_t want) {
    pix_srgb8 entries[ROOM];
    size_t got = 999;
    check(pix_quantize_refined_alpha(with_alpha, count, 128, rounds, work, entries, room, &got) == PIX_OK, "with an alpha");
    return got == want && !memcmp(entries, plain, want * sizeof *plain);
}

/* A round makes a table that is the one of the plain loops too, and its squared error is not greater. */
static void refined(size_t count, size_t room, unsigned levels) {
    pix_srgb8 plain[ROOM], plain_alpha[ROOM], shown[PIXELS];
    size_t len, len_alpha, i, left = 0;
    uint64_t error = UINT64_MAX, now;
    uint8_t rounds;
    for (i = 0; i < count; i++) {
        pixels[i] = random_color(levels);
        pixels[i].b = (uint8_t)(pixels[i].b / (1 + i % 3));
        with_alpha[i].r = pixels[i].r;
        with_alpha[i].g = pixels[i].g;
        with_alpha[i].b = pixels[i].b;
        with_alpha[i].a = (uint8_t)(126 + i % 4);
        if (with_alpha[i].a >= 128)
            shown[left++] = pixels[i];
    }
    check(pix_quantize_refined(pixels, count, 0, work, plain, room, &len) == PIX_OK, "a table is made");
    check(pix_quantize_refined(shown, left, 0, work, plain_alpha, room, &len_alpha) == PIX_OK, "a table of what is shown is made");
    for (rounds = 0; rounds <= 5; rounds++) {
        check(is_refined(count, room, rounds, plain, len), "a refined table is another one");
        check(is_refined_alpha(count, room, rounds, plain_alpha, len_alpha), "a refined table with an alpha is another one");
        now = plain_error(plain, len, pixels, count);
        check(now <= error, "a round made the squared error greater");
        error = now;
        plain_round(pixels, count, plain, len);
        plain_round(shown, left, plain_alpha, len_alpha);
    }
}

static void refined_refused(void) {
    static pix_srgb8 many[257];
    pix_srgb8 entries[8] = {{1, 2, 3}, {4, 5, 6}}, some[8] = {{7, 8, 9}, {1, 1, 1}}, room[8] = {{5, 5, 5}};
    pix_srgba8 with[2] = {{1, 2, 3, 4}, {5, 6, 7, 8}};
    size_t count = 77;
    check(pix_quantize_refined(some, 2, 1, room, entries, 0, &count) == PIX_BAD_TABLE, "a refined table of no entry");
    check(pix_quantize_refined(some, 2, 1, room, many, 257, &count) == PIX_BAD_TABLE, "a refined table of 257 entries");
    check(pix_quantize_refined(some, SIZE_MAX / 2, 1, room, entries, 2, &count) == PIX_BAD_LENGTH, "too many pixels to refine");
    check(pix_quantize_refined(some, 2, 1, NULL, entries, 2, &count) == PIX_NULL, "no work memory to refine in");
    check(pix_quantize_refined(some, 2, 1, room, entries, 2, NULL) == PIX_NULL, "no count of a refined table");
    check(pix_quantize_refined(some, 2, 1, some, entries, 2, &count) == PIX_OVERLAP, "refined in the pixels");
    check(pix_quantize_refined(some, 2, 1, room, room, 2, &count) == PIX_OVERLAP, "refined entries in the work memory");
    check(pix_quantize_refined_alpha(with, 2, 0, 1, room, entries, 0, &count) == PIX_BAD_TABLE, "with an alpha, no entry");
    check(pix_quantize_refined_alpha(with, 2, 0, 1, room, room, 2, &count) == PIX_OVERLAP, "with an alpha, in the work memory");
    check(pix_raw_quantize_refined(some, 2, 1, room, 1, entries, 2, &count) == PIX_BAD_LENGTH, "too little work memory to refine");
    check(pix_raw_quantize_refined_alpha(with, 2, 0, 1, room, 1, entries, 2, &count) == PIX_BAD_LENGTH, "the same with an alpha");
    check(count == 77 && entries[1].r == 4, "what is refused refines no table");
    check(pix_quantize_refined(NULL, 0, 255, NULL, entries, 2, &count) == PIX_OK && count == 0, "a refined table of no pixels");
}

/* Errors are diffused as by the plain loops: in the archive at full strength and without a row to the left, by default at 12 of
 * 16 and to and fro, and in any order. Rows from right to left are whole. */
static void diffused(size_t len, size_t width, size_t count, pix_diffusion how) {
    const pix_diffusion full = {16, false}, usual = {12, true};
    const size_t whole = count - count % width;
    pix_srgb8 entries[ROOM];
    size_t i;
    pix_table table = pix_table_of(entries, len);
    if (how.serpentine)
        count -= count % width;
    for (i = 0; i < len; i++)
        entries[i] = random_color(256);
    for (i = 0; i < count; i++) {
        with_alpha[i].r = random_byte();
        with_alpha[i].g = (uint8_t)(i * 7);
        with_alpha[i].b = (uint8_t)(i % 9 ? 255 : 0);
        with_alpha[i].a = (uint8_t)(i % 11 ? 200 : 100);
        pixels[i].r = with_alpha[i].r;
        pixels[i].g = with_alpha[i].g;
        pixels[i].b = with_alpha[i].b;
    }
    check(pix_diffuse_indexed_work(width) <= PIXELS, "work memory of the test");
    plain_diffuse(entries, len, with_alpha, count, width, 0, 0, full, unpacked);
    check(pix_raw_diffuse_indexed_by(entries, len, pixels, count, width, 16, 0, work, 4 * width, indices, count) == PIX_OK,
          "at full strength");
    check(!memcmp(indices, unpacked, count), "an index at full strength is another one");
    plain_diffuse(entries, len, with_alpha, count, width, 150, 99, full, unpacked);
    check(pix_raw_diffuse_indexed_by_alpha(entries, len, with_alpha, count, width, 150, 99, 16, 0, work, 4 * width, indices, count)
              == PIX_OK,
          "at full strength, with an alpha");
    check(!memcmp(indices, unpacked, count), "an index at full strength with an alpha is another one");
    plain_diffuse(entries, len, with_alpha, whole, width, 0, 0, usual, unpacked);
    check(pix_diffuse_indexed(table, pixels, whole, width, work, indices) == PIX_OK, "errors are diffused");
    check(!memcmp(indices, unpacked, whole), "an index by error diffusion is another one");
    plain_diffuse(entries, len, with_alpha, whole, width, 150, 99, usual, unpacked);
    check(pix_diffuse_indexed_alpha(table, with_alpha, whole, width, 150, 99, work, indices) == PIX_OK, "with an alpha");
    check(!memcmp(indices, unpacked, whole), "an index by error diffusion with an alpha is another one");
    plain_diffuse(entries, len, with_alpha, count, width, 0, 0, how, unpacked);
    check(pix_diffuse_indexed_by(table, pixels, count, width, how, work, indices) == PIX_OK, "in an order");
    check(!memcmp(indices, unpacked, count), "an index by error diffusion in an order is another one");
    plain_diffuse(entries, len, with_alpha, count, width, 150, 99, how, unpacked);
    check(pix_diffuse_indexed_by_alpha(table, with_alpha, count, width, 150, 99, how, work, indices) == PIX_OK, "both");
    check(!memcmp(indices, unpacked, count), "an index by error diffusion in an order with an alpha is another one");
    if (how.strength)
        return;
    check(pix_map_indexed(table, pixels, count, unpacked) == PIX_OK, "nearest entries");
    check(pix_diffuse_indexed_by(table, pixels, count, width, how, work, indices) == PIX_OK, "without strength");
    check(!memcmp(indices, unpacked, count), "an index without strength is not that of the nearest entry");
}

static void counted(void) {
    size_t counts[256], plain[256] = {0}, i;
    for (i = 0; i < 256; i++)
        counts[i] = 9;
    for (i = 0; i < PIXELS; i++) {
        indices[i] = random_byte();
        plain[indices[i]]++;
    }
    check(pix_count_indices(indices, PIXELS, counts, 256) == PIX_OK, "indices are counted");
    check(!memcmp(counts, plain, sizeof counts), "a count is another one");
    indices[PIXELS - 1] = 200;
    for (i = 0; i < 200; i++)
        counts[i] = 9;
    check(pix_count_indices(indices, PIXELS, counts, 200) == PIX_BAD_INDEX, "an index without a count");
    for (i = 0; i < 200; i++)
        check(counts[i] == 9, "a count changed");
    check(pix_count_indices(NULL, 0, NULL, 0) == PIX_OK, "no index");
}

static void packed(uint32_t bits, size_t count) {
    size_t size = pix_row_size(bits, count), i, bit;
    int same = 1;
    check(size == (count * bits + 7) / 8, "the size of a row");
    for (i = 0; i < count; i++)
        indices[i] = (uint8_t)(random_byte() & ((1u << bits) - 1));
    memset(bytes, 0x5a, sizeof bytes);
    memset(unpacked, 0x5a, sizeof unpacked);
    check(pix_pack_row(bits, indices, count, bytes) == PIX_OK, "a row is packed");
    check(bytes[size] == 0x5a, "a byte past the row");
    for (bit = 0; bit < size * 8; bit++) {
        unsigned want = bit < count * bits ? indices[bit / bits] >> (bits - 1 - bit % bits) & 1u : 0u;
        same &= (bytes[bit / 8] >> (7 - bit % 8) & 1u) == want;
    }
    check(same, "a bit of a packed row");
    check(pix_unpack_row(bits, bytes, count, unpacked) == PIX_OK, "a row is unpacked");
    check(!memcmp(unpacked, indices, count) && unpacked[count] == 0x5a, "a row that comes back");
    if (count && bits < 8) {
        indices[count - 1] = (uint8_t)(1u << bits);
        memset(bytes, 0x5a, sizeof bytes);
        check(pix_pack_row(bits, indices, count, bytes) == PIX_BAD_INDEX && bytes[0] == 0x5a, "an index of more bits");
    }
}

static void made_refused(void) {
    static pix_srgb8 many[257];
    pix_srgb8 entries[8] = {{1, 2, 3}, {4, 5, 6}}, some[8] = {{7, 8, 9}, {1, 1, 1}}, room[8] = {{5, 5, 5}};
    uint8_t index[2] = {9, 9};
    size_t count = 77;
    pix_table table = pix_table_of(entries, 2);
    check(pix_quantize(some, 2, room, entries, 0, &count) == PIX_BAD_TABLE, "a table of no entry");
    check(pix_quantize(some, 2, room, many, 257, &count) == PIX_BAD_TABLE, "a table of 257 entries");
    check(pix_quantize(some, SIZE_MAX / 2, room, entries, 2, &count) == PIX_BAD_LENGTH, "a table of too many pixels");
    check(pix_quantize(some, 2, NULL, entries, 2, &count) == PIX_NULL, "no work memory");
    check(pix_quantize(some, 2, room, NULL, 2, &count) == PIX_NULL, "no entries");
    check(pix_quantize(some, 2, room, entries, 2, NULL) == PIX_NULL, "no count");
    check(pix_quantize(some, 2, some, entries, 2, &count) == PIX_OVERLAP, "work memory in the pixels");
    check(pix_quantize(some, 2, room, room, 2, &count) == PIX_OVERLAP, "entries in the work memory");
    check(pix_quantize(some, 2, room, some, 2, &count) == PIX_OVERLAP, "entries in the pixels");
    check(pix_raw_quantize_refined(some, 2, 0, room, 1, entries, 2, &count) == PIX_BAD_LENGTH, "too little work memory");
    check(count == 77, "what is refused makes no table");
    check(pix_quantize(NULL, 0, NULL, entries, 2, &count) == PIX_OK && count == 0, "a table of no pixels");
    check(pix_diffuse_indexed(pix_table_of(entries, 0), some, 2, 2, room, index) == PIX_BAD_TABLE, "no entry to diffuse to");
    check(pix_diffuse_indexed(table, some, 2, 0, room, index) == PIX_BAD_LENGTH, "rows of no pixel");
    check(pix_diffuse_indexed(table, some, 2, SIZE_MAX / 4 + 2, room, index) == PIX_BAD_LENGTH, "rows of too many pixels");
    check(pix_diffuse_indexed(table, some, 3, 2, room, index) == PIX_BAD_LENGTH, "a row by default that is not whole");
    check(pix_diffuse_indexed_work(SIZE_MAX / 4 + 2) == SIZE_MAX, "work memory of rows of too many pixels");
    check(pix_diffuse_indexed_work(5) == 20 && pix_quantize_work(5) == 5, "work memory");
    check(pix_diffuse_indexed(table, some, 2, 2, NULL, index) == PIX_NULL, "no work memory to diffuse in");
    check(pix_diffuse_indexed(table, some, 2, 2, room, NULL) == PIX_NULL, "no indices to diffuse to");
    check(pix_diffuse_indexed(table, some, 2, 1, some, index) == PIX_OVERLAP, "work memory in the pixels to diffuse");
    check(pix_diffuse_indexed(table, some, 2, 1, entries, index) == PIX_OVERLAP, "work memory in the table");
    check(pix_diffuse_indexed(table, some, 2, 1, room, &room[1].g) == PIX_OVERLAP, "indices in the work memory");
    check(pix_raw_diffuse_indexed_by(entries, 2, some, 2, 2, 16, 0, room, 7, index, 2) == PIX_BAD_LENGTH, "too little work memory for rows");
    check(pix_raw_diffuse_indexed_by(entries, 2, some, 2, 0, 16, 0, room, 0, index, 2) == PIX_BAD_LENGTH, "no row");
    check(pix_raw_diffuse_indexed_by(entries, 2, some, 2, 2, 16, 0, room, 8, index, 1) == PIX_BAD_LENGTH, "fewer indices than pixels to diffuse");
    check(index[0] == 9 && index[1] == 9 && entries[0].r == 1 && some[1].g == 1 && room[0].r == 5, "what is refused stays");
}

/* By hand: two rows of two pixels of 100, in black and white. 100 is black and hands on its error, so its neighbor, with 700
 * sixteenths, is 144 and white. From right to left the last pixel is the first of its row: it gets 100 - 555 sixteenths, is 72 and
 * black, and hands 504 on. In black and a gray of 48, 255 hands on 24 of its error of 207, so that 10 is 21 and black at most. */
static void diffused_by_hand(void) {
    static const struct { pix_diffusion how; uint8_t indices[4]; } rows[] = {
        {{16, false}, {0, 1, 0, 0}}, {{16, true}, {0, 1, 1, 0}}, {{8, true}, {0, 0, 1, 0}}, {{0, true}, {0, 0, 0, 0}}};
    static const pix_srgb8 entries[2] = {{0, 0, 0}, {255, 255, 255}}, dark[2] = {{0, 0, 0}, {48, 48, 48}};
    static const pix_srgb8 held[2] = {{255, 255, 255}, {10, 10, 10}};
    pix_srgb8 gray[4], room[8];
    uint8_t found[4];
    size_t i;
    memset(gray, 100, sizeof gray);
    for (i = 0; i < sizeof rows / sizeof *rows; i++) {
        check(pix_diffuse_indexed_by(pix_table_of(entries, 2), gray, 4, 2, rows[i].how, room, found) == PIX_OK, "a row by hand");
        check(!memcmp(found, rows[i].indices, sizeof found), "a row by hand is another one");
    }
    for (i = 0; i < sizeof rows / sizeof *rows; i++) {
        check(pix_diffuse_indexed_by(pix_table_of(dark, 2), held, 2, 2, rows[i].how, room, found) == PIX_OK, "light by hand");
        check(found[0] == 1 && found[1] == 0, "errors are not held to their bound");
    }
}

/* What is refused before the lengths is the strength, and before that the table; rows from right to left are whole. */
static void diffused_refused(void) {
    static const pix_diffusion strong = {17, false}, stronger = {255, true}, turning = {16, true}, straight = {16, false};
    pix_srgb8 entries[8] = {{1, 2, 3}, {4, 5, 6}}, some[8] = {{7, 8, 9}, {1, 1, 1}, {2, 2, 2}}, room[8] = {{5, 5, 5}};
    pix_srgba8 with[3] = {{1, 2, 3, 4}, {5, 6, 7, 8}, {9, 9, 9, 9}};
    uint8_t index[3] = {9, 9, 9};
    pix_table table = pix_table_of(entries, 2);
    check(pix_diffuse_indexed_by(table, some, 3, 2, strong, room, index) == PIX_BAD_STRENGTH, "a strength of 17");
    check(pix_diffuse_indexed_by(table, some, 3, 0, stronger, room, index) == PIX_BAD_STRENGTH, "a strength before a width");
    check(pix_diffuse_indexed_by(pix_table_of(entries, 0), some, 3, 2, strong, room, index) == PIX_BAD_TABLE, "a table before it");
    check(pix_diffuse_indexed_by(table, some, 3, 2, turning, room, index) == PIX_BAD_LENGTH, "a row that is not whole");
    check(pix_diffuse_indexed_by(table, some, 3, 0, turning, room, index) == PIX_BAD_LENGTH, "no row from right to left");
    check(pix_diffuse_indexed_by(table, some, 3, SIZE_MAX / 4 + 2, straight, room, index) == PIX_BAD_LENGTH, "too long a row");
    check(pix_diffuse_indexed_by(table, some, SIZE_MAX / 2, 1, turning, room, index) == PIX_BAD_LENGTH, "too many pixels in an order");
    check(pix_diffuse_indexed_by(table, some, 3, 1, turning, NULL, index) == PIX_NULL, "no work memory in an order");
    check(pix_diffuse_indexed_by(table, NULL, 3, 1, turning, room, index) == PIX_NULL, "no pixels in an order");
    check(pix_diffuse_indexed_by(table, some, 3, 1, turning, some, index) == PIX_OVERLAP, "in the pixels in an order");
    check(pix_diffuse_indexed_by(table, some, 3, 1, turning, entries, index) == PIX_OVERLAP, "in the table in an order");
    check(pix_diffuse_indexed_by(table, some, 3, 1, turning, room, &room[1].g) == PIX_OVERLAP, "in the work memory in an order");
    check(pix_diffuse_indexed_by_alpha(table, with, 3, 2, 1, 7, strong, room, index) == PIX_BAD_STRENGTH, "with an alpha, 17");
    check(pix_diffuse_indexed_by_alpha(table, with, 3, 2, 1, 7, turning, room, index) == PIX_BAD_LENGTH, "with an alpha, a row");
    check(pix_diffuse_indexed_by_alpha(table, with, 3, 1, 1, 7, turning, NULL, index) == PIX_NULL, "with an alpha, no work memory");
    check(pix_diffuse_indexed_by_alpha(table, with, 3, 1, 1, 7, turning, room, &with[2].a) == PIX_OVERLAP, "in pixels with an alpha");
    check(pix_diffuse_indexed_by_alpha(pix_table_of(NULL, 0), with, 3, 3, 9, 7, turning, room, index) == PIX_BAD_TABLE, "counts");
    check(pix_raw_diffuse_indexed_by(entries, 2, some, 3, 2, 17, 0, room, 8, index, 1) == PIX_BAD_STRENGTH, "a strength in the archive");
    check(pix_raw_diffuse_indexed_by(entries, 0, some, 3, 2, 17, 0, room, 8, index, 3) == PIX_BAD_TABLE, "no table in the archive");
    check(pix_raw_diffuse_indexed_by(entries, 2, some, 3, 2, 16, 1, room, 8, index, 3) == PIX_BAD_LENGTH, "a row in the archive");
    check(pix_raw_diffuse_indexed_by(entries, 2, some, 2, 2, 16, 1, room, 7, index, 2) == PIX_BAD_LENGTH, "too little work memory");
    check(pix_raw_diffuse_indexed_by(entries, 2, some, 2, 2, 16, 1, room, 8, index, 3) == PIX_BAD_LENGTH, "more indices than pixels");
    check(pix_raw_diffuse_indexed_by_alpha(entries, 2, with, 3, 2, 1, 7, 17, 0, room, 8, index, 3) == PIX_BAD_STRENGTH, "with an alpha");
    check(pix_raw_diffuse_indexed_by_alpha(entries, 2, with, 3, 2, 1, 7, 16, 1, room, 8, index, 3) == PIX_BAD_LENGTH, "a row with alphas");
    check(index[0] == 9 && index[2] == 9 && entries[0].r == 1 && some[1].g == 1 && room[0].r == 5, "what is refused diffuses none");
    check(pix_diffuse_indexed_by_alpha(pix_table_of(NULL, 0), with, 3, 3, 10, 7, turning, room, index) == PIX_OK, "all are clear");
    check(index[0] == 7 && index[1] == 7 && index[2] == 7, "indices of clear pixels in an order");
    check(pix_diffuse_indexed_by(table, NULL, 0, 2, turning, room, NULL) == PIX_OK, "no pixels to diffuse in an order");
}

/* A clear picture makes a table of no entry, and that serves it; a pixel that counts has no entry there. */
static void cleared(void) {
    pix_srgba8 clear[3] = {{1, 2, 3, 0}, {4, 5, 6, 127}, {7, 8, 9, 99}};
    pix_srgb8 entries[4], room[12];
    uint8_t index[4] = {9, 9, 9, 9};
    size_t made = 77;
    pix_table none;
    check(pix_quantize_alpha(clear, 3, 128, room, entries, 4, &made) == PIX_OK && made == 0, "a table of a clear picture");
    none = pix_table_of(entries, made);
    check(pix_map_indexed_alpha(none, clear, 3, 128, 5, index) == PIX_OK, "a clear picture is mapped");
    check(index[0] == 5 && index[1] == 5 && index[2] == 5 && index[3] == 9, "indices of a clear picture");
    check(pix_diffuse_indexed_alpha(none, clear, 3, 3, 128, 6, room, index) == PIX_OK, "a clear picture is diffused");
    check(index[0] == 6 && index[1] == 6 && index[2] == 6 && index[3] == 9, "diffused indices of a clear picture");
    check(pix_map_indexed_alpha(pix_table_of(NULL, 0), clear, 3, 128, 6, index) == PIX_OK, "no table");
    check(pix_map_indexed_alpha(none, NULL, 0, 128, 5, NULL) == PIX_OK, "a picture of no pixels");
    check(pix_map_indexed_alpha(none, clear, 3, 127, 5, index) == PIX_BAD_TABLE, "a pixel that counts");
    check(pix_diffuse_indexed_alpha(none, clear, 3, 3, 99, 5, room, index) == PIX_BAD_TABLE, "a pixel to diffuse that counts");
    check(pix_map_indexed_alpha(pix_table_of(entries, 257), clear, 3, 128, 5, index) == PIX_BAD_TABLE, "257 entries");
    check(pix_map_indexed_alpha(none, clear, 3, 128, 5, &clear[1].g) == PIX_OVERLAP, "indices in a clear picture");
    check(pix_map_indexed_alpha(none, NULL, 3, 128, 5, index) == PIX_NULL, "no clear picture");
    check(pix_diffuse_indexed_alpha(none, clear, 3, 0, 128, 5, room, index) == PIX_BAD_LENGTH, "clear rows of no pixel");
    check(pix_diffuse_indexed_alpha(none, clear, 3, 3, 128, 5, NULL, index) == PIX_NULL, "no work memory for a clear picture");
    check(pix_raw_diffuse_indexed_by_alpha(entries, 0, clear, 3, 3, 128, 5, 17, 0, room, 12, index, 3) == PIX_BAD_STRENGTH,
          "a strength for a clear picture in the archive");
    check(pix_raw_diffuse_indexed_by_alpha(entries, 0, clear, 3, 3, 128, 5, 16, 0, room, 11, index, 3) == PIX_BAD_LENGTH,
          "work memory for a clear picture in the archive");
    check(pix_raw_diffuse_indexed_by_alpha(entries, 0, clear, 3, 3, 127, 5, 16, 0, room, 12, index, 3) == PIX_BAD_TABLE,
          "a pixel that counts in the archive");
    check(index[0] == 6 && index[2] == 6 && clear[1].g == 5, "what is refused stays as it was");
    check(pix_raw_diffuse_indexed_by_alpha(entries, 0, clear, 3, 3, 128, 4, 16, 1, room, 12, index, 3) == PIX_OK,
          "a clear picture in the archive");
    check(index[0] == 4 && index[1] == 4 && index[2] == 4 && index[3] == 9, "indices of a clear picture in the archive");
}

/* Two pictures, one after the other in one table: one of all colors, and one of colors near to each other. */
static void indexed(size_t len, unsigned levels, unsigned near) {
    static pix_srgb8 entries[256], plain[256], before[256];
    pix_srgb8 threshold = {(uint8_t)near, (uint8_t)(near / 2), (uint8_t)(near + 1)};
    size_t used = 0, plain_used = 0, was, i;
    int round;
    memset(entries, 7, sizeof entries);
    memcpy(plain, entries, sizeof plain);
    for (round = 0; round < 2; round++) {
        size_t count = round ? PIXELS : PIXELS / 2 + len;
        int all;
        for (i = 0; i < count; i++) {
            pixels[i] = random_color(levels);
            if (round)
                pixels[i].r = (uint8_t)(pixels[i].r / 4 + i % 3);
        }
        memcpy(before, entries, sizeof before);
        was = used;
        memset(unpacked, 99, sizeof unpacked);
        memset(indices, 99, sizeof indices);
        all = plain_index(plain, len, &plain_used, threshold, pixels, count, unpacked) == count;
        check(pix_index_pixels(entries, len, &used, threshold, pixels, count, indices) == (all ? PIX_OK : PIX_FULL_TABLE),
              "colors are set, or there is no room");
        if (all) {
            check(used == plain_used && !memcmp(indices, unpacked, count), "a pixel has another index");
            check(!memcmp(entries, plain, sizeof entries), "another color was added");
        } else {
            check(used == was && !memcmp(entries, before, sizeof entries), "a table that is refused has changed");
            for (i = 0; i < count; i++)
                if (indices[i] != 99)
                    break;
            check(i == count, "an index was written where a color has no room");
            memcpy(plain, before, sizeof plain);
            plain_used = used;
        }
    }
}

static void indexed_refused(void) {
    pix_srgb8 entries[257] = {{1, 2, 3}}, pixel = {9, 2, 3}, none = {0, 0, 0};
    size_t used = 1;
    uint8_t index = 9;
    check(pix_index_pixels(entries, 0, &used, none, &pixel, 1, &index) == PIX_BAD_TABLE, "no room for a table");
    check(pix_index_pixels(entries, 257, &used, none, &pixel, 1, &index) == PIX_BAD_TABLE, "room for 257 entries");
    check(pix_index_pixels(entries, 1, &used, none, &pixel, 1, &index) == PIX_FULL_TABLE, "no room for a second color");
    check(pix_index_pixels(entries, 1, &used, none, &pixel, SIZE_MAX / 2, &index) == PIX_BAD_LENGTH, "too many pixels to set");
    check(pix_index_pixels(entries, 2, NULL, none, &pixel, 1, &index) == PIX_NULL, "no number of entries");
    check(pix_index_pixels(NULL, 2, &used, none, &pixel, 1, &index) == PIX_NULL, "no entries");
    check(pix_index_pixels(entries, 2, &used, none, NULL, 1, &index) == PIX_NULL, "no pixels to set");
    check(pix_index_pixels(entries, 2, &used, none, &pixel, 1, NULL) == PIX_NULL, "no indices of colors");
    check(pix_index_pixels(entries, 2, &used, none, &entries[1], 1, &index) == PIX_OVERLAP, "pixels in the table that is set");
    check(pix_index_pixels(entries, 2, &used, none, &pixel, 1, &entries[1].g) == PIX_OVERLAP, "indices in the table that is set");
    check(pix_index_pixels(entries, 2, &used, none, &pixel, 1, (uint8_t *)&used) == PIX_OVERLAP, "an index in the number");
    check(pix_raw_index_pixels(entries, 2, &used, &none, &pixel, 1, &index, 0) == PIX_BAD_LENGTH, "fewer indices than colors");
    check(used == 1 && index == 9 && entries[1].r == 0, "what is refused adds no color");
    check(pix_index_pixels(entries, 2, &used, none, NULL, 0, NULL) == PIX_OK && used == 1, "no pixels are set");
    used = 3;
    check(pix_index_pixels(entries, 2, &used, none, &pixel, 1, &index) == PIX_BAD_LENGTH && used == 3, "more entries than room");
}

static void refused(void) {
    pix_srgb8 entries[257] = {{1, 2, 3}}, pixel = {1, 2, 3};
    uint8_t index = 9, past = 1;
    size_t i;
    static const uint32_t bad[] = {0, 3, 5, 16, 0x80000001u};
    check(pix_nearest(pix_table_of(entries, 0), pixel, &index) == PIX_BAD_TABLE, "no entry");
    check(pix_nearest(pix_table_of(entries, 257), pixel, &index) == PIX_BAD_TABLE, "257 entries");
    check(pix_nearest(pix_table_of(NULL, 1), pixel, &index) == PIX_NULL, "no table");
    check(pix_nearest(pix_table_of(entries, 1), pixel, NULL) == PIX_NULL, "no index");
    check(pix_nearest(pix_table_of(entries, 1), pixel, &entries[0].b) == PIX_OVERLAP, "an index in the table");
    check(pix_map_indexed(pix_table_of(entries, 0), &pixel, 1, &index) == PIX_BAD_TABLE, "no entry for pixels");
    check(pix_map_indexed(pix_table_of(entries, 1), &pixel, SIZE_MAX / 2, &index) == PIX_BAD_LENGTH, "too many pixels");
    check(pix_map_indexed(pix_table_of(entries, 1), NULL, 1, &index) == PIX_NULL, "no pixels");
    check(pix_map_indexed(pix_table_of(entries, 1), &pixel, 1, &pixel.r) == PIX_OVERLAP, "indices in the pixels");
    check(pix_map_indexed(pix_table_of(entries, 1), NULL, 0, NULL) == PIX_OK, "pixels of no number");
    check(pix_look_up(pix_table_of(entries, 1), &past, 1, &pixel) == PIX_BAD_INDEX, "an index past the end");
    check(pix_look_up(pix_table_of(NULL, 0), NULL, 0, NULL) == PIX_OK, "no index looked up");
    check(pix_look_up(pix_table_of(NULL, 2), NULL, 0, NULL) == PIX_NULL, "no table for no index");
    check(pix_look_up(pix_table_of(entries, 2), &past, 1, &entries[1]) == PIX_OVERLAP, "pixels in the table");
    check(index == 9 && pixel.r == 1 && pixel.g == 2 && pixel.b == 3 && entries[0].b == 3, "what is refused changes nothing");
    for (i = 0; i < sizeof bad / sizeof *bad; i++) {
        check(pix_pack_row(bad[i], &past, 1, &index) == PIX_BAD_DEPTH, "a depth");
        check(pix_unpack_row(bad[i], &past, 1, &index) == PIX_BAD_DEPTH, "a depth to unpack");
    }
    check(pix_pack_row(1, &past, 1, &past) == PIX_OVERLAP, "a row over itself");
    made_refused();
    refined_refused();
    diffused_refused();
    cleared();
    indexed_refused();
    /* The calls themselves test lengths. */
    check(pix_raw_map_indexed(entries, 1, &pixel, 1, &index, 0) == PIX_BAD_LENGTH, "fewer indices than pixels");
    check(pix_raw_look_up(entries, 1, &past, 1, &pixel, 0) == PIX_BAD_LENGTH, "fewer pixels than indices");
    check(pix_raw_pack_row(2, &past, 1, &index, 0) == PIX_BAD_LENGTH, "fewer bytes than the row takes");
    check(pix_raw_unpack_row(2, &past, 0, &index, 1) == PIX_BAD_LENGTH, "fewer bytes than were packed");
    check(index == 9, "what is refused changes no index");
}

int main(void) {
    static const size_t lengths[] = {1, 2, 3, 16, 17, 255, 256};
    static const unsigned levels[] = {2, 4, 256};
    static const uint32_t depths[] = {1, 2, 4, 8};
    static const pix_diffusion orders[] = {{16, true}, {7, false}, {16, false}, {0, true}, {1, true}, {12, true}};
    size_t i, j;
    for (i = 0; i < sizeof lengths / sizeof *lengths; i++)
        for (j = 0; j < sizeof levels / sizeof *levels; j++)
            nearest(lengths[i], levels[j]);
    counted();
    for (i = 0; i < sizeof depths / sizeof *depths; i++)
        for (j = 0; j < 40; j++)
            packed(depths[i], j < 20 ? j : j * 37);
    for (i = 0; i < 60; i++)
        made(i < 30 ? i : i * 61, i % 3 ? 1 + i * 4 : 1 + i % 7, levels[i % 3]);
    for (i = 1; i < 100; i += 9)
        made_by_default(i * 30, i);
    made(3, 3, 2);
    for (i = 1; i < 40; i++)
        made_of_grays(i * 37, 1 + i * i % 60, levels[i % 3]);
    for (i = 0; i < 40; i++)
        refined(i < 15 ? i : i * 23, i % 3 ? 1 + i * 2 : 1 + i % 7, levels[i % 3]);
    for (i = 0; i < sizeof lengths / sizeof *lengths; i++)
        for (j = 0; j < 9; j++)
            indexed(lengths[i], levels[j % 3], j < 3 ? 0 : (unsigned)(j * j * 3));
    for (i = 1; i < 40; i++)
        for (j = 1; j < 4; j++)
            diffused(j * j * 28, i, i * j * 3 + i % 3, orders[(i + j) % 6]);
    diffused_by_hand();
    refused();
    if (!failures)
        printf("tables of colors: the same as plain loops\n");
    return failures != 0;
}
