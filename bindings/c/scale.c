/* Pictures at another size, by pix.h, beside the definition in plain_scale.h; what holds of every picture; and what is
 * refused.
 *
 *     scale [CASES [SEED]]
 *
 * Sizes, windows, strides and pixels are random. Each buffer ends at a page that may not be touched, and every byte
 * around the written rows is compared. CASES is 3000 and SEED 1 where they aren't given. */
#define _DEFAULT_SOURCE
#include "pix.h"
#include "plain_scale.h"
#include <stdio.h>
#include <stdlib.h>
#ifndef _WIN32
#include <sys/mman.h>
#include <unistd.h>
#endif

enum { SIDE = 70, ROOM = 1 << 18, BUFFERS = 7 };

static int failures;
static uint32_t seed = 1, work[4096];

static void check(int holds, const char *what, int line) {
    if (!holds && failures++ < 9)
        fprintf(stderr, "scale: line %d: %s\n", line, what);
}

#define CHECK(condition) check((condition) ? 1 : 0, #condition, __LINE__)

static uint32_t below(uint32_t count) {
    seed = seed * 1664525u + 1013904223u;
    return (uint32_t)(((uint64_t)seed * count) >> 32);
}

/* ---- Buffers that end at a page that may not be touched ---- */

static unsigned char *ends[BUFFERS], copy[ROOM];

#ifdef _WIN32
static unsigned char *pages_of(void) {
    return (unsigned char *)malloc(ROOM);
}
#else
static unsigned char *pages_of(void) {
    const size_t page = (size_t)sysconf(_SC_PAGESIZE);
    unsigned char *all =
        (unsigned char *)mmap(NULL, ROOM + page, PROT_READ | PROT_WRITE, MAP_PRIVATE | MAP_ANONYMOUS, -1, 0);
    return all == MAP_FAILED || mprotect(all + ROOM, page, PROT_NONE) ? NULL : all;
}
#endif

static void make_buffers(void) {
    for (int i = 0; i < BUFFERS; i++) {
        unsigned char *pages = pages_of();
        if (!pages) {
            perror("scale");
            exit(2);
        }
        ends[i] = pages + ROOM;
    }
}

/* Room for rows at the end of a buffer, of random bytes: most of them at their ends, as errors are. */
static plain_rows rows_of(int buffer, uint32_t width, uint32_t height, size_t size) {
    plain_rows rows = {NULL, width, height, width + (below(2) ? 0 : below(5))};
    const size_t used = (size_t)((height ? (height - 1) * rows.stride : 0) + (height ? width : 0)) * size;
    rows.bytes = ends[buffer] - used;
    for (size_t i = 0; i < used; i++)
        rows.bytes[i] = below(3) ? (unsigned char)below(256) : (unsigned char)(255 * below(2));
    return rows;
}

/* A table of random weights that is whole: its first places end at a buffer, and its weights at the next one. */
static plain_weights weights_of(int buffer, uint64_t count, uint64_t places) {
    const uint32_t taps = 1 + below((uint32_t)(below(4) && places > 9 ? 9 : places));
    uint32_t *firsts = (uint32_t *)(void *)ends[buffer] - count;
    int32_t *weights = (int32_t *)(void *)ends[buffer + 1] - count * taps;
    const plain_weights it = {firsts, weights, count, taps};
    for (uint64_t i = 0; i < count; i++) {
        const int32_t away = below(3) ? (int32_t)below(PLAIN_SIGNED / 2) : 0;
        firsts[i] = below((uint32_t)places - taps + 1);
        memset(weights + i * taps, 0, taps * sizeof *weights);
        for (int32_t left = away, part; left > 0; left -= part) {
            part = below(2) ? left : 1 + (int32_t)below((uint32_t)left);
            weights[i * taps + below(taps)] -= part;
        }
        for (int32_t left = PLAIN_SIGNED + away, part; left > 0; left -= part) {
            part = below(3) ? 1 + (int32_t)below((uint32_t)left) : left;
            weights[i * taps + below(taps)] += part;
        }
    }
    return it;
}

static pix_weights passed(plain_weights it) {
    const pix_weights same = {it.firsts, it.weights, (uint32_t)it.count, it.taps};
    return same;
}

/* Limits each color to its alpha. */
static void premultiply(const plain_kind *kind, plain_rows rows) {
    const size_t size = kind->bytes * kind->channels;
    for (uint64_t y = 0; y < rows.height; y++)
        for (uint64_t x = 0; x < rows.width; x++) {
            unsigned char *at = rows.bytes + (y * rows.stride + x) * size;
            const uint64_t alpha = plain_channel(kind, at, kind->channels - 1);
            for (size_t c = 0; c + 1 < kind->channels; c++)
                if (plain_channel(kind, at, c) > alpha)
                    plain_set_channel(kind, at, c, alpha);
        }
}

/* ---- One kind of pixels ---- */

#define KIND_(S, PIXEL, MAX, BYTES, CHANNELS)                                                                          \
    static const plain_kind kind##S = {MAX, BYTES, CHANNELS};                                                          \
                                                                                                                       \
    static pix_status scale##S(plain_rows to, uint32_t left, uint32_t top, uint32_t across, uint32_t down,             \
                               plain_rows from, uint32_t filter, size_t less) {                                        \
        const pix_point at = {left, top};                                                                              \
        const pix_size window = {(uint32_t)to.width, (uint32_t)to.height}, all = {across, down};                       \
        const pix_size source = {(uint32_t)from.width, (uint32_t)from.height};                                         \
        const size_t words = pix_scale_work##S(window, all, source, (pix_filter)filter) - less;                        \
        const pix_image##S image = {(PIXEL *)(void *)to.bytes, window.width, window.height, (uint32_t)to.stride};      \
        const pix_view##S read = {(const PIXEL *)(const void *)from.bytes, source.width, source.height,                \
                                  (uint32_t)from.stride};                                                              \
        if (words > ROOM / sizeof(uint32_t))                                                                           \
            return PIX_BAD_LENGTH;                                                                                     \
        return pix_scale##S(image, at, all, read, (pix_filter)filter,                                                  \
                            (uint32_t *)(void *)(ends[2] - words * sizeof(uint32_t)), words);                          \
    }                                                                                                                  \
                                                                                                                       \
    /* A window of random places, beside the definition. */                                                            \
    static void compare##S(uint32_t filter) {                                                                          \
        static int32_t work[ROOM];                                                                                     \
        const uint32_t across = 1 + below(SIDE), down = 1 + below(SIDE), left = below(across + 1), top = below(down + 1); \
        const size_t size = BYTES * CHANNELS;                                                                          \
        const plain_rows from = rows_of(0, 1 + below(SIDE), 1 + below(SIDE), size);                                    \
        const plain_rows to = rows_of(1, below(across - left + 1), below(down - top + 1), size);                       \
        plain_scaling it = {kind##S, to, from, left, top, across, down, filter};                                       \
        memcpy(copy, ends[1] - ROOM, ROOM);                                                                            \
        it.to.bytes = copy + (to.bytes - (ends[1] - ROOM));                                                            \
        CHECK(plain_scale_words(&it) <= ROOM);                                                                         \
        const pix_size window = {(uint32_t)to.width, (uint32_t)to.height}, all = {across, down};                       \
        const pix_size sides = {(uint32_t)from.width, (uint32_t)from.height};                                          \
        CHECK(scale##S(to, left, top, across, down, from, filter, 1) == PIX_SMALL_WORK                                 \
              || pix_scale_work##S(window, all, sides, (pix_filter)filter) == 1);                                      \
        CHECK(scale##S(to, left, top, across, down, from, filter, 0) == PIX_OK);                                       \
        plain_scale(&it, work);                                                                                        \
        CHECK(!memcmp(copy, ends[1] - ROOM, ROOM));                                                                    \
    }                                                                                                                  \
                                                                                                                       \
    /* Premultiplied stays so; the same size is the picture itself, by all but those that smooth it; one value stays. */ \
    static void hold##S(uint32_t filter) {                                                                             \
        const size_t size = BYTES * CHANNELS;                                                                          \
        const uint32_t width = 1 + below(30), height = 1 + below(30), across = 1 + below(60), down = 1 + below(60);    \
        plain_rows from = rows_of(0, width, height, size), to = rows_of(1, across, down, size);                       \
        int is_well = 1;                                                                                               \
        premultiply(&kind##S, from);                                                                                   \
        CHECK(scale##S(to, 0, 0, across, down, from, filter, 0) == PIX_OK);                                            \
        for (uint64_t i = 0; i < to.width * to.height; i++) {                                                          \
            const unsigned char *at = to.bytes + (i / to.width * to.stride + i % to.width) * size;                     \
            for (size_t c = 0; c + 1 < CHANNELS; c++)                                                                  \
                is_well &= plain_channel(&kind##S, at, c) <= plain_channel(&kind##S, at, CHANNELS - 1);                \
        }                                                                                                              \
        CHECK(is_well);                                                                                                \
        to = rows_of(1, width, height, size);                                                                          \
        CHECK(scale##S(to, 0, 0, width, height, from, filter, 0) == PIX_OK);                                           \
        for (uint64_t y = 0; y < height; y++)                                                                          \
            is_well &= !memcmp(to.bytes + y * to.stride * size, from.bytes + y * from.stride * size, width * size);    \
        CHECK(is_well);                                                                                                \
        for (uint64_t i = 1; i < from.stride * height - (from.stride - width); i++)                                    \
            memcpy(from.bytes + i * size, from.bytes, size);                                                           \
        to = rows_of(1, across, down, size);                                                                           \
        CHECK(scale##S(to, 0, 0, across, down, from, filter, 0) == PIX_OK);                                            \
        for (uint64_t i = 0; i < to.width * to.height; i++)                                                            \
            is_well &= !memcmp(to.bytes + (i / to.width * to.stride + i % to.width) * size, from.bytes, size);         \
        CHECK(is_well);                                                                                                \
    }                                                                                                                  \
                                                                                                                       \
    static pix_status scale_by##S(plain_rows to, plain_rows from, plain_weights across, plain_weights down,            \
                                  size_t less) {                                                                       \
        const pix_size made = {(uint32_t)to.width, (uint32_t)to.height};                                               \
        const pix_size source = {(uint32_t)from.width, (uint32_t)from.height};                                         \
        const size_t words = pix_scale_by_work##S(made, source, across.taps, down.taps) - less;                        \
        const pix_image##S image = {(PIXEL *)(void *)to.bytes, made.width, made.height, (uint32_t)to.stride};          \
        const pix_view##S read = {(const PIXEL *)(const void *)from.bytes, source.width, source.height,                \
                                  (uint32_t)from.stride};                                                              \
        if (words > ROOM / sizeof(uint32_t))                                                                           \
            return PIX_BAD_LENGTH;                                                                                     \
        return pix_scale_by##S(image, read, passed(across), passed(down),                                              \
                               (uint32_t *)(void *)(ends[2] - words * sizeof(uint32_t)), words);                       \
    }                                                                                                                  \
                                                                                                                       \
    /* A picture by random tables, beside the definition; and a premultiplied one, which stays so. */                  \
    static void compare_by##S(void) {                                                                                  \
        const size_t size = BYTES * CHANNELS;                                                                          \
        const plain_rows from = rows_of(0, 1 + below(SIDE), 1 + below(SIDE), size);                                    \
        const plain_rows to = rows_of(1, below(SIDE), below(SIDE), size);                                              \
        const plain_weights across = weights_of(3, to.width, from.width), down = weights_of(5, to.height, from.height); \
        plain_rows same = to;                                                                                          \
        int is_well = 1;                                                                                               \
        memcpy(copy, ends[1] - ROOM, ROOM);                                                                            \
        same.bytes = copy + (to.bytes - (ends[1] - ROOM));                                                             \
        if (below(2))                                                                                                  \
            premultiply(&kind##S, from);                                                                               \
        CHECK(scale_by##S(to, from, across, down, 1) == PIX_SMALL_WORK);                                               \
        CHECK(!memcmp(copy, ends[1] - ROOM, ROOM));                                                                    \
        CHECK(scale_by##S(to, from, across, down, 0) == PIX_OK);                                                       \
        plain_scale_by(&kind##S, same, from, across, down);                                                            \
        CHECK(!memcmp(copy, ends[1] - ROOM, ROOM));                                                                    \
        for (uint64_t i = 0; i < to.width * to.height; i++) {                                                          \
            const unsigned char *at = to.bytes + (i / to.width * to.stride + i % to.width) * size;                     \
            for (size_t c = 0; c + 1 < CHANNELS; c++)                                                                  \
                is_well &= plain_channel(&kind##S, at, c) <= plain_channel(&kind##S, at, CHANNELS - 1);                \
        }                                                                                                              \
        CHECK(is_well);                                                                                                \
    }
KIND_(, pix_rgba8, 255, 1, 4)
KIND_(_rgba16, pix_rgba16, 65535, 2, 4)
KIND_(_graya8, pix_graya8, 255, 1, 2)

/* ---- By hand ---- */

/* Two by two pixels of which the upper left one is white. */
static const pix_rgba8 corner[4] = {{255, 255, 255, 255}, {0, 0, 0, 255}, {0, 0, 0, 255}, {0, 0, 0, 255}};

static pix_status scale_corner(pix_rgba8 *made, uint32_t width, uint32_t height, pix_filter filter) {
    const pix_size all = {width, height};
    const pix_point origin = {0, 0};
    return pix_scale(pix_image_of(made, width, height), origin, all, pix_view_of(corner, 2, 2), filter, work, 4096);
}

static void by_hand(void) {
    pix_rgba8 made[16];
    CHECK(scale_corner(made, 1, 1, PIX_FILTER_AREA) == PIX_OK && made[0].r == 64 && made[0].a == 255); /* 63.75 */
    CHECK(scale_corner(made, 1, 1, PIX_FILTER_LINEAR) == PIX_OK && made[0].g == 64);
    CHECK(scale_corner(made, 1, 1, PIX_FILTER_NEAREST) == PIX_OK && made[0].b == 0);
    CHECK(scale_corner(made, 3, 3, PIX_FILTER_AREA) == PIX_OK);
    CHECK(made[0].r == 255 && made[1].r == 128 && made[2].r == 0 && made[3].r == 128 && made[4].r == 64); /* 127.5 is up */
    CHECK(scale_corner(made, 4, 4, PIX_FILTER_LINEAR) == PIX_OK);
    CHECK(made[0].r == 255 && made[1].r == 191 && made[2].r == 64 && made[3].r == 0 && made[5].r == 143); /* 9/16 */
    CHECK(scale_corner(made, 4, 4, PIX_FILTER_NEAREST) == PIX_OK);
    CHECK(made[1].r == 255 && made[5].r == 255 && made[2].r == 0 && made[6].r == 0 && made[9].r == 0);
}

/* Tables that take means, that mirror a picture, and that move it by half of a pixel. */
static void by_table(void) {
    static const uint32_t pairs[] = {0, 2}, backwards[] = {3, 2, 1, 0}, steps[] = {0, 1, 2}, first[] = {0};
    static const int32_t halves[] = {8192, 8192, 8192, 8192, 8192, 8192}, ones[] = {16384, 16384, 16384, 16384};
    const pix_rgba8 row[4] = {{10, 0, 0, 255}, {21, 0, 0, 255}, {0, 255, 0, 255}, {0, 0, 0, 0}};
    const pix_weights means = {pairs, halves, 2, 2}, mirror = {backwards, ones, 4, 1}, moved = {steps, halves, 3, 2};
    const pix_weights one = {first, ones, 1, 1};
    const pix_view from = pix_view_of(row, 4, 1);
    const pix_size half = {2, 1};
    const pix_point origin = {0, 0};
    pix_rgba8 made[4], area[2];
    CHECK(pix_scale_by(pix_image_of(made, 2, 1), from, means, one, work, 4096) == PIX_OK);
    CHECK(made[0].r == 16 && made[0].a == 255 && made[1].g == 128 && made[1].a == 128); /* 15.5 and 127.5 are up */
    CHECK(pix_scale(pix_image_of(area, 2, 1), origin, half, from, PIX_FILTER_AREA, work, 4096) == PIX_OK);
    CHECK(!memcmp(made, area, sizeof area));
    CHECK(pix_scale_by(pix_image_of(made, 4, 1), from, mirror, one, work, 4096) == PIX_OK);
    CHECK(made[0].a == 0 && made[1].g == 255 && made[2].r == 21 && made[3].r == 10);
    CHECK(pix_scale_by(pix_image_of(made, 3, 1), from, moved, one, work, 4096) == PIX_OK);
    CHECK(made[0].r == 16 && made[1].r == 11 && made[1].g == 128 && made[2].a == 128);
}

/* Twelve by nine pixels of a gradient, by windows side by side and whole. */
static void tiles(void) {
    static pix_rgba8 source[35], whole[37 * 23], parts[37 * 23];
    const pix_size all = {37, 23}, from = {7, 5};
    const pix_point origin = {0, 0};
    for (int i = 0; i < 35; i++)
        source[i] = pix_rgba8_of((uint8_t)(7 * i), (uint8_t)(201 - i), (uint8_t)(i * i), 255);
    for (int filter = 0; filter < PIX_FILTER_COUNT; filter++) {
        memset(parts, 0, sizeof parts);
        CHECK(pix_scale(pix_image_of(whole, 37, 23), origin, all, pix_view_of(source, 7, 5), (pix_filter)filter, work, 4096)
              == PIX_OK);
        for (uint32_t i = 0; i < 6; i++) {
            const pix_region place = pix_region_of((int32_t)(i % 3 * 13), (int32_t)(i / 3 * 12), 13, 12);
            const pix_image tile = pix_part_of(pix_image_of(parts, 37, 23), place);
            const pix_point at = {(uint32_t)place.x, (uint32_t)place.y};
            const pix_size size = {tile.width, tile.height};
            CHECK(pix_scale_work(size, all, from, (pix_filter)filter) <= 4096);
            CHECK(pix_scale(tile, at, all, pix_view_of(source, 7, 5), (pix_filter)filter, work, 4096) == PIX_OK);
        }
        CHECK(!memcmp(whole, parts, sizeof whole));
    }
}

/* ---- Refusals ---- */

static pix_rgba8 made[64], source[65536 + 8];

typedef struct {
    pix_image to;
    pix_point at;
    pix_size size;
    pix_view from;
    int filter;
    uint32_t *work;
    size_t words;
} asked;

/* A call that is well: a window of 4 by 4 of a picture of 8 by 8. */
static asked fine(void) {
    asked it;
    it.to = pix_image_of(made, 4, 4);
    it.at.x = it.at.y = 4;
    it.size.width = it.size.height = 8;
    it.from = pix_view_of(source, 8, 8);
    it.filter = PIX_FILTER_AREA;
    it.work = work;
    it.words = 4096;
    return it;
}

static int is_refused(asked it, pix_status wanted) {
    pix_rgba8 before[64];
    memset(made, 77, sizeof made);
    memcpy(before, made, sizeof made);
    const pix_status status = pix_scale(it.to, it.at, it.size, it.from, (pix_filter)it.filter, it.work, it.words);
    return status == wanted && (status == PIX_OK || !memcmp(before, made, sizeof made));
}

#define REFUSED_(FIELD, VALUE, STATUS)                                                                                 \
    do {                                                                                                               \
        asked it = fine();                                                                                             \
        it.FIELD = VALUE;                                                                                              \
        CHECK(is_refused(it, STATUS));                                                                                 \
    } while (0)

/* Each fault alone, and then all that come after it too: the first one is told. */
static void statuses(void) {
    CHECK(is_refused(fine(), PIX_OK));
    REFUSED_(filter, PIX_FILTER_COUNT, PIX_BAD_FILTER);
    REFUSED_(filter, -1, PIX_BAD_FILTER);
    REFUSED_(from.width, 0, PIX_NO_SIDE);
    REFUSED_(from.height, 0, PIX_NO_SIDE);
    REFUSED_(size.width, 0, PIX_NO_SIDE);
    REFUSED_(size.height, 0, PIX_NO_SIDE);
    REFUSED_(from, pix_view_of(source, 65536, 1), PIX_TOO_LARGE);
    REFUSED_(from, pix_view_of(source, 1, 65536), PIX_TOO_LARGE);
    REFUSED_(at.x, 5, PIX_OUTSIDE);
    REFUSED_(at.y, 5, PIX_OUTSIDE);
    REFUSED_(at.x, UINT32_MAX, PIX_OUTSIDE);
    REFUSED_(size.width, 7, PIX_OUTSIDE);
    REFUSED_(to.stride, 3, PIX_BAD_SIZE);
    REFUSED_(from.stride, 7, PIX_BAD_SOURCE);
    REFUSED_(words, 0, PIX_SMALL_WORK);
    REFUSED_(words, SIZE_MAX / 4, PIX_BAD_LENGTH);
    REFUSED_(to.width, 0, PIX_OK);
    REFUSED_(to.height, 0, PIX_OK);
    asked it = fine();
    it.words = 0;
    CHECK(is_refused(it, PIX_SMALL_WORK));
    it.from.stride = 1;
    CHECK(is_refused(it, PIX_BAD_SOURCE));
    it.to.stride = 1;
    CHECK(is_refused(it, PIX_BAD_SIZE));
    it.at.x = 7;
    CHECK(is_refused(it, PIX_OUTSIDE));
    it.from.height = 65536;
    CHECK(is_refused(it, PIX_TOO_LARGE));
    it.size.width = 0;
    CHECK(is_refused(it, PIX_NO_SIDE));
    it.filter = PIX_FILTER_COUNT;
    CHECK(is_refused(it, PIX_BAD_FILTER));
}

static void pointers(void) {
    REFUSED_(to.pixels, NULL, PIX_NULL);
    REFUSED_(from.pixels, NULL, PIX_NULL);
    REFUSED_(work, NULL, PIX_NULL);
    REFUSED_(from.pixels, made, PIX_OVERLAP);
    REFUSED_(from.pixels, made + 15, PIX_OVERLAP);
    REFUSED_(work, (uint32_t *)(void *)made, PIX_OVERLAP);
    REFUSED_(work, (uint32_t *)(void *)source, PIX_OVERLAP);
    asked it = fine();
    it.to = pix_image_of(NULL, 0, 4);
    CHECK(is_refused(it, PIX_OK));
    it.to = pix_image_of(NULL, 4, 0);
    CHECK(is_refused(it, PIX_OK));
    it = fine();
    it.work = NULL, it.words = 0;
    CHECK(is_refused(it, PIX_SMALL_WORK));
    it = fine();
    it.from = pix_view_of(NULL, 0, 0);
    CHECK(is_refused(it, PIX_NO_SIDE));
}

static void work_memory(void) {
    const pix_size none = {0, 0}, some = {4, 4}, all = {8, 8}, long_side = {65536, 1}, longest = {65535, 1}, far_off = {1500, 1000};
    const pix_size photo = {6000, 4000};
    CHECK(pix_scale_work(some, all, all, PIX_FILTER_AREA) > 0);
    CHECK(pix_scale_work_rgba16(some, all, all, PIX_FILTER_LINEAR) > 0 && pix_scale_work_graya8(none, all, all, PIX_FILTER_NEAREST) > 0);
    CHECK(!pix_scale_work(some, all, all, (pix_filter)PIX_FILTER_COUNT));
    CHECK(!pix_scale_work(some, none, all, PIX_FILTER_AREA) && !pix_scale_work(some, all, none, PIX_FILTER_AREA));
    CHECK(!pix_scale_work(some, all, long_side, PIX_FILTER_AREA));
    CHECK(pix_scale_work(some, all, longest, PIX_FILTER_AREA) > 0);
    CHECK(pix_scale_work(far_off, far_off, photo, PIX_FILTER_AREA) * sizeof(uint32_t) < 1000000);
}

/* What is written belongs to nobody else: a window beside its source, and work memory beside both. */
static void neighbors(void) {
    static uint32_t memory[64 + 16 + 1024];
    asked it = fine();
    memset(memory, 5, sizeof memory);
    it.from.pixels = (const pix_rgba8 *)(const void *)memory;
    it.to.pixels = (pix_rgba8 *)(void *)(memory + 64);
    it.work = memory + 64 + 16;
    it.words = 1024;
    CHECK(is_refused(it, PIX_OK) && it.to.pixels[15].a == 5);
    it.work--;
    CHECK(is_refused(it, PIX_OVERLAP));
    it.work++;
    it.to.pixels--;
    CHECK(is_refused(it, PIX_OVERLAP));
}

/* ---- Refusals of tables ---- */

static uint32_t firsts[5], row_firsts[5];
static int32_t weights[40], row_weights[40];

typedef struct {
    pix_image to;
    pix_view from;
    pix_weights across, down;
    uint32_t *work;
    size_t words;
} asked_by;

/* A call that is well: a picture of 4 by 4 of one of 8 by 8, by two weights for each place. */
static asked_by fine_by(void) {
    asked_by it;
    for (uint32_t i = 0; i < 5; i++)
        firsts[i] = row_firsts[i] = i + 2;
    for (int i = 0; i < 40; i++)
        weights[i] = row_weights[i] = i % 2 ? -8191 : 16384 + 8191;
    it.to = pix_image_of(made, 4, 4);
    it.from = pix_view_of(source, 8, 8);
    it.across.firsts = firsts;
    it.across.weights = weights;
    it.down.firsts = row_firsts;
    it.down.weights = row_weights;
    it.across.count = it.down.count = 4;
    it.across.taps = it.down.taps = 2;
    it.work = work;
    it.words = 4096;
    return it;
}

static int is_refused_by(asked_by it, pix_status wanted) {
    pix_rgba8 before[64];
    memset(made, 77, sizeof made);
    memcpy(before, made, sizeof made);
    const pix_status status = pix_scale_by(it.to, it.from, it.across, it.down, it.work, it.words);
    return status == wanted && (status == PIX_OK || !memcmp(before, made, sizeof made));
}

#define REFUSED_BY_(FIELD, VALUE, STATUS)                                                                              \
    do {                                                                                                               \
        asked_by it = fine_by();                                                                                       \
        it.FIELD = VALUE;                                                                                              \
        CHECK(is_refused_by(it, STATUS));                                                                              \
    } while (0)

/* The same of a number in one of the tables. */
#define TABLE_(PLACE, VALUE, STATUS)                                                                                   \
    do {                                                                                                               \
        const asked_by it = fine_by();                                                                                 \
        PLACE = VALUE;                                                                                                 \
        CHECK(is_refused_by(it, STATUS));                                                                              \
    } while (0)

static void tables(void) {
    asked_by it = fine_by();
    CHECK(is_refused_by(it, PIX_OK));
    REFUSED_BY_(across.count, 3, PIX_BAD_WEIGHTS);
    REFUSED_BY_(across.count, 5, PIX_BAD_WEIGHTS);
    REFUSED_BY_(down.count, 0, PIX_BAD_WEIGHTS);
    REFUSED_BY_(across.taps, 0, PIX_BAD_WEIGHTS);
    REFUSED_BY_(across.taps, 1, PIX_BAD_WEIGHTS);
    REFUSED_BY_(down.taps, 9, PIX_BAD_WEIGHTS);
    TABLE_(firsts[3], 6, PIX_OK);
    TABLE_(firsts[3], 7, PIX_BAD_WEIGHTS);
    TABLE_(row_firsts[0], UINT32_MAX, PIX_BAD_WEIGHTS);
    TABLE_(weights[6], 16384 + 8190, PIX_BAD_WEIGHTS);
    TABLE_(row_weights[7], -8190, PIX_BAD_WEIGHTS);
    TABLE_(row_weights[0], INT32_MIN, PIX_BAD_WEIGHTS);
    it = fine_by();
    weights[2] = 16384 + 8192, weights[3] = -8192;
    CHECK(is_refused_by(it, PIX_BAD_WEIGHTS));
    weights[2] = INT32_MAX, weights[3] = -(INT32_MAX - 16384);
    CHECK(is_refused_by(it, PIX_BAD_WEIGHTS));
    weights[2] = INT32_MIN + 16384, weights[3] = INT32_MIN; /* the sum of 32 bits is 16384 */
    CHECK(is_refused_by(it, PIX_BAD_WEIGHTS));
    weights[2] = 0, weights[3] = 16384;
    CHECK(is_refused_by(it, PIX_OK));
}

/* Each fault alone, and then all that come after it too: the first one is told. */
static void statuses_by(void) {
    REFUSED_BY_(from.width, 0, PIX_NO_SIDE);
    REFUSED_BY_(from.height, 0, PIX_NO_SIDE);
    REFUSED_BY_(from, pix_view_of(source, 65536, 1), PIX_TOO_LARGE);
    REFUSED_BY_(from, pix_view_of(source, 1, 65536), PIX_TOO_LARGE);
    REFUSED_BY_(to.stride, 3, PIX_BAD_SIZE);
    REFUSED_BY_(from.stride, 7, PIX_BAD_SOURCE);
    REFUSED_BY_(words, 2 * (4 * 2 + 4 * 2 + 8 * 4) - 1, PIX_SMALL_WORK);
    REFUSED_BY_(words, 2 * (4 * 2 + 4 * 2 + 8 * 4), PIX_OK);
    REFUSED_BY_(words, SIZE_MAX / 4, PIX_BAD_LENGTH);
    asked_by it = fine_by();
    it.words = 0;
    CHECK(is_refused_by(it, PIX_SMALL_WORK));
    weights[0]++;
    CHECK(is_refused_by(it, PIX_BAD_WEIGHTS));
    it.from.stride = 1;
    CHECK(is_refused_by(it, PIX_BAD_SOURCE));
    it.to.stride = 1;
    CHECK(is_refused_by(it, PIX_BAD_SIZE));
    it.from.height = 65536;
    CHECK(is_refused_by(it, PIX_TOO_LARGE));
    it.from.width = 0;
    CHECK(is_refused_by(it, PIX_NO_SIDE));
}

static void pointers_by(void) {
    REFUSED_BY_(to.pixels, NULL, PIX_NULL);
    REFUSED_BY_(from.pixels, NULL, PIX_NULL);
    REFUSED_BY_(work, NULL, PIX_NULL);
    REFUSED_BY_(across.firsts, NULL, PIX_NULL);
    REFUSED_BY_(across.weights, NULL, PIX_NULL);
    REFUSED_BY_(down.firsts, NULL, PIX_NULL);
    REFUSED_BY_(down.weights, NULL, PIX_NULL);
    REFUSED_BY_(from.pixels, made + 15, PIX_OVERLAP);
    REFUSED_BY_(work, (uint32_t *)(void *)source, PIX_OVERLAP);
    REFUSED_BY_(work, firsts, PIX_OVERLAP);
    REFUSED_BY_(across.weights, (const int32_t *)(const void *)(made + 15), PIX_OVERLAP);
    REFUSED_BY_(down.firsts, (const uint32_t *)(const void *)(work + 4095), PIX_OVERLAP);
    asked_by it = fine_by();
    it.to = pix_image_of(NULL, 0, 4);
    it.across.firsts = NULL, it.across.weights = NULL, it.across.count = 0;
    CHECK(is_refused_by(it, PIX_OK));
    it.work = NULL, it.words = 0;
    CHECK(is_refused_by(it, PIX_SMALL_WORK));
    it.from = pix_view_of(NULL, 0, 0);
    CHECK(is_refused_by(it, PIX_NO_SIDE));
}

static void work_memory_by(void) {
    const pix_size some = {4, 4}, all = {8, 8}, none = {0, 8}, long_side = {65536, 1};
    CHECK(pix_scale_by_work(some, all, 2, 2) == 96 && pix_scale_by_work_rgba16(some, all, 8, 8) == 192);
    CHECK(pix_scale_by_work_graya8(some, all, 2, 2) == 64 && pix_scale_by_work(none, all, 8, 8) == 192);
    CHECK(!pix_scale_by_work(some, all, 9, 2) && !pix_scale_by_work(some, all, 2, 9));
    CHECK(!pix_scale_by_work(some, none, 2, 2) && !pix_scale_by_work(some, long_side, 1, 1));
}

int main(int argc, char **argv) {
    const long cases = argc > 1 ? atol(argv[1]) : 3000;
    if (argc > 2)
        seed = (uint32_t)atol(argv[2]);
    make_buffers();
    by_hand();
    tiles();
    statuses();
    pointers();
    work_memory();
    neighbors();
    by_table();
    tables();
    statuses_by();
    pointers_by();
    work_memory_by();
    for (long i = 0; i < cases; i++) {
        const uint32_t filter = (uint32_t)(i / 3 % PLAIN_FILTERS);
        if (i % 3 == 0)
            compare(filter);
        else if (i % 3 == 1)
            compare_rgba16(filter);
        else
            compare_graya8(filter);
        if (i % 4 == 0) {
            compare_by();
            compare_by_rgba16();
            compare_by_graya8();
        }
        if (i % 7 == 0) {
            hold(filter);
            hold_rgba16(filter);
            hold_graya8(filter);
        }
    }
    printf("scale: %ld windows of %d filters beside the definition, %d failures\n", cases, (int)PLAIN_FILTERS, failures);
    return failures != 0;
}
