/* Pictures, regions and sources without pixels, one side of them as long as can be: each call answers at once. */
#include "each.h"
#include <stdio.h>
#include <stdlib.h>
#include <time.h>

enum { LONG = INT32_MAX, SIZES = 3, KINDS = PIX_KIND_COUNT };

static const uint32_t sizes[SIZES][2] = {{0, LONG}, {LONG, 0}, {0, 0}};
static clock_t began;

/* Tests what a call has answered, and the processor's time since the last test. One that fails is the last. */
static void check(int is_well, const char *what, int size) {
    const double seconds = (double)(clock() - began) / CLOCKS_PER_SEC;
    if (!is_well || seconds > .5) {
        printf("empty: %s of %u x %u: %s, %.1f s\n", what, (unsigned)sizes[size][0], (unsigned)sizes[size][1],
               is_well ? "done" : "wrong", seconds);
        exit(1);
    }
    began = clock();
}

/* One command of each kind. */
#define LIST_(S, MATTE)                                                                                                \
    static void list##S(pix_command##S *list, pix_region to, pix_region from, uint32_t width, uint32_t height) {       \
        const pix_view##S source = pix_view_of##S(NULL, width, height);                                                \
        const MATTE mask = MATTE##_of(NULL, width, height);                                                            \
        const pix_command##S clear = pix_clear##S();                                                                   \
        for (int i = 0; i < KINDS; i++)                                                                                \
            list[i] = command_of##S((pix_kind)i, to, source, from, mask, from, clear.color, 99, PIX_OP_SRC_OVER);      \
    }
LIST_(, pix_matte)
LIST_(_rgba16, pix_matte16)
LIST_(_graya8, pix_matte)

/* Paints images without pixels, and one of one pixel by regions and sources that have none. */
#define PAINT_(S, PIXEL)                                                                                               \
    static void paint##S(int size, pix_region to, pix_region from) {                                                   \
        const uint32_t width = sizes[size][0], height = sizes[size][1];                                                \
        const pix_image##S empty = pix_image_of##S(NULL, width, height);                                               \
        PIXEL pixel;                                                                                                   \
        pix_command##S commands[KINDS];                                                                                \
        size_t done = 0;                                                                                               \
        memset(&pixel, 0, sizeof pixel);                                                                               \
        list##S(commands, to, from, width, height);                                                                    \
        check(pix_run##S(empty, commands, KINDS, &done) == PIX_OK && done == KINDS, "pix_run" #S, size);               \
        check(pix_run_window##S(empty, LONG - width, LONG - height, commands, KINDS, &done) == PIX_OK, "pix_run_window" #S, \
              size);                                                                                                   \
        check(pix_do##S(empty, commands[PIX_KIND_COMPOSITE_IMAGE]) == PIX_OK, "pix_do" #S, size);                      \
        check(pix_run##S(pix_image_of##S(&pixel, 1, 1), commands, KINDS, &done) == PIX_OK, "pix_run" #S " by none",    \
              size);                                                                                                   \
        check(!pix_part_of##S(empty, to).height || !width, "pix_part_of" #S, size);                                    \
    }                                                                                                                  \
    /* A window without pixels of a picture that has as many as can be. */                                             \
    static void scale##S(int size) {                                                                                   \
        static uint32_t work[1 << 12];                                                                                 \
        const pix_image##S empty = pix_image_of##S(NULL, 0, sizes[size][1] ? 40000 : 0);                               \
        const pix_size all = {40000, 40000};                                                                           \
        const pix_point corner = {40000, 0};                                                                           \
        PIXEL pixel;                                                                                                   \
        memset(&pixel, 0, sizeof pixel);                                                                               \
        check(pix_scale##S(empty, corner, all, pix_view_of##S(&pixel, 1, 1), PIX_FILTER_AREA, work, 1 << 12) == PIX_OK, \
              "pix_scale" #S, size);                                                                                   \
        const uint32_t first = 0;                                                                                      \
        const int32_t whole = 1 << 14;                                                                                 \
        const pix_weights none = {NULL, NULL, 0, 1}, rows = {&first, &whole, sizes[size][1] ? 1 : 0, 1};               \
        const pix_image##S nothing = pix_image_of##S(NULL, 0, sizes[size][1] ? 1 : 0);                                 \
        check(pix_scale_by##S(nothing, pix_view_of##S(&pixel, 1, 1), none, rows, work, 1 << 12) == PIX_OK,             \
              "pix_scale_by" #S, size);                                                                                \
    }
PAINT_(, pix_rgba8)
PAINT_(_rgba16, pix_rgba16)
PAINT_(_graya8, pix_graya8)

/* Each pair of these goes another way. */
static const pix_format formats[] = {PIX_FORMAT_SRGBA8, PIX_FORMAT_RGBA8P, PIX_FORMAT_RGBA16P, PIX_FORMAT_MATTE8,
                                     PIX_FORMAT_XYZA16P};

static void convert(int size) {
    const uint32_t width = sizes[size][0], height = sizes[size][1];
    for (size_t i = 0; i < sizeof formats / sizeof *formats; i++)
        for (size_t j = 0; j < sizeof formats / sizeof *formats; j++) {
            const pix_bitmap image = pix_bitmap_of(NULL, width, height, formats[i]);
            const pix_bitmap_view source = pix_bitmap_view_of(NULL, width, height, formats[j]);
            const int is_larger = pix_format_size(formats[j]) > pix_format_size(formats[i]);
            check(pix_convert_bitmap(source, image) == PIX_OK, "pix_convert_bitmap", size);
            check(pix_convert_in_place(image, formats[j]) == (is_larger ? PIX_BAD_FORMAT : PIX_OK), "pix_convert_in_place",
                  size);
            check(pix_part_of_bitmap(image, pix_region_of(0, 0, LONG, LONG)).width == width, "pix_part_of_bitmap", size);
        }
}

/* A pattern without copies: in a region without points, and of one. */
static void repeat(int size) {
    const pix_region whole = pix_region_of(0, 0, UINT32_MAX, UINT32_MAX), point = pix_region_of(0, 0, 1, 1);
    const pix_region none = pix_region_of(0, 0, sizes[size][0] ? UINT32_MAX : 0, sizes[size][1] ? UINT32_MAX : 0);
    const pix_view source = pix_view_of(NULL, 0, 0);
    check(pix_repeat_image(NULL, 0, none, source, point, PIX_OP_SRC) == 0, "pix_repeat_image to", size);
    check(pix_repeat_image(NULL, 0, whole, source, none, PIX_OP_SRC) == 0, "pix_repeat_image from", size);
}

/* Rows of indices without pixels, as long as can be in the memory that there is. */
static void index_none(int size) {
    static pix_srgb8 work[4 << 16];
    static pix_srgba8 shade_work[4 << 16];
    static const pix_srgb8 color = {1, 2, 3};
    static const pix_srgba8 shade = {1, 2, 3, 4};
    const pix_diffusion how = {16, true};
    const pix_table table = pix_table_of(&color, 1);
    const pix_table_rgba shades = pix_table_rgba_of(&shade, 1);
    pix_srgba8 entries[256];
    size_t made = 9;
    check(pix_diffuse_indexed_by(table, NULL, 0, 1 << 16, how, work, NULL) == PIX_OK, "pix_diffuse_indexed_by", size);
    check(pix_diffuse_indexed_rgba(shades, NULL, 0, 1 << 16, how, shade_work, NULL) == PIX_OK, "pix_diffuse_indexed_rgba", size);
    check(pix_map_indexed_rgba(shades, NULL, 0, NULL) == PIX_OK, "pix_map_indexed_rgba", size);
    check(pix_look_up_rgba(shades, NULL, 0, NULL) == PIX_OK, "pix_look_up_rgba", size);
    check(pix_quantize_rgba(NULL, 0, 255, NULL, entries, 256, &made) == PIX_OK && !made, "pix_quantize_rgba", size);
}

int main(void) {
    const pix_region whole = pix_region_of(0, 0, LONG, LONG);
    began = clock();
    for (int size = 0; size < SIZES; size++) {
        const pix_region part = pix_region_of(0, 0, sizes[size][0], sizes[size][1]);
        for (int i = 0; i < 4; i++) {
            paint(size, i & 1 ? part : whole, i & 2 ? part : whole);
            paint_rgba16(size, i & 1 ? part : whole, i & 2 ? part : whole);
            paint_graya8(size, i & 1 ? part : whole, i & 2 ? part : whole);
        }
        scale(size);
        scale_rgba16(size);
        scale_graya8(size);
        convert(size);
        repeat(size);
        index_none(size);
    }
    printf("empty: each call on no pixels answers at once\n");
    return 0;
}
