/* What lies just inside and just outside: memory that ends where other memory begins, sources that share one element,
 * counts at their limits, the sizes of formats, and views of padded images, in each kind of pixels.
 *
 * It is C99 and C++11, and says which line failed. */
#include "pix.h"
#include <stdio.h>

static int failures;
static volatile uint32_t greatest = UINT32_MAX;

static void check(int holds, const char *what, int line) {
    if (!holds) {
        fprintf(stderr, "borders: line %d: %s\n", line, what);
        failures++;
    }
}

#define CHECK(condition) check((condition) ? 1 : 0, #condition, __LINE__)

/* An image of 3 x 3 pixels in rows of 5 has 13 of them, and not 15; so have sources and mattes. */
enum { WIDE = 3, HIGH = 3, APART = 5, LENGTH = APART * (HIGH - 1) + WIDE, ALL = 4 * LENGTH };

/* The borders of one kind of pixels: PIXEL, the mattes MATTE of values VALUE, and the pixel ONE. */
#define BORDERS(S, PIXEL, MATTE, VALUE, ONE)                                                                           \
    static void borders##S(void) {                                                                                     \
        PIXEL memory[ALL];                                                                                             \
        const pix_region whole = pix_region_of(0, 0, WIDE, HIGH);                                                      \
        pix_image##S image = pix_image_of##S(memory, WIDE, HIGH);                                                      \
        pix_view##S source = pix_view_of##S(memory + LENGTH, WIDE, HIGH);                                              \
        MATTE matte;                                                                                                   \
        size_t i;                                                                                                      \
        memset(memory, 0, sizeof memory);                                                                              \
        image.stride = source.stride = APART;                                                                          \
        /* Adjacent: the source begins where the image ends, and the other way round. */                               \
        CHECK(pix_do##S(image, pix_copy_image##S(whole, source, whole)) == PIX_OK);                                    \
        CHECK(pix_do##S(image, pix_composite_image##S(whole, source, whole, PIX_OP_SRC_OVER)) == PIX_OK);              \
        image.pixels = memory + LENGTH;                                                                                \
        source.pixels = memory;                                                                                        \
        CHECK(pix_do##S(image, pix_copy_image##S(whole, source, whole)) == PIX_OK);                                    \
        /* One pixel in common, the first or the last one, or one between the rows. */                                 \
        source.pixels = memory + 1;                                                                                    \
        CHECK(pix_do##S(image, pix_copy_image##S(whole, source, whole)) == PIX_OVERLAP);                               \
        source.pixels = memory + 2 * LENGTH - 1;                                                                       \
        CHECK(pix_do##S(image, pix_copy_image##S(whole, source, whole)) == PIX_OVERLAP);                               \
        source = pix_view_of##S(memory + LENGTH + WIDE, 1, 1);                                                         \
        CHECK(pix_do##S(image, pix_composite_image##S(whole, source, whole, PIX_OP_XOR)) == PIX_OVERLAP);              \
        /* The same with mattes. */                                                                                    \
        matte.values = (const VALUE *)(const void *)(memory + 2 * LENGTH);                                             \
        matte.width = WIDE, matte.height = HIGH, matte.stride = APART;                                                 \
        CHECK(pix_do##S(image, pix_composite_matte##S(whole, matte, whole, ONE, PIX_OP_SRC_OVER)) == PIX_OK);          \
        matte.values -= 1;                                                                                             \
        CHECK(pix_do##S(image, pix_composite_matte##S(whole, matte, whole, ONE, PIX_OP_SRC_OVER)) == PIX_OVERLAP);     \
        matte.values = (const VALUE *)(const void *)(memory + LENGTH) - LENGTH;                                        \
        CHECK(pix_do##S(image, pix_composite_matte##S(whole, matte, whole, ONE, PIX_OP_SRC_OVER)) == PIX_OK);          \
        matte.values += 1;                                                                                             \
        CHECK(pix_do##S(image, pix_composite_matte##S(whole, matte, whole, ONE, PIX_OP_SRC_OVER)) == PIX_OVERLAP);     \
        /* And with the mask of an image that lies apart. */                                                           \
        source = pix_view_of##S(memory, 1, 1);                                                                         \
        CHECK(pix_do##S(image, pix_composite_image_matte##S(whole, source, whole, matte, whole, PIX_OP_XOR))           \
              == PIX_OVERLAP);                                                                                         \
        CHECK(pix_do##S(image, pix_composite_image_alpha##S(whole, source, whole, 9, PIX_OP_XOR)) == PIX_OK);          \
        for (i = 0; i < sizeof memory; i++)                                                                            \
            CHECK(((const unsigned char *)memory)[i] == 0);                                                            \
    }                                                                                                                  \
                                                                                                                       \
    /* A view of a padded image is a source of the same rows. */                                                       \
    static void views##S(void) {                                                                                       \
        PIXEL memory[LENGTH], copy[WIDE * HIGH];                                                                       \
        const pix_region whole = pix_region_of(0, 0, WIDE, HIGH);                                                      \
        pix_image##S image = pix_image_of##S(memory, WIDE, HIGH);                                                      \
        pix_view##S source;                                                                                            \
        size_t i;                                                                                                      \
        memset(memory, 0, sizeof memory);                                                                              \
        image.stride = APART;                                                                                          \
        for (i = 0; i < LENGTH; i++)                                                                                   \
            memory[i].a = (VALUE)i;                                                                                    \
        source = pix_view_of_image##S(image);                                                                          \
        CHECK(source.pixels == memory && source.width == WIDE && source.height == HIGH && source.stride == APART);     \
        CHECK(pix_do##S(pix_image_of##S(copy, WIDE, HIGH), pix_copy_image##S(whole, source, whole)) == PIX_OK);        \
        for (i = 0; i < WIDE * HIGH; i++)                                                                              \
            CHECK(copy[i].a == i / WIDE * APART + i % WIDE);                                                           \
    }                                                                                                                  \
                                                                                                                       \
    /* A count of commands at and above what memory can hold, and `done` in and beside the image. */                   \
    static void lists##S(void) {                                                                                       \
        PIXEL memory[ALL];                                                                                             \
        pix_command##S list[2];                                                                                        \
        uint64_t words[4] = {7, 7, 7, 7};                                                                              \
        size_t done = 77, i;                                                                                           \
        pix_image##S image = pix_image_of##S(memory, WIDE, HIGH);                                                      \
        memset(memory, 1, sizeof memory);                                                                              \
        list[0] = list[1] = pix_clear##S();                                                                            \
        CHECK(pix_run##S(image, list, SIZE_MAX, &done) == PIX_BAD_LENGTH && done == 0);                                \
        done = 77;                                                                                                     \
        CHECK(pix_run##S(image, list, (size_t)PTRDIFF_MAX / sizeof *list + 1, &done) == PIX_BAD_LENGTH && done == 0);  \
        /* As many as would end where a sum wraps: the count alone is refused. */                                      \
        CHECK(pix_run##S(image, list, SIZE_MAX / sizeof *list + 2, NULL) == PIX_BAD_LENGTH);                           \
        for (i = 0; i < sizeof memory; i++)                                                                            \
            CHECK(((const unsigned char *)memory)[i] == 1);                                                            \
        image = pix_image_of##S((PIXEL *)(void *)words, sizeof words / 2 / sizeof(PIXEL), 1);                          \
        CHECK(pix_run##S(image, list, 1, (size_t *)(void *)&words[1]) == PIX_OVERLAP && words[1] == 7);                \
        CHECK(pix_run##S(image, list, 1, (size_t *)(void *)&words[0]) == PIX_OVERLAP && words[0] == 7);                \
        CHECK(pix_run##S(image, list, 2, (size_t *)(void *)&words[2]) == PIX_OK && words[2] == 2);                     \
        CHECK(words[0] == 0 && words[1] == 0 && words[3] == 7);                                                        \
    }                                                                                                                  \
                                                                                                                       \
    /* A part of an image that no memory holds, and of none, is refused as the image is. */                            \
    static void parts##S(void) {                                                                                       \
        PIXEL one = ONE;                                                                                               \
        pix_image##S image = pix_image_of##S(&one, greatest, greatest), part;                                          \
        part = pix_part_of##S(image, pix_region_of(1, INT32_MAX, 5, 5));                                               \
        CHECK(pix_do##S(part, pix_clear##S()) == PIX_BAD_SIZE);                                                        \
        part = pix_part_of##S(pix_image_of##S(&one, greatest - 9, 1), pix_region_of(0, 0, 1, 1));                      \
        CHECK(pix_do##S(part, pix_clear##S()) != PIX_OK);                                                              \
        image = pix_image_of##S(&one, 3, 1);                                                                           \
        image.stride = 2;                                                                                              \
        CHECK(pix_do##S(pix_part_of##S(image, pix_region_of(0, 0, 1, 1)), pix_clear##S()) != PIX_OK);                  \
        part = pix_part_of##S(pix_image_of##S(NULL, 8, 8), pix_region_of(3, 2, 4, 4));                                 \
        CHECK(part.width == 4 && part.height == 4 && pix_do##S(part, pix_clear##S()) == PIX_NULL);                     \
        part = pix_part_of##S(pix_image_of##S(NULL, 8, 8), pix_region_of(8, 9, 4, 4));                                 \
        CHECK(part.width == 0 && pix_do##S(part, pix_clear##S()) == PIX_OK);                                           \
        CHECK(one.a == (ONE).a);                                                                                       \
    }

BORDERS(, pix_rgba8, pix_matte, uint8_t, pix_rgba8_of(1, 2, 3, 4))
BORDERS(_rgba16, pix_rgba16, pix_matte16, uint16_t, pix_rgba16_of(1, 2, 3, 4))
BORDERS(_graya8, pix_graya8, pix_matte, uint8_t, pix_graya8_of(1, 2))

/* The number of pixels of a conversion at and above what memory holds; what is refused first is the number. */
static void conversions(void) {
    static const size_t sizes[] = {4, 4, 4, 4, 4, 4, 3, 1, 4, 4, 3, 1};
    uint8_t bytes[16] = {0};
    int from, to;
    for (from = 0; from <= PIX_FORMAT_SGRAY8; from++) {
        CHECK(pix_format_size((pix_format)from) == sizes[from]);
        for (to = 0; to <= PIX_FORMAT_SGRAY8; to++) {
            const size_t limit = (size_t)PTRDIFF_MAX / (sizes[from] > sizes[to] ? sizes[from] : sizes[to]);
            CHECK(pix_convert((pix_format)from, (pix_format)to, bytes, bytes, limit) == PIX_OVERLAP);
            CHECK(pix_convert((pix_format)from, (pix_format)to, bytes, bytes, limit + 1) == PIX_BAD_LENGTH);
            CHECK(pix_convert((pix_format)from, (pix_format)to, NULL, NULL, SIZE_MAX) == PIX_BAD_LENGTH);
        }
    }
    CHECK(pix_format_size((pix_format)PIX_FORMAT_COUNT) == 0 && pix_format_size(PIX_FORMAT_RGBA16) == 8);
    CHECK(pix_convert(PIX_FORMAT_RGBA8, PIX_FORMAT_RGBA16, bytes, bytes + 8, 1) == PIX_BAD_FORMAT);
    /* Adjacent, and with one byte in common. */
    CHECK(pix_convert(PIX_FORMAT_RGBA8, PIX_FORMAT_SGRAY8, bytes, bytes + 8, 2) == PIX_OK);
    CHECK(pix_convert(PIX_FORMAT_RGBA8, PIX_FORMAT_SGRAY8, bytes + 2, bytes, 2) == PIX_OK);
    CHECK(pix_convert(PIX_FORMAT_RGBA8, PIX_FORMAT_SGRAY8, bytes, bytes + 7, 2) == PIX_OVERLAP);
    CHECK(pix_convert(PIX_FORMAT_RGBA8, PIX_FORMAT_SGRAY8, bytes + 1, bytes, 2) == PIX_OVERLAP);
}

/* Bitmaps that begin where no memory is, or have sides or strides that are refused: they are refused before an address is
 * made of them. The undefined sanitizer tells where one was. */
static void bitmaps(void) {
    static uint8_t bytes[64], others[64];
    const pix_bitmap_view source = pix_bitmap_view_of(bytes, 4, 3, PIX_FORMAT_GRAY8);
    pix_bitmap low = pix_bitmap_of((void *)(uintptr_t)64, 4, 3, PIX_FORMAT_GRAY8);
    pix_bitmap high = pix_bitmap_of(others, 1, 3, PIX_FORMAT_GRAY8);
    pix_bitmap same = pix_bitmap_of(others, 4, 3, PIX_FORMAT_GRAY8);
    low.stride = -40;
    CHECK(pix_convert_bitmap(source, low) == PIX_BAD_SIZE && pix_convert_in_place(low, low.format) == PIX_BAD_SIZE);
    CHECK(pix_convert_bitmap(pix_bitmap_view_of_bitmap(low), same) == PIX_BAD_SOURCE);
    CHECK(pix_convert_in_place(pix_part_of_bitmap(low, pix_region_of(1, 1, 2, 2)), low.format) == PIX_BAD_SIZE);
    low.stride = -32; /* the lowest row would be at null */
    CHECK(pix_convert_bitmap(source, low) == PIX_BAD_SIZE && pix_convert_in_place(low, low.format) == PIX_BAD_SIZE);
    low.width = 41, low.height = 7;
    CHECK(pix_convert_in_place(low, low.format) == PIX_BAD_SIZE);
    high.stride = -(PTRDIFF_MAX / 4);
    CHECK(pix_convert_in_place(high, high.format) == PIX_BAD_SIZE);
    high.height = (uint32_t)INT32_MAX + 2, high.stride = -(PTRDIFF_MAX / ((ptrdiff_t)INT32_MAX + 3));
    CHECK(pix_convert_in_place(high, high.format) == PIX_BAD_SIZE);
    high.stride = PTRDIFF_MAX / 2;
    CHECK(pix_convert_in_place(pix_part_of_bitmap(high, pix_region_of(0, INT32_MAX, 1, 9)), high.format) == PIX_BAD_SIZE);
    same.pixels = NULL;
    CHECK(pix_convert_in_place(pix_part_of_bitmap(same, pix_region_of(1, 1, 2, 2)), same.format) == PIX_NULL);
    same.stride = -4;
    CHECK(pix_convert_in_place(pix_part_of_bitmap(same, pix_region_of(1, 1, 2, 2)), same.format) == PIX_NULL);
}

int main(void) {
    CHECK(pix_check_library() == PIX_OK);
    borders();
    borders_rgba16();
    borders_graya8();
    views();
    views_rgba16();
    views_graya8();
    lists();
    lists_rgba16();
    lists_graya8();
    parts();
    parts_rgba16();
    parts_graya8();
    conversions();
    bitmaps();
    printf("borders: %d failures\n", failures);
    return failures != 0;
}
