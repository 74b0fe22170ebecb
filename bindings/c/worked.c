/* Worked rows: lists of commands whose outcome was worked out by hand or by a line of arithmetic. Each row has a name,
 * which is printed where the outcome is another.
 *
 * The rows call the archive's own functions, also with lengths that pix_run would not pass. Conversions are in
 * converted.c. */
#include "pix.h"
#include <stdarg.h>
#include <stdio.h>

static unsigned rows, failures;
static char name[96];

#define LENGTH_OF(table) (sizeof(table) / sizeof *(table))

/* Begins a row. */
static void begin(const char *format, ...) {
    va_list words;
    va_start(words, format);
    vsnprintf(name, sizeof name, format, words);
    va_end(words);
    rows++;
}

static void print(const char *before, const void *numbers, size_t count, size_t size) {
    fputs(before, stderr);
    for (size_t i = 0; i < count; i++)
        fprintf(stderr, " %u", size == 1 ? ((const uint8_t *)numbers)[i] : ((const uint16_t *)numbers)[i]);
}

/* Compares numbers of one byte or two each with those that the row must have. */
static void compare(const void *got, const void *wanted, size_t count, size_t size) {
    if (memcmp(got, wanted, count * size) == 0)
        return;
    failures++;
    fprintf(stderr, "worked: %s: ", name);
    print("got", got, count, size);
    print(", wanted", wanted, count, size);
    fputc('\n', stderr);
}

static void compare_pixels(const pix_rgba8 *got, const pix_rgba8 *wanted, size_t count) {
    compare(got, wanted, sizeof *got * count, 1);
}

static void compare_number(const char *what, size_t got, size_t wanted) {
    if (got == wanted)
        return;
    failures++;
    fprintf(stderr, "worked: %s: %s: got %lu, wanted %lu\n", name, what, (unsigned long)got, (unsigned long)wanted);
}

/* Runs a list on an image in `length` pixels, and compares the status and `done`. */
#define RUN_OF(S, PIXEL)                                                                                               \
    static void run##S(PIXEL *pixels, size_t length, uint32_t width, uint32_t height, uint32_t stride,                 \
                       const pix_command##S *list, size_t count, pix_status status, size_t done) {                     \
        size_t at = 7;                                                                                                 \
        uint32_t got = pix_raw_run_window##S(pixels, length, 0, 0, width, height, stride, list, count, &at);           \
        compare_number("the status", got, status);                                                                     \
        compare_number("done", at, done);                                                                              \
    }

RUN_OF(, pix_rgba8)
RUN_OF(_rgba16, pix_rgba16)
RUN_OF(_graya8, pix_graya8)

/* ---- Commands ---- */

static const uint32_t SIDE = 2147483647; /* the greatest one */
static const pix_rgba8 ground = {10, 20, 30, 255}, none = {0, 0, 0, 0};

/* A command from the point (0, 0) of a source of one element to the point (1, 0). */
static pix_command command(uint32_t kind) {
    static const pix_rgba8 pixel = {60, 0, 0, 60};
    static const uint8_t matte = 51;
    const pix_command it = {
        .kind = kind, .op = PIX_OP_SRC_OVER, .to = {1, 0, 1, 1}, .from = {0, 0, 1, 1}, .color = {100, 50, 0, 128},
        .pixels = &pixel, .pixel_count = 1, .mattes = &matte, .matte_count = 1, .width = 1, .height = 1, .stride = 1,
    };
    return it;
}

/* SRC_OVER: 10 * (255 - 128) / 255 = 4.98, 20 * 127 / 255 = 9.96, 30 * 127 / 255 = 14.94, 255 * 127 / 255 = 127.
 * With 60 in place of 128: 10 * 195 / 255 = 7.65, 15.29, 22.94, 195.
 * Through the matte 51, a fifth: the color is (20, 10, 0, 25.6), and 10 * 229 / 255 = 8.98, 17.96, 26.94, 229. */
static void each_kind(void) {
    static const pix_rgba8 wanted[][2] = {
        {{0, 0, 0, 0}, {0, 0, 0, 0}},            /* a clear */
        {{10, 20, 30, 255}, {100, 50, 0, 128}},  /* a copy of a color */
        {{10, 20, 30, 255}, {60, 0, 0, 60}},     /* of an image */
        {{10, 20, 30, 255}, {105, 60, 15, 255}}, /* a composite of a color */
        {{10, 20, 30, 255}, {68, 15, 23, 255}},  /* of an image */
        {{10, 20, 30, 255}, {29, 28, 27, 255}},  /* of a color through a matte */
    };
    for (unsigned kind = 0; kind < LENGTH_OF(wanted); kind++) {
        const pix_command it = command(kind);
        pix_rgba8 image[2] = {ground, ground};
        begin("each_kind: kind %u", kind);
        run(image, 2, 2, 1, 2, &it, 1, PIX_OK, 1);
        compare_pixels(image, wanted[kind], 2);
    }
}

/* The source has the alpha 51, a fifth; the destination the alpha 204, four fifths. */
static void each_operator(void) {
    static const pix_rgba8 wanted[] = {
        {50, 0, 0, 51}, {0, 100, 0, 204}, {50, 80, 0, 214}, {10, 100, 0, 214}, {10, 0, 0, 10},   {0, 80, 0, 163},
        {40, 0, 0, 41}, {0, 20, 0, 41},   {40, 80, 0, 204}, {10, 20, 0, 51},   {10, 80, 0, 173}, {0, 0, 0, 0},
        {50, 100, 0, 255},
    };
    for (unsigned op = 0; op < LENGTH_OF(wanted); op++) {
        pix_command it = command(PIX_KIND_COMPOSITE_COLOR);
        pix_rgba8 image = {0, 100, 0, 204};
        it.op = op, it.to = pix_region_of(0, 0, 1, 1), it.color = pix_rgba8_of(50, 0, 0, 51);
        begin("each_operator: operator %u", op);
        run(&image, 1, 1, 1, 1, &it, 1, PIX_OK, 1);
        compare_pixels(&image, &wanted[op], 1);
    }
}

/* A bad command between two good ones: only the first one counts as done, and nothing is painted. */
static void what_is_refused(void) {
    static const struct {
        const char *what;
        uint32_t kind, op, to_width, to_height, from_height;
        size_t pixels, mattes;
        uint32_t width, height, stride;
        pix_status status;
    } table[] = {
        {"no kind", PIX_KIND_COUNT, 2, 1, 1, 1, 0, 0, 1, 1, 1, PIX_BAD_KIND},
        {"the greatest kind", UINT32_MAX, 2, 1, 1, 1, 0, 0, 1, 1, 1, PIX_BAD_KIND},
        {"a wide region", 1, 2, 2147483648, 1, 1, 0, 0, 1, 1, 1, PIX_BAD_REGION},
        {"a high region that is not read", 1, 2, 1, 1, UINT32_MAX, 0, 0, 1, 1, 1, PIX_BAD_REGION},
        {"a high region and no operator", 1, PIX_OP_COUNT, 1, 2147483648, 1, 0, 0, 1, 1, 1, PIX_BAD_REGION},
        {"no operator", 1, PIX_OP_COUNT, 1, 1, 1, 0, 0, 1, 1, 1, PIX_BAD_OP},
        {"a copy without pixels", 2, 2, 1, 1, 1, 0, 1, 1, 1, 1, PIX_BAD_SOURCE},
        {"a composite without pixels", 4, 2, 1, 1, 1, 0, 1, 1, 1, 1, PIX_BAD_SOURCE},
        {"a composite without mattes", 5, 2, 1, 1, 1, 1, 0, 1, 1, 1, PIX_BAD_SOURCE},
        {"a source wider than its stride", 4, 2, 1, 1, 1, 1, 0, 2, 1, 1, PIX_BAD_SOURCE},
        {"mattes wider than their stride", 5, 2, 1, 1, 1, 0, 4, 2, 2, 1, PIX_BAD_SOURCE},
        {"a huge source", 2, 2, 1, 1, 1, 1, 0, 2147483647, 2147483647, UINT32_MAX, PIX_BAD_SOURCE},
    };
    static const uint8_t mattes[] = {1, 2, 3, 4};
    const pix_rgba8 as_before[2] = {ground, ground};
    for (size_t i = 0; i < LENGTH_OF(table); i++) {
        const pix_command good = command(PIX_KIND_COPY_COLOR);
        pix_command list[3] = {good, command(table[i].kind), good}, *bad = &list[1];
        pix_rgba8 image[2] = {ground, ground};
        bad->op = table[i].op;
        bad->to.width = table[i].to_width, bad->to.height = table[i].to_height, bad->from.height = table[i].from_height;
        bad->pixels = &ground, bad->pixel_count = table[i].pixels;
        bad->mattes = mattes, bad->matte_count = table[i].mattes;
        bad->width = table[i].width, bad->height = table[i].height, bad->stride = table[i].stride;
        begin("what_is_refused: %s", table[i].what);
        run(image, 2, 2, 1, 2, list, 3, table[i].status, 1);
        compare_pixels(image, as_before, 2);
    }
}

/* Which of five pixels a clear makes transparent, as bits from the first one on. */
static void sizes(void) {
    static const struct {
        uint32_t width, height, stride;
        pix_status status;
        unsigned cleared;
    } table[] = {
        {2, 2, 3, PIX_OK, 27}, /* all but the third one, which stands between the rows */
        {3, 2, 3, PIX_BAD_SIZE, 0},
        {2, 2, 4, PIX_BAD_SIZE, 0},
        {2, 2, 1, PIX_BAD_SIZE, 0},
        {2, 3, 3, PIX_BAD_SIZE, 0},
        {5, 1, UINT32_MAX, PIX_OK, 31},
        {0, 2147483647, 0, PIX_OK, 0},
        {0, 2, 5, PIX_OK, 0},
        {0, 2, 6, PIX_BAD_SIZE, 0},
        {2147483647, 0, 2147483647, PIX_OK, 0},
        {2147483648, 0, UINT32_MAX, PIX_BAD_SIZE, 0},
        {0, 2147483648, 0, PIX_BAD_SIZE, 0},
        {UINT32_MAX, UINT32_MAX, UINT32_MAX, PIX_BAD_SIZE, 0},
        {2147483647, 2147483647, UINT32_MAX, PIX_BAD_SIZE, 0},
        {0, 2147483647, 2147483650, PIX_BAD_SIZE, 0},
    };
    for (size_t i = 0; i < LENGTH_OF(table); i++) {
        const pix_command clear = command(PIX_KIND_CLEAR);
        const uint32_t width = table[i].width, height = table[i].height, stride = table[i].stride;
        pix_rgba8 image[5], wanted[5];
        for (int at = 0; at < 5; at++) {
            image[at] = ground;
            wanted[at] = table[i].cleared >> at & 1 ? none : ground;
        }
        begin("sizes: %u by %u, %u apart", (unsigned)width, (unsigned)height, (unsigned)stride);
        run(image, 5, width, height, stride, &clear, 1, table[i].status, table[i].status == PIX_OK);
        compare_pixels(image, wanted, 5);
    }
}

/* A clear of two columns, and then a window of one column into a source of three. */
static void what_stands_between_the_rows_stays(void) {
    static const pix_rgba8 source[] = {{1, 0, 0, 1}, {2, 0, 0, 2}, {3, 0, 0, 3}, {4, 0, 0, 4}};
    const pix_command clear = command(PIX_KIND_CLEAR);
    pix_command copy = command(PIX_KIND_COPY_IMAGE);
    pix_rgba8 image[8] = {ground, ground, ground, ground, ground, ground, ground, ground};
    const pix_rgba8 cleared[8] = {none, none, ground, ground, none, none, ground, ground};
    const pix_rgba8 copied[8] = {none, source[0], ground, ground, none, source[3], ground, ground};
    begin("what_stands_between_the_rows_stays: a clear");
    run(image, 8, 2, 2, 4, &clear, 1, PIX_OK, 1);
    compare_pixels(image, cleared, 8);
    copy.to = pix_region_of(1, 0, 2, 2), copy.from = pix_region_of(0, 0, 2, 2);
    copy.pixels = source, copy.pixel_count = 4, copy.height = 2, copy.stride = 3;
    begin("what_stands_between_the_rows_stays: a copy");
    run(image, 8, 2, 2, 4, &copy, 1, PIX_OK, 1);
    compare_pixels(image, copied, 8);
}

static void regions_that_are_clipped(void) {
    pix_command list[2] = {command(PIX_KIND_COPY_COLOR), command(PIX_KIND_COPY_COLOR)};
    pix_rgba8 image[4] = {ground, ground, ground, ground};
    const pix_rgba8 wanted[4] = {ground, ground, {100, 50, 0, 128}, ground};
    list[0].to = pix_region_of(INT32_MIN, INT32_MIN, SIDE, SIDE);
    list[1].to = pix_region_of(-1, 1, 2, SIDE);
    begin("regions_that_are_clipped");
    run(image, 4, 2, 2, 2, list, 2, PIX_OK, 2);
    compare_pixels(image, wanted, 4);
}

static void regions_at_the_ends_of_the_coordinates(void) {
    static const struct {
        uint32_t kind;
        pix_rgba8 made;
    } kinds[] = {{2, {60, 0, 0, 60}}, {4, {68, 15, 23, 255}}, {5, {29, 28, 27, 255}}};
    const pix_region first = {INT32_MIN, INT32_MIN, SIDE, SIDE}, last = {INT32_MAX, INT32_MAX, SIDE, SIDE};
    const pix_region all = {0, 0, SIDE, SIDE};
    const pix_region up_to_zero = {-2147483646, -2147483646, SIDE, SIDE}; /* its last point is (0, 0) */
    const struct {
        const char *what;
        pix_region to, from;
        int is_reached;
    } table[] = {
        {"all to the first", first, all, 0},       {"all to the last", last, all, 0},
        {"the first to all", all, first, 0},       {"the last to all", all, last, 0},
        {"the first to the first", first, first, 0}, {"the last to the last", last, last, 0},
        {"up to zero", up_to_zero, up_to_zero, 1}, {"all to all", all, all, 1},
    };
    for (size_t i = 0; i < LENGTH_OF(kinds) * LENGTH_OF(table); i++) {
        const size_t kind = i / LENGTH_OF(table), at = i % LENGTH_OF(table);
        pix_command it = command(kinds[kind].kind);
        pix_rgba8 image[4] = {ground, ground, ground, ground};
        const pix_rgba8 wanted[4] = {table[at].is_reached ? kinds[kind].made : ground, ground, ground, ground};
        it.to = table[at].to, it.from = table[at].from;
        begin("regions_at_the_ends_of_the_coordinates: kind %u, %s", (unsigned)it.kind, table[at].what);
        run(image, 4, 2, 2, 2, &it, 1, PIX_OK, 1);
        compare_pixels(image, wanted, 4);
    }
}

static void an_empty_list(void) {
    const pix_command unread = command(PIX_KIND_CLEAR);
    pix_rgba8 image = ground;
    begin("an_empty_list: on a pixel");
    run(&image, 1, 1, 1, 1, &unread, 0, PIX_OK, 0);
    compare_pixels(&image, &ground, 1);
    begin("an_empty_list: on no pixels");
    run(&image, 0, 0, 0, 0, &unread, 0, PIX_OK, 0);
    begin("an_empty_list: on a pixel that is not there");
    run(&image, 0, 1, 1, 1, &unread, 0, PIX_BAD_SIZE, 0);
}

/* SRC_OVER with half an alpha: 20000 * 32767 / 65535 = 9999.85, 65535 * 32767 / 65535 = 32767. */
static void sixteen_bits(void) {
    static const uint16_t matte = 65535;
    static const pix_rgba16 wanted = {11000, 300, 32767, 65535};
    const pix_matte16 mattes = pix_matte16_of(&matte, 1, 1);
    const pix_region one = pix_region_of(0, 0, 1, 1);
    const pix_rgba16 color = {1000, 300, 0, 32768};
    pix_command_rgba16 it = pix_composite_matte_rgba16(one, mattes, one, color, PIX_OP_SRC_OVER);
    pix_rgba16 image = {20000, 0, 65535, 65535};
    begin("sixteen_bits: a color through a matte");
    run_rgba16(&image, 1, 1, 1, 1, &it, 1, PIX_OK, 1);
    compare(&image, &wanted, 4, 2);
    begin("sixteen_bits: one pixel for two");
    run_rgba16(&image, 1, 1, 2, 1, &it, 1, PIX_BAD_SIZE, 0);
    it.matte_count = 0;
    begin("sixteen_bits: no mattes");
    run_rgba16(&image, 1, 1, 1, 1, &it, 1, PIX_BAD_SOURCE, 0);
}

/* A fade by 128 of 255: 200 * 128 / 255 = 100.4, 100 * 128 / 255 = 50.2; over 100 with one minus 100: 100 * 155 / 255 = 60.8.
 * The mask has rows of three, and its second row is read. */
static void masks_and_opacities(void) {
    static const uint8_t values[] = {9, 9, 9, 128, 0, 255};
    static const pix_rgba8 pixel = {200, 100, 0, 200}, faded = {100, 50, 61, 255}, below = {0, 0, 100, 255};
    static const pix_rgba8 kept = {200, 100, 22, 255}; /* 100 * 55 / 255 = 21.6 */
    const pix_region all = pix_region_of(0, 0, 9, 9), one = pix_region_of(0, 0, 1, 1);
    const pix_view source = pix_view_of(&pixel, 1, 1);
    pix_rgba8 image[3] = {below, below, below}, row[3];
    const pix_rgba8 wanted[3] = {faded, below, kept};
    pix_matte mask = pix_matte_of(values, 3, 2);
    pix_command it = pix_composite_image_alpha(one, source, all, 128, PIX_OP_SRC_OVER);
    begin("masks_and_opacities: at an opacity");
    run(image, 3, 3, 1, 3, &it, 1, PIX_OK, 1);
    compare_pixels(image, &faded, 1);
    compare_pixels(image + 1, &below, 1);
    it = pix_composite_image_alpha(one, source, all, 255, PIX_OP_SRC);
    begin("masks_and_opacities: opaque");
    run(image, 3, 3, 1, 3, &it, 1, PIX_OK, 1);
    compare_pixels(image, &pixel, 1);
    row[0] = row[1] = row[2] = pixel;
    image[0] = below;
    it = pix_composite_image_matte(all, pix_view_of(row, 3, 1), all, mask, pix_region_of(0, 1, 3, 9), PIX_OP_SRC_OVER);
    begin("masks_and_opacities: through a mask");
    run(image, 3, 3, 1, 3, &it, 1, PIX_OK, 1);
    compare_pixels(image, wanted, 3);
    begin("masks_and_opacities: a mask of another stride");
    mask.width = 2, mask.stride = 3, image[0] = image[1] = image[2] = below;
    it = pix_composite_image_matte(all, pix_view_of(row, 2, 1), all, mask, pix_region_of(0, 1, 3, 9), PIX_OP_SRC_OVER);
    run(image, 3, 3, 1, 3, &it, 1, PIX_OK, 1);
    compare_pixels(image, wanted, 2);
    compare_pixels(image + 2, &below, 1);
    it.matte_count = 4;
    begin("masks_and_opacities: too few mattes");
    run(image, 3, 3, 1, 3, &it, 1, PIX_BAD_SOURCE, 0);
    it.matte_count = 5, it.pixel_count = 1;
    begin("masks_and_opacities: too few pixels");
    run(image, 3, 3, 1, 3, &it, 1, PIX_BAD_SOURCE, 0);
}

/* SRC_OVER with the alpha 51: 100 * 204 / 255 = 80, 204 * 204 / 255 = 163.2. */
static void gray_and_alpha(void) {
    static const pix_graya8 pixel = {50, 51}, wanted = {130, 214};
    const pix_region one = pix_region_of(0, 0, 1, 1);
    const pix_view_graya8 source = pix_view_of_graya8(&pixel, 1, 1);
    pix_command_graya8 it = pix_composite_image_graya8(one, source, one, PIX_OP_SRC_OVER);
    pix_graya8 image = {100, 204};
    begin("gray_and_alpha: a pixel");
    run_graya8(&image, 1, 1, 1, 1, &it, 1, PIX_OK, 1);
    compare(&image, &wanted, 2, 1);
    it.kind = 9;
    begin("gray_and_alpha: no kind");
    run_graya8(&image, 1, 1, 1, 1, &it, 1, PIX_BAD_KIND, 0);
}

/* ---- Rows of more than sixteen pixels ---- */

enum { WIDE = 20 };

/* A kind of pixels: its greatest channel, how many channels there are, what all but alphas are below, and the factors
 * from which numbers are made: those of the channels, and of the image, the source, the color and the mattes. */
typedef struct {
    uint64_t max;
    size_t channels;
    uint64_t below, factors[4], image, source, color, mattes;
} plan;

/* A channel of the pixel of an index: it differs from the other channels and from those of the neighbors, and the alpha
 * is the greatest. */
static uint64_t channel(const plan *it, uint64_t factor, size_t index, size_t at) {
    return (index + 1) * (factor + it->factors[at]) % it->below + (at + 1 == it->channels ? it->below : 0);
}

static uint64_t matte(const plan *it, size_t index) {
    return (index + 1) * it->mattes % it->below * 2;
}

/* The product of two channels as fractions of the greatest one, to the nearest. */
static uint64_t product(const plan *it, uint64_t x, uint64_t y) {
    return (2 * x * y + it->max) / (2 * it->max);
}

/* A channel of what is composited with the pixel of an index. */
static uint64_t composited(const plan *it, uint32_t kind, size_t index, size_t at) {
    if (kind == PIX_KIND_COMPOSITE_IMAGE)
        return channel(it, it->source, index - 1, at);
    const uint64_t color = channel(it, it->color, 3, at);
    return kind == PIX_KIND_COMPOSITE_COLOR ? color : product(it, color, matte(it, index - 1));
}

/* SRC_OVER leaves the source's channel, and the destination's times one minus the source's alpha. The pixels at the two
 * ends of the row stay. */
static uint64_t outcome(const plan *it, uint32_t kind, size_t index, size_t at) {
    const uint64_t before = channel(it, it->image, index, at);
    if (index == 0 || index == WIDE - 1)
        return before;
    const uint64_t alpha = composited(it, kind, index, it->channels - 1);
    const uint64_t sum = composited(it, kind, index, at) + product(it, before, it->max - alpha);
    return sum < it->max ? sum : it->max;
}

/* Each composite on all but the two ends of a row. */
#define WIDE_OF(S, PIXEL, VALUE, CHANNELS)                                                                             \
    static void wide##S(const char *test, const plan *it) {                                                            \
        for (uint32_t kind = PIX_KIND_COMPOSITE_COLOR; kind <= PIX_KIND_COMPOSITE_MATTE; kind++) {                     \
            VALUE image[WIDE][CHANNELS], source[WIDE][CHANNELS], wanted[WIDE][CHANNELS], mattes[WIDE];                 \
            pix_command##S command = pix_clear##S();                                                                   \
            for (size_t i = 0; i < WIDE; i++) {                                                                        \
                mattes[i] = (VALUE)matte(it, i);                                                                       \
                for (size_t at = 0; at < CHANNELS; at++) {                                                             \
                    image[i][at] = (VALUE)channel(it, it->image, i, at);                                               \
                    source[i][at] = (VALUE)channel(it, it->source, i, at);                                             \
                    wanted[i][at] = (VALUE)outcome(it, kind, i, at);                                                   \
                    ((VALUE *)&command.color)[at] = (VALUE)channel(it, it->color, 3, at);                              \
                }                                                                                                      \
            }                                                                                                          \
            command.kind = kind, command.op = PIX_OP_SRC_OVER;                                                         \
            command.to = pix_region_of(1, 0, WIDE - 2, 1), command.from = pix_region_of(0, 0, WIDE, 1);                \
            command.pixels = (const PIXEL *)(const void *)source, command.mattes = mattes;                             \
            command.pixel_count = command.matte_count = command.width = command.stride = WIDE, command.height = 1;     \
            begin("%s: kind %u", test, (unsigned)kind);                                                                \
            run##S((PIXEL *)(void *)image, WIDE, WIDE, 1, WIDE, &command, 1, PIX_OK, 1);                               \
            for (size_t i = 0; i < WIDE; i++) {                                                                        \
                begin("%s: kind %u, pixel %u", test, (unsigned)kind, (unsigned)i);                                     \
                compare(image[i], wanted[i], CHANNELS, sizeof(VALUE));                                                 \
            }                                                                                                          \
        }                                                                                                              \
    }

WIDE_OF(, pix_rgba8, uint8_t, 4)
WIDE_OF(_rgba16, pix_rgba16, uint16_t, 4)
WIDE_OF(_graya8, pix_graya8, uint8_t, 2)

int main(void) {
    static const plan eight = {255, 4, 100, {0, 4, 10, 16}, 31, 7, 53, 41};
    static const plan sixteen = {65535, 4, 30000, {0, 1000, 2400, 5000}, 3109, 709, 5303, 6151};
    static const plan gray = {255, 2, 100, {0, 16}, 31, 7, 53, 41};
    each_kind();
    each_operator();
    what_is_refused();
    sizes();
    what_stands_between_the_rows_stays();
    regions_that_are_clipped();
    regions_at_the_ends_of_the_coordinates();
    an_empty_list();
    sixteen_bits();
    gray_and_alpha();
    masks_and_opacities();
    wide("of_eight_bits", &eight);
    wide_rgba16("of_sixteen_bits", &sixteen);
    wide_graya8("of_gray", &gray);
    printf("worked: %u rows, %u failures\n", rows, failures);
    return failures != 0;
}
