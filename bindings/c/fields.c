/* Every field and every argument that crosses to libpix_c.a, one at a time, beside the plain model of plain.h.
 *
 * A command whose numbers all differ is run; then one number after the other gets another value, which must change the
 * outcome as it changes the model's. So a library that takes two fields for each other fails here, also where they have
 * one type, which no size or offset tells: tools/border-faults exchanges each two of them. */
#include "pix.h"
#include "plain.h"
#include <stdio.h>
#include <stdlib.h>

enum {
    KIND, OP, TO_X, TO_Y, TO_WIDTH, TO_HEIGHT, FROM_X, FROM_Y, FROM_WIDTH, FROM_HEIGHT, COLOR, GREEN, BLUE, ALPHA,
    PIXELS, PIXEL_COUNT, MATTES, MATTE_COUNT, WIDTH, HEIGHT, STRIDE, MASK_X, MASK_Y, MASK_REGION_WIDTH,
    MASK_REGION_HEIGHT, MASK_WIDTH, MASK_HEIGHT, MASK_STRIDE, OPACITY, /* those of a command */
    IMAGE, IMAGE_COUNT, IMAGE_WIDTH, IMAGE_HEIGHT, IMAGE_STRIDE, COMMANDS, COMMAND_COUNT,
    LEFT, TOP, FIELDS /* the place of a window */
};

static const char *const names[FIELDS] = {
    "kind", "op", "to.x", "to.y", "to.width", "to.height", "from.x", "from.y", "from.width", "from.height", "color.r",
    "color.g", "color.b", "color.a", "pixels", "pixel_count", "mattes", "matte_count", "width", "height", "stride",
    "mask.x", "mask.y", "mask.width", "mask.height", "mask_width", "mask_height", "mask_stride", "alpha", "the image", "its count", "its width", "its height", "its stride", "the list", "its count", "left", "top",
};

/* The source has 5 x 4 elements in rows of 8, which are 29; the mask 6 x 5 in rows of 9, which are 42; the image has 9 x 7 in rows of 11, which are 75. Pointers
 * are counted in elements from the start of a buffer. */
enum { ELEMENTS = 160 };
static const int64_t first[FIELDS] = {4, 2, 2, 1, 6, 5, -1, 1, 7, 4, 90, 70, 50, 200,
                                      3, 29, 5, 28, 5, 4, 8, -2, 2, 8, 3, 6, 5, 9, 150, 4, 75, 9, 7, 11, 0, 1, 0, 0};
static const int64_t other[FIELDS] = {2, 12, 3, 0, 4, 2, 1, 0, 3, 2, 60, 40, 20, 170,
                                      4, 28, 6, 27, 3, 3, 7, -3, 1, 5, 2, 3, 4, 10, 60, 3, 74, 4, 3, 10, 1, 2, 1, 2};

static int failures;

/* Whether the mattes of a command have 8 bits, whatever the channels have. */
static int are_bytes;

/* Whether the list is run on a window, whose place is that of `first` too unless one of the two is tried. */
static int is_window;

static void fail(const char *kind, const char *field, const char *what) {
    fprintf(stderr, "fields: %s: %s: %s\n", kind, field, what);
    failures++;
}

/* The memory of a run: the image, and the pixels and the mattes that are read. Words, so that all are aligned. */
typedef struct {
    uint64_t image[2 * ELEMENTS], pixels[2 * ELEMENTS], mattes[2 * ELEMENTS];
} memory;

static void fill(memory *it) {
    unsigned char *bytes = (unsigned char *)it;
    uint32_t state = 1;
    for (size_t i = 0; i < sizeof *it; i++) {
        state = state * UINT32_C(1664525) + UINT32_C(1013904223);
        bytes[i] = (unsigned char)(state >> 24);
    }
}

/* The outcome of a run: its status, `done`, and the image. */
typedef struct {
    uint32_t status;
    size_t done;
    memory after;
} outcome;

static int is_same(const outcome *one, const outcome *two) {
    return one->status == two->status && one->done == two->done
           && memcmp(&one->after, &two->after, sizeof one->after) == 0;
}

/* What the model makes of the numbers. */
static outcome model(const plain_kind *kind, const int64_t *n) {
    outcome it;
    size_t size = kind->bytes * kind->channels;
    int is_matte = n[KIND] == PLAIN_MATTE;
    plain_rows image, source, mask;
    plain_command list[3];
    memset(&it, 0, sizeof it);
    fill(&it.after);
    image.bytes = (unsigned char *)it.after.image + (size_t)n[IMAGE] * size;
    image.width = (uint64_t)n[IMAGE_WIDTH], image.height = (uint64_t)n[IMAGE_HEIGHT];
    image.stride = (uint64_t)n[IMAGE_STRIDE];
    size_t matte = are_bytes ? 1 : kind->bytes;
    source.bytes = is_matte ? (unsigned char *)it.after.mattes + (size_t)n[MATTES] * matte
                            : (unsigned char *)it.after.pixels + (size_t)n[PIXELS] * size;
    source.width = (uint64_t)n[WIDTH], source.height = (uint64_t)n[HEIGHT], source.stride = (uint64_t)n[STRIDE];
    mask.bytes = (unsigned char *)it.after.mattes + (size_t)n[MATTES] * matte;
    mask.width = (uint64_t)n[MASK_WIDTH], mask.height = (uint64_t)n[MASK_HEIGHT];
    mask.stride = (uint64_t)n[MASK_STRIDE];
    if ((image.height - 1) * image.stride + image.width > (uint64_t)n[IMAGE_COUNT]) {
        it.status = PIX_BAD_SIZE;
        return it;
    }
    if ((source.height - 1) * source.stride + source.width > (uint64_t)(is_matte ? n[MATTE_COUNT] : n[PIXEL_COUNT])) {
        it.status = PIX_BAD_SOURCE;
        return it;
    }
    if (n[KIND] == PLAIN_MASKED && (mask.height - 1) * mask.stride + mask.width > (uint64_t)n[MATTE_COUNT]) {
        it.status = PIX_BAD_SOURCE;
        return it;
    }
    memset(list, 0, sizeof list);
    list[0].kind = (uint32_t)n[KIND], list[0].op = (uint32_t)n[OP], list[0].source = &source;
    list[0].to.x = n[TO_X], list[0].to.y = n[TO_Y], list[0].to.width = n[TO_WIDTH], list[0].to.height = n[TO_HEIGHT];
    list[0].from.x = n[FROM_X], list[0].from.y = n[FROM_Y];
    list[0].from.width = n[FROM_WIDTH], list[0].from.height = n[FROM_HEIGHT];
    list[0].mask_from.x = n[MASK_X], list[0].mask_from.y = n[MASK_Y];
    list[0].mask_from.width = n[MASK_REGION_WIDTH], list[0].mask_from.height = n[MASK_REGION_HEIGHT];
    list[0].mask = &mask, list[0].alpha = (uint64_t)n[OPACITY], list[0].are_bytes = are_bytes;
    for (size_t i = 0; i < kind->channels; i++)
        list[0].color[i] = (uint64_t)n[i + 1 == kind->channels ? (int)ALPHA : COLOR + (int)i];
    list[1].kind = list[2].kind = PLAIN_CLEAR;
    plain_run_in(kind, &image, n[LEFT], n[TOP], list + n[COMMANDS], (size_t)n[COMMAND_COUNT]);
    it.done = (size_t)n[COMMAND_COUNT];
    return it;
}

/* What the library makes of them, for one kind of pixels; MORE changes the command. */
#define RUN_OF(S, PIXEL, VALUE, COLORS, MORE)                                                                          \
    static outcome run##S(const int64_t *n) {                                                                          \
        outcome it;                                                                                                    \
        pix_command##S list[3];                                                                                        \
        memset(&it, 0, sizeof it);                                                                                     \
        fill(&it.after);                                                                                               \
        list[0] = list[1] = list[2] = pix_clear##S();                                                                  \
        list[0].kind = (uint32_t)n[KIND];                                                                              \
        list[0].op = (uint32_t)n[OP];                                                                                  \
        list[0].to.x = (int32_t)n[TO_X];                                                                               \
        list[0].to.y = (int32_t)n[TO_Y];                                                                               \
        list[0].to.width = (uint32_t)n[TO_WIDTH];                                                                      \
        list[0].to.height = (uint32_t)n[TO_HEIGHT];                                                                    \
        list[0].from.x = (int32_t)n[FROM_X];                                                                           \
        list[0].from.y = (int32_t)n[FROM_Y];                                                                           \
        list[0].from.width = (uint32_t)n[FROM_WIDTH];                                                                  \
        list[0].from.height = (uint32_t)n[FROM_HEIGHT];                                                                \
        COLORS;                                                                                                        \
        list[0].pixels = (const PIXEL *)(const void *)it.after.pixels + n[PIXELS];                                     \
        list[0].pixel_count = (size_t)n[PIXEL_COUNT];                                                                  \
        list[0].mattes = (const VALUE *)(const void *)it.after.mattes + n[MATTES];                                     \
        list[0].matte_count = (size_t)n[MATTE_COUNT];                                                                  \
        list[0].width = (uint32_t)n[WIDTH];                                                                            \
        list[0].height = (uint32_t)n[HEIGHT];                                                                          \
        list[0].stride = (uint32_t)n[STRIDE];                                                                          \
        list[0].mask.x = (int32_t)n[MASK_X];                                                                           \
        list[0].mask.y = (int32_t)n[MASK_Y];                                                                           \
        list[0].mask.width = (uint32_t)n[MASK_REGION_WIDTH];                                                           \
        list[0].mask.height = (uint32_t)n[MASK_REGION_HEIGHT];                                                         \
        list[0].mask_width = (uint32_t)n[MASK_WIDTH];                                                                  \
        list[0].mask_height = (uint32_t)n[MASK_HEIGHT];                                                                \
        list[0].mask_stride = (uint32_t)n[MASK_STRIDE];                                                                \
        list[0].alpha = (VALUE)n[OPACITY];                                                                             \
        MORE                                                                                                           \
        it.done = 77;                                                                                                  \
        it.status = pix_raw_run_window##S((PIXEL *)(void *)it.after.image + n[IMAGE], (size_t)n[IMAGE_COUNT],          \
                                          is_window ? (uint32_t)n[LEFT] : 0, is_window ? (uint32_t)n[TOP] : 0,         \
                                          (uint32_t)n[IMAGE_WIDTH], (uint32_t)n[IMAGE_HEIGHT],                         \
                                          (uint32_t)n[IMAGE_STRIDE], list + n[COMMANDS],                               \
                                          (size_t)n[COMMAND_COUNT], &it.done);                                         \
        return it;                                                                                                     \
    }

#define CHANNEL(c, VALUE, number) list[0].color.c = (VALUE)n[number]
#define FOUR(VALUE)                                                                                                    \
    CHANNEL(r, VALUE, COLOR), CHANNEL(g, VALUE, GREEN), CHANNEL(b, VALUE, BLUE), CHANNEL(a, VALUE, ALPHA)
/* The mattes have 8 bits, and what a command has of 16 besides is not read: it is less than what is needed. */
#define BYTES                                                                                                          \
    if (are_bytes) {                                                                                                   \
        list[0].mattes8 = (const uint8_t *)it.after.mattes + n[MATTES];                                                \
        list[0].matte8_count = (size_t)n[MATTE_COUNT];                                                                 \
        list[0].mattes = (const uint16_t *)(const void *)it.after.pixels;                                              \
        list[0].matte_count = 1;                                                                                       \
    }
RUN_OF(, pix_rgba8, uint8_t, FOUR(uint8_t), )
RUN_OF(_rgba16, pix_rgba16, uint16_t, FOUR(uint16_t), BYTES)
RUN_OF(_graya8, pix_graya8, uint8_t, (CHANNEL(value, uint8_t, COLOR), CHANNEL(a, uint8_t, ALPHA)), )

/* Whether the outcome of a command of this kind can show the field. */
static int is_read(const plain_kind *kind, int64_t command, int field) {
    if (field == PIXELS || field == PIXEL_COUNT)
        return command != PLAIN_MATTE;
    if (field == MATTES || field == MATTE_COUNT)
        return command == PLAIN_MATTE || command == PLAIN_MASKED;
    if (field == COLOR || field == ALPHA)
        return command == PLAIN_MATTE;
    if (field >= MASK_X && field <= MASK_STRIDE)
        return command == PLAIN_MASKED;
    if (field == OPACITY)
        return command == PLAIN_FADED;
    if (field == LEFT || field == TOP)
        return is_window;
    if (field == GREEN || field == BLUE)
        return command == PLAIN_MATTE && kind->channels == 4;
    return 1;
}

static void try_fields(const char *name, const plain_kind *kind, outcome (*run)(const int64_t *), int64_t command) {
    int64_t n[FIELDS];
    memcpy(n, first, sizeof n);
    n[KIND] = command;
    if (command == PLAIN_MATTE)
        n[PIXEL_COUNT] = first[MATTE_COUNT], n[MATTE_COUNT] = first[PIXEL_COUNT];
    if (command == PLAIN_MASKED)
        n[MATTE_COUNT] = 42;
    if (kind->bytes == 2)
        n[COLOR] = 30000, n[GREEN] = 20000, n[BLUE] = 10000, n[ALPHA] = 50000, n[OPACITY] = 45000;
    const outcome base = model(kind, n), same = run(n);
    if (!is_same(&base, &same))
        fail(name, "all fields", "not as the model has them");
    for (int field = 0; field < FIELDS; field++) {
        int64_t kept = n[field];
        if (!is_read(kind, command, field))
            continue;
        n[field] = field == MATTE_COUNT ? kept - 1 : other[field];
        const outcome wanted = model(kind, n), got = run(n);
        if (is_same(&wanted, &base))
            fail(name, names[field], "changes nothing, so that this test shows nothing");
        if (!is_same(&wanted, &got))
            fail(name, names[field], "not as the model has it");
        n[field] = kept;
    }
}

/* A conversion by its numbers: the status, and whether the bytes are those of the model and no other is changed. */
static uint32_t convert(uint32_t from, uint32_t to, size_t start, size_t src_len, size_t dst_len, size_t count) {
    static const uint8_t src[12] = {10, 20, 30, 40, 50, 60, 70, 80, 90, 100, 110, 120};
    uint8_t got[12] = {0}, wanted[12] = {0};
    uint32_t status = pix_raw_convert(from, to, src + start, src_len, got, dst_len, count);
    for (size_t i = 0; status == PIX_OK && i < count; i++) {
        const plain_format *source = &plain_formats[from], *target = &plain_formats[to];
        plain_convert(source, target, src + start + i * plain_size(source), wanted + i * plain_size(target));
    }
    if (memcmp(got, wanted, sizeof got) != 0)
        fail("conversion", "bytes", "not as the model has them");
    return status;
}

static void conversions(void) {
    enum { RGBA = PIX_FORMAT_RGBA8, RGB = PIX_FORMAT_RGB8, BGRA = PIX_FORMAT_BGRA8 };
    if (convert(RGBA, RGB, 0, 8, 6, 2) || convert(RGB, BGRA, 0, 6, 8, 2) || convert(RGBA, RGB, 1, 4, 3, 1))
        fail("conversion", "all arguments", "refused");
    if (convert(PLAIN_FORMATS, RGB, 0, 8, 6, 2) != PIX_BAD_FORMAT)
        fail("conversion", "from", "not refused");
    if (convert(RGBA, PLAIN_FORMATS, 0, 8, 6, 2) != PIX_BAD_FORMAT)
        fail("conversion", "to", "not refused");
    if (convert(RGBA, RGB, 0, 7, 6, 2) != PIX_BAD_LENGTH)
        fail("conversion", "src_len", "not refused");
    if (convert(RGBA, RGB, 0, 8, 5, 2) != PIX_BAD_LENGTH)
        fail("conversion", "dst_len", "not refused");
    if (convert(RGBA, RGB, 0, 8, 6, 1) != PIX_BAD_LENGTH)
        fail("conversion", "count", "not refused");
}

/* The name of a kind of commands whose outcome shows its fields, or null where those of another kind are the same. */
static const char *shown(pix_kind kind) {
    switch (kind) {
    case PIX_KIND_COMPOSITE_IMAGE: return "image";
    case PIX_KIND_COMPOSITE_MATTE: return "matte";
    case PIX_KIND_COMPOSITE_IMAGE_MATTE: return "mask";
    case PIX_KIND_COMPOSITE_IMAGE_ALPHA: return "opacity";
    case PIX_KIND_CLEAR:
    case PIX_KIND_COPY_COLOR:
    case PIX_KIND_COPY_IMAGE:
    case PIX_KIND_COMPOSITE_COLOR: return NULL;
    }
    return NULL;
}

int main(void) {
    static const struct {
        const char *name;
        plain_kind kind;
        outcome (*run)(const int64_t *);
    } pixels[] = {{"rgba8", {255, 1, 4}, run}, {"rgba16", {65535, 2, 4}, run_rgba16}, {"graya8", {255, 1, 2}, run_graya8}};
    if (pix_check_library() != PIX_OK)
        fail("layout", "all facts", pix_status_text(PIX_BAD_LIBRARY));
    for (is_window = 0; is_window < 2; is_window++)
        for (int i = 0; i < 3 * PIX_KIND_COUNT; i++) {
            const pix_kind kind = (pix_kind)(i / 3);
            char name[32];
            if (!shown(kind))
                continue;
            snprintf(name, sizeof name, "%s, %s", pixels[i % 3].name, shown(kind));
            try_fields(name, &pixels[i % 3].kind, pixels[i % 3].run, kind);
            are_bytes = pixels[i % 3].kind.bytes == 2 && (kind == PIX_KIND_COMPOSITE_MATTE || kind == PIX_KIND_COMPOSITE_IMAGE_MATTE);
            if (are_bytes)
                try_fields(kind == PIX_KIND_COMPOSITE_MATTE ? "rgba16, matte of 8 bits" : "rgba16, mask of 8 bits",
                           &pixels[i % 3].kind, pixels[i % 3].run, kind);
            are_bytes = 0;
        }
    conversions();
    printf("fields: %d failures\n", failures);
    return failures != 0;
}
