/* Random lists of commands by pix.h, beside the same composites by pixman: link it with pixman-1.
 *
 *     pixman [LISTS [SEED]]
 *
 * Pixman knows pixels of 8 bits a channel and the same operators. All bytes of the image are compared after
 * each list, those between its rows too. LISTS is 20000 and SEED 1 where they aren't given. */
#include "pixman_ops.h"
#include <stdio.h>
#include <stdlib.h>

enum { WIDE = 48, HIGH = 20, APART = 52, SOURCES = 3, COMMANDS = 12 };

static uint64_t state;

/* A random number below `count` (xorshift of Marsaglia, 64 bits). */
static uint32_t below(uint32_t count) {
    state ^= state << 13;
    state ^= state >> 7;
    state ^= state << 17;
    return (uint32_t)((state >> 11) % count);
}

/* Any byte, and often one of the ends. */
static uint8_t byte(void) {
    return below(4) ? (uint8_t)below(256) : below(2) ? 255 : 0;
}

static pix_rgba8 image[HIGH * APART], sources[SOURCES][HIGH * APART];
static uint8_t mattes[SOURCES][HIGH * APART];
/* Pixman reads and writes words. */
static uint32_t other[HIGH * APART], copies[SOURCES][HIGH * APART], masks[SOURCES][HIGH * APART / 4];

static pix_rgba8 pixel(void) {
    return pix_rgba8_of(byte(), byte(), byte(), byte());
}

static void fill(void) {
    int i, j;
    for (i = 0; i < HIGH * APART; i++) {
        image[i] = pixel();
        for (j = 0; j < SOURCES; j++) {
            sources[j][i] = pixel();
            mattes[j][i] = byte();
        }
    }
    memcpy(other, image, sizeof image);
    memcpy(copies, sources, sizeof sources);
    memcpy(masks, mattes, sizeof mattes);
}

/* A region near the image, or one that reaches to an end of the numbers. */
static pix_region region(void) {
    int32_t x = (int32_t)below(2 * WIDE) - WIDE / 2, y = (int32_t)below(2 * HIGH) - HIGH / 2;
    if (below(16) == 0)
        return pix_region_of(x, y, INT32_MAX, INT32_MAX);
    return pix_region_of(x, y, below(2 * WIDE), below(2 * HIGH));
}

/* Clips a side to `start` and `end`, and moves its partner along. */
static void clip(int64_t *at, int64_t *partner, int64_t *length, int64_t end) {
    if (*at < 0) {
        *partner -= *at;
        *length += *at;
        *at = 0;
    }
    if (*at + *length > end)
        *length = end - *at;
}

static pixman_image_t *words(uint32_t *pixels) {
    return pixman_image_create_bits(PIXMAN_a8b8g8r8, WIDE, HIGH, pixels, 4 * APART);
}

/* Composites an image through a mask by pixman, where all three regions and all three images have a point. */
static void composite_masked(uint32_t op, pixman_image_t *src, pixman_image_t *mask, pix_region to, pix_region from,
                             pix_region mask_from) {
    pixman_image_t *dest = words(other);
    int64_t at[3] = {to.x, from.x, mask_from.x}, down[3] = {to.y, from.y, mask_from.y};
    int64_t width = to.width, height = to.height, i;
    width = width < (int64_t)from.width ? width : (int64_t)from.width;
    width = width < (int64_t)mask_from.width ? width : (int64_t)mask_from.width;
    height = height < (int64_t)from.height ? height : (int64_t)from.height;
    height = height < (int64_t)mask_from.height ? height : (int64_t)mask_from.height;
    for (i = 0; i < 3; i++) {
        int64_t left = at[i] < 0 ? -at[i] : 0, top = down[i] < 0 ? -down[i] : 0, j;
        for (j = 0; j < 3; j++) {
            at[j] += left;
            down[j] += top;
        }
        width -= left;
        height -= top;
    }
    for (i = 0; i < 3; i++) {
        width = width < WIDE - at[i] ? width : WIDE - at[i];
        height = height < HIGH - down[i] ? height : HIGH - down[i];
    }
    if (width > 0 && height > 0)
        pixman_image_composite32(operators[op], src, mask, dest, (int32_t)at[1], (int32_t)down[1], (int32_t)at[2],
                                 (int32_t)down[2], (int32_t)at[0], (int32_t)down[0], (int32_t)width, (int32_t)height);
    pixman_image_unref(dest);
}

/* A mask of one value everywhere: one pixel that is repeated. */
static pixman_image_t *repeated(uint32_t *value) {
    pixman_image_t *mask = pixman_image_create_bits(PIXMAN_a8, 1, 1, value, 4);
    pixman_image_set_repeat(mask, PIXMAN_REPEAT_NORMAL);
    return mask;
}

/* Composites by pixman where both regions and both images have a point; `mask` may be null. */
static void composite(uint32_t op, pixman_image_t *src, pixman_image_t *mask, pix_region to, pix_region from,
                      int has_from) {
    pixman_image_t *dest = words(other);
    int64_t x = to.x, y = to.y, u = has_from ? from.x : 0, v = has_from ? from.y : 0;
    int64_t width = to.width, height = to.height;
    if (has_from) {
        width = width < (int64_t)from.width ? width : (int64_t)from.width;
        height = height < (int64_t)from.height ? height : (int64_t)from.height;
        clip(&u, &x, &width, WIDE);
        clip(&v, &y, &height, HIGH);
    }
    clip(&x, &u, &width, WIDE);
    clip(&y, &v, &height, HIGH);
    if (width > 0 && height > 0)
        pixman_image_composite32(operators[op], src, mask, dest, (int32_t)u, (int32_t)v, (int32_t)u, (int32_t)v,
                                 (int32_t)x, (int32_t)y, (int32_t)width, (int32_t)height);
    pixman_image_unref(dest);
}

static pixman_image_t *solid(pix_rgba8 color) {
    const pixman_color_t wide = {
        (uint16_t)(257 * color.r), (uint16_t)(257 * color.g), (uint16_t)(257 * color.b), (uint16_t)(257 * color.a),
    };
    return pixman_image_create_solid_fill(&wide);
}

/* Makes a random command, and does the same by pixman. */
static pix_command next(void) {
    const pix_region to = region(), from = region(), mask_from = region(), whole = pix_region_of(0, 0, WIDE, HIGH);
    const pix_rgba8 color = pixel();
    const uint32_t which = below(SOURCES), through = below(SOURCES), op = below(PIX_OP_COUNT);
    const pix_kind kind = (pix_kind)(below(12) ? 1 + below(PIX_KIND_COUNT - 1) : PIX_KIND_CLEAR);
    pix_view source = pix_view_of(sources[which], WIDE, HIGH);
    pix_matte matte = pix_matte_of(mattes[which], WIDE, HIGH), cover = pix_matte_of(mattes[through], WIDE, HIGH);
    uint32_t opacity = byte();
    pixman_image_t *plain = solid(color), *src = words(copies[which]);
    pixman_image_t *mask = pixman_image_create_bits(PIXMAN_a8, WIDE, HIGH, masks[which], APART), *one = repeated(&opacity);
    pixman_image_t *covers = pixman_image_create_bits(PIXMAN_a8, WIDE, HIGH, masks[through], APART);
    pix_command command = pix_clear();
    source.stride = matte.stride = cover.stride = APART;
    switch (kind) {
    case PIX_KIND_CLEAR: composite(PIX_OP_CLEAR, plain, NULL, whole, whole, 0); break;
    case PIX_KIND_COPY_COLOR:
        command = pix_copy_color(to, color);
        composite(PIX_OP_SRC, plain, NULL, to, from, 0);
        break;
    case PIX_KIND_COPY_IMAGE:
        command = pix_copy_image(to, source, from);
        composite(PIX_OP_SRC, src, NULL, to, from, 1);
        break;
    case PIX_KIND_COMPOSITE_COLOR:
        command = pix_composite_color(to, color, (pix_op)op);
        composite(op, plain, NULL, to, from, 0);
        break;
    case PIX_KIND_COMPOSITE_IMAGE:
        command = pix_composite_image(to, source, from, (pix_op)op);
        composite(op, src, NULL, to, from, 1);
        break;
    case PIX_KIND_COMPOSITE_MATTE:
        command = pix_composite_matte(to, matte, from, color, (pix_op)op);
        composite(op, plain, mask, to, from, 1);
        break;
    case PIX_KIND_COMPOSITE_IMAGE_MATTE:
        command = pix_composite_image_matte(to, source, from, cover, mask_from, (pix_op)op);
        composite_masked(op, src, covers, to, from, mask_from);
        break;
    case PIX_KIND_COMPOSITE_IMAGE_ALPHA:
        command = pix_composite_image_alpha(to, source, from, (uint8_t)opacity, (pix_op)op);
        composite(op, src, one, to, from, 1);
        break;
    }
    pixman_image_unref(plain);
    pixman_image_unref(src);
    pixman_image_unref(mask);
    pixman_image_unref(one);
    pixman_image_unref(covers);
    return command;
}

int main(int count, char **argv) {
    unsigned long lists = count > 1 ? strtoul(argv[1], NULL, 10) : 20000, number, commands = 0;
    state = (count > 2 ? strtoull(argv[2], NULL, 10) : 1) * UINT64_C(0x9E3779B97F4A7C15) | 1;
    for (number = 0; number < lists; number++) {
        pix_command list[COMMANDS];
        pix_image view = pix_image_of(image, WIDE, HIGH);
        size_t length = below(COMMANDS + 1), i;
        view.stride = APART;
        fill();
        for (i = 0; i < length; i++)
            list[i] = next();
        commands += length;
        if (pix_run(view, list, length, NULL) != PIX_OK || memcmp(image, other, sizeof image) != 0) {
            fprintf(stderr, "pixman: list %lu differs\n", number);
            return 1;
        }
    }
    printf("pixman: %lu lists of %lu commands are as pixman %s has them\n", lists, commands, pixman_version_string());
    return 0;
}
