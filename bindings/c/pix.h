/* pix.h - compositing of raster images in the caller's own memory.
 *
 * A program makes commands: copy a color or an image, composite an image, composite a color through
 * a mask, and more. It runs a list of them on an image. The library changes the image's pixels in
 * place. It takes no memory, keeps nothing after a call and has no global state. It sets neither
 * errno nor signals. So there is nothing to initialize and nothing to free.
 *
 *     pix_rgba8 pixels[64 * 64];
 *     pix_image image = pix_image_of(pixels, 64, 64);
 *     pix_command list[2];
 *     list[0] = pix_copy_color(pix_region_of(0, 0, 64, 64), pix_rgba8_of(0, 0, 64, 255));
 *     list[1] = pix_composite_color(pix_region_of(50, -8, 20, 20), pix_rgba8_of(90, 40, 0, 128), PIX_OP_SRC_OVER);
 *     pix_status status = pix_run(image, list, 2, NULL);
 *
 * Pixels. Compositing works on premultiplied, linear pixels: the colors are multiplied by the
 * alpha, and they are proportional to light. Images in files are mostly sRGB and not premultiplied.
 * pix_convert_bitmap turns one into the other. To images of 16 bits a channel it loses nothing of
 * pixels with an alpha of at least 13. Each function on images is there for each kind of them:
 *
 *     pix_image          pix_rgba8    8 bits a channel: red, green, blue, alpha
 *     pix_image_rgba16   pix_rgba16   16 bits a channel; its functions and types end in _rgba16
 *     pix_image_graya8   pix_graya8   8 bits a channel: gray, alpha; its functions and types end in _graya8
 *
 * The first kind is documented; the others differ only in their types.
 *
 * Regions may be anywhere, also partly or wholly outside an image. Only points inside are read and
 * written.
 *
 * Statuses. A call that returns PIX_OK has done all that was asked for. A call that returns
 * anything else has changed no pixel: all commands of a list are tested before the first one is
 * run.
 *
 * Duties of the caller, which no function can test. They are all here, and breaking one is
 * undefined behavior:
 *
 *   - A pointer is valid for as many elements as its sizes say, and aligned for its type.
 *     An image has (height - 1) * stride + width pixels, from its first to its last one, and none
 *     where its height is 0.
 *   - The memory that a call writes belongs to it until it returns: an image with its padding, a
 *     table, work memory, indices, counts. No other thread, signal handler, process or device
 *     reads or writes it meanwhile.
 *   - Memory that a call only reads may be read by others meanwhile, and nobody writes it. A call
 *     looks at commands and at indices twice: it tests all of them, and then trusts them. If one
 *     changes in between, the call may read or write memory that nobody passed to it.
 *   - Memory with two addresses, such as a file that is mapped twice, is passed to a call with one
 *     of them, unless the call only reads it. The test of overlaps compares addresses.
 *   - Commands are made by the functions of this header. Their pixels live until they have run.
 *   - The thread has the stack that the call needs: see below.
 *
 * Stack. A call allocates nothing: its work memory is on the stack of its thread. These are the KiB
 * that a thread's stack needs for each call:
 *
 * made by tools/names: stack
 *     272   pix_map_indexed, pix_map_indexed_alpha, pix_quantize, pix_quantize_refined,
 *           pix_quantize_alpha, pix_quantize_refined_alpha, pix_diffuse_indexed,
 *           pix_diffuse_indexed_by, pix_diffuse_indexed_alpha, pix_diffuse_indexed_by_alpha
 *     128   pix_quantize_rgba
 *      48   pix_index_pixels, pix_map_indexed_rgba, pix_diffuse_indexed_rgba
 *      24   all others
 * made by tools/names: end
 *
 * The thread's own first frames are among them, and 8 KiB for a signal handler that runs meanwhile:
 * its frame alone takes about 4 on a processor with AVX-512. A handler that needs more has a stack
 * of its own (sigaltstack).
 *
 * Main threads have much more, and so have new threads under glibc. Under musl a new thread has 128
 * KiB unless it asks for more (pthread_attr_setstacksize). The calls with 272 need that.
 *
 * Threads. Calls may run at once in different threads if none of them writes memory that another
 * one reads or writes. They may share sources, tables and lists of commands.
 *
 * Signals. A signal handler may make calls too, also while it interrupts one, if neither writes
 * memory that the other one reads or writes: no call takes a lock. The calls of the handler need
 * their own stack besides. A call that a handler leaves by longjmp has written a part of its
 * result.
 *
 * A source must not share memory with the image that is written. That is tested: see PIX_OVERLAP.
 *
 * Promises. docs/PROMISES.md in the repository lists the promise of each call, and whether it is
 * proved. A function of this header packs its arguments for a call that is proved, and which refuses
 * what it can't do. The header itself tests pointers alone: PIX_NULL, PIX_OVERLAP, and PIX_BAD_LENGTH
 * for more than memory holds, before all else. The few definitions that decide more are marked.
 *
 * The library is built for processors of x86-64 with SSE4.1, and of aarch64, under Linux.
 * pix_check_library tells whether the linked library is the one that this header describes. A
 * program may ask it once, before all else.
 *
 * This header needs C99 or C++11. Link the program with libpix_c.a, or with libpix.a or libpix.so
 * of a package, which are the same. The library needs memset, memcpy and memmove, and nothing else.
 */
#ifndef PIX_H
#define PIX_H

#include <stdbool.h>
#include <stddef.h>
#include <stdint.h>
#include <string.h>

/* The version of the library that this header belongs to. */
#define PIX_VERSION "0.3.0"

#ifdef __cplusplus
extern "C" {
#endif

/* ---- Pixels and regions ---- */

/* A pixel of 8 bits a channel, from 0 (none) to 255 (all). No color should exceed the alpha, but
 * any may. */
typedef struct { uint8_t r, g, b, a; } pix_rgba8;

/* A pixel of 16 bits a channel, from 0 to 65535, in the byte order of the machine. */
typedef struct { uint16_t r, g, b, a; } pix_rgba16;

/* A gray pixel of 8 bits a channel. */
typedef struct { uint8_t value, a; } pix_graya8;

/* A rectangle of points. x grows to the right and y grows downwards, and (0, 0) is the upper left
 * point of an image. A side may be up to 2147483647. */
typedef struct { int32_t x, y; uint32_t width, height; } pix_region;

/* ---- Formats ---- */

/* Formats, named after the channels of a pixel in their order.
 *
 *   - 8 and 16 are the bits of a channel. A channel of 16 bits is a word in the byte order of the
 *     machine.
 *   - S at the beginning: the colors are encoded by the sRGB curve, as in most files. Without S
 *     they are linear.
 *   - P at the end: the colors are multiplied by the alpha.
 *
 * pix_convert takes the formats up to PIX_FORMAT_SGRAY8, and pix_convert_bitmap takes all of them.
 */
typedef enum {
    /* made by tools/names: formats */
    PIX_FORMAT_SRGBA8 = 0, PIX_FORMAT_SRGBA8P = 1, PIX_FORMAT_RGBA8 = 2,
    PIX_FORMAT_RGBA8P = 3, /* the format of pix_rgba8 */
    PIX_FORMAT_BGRA8 = 4, PIX_FORMAT_BGRA8P = 5,
    PIX_FORMAT_RGB8 = 6,
    PIX_FORMAT_GRAY8 = 7,
    PIX_FORMAT_SBGRA8 = 8, PIX_FORMAT_SBGRA8P = 9,
    PIX_FORMAT_SRGB8 = 10,
    PIX_FORMAT_SGRAY8 = 11,
    PIX_FORMAT_RGBA16 = 12,
    PIX_FORMAT_RGBA16P = 13, /* the format of pix_rgba16 */
    PIX_FORMAT_RGB16 = 14,
    PIX_FORMAT_BGRA16 = 15, PIX_FORMAT_BGRA16P = 16, PIX_FORMAT_BGR16 = 17, PIX_FORMAT_BGR8 = 18,
    PIX_FORMAT_SBGR8 = 19,
    PIX_FORMAT_GRAYA8 = 20,
    PIX_FORMAT_GRAYA8P = 21, /* the format of pix_graya8 */
    PIX_FORMAT_SGRAYA8 = 22, PIX_FORMAT_SGRAYA8P = 23, PIX_FORMAT_GRAY16 = 24, PIX_FORMAT_GRAYA16 = 25,
    PIX_FORMAT_GRAYA16P = 26,
    PIX_FORMAT_MATTE8 = 27, PIX_FORMAT_MATTE16 = 28,
    PIX_FORMAT_CMY8 = 29, PIX_FORMAT_CMYA8 = 30, PIX_FORMAT_CMYA8P = 31, PIX_FORMAT_CMY16 = 32,
    PIX_FORMAT_CMYA16 = 33, PIX_FORMAT_CMYA16P = 34, PIX_FORMAT_SCMY8 = 35, PIX_FORMAT_SCMYA8 = 36,
    PIX_FORMAT_SCMYA8P = 37,
    PIX_FORMAT_HSV8 = 38, PIX_FORMAT_HSVA8 = 39, PIX_FORMAT_HSVA8P = 40, PIX_FORMAT_HSV16 = 41,
    PIX_FORMAT_HSVA16 = 42, PIX_FORMAT_HSVA16P = 43, PIX_FORMAT_SHSV8 = 44, PIX_FORMAT_SHSVA8 = 45,
    PIX_FORMAT_SHSVA8P = 46,
    PIX_FORMAT_HSL8 = 47, PIX_FORMAT_HSLA8 = 48, PIX_FORMAT_HSLA8P = 49, PIX_FORMAT_HSL16 = 50,
    PIX_FORMAT_HSLA16 = 51, PIX_FORMAT_HSLA16P = 52, PIX_FORMAT_SHSL8 = 53, PIX_FORMAT_SHSLA8 = 54,
    PIX_FORMAT_SHSLA8P = 55,
    PIX_FORMAT_HWB8 = 56, PIX_FORMAT_HWBA8 = 57, PIX_FORMAT_HWBA8P = 58, PIX_FORMAT_HWB16 = 59,
    PIX_FORMAT_HWBA16 = 60, PIX_FORMAT_HWBA16P = 61, PIX_FORMAT_SHWB8 = 62, PIX_FORMAT_SHWBA8 = 63,
    PIX_FORMAT_SHWBA8P = 64,
    PIX_FORMAT_YCBCR8 = 65, PIX_FORMAT_YCBCRA8 = 66, PIX_FORMAT_YCBCRA8P = 67, PIX_FORMAT_YCBCR16 = 68,
    PIX_FORMAT_YCBCRA16 = 69, PIX_FORMAT_YCBCRA16P = 70,
    PIX_FORMAT_XYZ8 = 71, PIX_FORMAT_XYZA8 = 72, PIX_FORMAT_XYZA8P = 73, PIX_FORMAT_XYZ16 = 74,
    PIX_FORMAT_XYZA16 = 75, PIX_FORMAT_XYZA16P = 76,
    /* Three colors in four bytes: the last one is not read, and is written as 255. */
    PIX_FORMAT_SRGBX8 = 77, PIX_FORMAT_SBGRX8 = 78, PIX_FORMAT_RGBX8 = 79, PIX_FORMAT_BGRX8 = 80
    /* made by tools/names: end */
} pix_format;

/* ---- Images: views of the caller's memory, passed by value ---- */

/* Rows of pixels from top to bottom. `stride` is the distance from a row to the next, in pixels and
 * not in bytes. It is at least the width. 0 means the width: rows without padding. Pixels between
 * rows are not changed. */
typedef struct { pix_rgba8 *pixels; uint32_t width, height, stride; } pix_image;
typedef struct { pix_rgba16 *pixels; uint32_t width, height, stride; } pix_image_rgba16;
typedef struct { pix_graya8 *pixels; uint32_t width, height, stride; } pix_image_graya8;

/* A view of an image that is only read, as a source is. */
typedef struct { const pix_rgba8 *pixels; uint32_t width, height, stride; } pix_view;
typedef struct { const pix_rgba16 *pixels; uint32_t width, height, stride; } pix_view_rgba16;
typedef struct { const pix_graya8 *pixels; uint32_t width, height, stride; } pix_view_graya8;

/* An image in any format, as files, windows and other libraries have it. `stride` is the distance
 * from a row to the next, in bytes. 0 means rows without gaps. A negative stride is for rows from
 * bottom to top: `pixels` still points to the top row, which is the last one in memory. Bytes between
 * the rows are not changed. */
typedef struct { void *pixels; uint32_t width, height; ptrdiff_t stride; pix_format format; } pix_bitmap;

/* The same of an image that is only read. */
typedef struct { const void *pixels; uint32_t width, height; ptrdiff_t stride; pix_format format; } pix_bitmap_view;

/* A mask: the fraction of a color or of a source that is composited at each point, from 0 (none) to
 * 255 (all). It goes with all images. The stride is in values. */
typedef struct { const uint8_t *values; uint32_t width, height, stride; } pix_matte;

/* A mask from 0 to 65535. It goes with images of 16 bits a channel. */
typedef struct { const uint16_t *values; uint32_t width, height, stride; } pix_matte16;

/* ---- Operators, statuses ---- */

/* The operators of Porter and Duff, and the sum. Each channel of the result, the alpha too, is that
 * of the formula beside it. s and d are the channels of source and destination, and sa and da are
 * the alphas as fractions. Products are rounded to the nearest, and a sum saturates at the maximum.
 */
typedef enum {
    /* made by tools/names: operators */
    PIX_OP_SRC = 0,        /* s */
    PIX_OP_DEST = 1,       /* d */
    PIX_OP_SRC_OVER = 2,   /* s + d * (1 - sa): the usual one */
    PIX_OP_DEST_OVER = 3,  /* s * (1 - da) + d */
    PIX_OP_SRC_OUT = 4,    /* s * (1 - da) */
    PIX_OP_DEST_OUT = 5,   /* d * (1 - sa) */
    PIX_OP_SRC_IN = 6,     /* s * da */
    PIX_OP_DEST_IN = 7,    /* d * sa */
    PIX_OP_SRC_ATOP = 8,   /* s * da + d * (1 - sa) */
    PIX_OP_DEST_ATOP = 9,  /* s * (1 - da) + d * sa */
    PIX_OP_XOR = 10,       /* s * (1 - da) + d * (1 - sa) */
    PIX_OP_CLEAR = 11,     /* 0 */
    PIX_OP_PLUS = 12       /* s + d */
    /* made by tools/names: end */
} pix_op;

/* What a call returns. */
typedef enum {
    /* made by tools/names: statuses */
    PIX_OK = 0,             /* done */
    PIX_BAD_SIZE = 1,       /* the written image: a side above 2147483647, a stride below the width, or more pixels than
                             * its memory has */
    PIX_BAD_KIND = 2,       /* no such kind of command */
    PIX_BAD_REGION = 3,     /* a region of a command has a side above 2147483647 */
    PIX_BAD_OP = 4,         /* no such operator */
    PIX_BAD_SOURCE = 5,     /* a source, a matte, a mask or a bitmap that is read: as PIX_BAD_SIZE */
    PIX_BAD_FORMAT = 6,     /* no such format, or one that the call doesn't take */
    PIX_BAD_LENGTH = 7,     /* more pixels, indices or commands than memory holds, or lengths that don't match */
    PIX_NULL = 8,           /* a pointer is null, and its length is not 0 */
    PIX_OVERLAP = 9,        /* a source, a matte, the list of commands or `done` shares memory with the written one */
    PIX_BAD_LIBRARY = 10,   /* the archive that is linked has another version or another layout than this header */
    PIX_BAD_TABLE = 11,     /* a table has no entry, or more than 256 */
    PIX_BAD_INDEX = 12,     /* an index is past the end, or takes more bits than the depth has */
    PIX_BAD_DEPTH = 13,     /* the depth of indices is not 1, 2, 4 or 8 bits */
    PIX_FULL_TABLE = 14,    /* a table has no room for a color */
    PIX_BAD_STRENGTH = 15,  /* the strength of error diffusion is above 16 */
    PIX_NO_SIDE = 16,       /* a side of the source or of the new picture is 0 */
    PIX_TOO_LARGE = 17,     /* a side of the source is above 65535, or the new picture has larger sides than its sums
                             * allow */
    PIX_OUTSIDE = 18,       /* the window is not all in the new picture */
    PIX_SMALL_WORK = 19,    /* the work memory has fewer words than pix_scale_work says */
    PIX_BAD_FILTER = 20,    /* no such filter */
    PIX_BAD_WEIGHTS = 21    /* a table of weights doesn't fit the image or the source, or a row of it doesn't add up */
    /* made by tools/names: end */
} pix_status;

/* A line of English that says what a status means. */
static inline const char *pix_status_text(pix_status status);

/* ---- Values and views ---- */

/* A pixel of these channels. The colors are multiplied by the alpha already: half a red is
 * pix_rgba8_of(128, 0, 0, 128). For a color of sRGB there is pix_color_of. */
static inline pix_rgba8 pix_rgba8_of(uint8_t r, uint8_t g, uint8_t b, uint8_t a) {
    pix_rgba8 pixel = {r, g, b, a};
    return pixel;
}

/* The same with channels up to 65535. */
static inline pix_rgba16 pix_rgba16_of(uint16_t r, uint16_t g, uint16_t b, uint16_t a) {
    pix_rgba16 pixel = {r, g, b, a};
    return pixel;
}

/* A gray pixel, of which `value` is multiplied by the alpha already. */
static inline pix_graya8 pix_graya8_of(uint8_t value, uint8_t a) {
    pix_graya8 pixel = {value, a};
    return pixel;
}

/* A region with its upper left corner at (x, y). */
static inline pix_region pix_region_of(int32_t x, int32_t y, uint32_t width, uint32_t height) {
    pix_region region = {x, y, width, height};
    return region;
}

/* An image of rows without padding. Set `stride` afterwards if there is some. */
static inline pix_image pix_image_of(pix_rgba8 *pixels, uint32_t width, uint32_t height);

/* The same of pixels that are only read. */
static inline pix_view pix_view_of(const pix_rgba8 *pixels, uint32_t width, uint32_t height);

/* A mask with rows without padding. Set `stride` afterwards where they have some. */
static inline pix_matte pix_matte_of(const uint8_t *values, uint32_t width, uint32_t height) {
    pix_matte matte = {values, width, height, width};
    return matte;
}

/* The same for images of 16 bits a channel. */
static inline pix_matte16 pix_matte16_of(const uint16_t *values, uint32_t width, uint32_t height) {
    pix_matte16 matte = {values, width, height, width};
    return matte;
}

/* A view of an image, to read it as a source for another one. */
static inline pix_view pix_view_of_image(pix_image image);

/* ---- Commands ----
 *
 * A command has the pointers of its source, and not the pixels. Making one tests nothing; pix_run
 * does.
 *
 * If there are two regions, their upper left corners are paired, even if one is outside its image.
 * Each point of `to` gets the point of `from` that is as far from its corner. A point is changed if
 * both regions and both images have it. */

/* What a command does. */
typedef enum {
    /* made by tools/names: kinds */
    PIX_KIND_CLEAR = 0,                  /* all pixels of the image become clear */
    PIX_KIND_COPY_COLOR = 1,             /* a color replaces pixels */
    PIX_KIND_COPY_IMAGE = 2,             /* the pixels of a source replace others */
    PIX_KIND_COMPOSITE_COLOR = 3,        /* a color is composited */
    PIX_KIND_COMPOSITE_IMAGE = 4,        /* a source is composited */
    PIX_KIND_COMPOSITE_MATTE = 5,        /* a color is composited through a matte */
    PIX_KIND_COMPOSITE_IMAGE_MATTE = 6,  /* a source is composited through a mask */
    PIX_KIND_COMPOSITE_IMAGE_ALPHA = 7   /* a source is composited at an opacity */
    /* made by tools/names: end */
} pix_kind;

/* A command, laid out as the library reads it. Make it with the functions below, and do not touch
 * its members. The kind is a pix_kind, and the operator is a pix_op. */
typedef struct {
    uint32_t kind, op;
    pix_region to, from;
    pix_rgba8 color;
    const pix_rgba8 *pixels; size_t pixel_count;
    const uint8_t *mattes; size_t matte_count;
    uint32_t width, height, stride;
    pix_region mask;
    uint32_t mask_width, mask_height, mask_stride;
    uint8_t alpha;
} pix_command;

/* Makes all pixels of the image transparent: all channels 0. */
static inline pix_command pix_clear(void);

/* Replaces the pixels of `to` with a color. */
static inline pix_command pix_copy_color(pix_region to, pix_rgba8 color);

/* Replaces the pixels of `to` with those of `from` in a source. */
static inline pix_command pix_copy_image(pix_region to, pix_view source, pix_region from);

/* Composites a color with the pixels of `to`. */
static inline pix_command pix_composite_color(pix_region to, pix_rgba8 color, pix_op op);

/* Composites the pixels of `from` in a source with those of `to`: a sprite.
 *
 *     pix_view sprite = pix_view_of(sprite_pixels, 16, 16);
 *     pix_region at = pix_region_of(20, 40, 16, 16), all = pix_region_of(0, 0, 16, 16);
 *     pix_status status = pix_do(image, pix_composite_image(at, sprite, all, PIX_OP_SRC_OVER));
 */
static inline pix_command pix_composite_image(pix_region to, pix_view source, pix_region from, pix_op op);

/* Composites a color, multiplied by the values of `from` in a matte, with the pixels of `to`: a
 * glyph.
 *
 *     pix_matte glyph = pix_matte_of(values, 8, 12);
 *     pix_region at = pix_region_of(30, 7, 8, 12), all = pix_region_of(0, 0, 8, 12);
 *     pix_rgba8 ink = pix_rgba8_of(0, 0, 0, 255);
 *     pix_status status = pix_do(image, pix_composite_matte(at, glyph, all, ink, PIX_OP_SRC_OVER));
 */
static inline pix_command pix_composite_matte(pix_region to, pix_matte matte, pix_region from, pix_rgba8 color,
                                              pix_op op);

/* Composites the pixels of `from` in a source, multiplied by the values of `mask_from` in a mask,
 * with those of `to`: soft edges. All three corners are paired. A point is changed where all three
 * regions have it, and image, source and mask too. */
static inline pix_command pix_composite_image_matte(pix_region to, pix_view source, pix_region from, pix_matte mask,
                                                    pix_region mask_from, pix_op op);

/* Composites the pixels of `from` in a source, multiplied by `alpha`, with those of `to`: a fade.
 * An alpha of 255 (65535 for 16 bits) is pix_composite_image. */
static inline pix_command pix_composite_image_alpha(pix_region to, pix_view source, pix_region from, uint8_t alpha,
                                                    pix_op op);

/* ---- Calls ---- */

/* Tells whether the linked archive has the version and the layout of this header: the offset and
 * the size of all that crosses to it. No other call tests that.
 *
 * Returns PIX_OK or PIX_BAD_LIBRARY. */
static inline pix_status pix_check_library(void);

/* Runs a list of `count` commands on an image, in order, or none of them.
 *
 * `done` may be null. After PIX_OK it is set to `count`. Otherwise it is set to the index of the
 * first bad command, or to 0 if the image or the list itself is bad. A `done` in the image is
 * PIX_OVERLAP, and stays as it was. Pointers and overlaps are tested for the whole list before all
 * else. `commands` may be null where `count` is 0.
 *
 * Returns PIX_OK, PIX_BAD_SIZE, PIX_BAD_KIND, PIX_BAD_REGION, PIX_BAD_OP, PIX_BAD_SOURCE,
 * PIX_BAD_LENGTH, PIX_NULL or PIX_OVERLAP. */
static inline pix_status pix_run(pix_image image, const pix_command *commands, size_t count, size_t *done);

/* Runs a list of commands on a window of a picture. `window` has the pixels of a part of the
 * picture, whose upper left pixel is the picture's point (left, top). The regions of the commands
 * are those of the picture. Each pixel gets its value of pix_run on the whole picture. So pictures
 * painted tile by tile are the picture painted whole. Tiles need never be in memory together, and
 * their order is free. Bands of rows of one image may be painted in several threads at once.
 *
 * Windows of one image that are painted at once must be bands of whole rows, as wide as the image.
 * The padding of a window belongs to its call, so columns side by side share memory. The tests of
 * overlaps see the window alone. No source, matte, list or `done` may be in another window of the
 * image while that is painted.
 *
 *     pix_rgba8 pixels[16 * 16];
 *     pix_image tile = pix_image_of(pixels, 16, 16);
 *     pix_command red = pix_copy_color(pix_region_of(60, 60, 40, 40), pix_rgba8_of(200, 0, 0, 255));
 *     pix_status status = pix_run_window(tile, 48, 48, &red, 1, NULL);
 *
 * Returns what pix_run does, and PIX_BAD_SIZE too where left + width or top + height is above
 * 2147483647. */
static inline pix_status pix_run_window(pix_image window, uint32_t left, uint32_t top, const pix_command *commands,
                                        size_t count, size_t *done);

/* Runs one command, as pix_run does. */
static inline pix_status pix_do(pix_image image, pix_command command);

/* Returns how many bytes a pixel of a format has, from 1 to 8, and 0 where there is no such format.
 */
static inline size_t pix_format_size(pix_format format);

/* Converts `count` pixels of the format `from` at `src` to the format `to` at `dst`. Both are bytes
 * without padding: count * pix_format_size(from) and count * pix_format_size(to) of them. They must
 * not share memory, even where both formats have one size.
 *
 * An alpha that `from` lacks is 255. An alpha that `to` lacks is dropped. From RGBA8P and SRGBA8P
 * to RGB8 and SRGB8 the colors stay multiplied by it; to all other formats they are divided by it.
 *
 * Returns PIX_OK, PIX_BAD_FORMAT, PIX_BAD_LENGTH, PIX_NULL or PIX_OVERLAP. */
static inline pix_status pix_convert(pix_format from, pix_format to, const void *src, void *dst, size_t count);

/* Writes each pixel of `dst` from that of `src` at its point, in the format of `dst`. Both have one
 * size, and must not share memory.
 *
 * Between sRGB of 8 bits and linear channels of 16 bits a pixel goes through light. Each color is
 * decoded by the sRGB curve to 16 bits and then multiplied by the alpha. On the way back it is
 * divided and then encoded. So convert a picture from SRGBA8 to RGBA16P, paint on it, and convert
 * it back: unpainted pixels with an alpha of at least 13 are unchanged. Below that the alpha is as
 * it was, and the colors may be others. At alpha 0 they are 0.
 *
 *     pix_bitmap photo = pix_bitmap_of(bytes, 64, 64, PIX_FORMAT_SRGBA8);
 *     pix_image_rgba16 light = pix_image_of_rgba16(pixels, 64, 64);
 *     pix_bitmap decoded = pix_bitmap_of_image_rgba16(light);
 *     pix_rgba16 gray = pix_rgba16_of(9000, 9000, 9000, 32768);
 *     pix_region band = pix_region_of(0, 48, 64, 16);
 *     pix_status status = pix_convert_bitmap(pix_bitmap_view_of_bitmap(photo), decoded);
 *     if (status == PIX_OK)
 *         status = pix_do_rgba16(light, pix_composite_color_rgba16(band, gray, PIX_OP_SRC_OVER));
 *     if (status == PIX_OK)
 *         status = pix_convert_bitmap(pix_bitmap_view_of_bitmap(decoded), photo);
 *
 * All other pairs are converted as pix_convert does. To premultiply and no more, pass the formats
 * without S, also for bytes that are sRGB.
 *
 * Returns PIX_OK, PIX_BAD_FORMAT, PIX_BAD_SIZE (dst), PIX_BAD_SOURCE (src, also where its size is
 * another), PIX_NULL or PIX_OVERLAP. */
static inline pix_status pix_convert_bitmap(pix_bitmap_view src, pix_bitmap dst);

/* Converts an image in its own memory. Its pixels are read in the image's format, and written as
 * those of `to` at the starts of the same rows. A pixel of `to` has no more bytes than one of
 * the image's format.
 *
 * Returns PIX_OK, PIX_BAD_FORMAT (also where a pixel of `to` is larger), PIX_BAD_SIZE or PIX_NULL.
 */
static inline pix_status pix_convert_in_place(pix_bitmap image, pix_format to);

/* An image in any format, of rows without gaps. Set `stride` afterwards if there are some. */
static inline pix_bitmap pix_bitmap_of(void *pixels, uint32_t width, uint32_t height, pix_format format);

/* The same of bytes that are only read. */
static inline pix_bitmap_view pix_bitmap_view_of(const void *pixels, uint32_t width, uint32_t height, pix_format format);

/* The same image, to be read. */
static inline pix_bitmap_view pix_bitmap_view_of_bitmap(pix_bitmap image);

/* An image that commands paint, as a bitmap of its format. */
static inline pix_bitmap pix_bitmap_of_image(pix_image image);
static inline pix_bitmap pix_bitmap_of_image_rgba16(pix_image_rgba16 image);
static inline pix_bitmap pix_bitmap_of_image_graya8(pix_image_graya8 image);

/* A pixel of a format, as one to paint with. pix_color_of_rgba16(PIX_FORMAT_SRGBA8, bytes) is the
 * light of a color of sRGB. The result is clear where there is no such format, or no pixel. */
static inline pix_rgba8 pix_color_of(pix_format format, const void *pixel);
static inline pix_rgba16 pix_color_of_rgba16(pix_format format, const void *pixel);
static inline pix_graya8 pix_color_of_graya8(pix_format format, const void *pixel);

/* The part of an image in a region, clipped to the image. It has no points if the region is
 * outside. Its first pixel is the point (0, 0) of the part; to paint in coordinates of the whole
 * image use pix_run_window. If an image has a bad size or no memory (null), calls on its parts fail
 * too. */
static inline pix_image pix_part_of(pix_image image, pix_region region);
static inline pix_image_rgba16 pix_part_of_rgba16(pix_image_rgba16 image, pix_region region);
static inline pix_image_graya8 pix_part_of_graya8(pix_image_graya8 image, pix_region region);

/* The same part of a bitmap. */
static inline pix_bitmap pix_part_of_bitmap(pix_bitmap image, pix_region region);

/* Writes a pattern: the commands that composite the region `from` of a source over all of `to`. The
 * copies are side by side from its upper left corner on, row by row, and are cut at its other
 * sides. It writes the first `room` commands, and returns how many there are. `commands` may be
 * null where `room` is 0. A copy that begins past 2147483647 is in no image, and is left out. */
static inline uint64_t pix_repeat_image(pix_command *commands, uint64_t room, pix_region to, pix_view source,
                                        pix_region from, pix_op op);

/* ---- Pictures at another size ---- */

/* How a pixel of a picture at another size is made of those of the source. Columns and rows are
 * weighed apart, in whole numbers. A pixel is the sum of all products of pixels and weights, divided
 * by the sum of the weights. It is rounded once, to the nearest, ties up. The last three have weights
 * below 0: an alpha is cut at 0 and at the greatest channel, and a color at 0 and at the new alpha. A
 * side that keeps its length is not filtered by them. */
typedef enum {
    /* made by tools/names: filters */
    PIX_FILTER_NEAREST = 0,     /* the pixel under its center: for sprites */
    PIX_FILTER_AREA = 1,        /* the mean of the area that it covers: for photographs, and for sharp enlarged pixels */
    PIX_FILTER_LINEAR = 2,      /* by the distance of centers, as far as one pixel, of the source or of the result: smooth */
    PIX_FILTER_CATMULL_ROM = 3, /* a cubic as far as two pixels, with weights below 0: sharp */
    PIX_FILTER_MITCHELL = 4,    /* such a cubic that is softer, with less of a rim around edges */
    PIX_FILTER_LANCZOS = 5      /* a windowed sine as far as three pixels: the sharpest */
    /* made by tools/names: end */
} pix_filter;

/* The sides of a picture. */
typedef struct { uint32_t width, height; } pix_size;

/* A point of a picture, from its upper left corner. */
typedef struct { uint32_t x, y; } pix_point;

/* How many filters there are. A number from there on is PIX_BAD_FILTER. */
/* made by tools/names: last filter */
#define PIX_FILTER_COUNT (PIX_FILTER_LANCZOS + 1)
/* made by tools/names: end */

/* Returns how many words of work memory pix_scale takes for a window of the size `to`, of a new
 * picture of `size`, made of one of the size `from`. It is 0 where pix_scale returns PIX_BAD_FILTER,
 * PIX_NO_SIDE or PIX_TOO_LARGE for these sizes, and else at least 1. */
static inline size_t pix_scale_work(pix_size to, pix_size size, pix_size from, pix_filter filter);

/* Writes a window of a picture at another size. `from` has the source, and `size` is that of the
 * whole new picture, which is made of all of the source. `to` becomes the part of the new picture
 * whose upper left pixel is at `at`. So the whole need never be in memory: a viewer pans and zooms
 * by windows, and tiles side by side are the whole without a seam. `work` has `words` words, at least
 * as many as pix_scale_work says. Their values don't matter, before and afterwards.
 *
 * Pixels are premultiplied and linear, so the mean of two of them is what is seen from afar. For a
 * picture of sRGB, decode it to 16 bits with pix_convert_bitmap, scale, and encode:
 *
 *     pix_image_rgba16 large = pix_image_of_rgba16(pixels, 64, 64), small = pix_image_of_rgba16(made, 24, 24);
 *     pix_bitmap photo = pix_bitmap_of(bytes, 64, 64, PIX_FORMAT_SRGBA8);
 *     pix_bitmap thumbnail = pix_bitmap_of(result, 24, 24, PIX_FORMAT_SRGBA8);
 *     pix_point corner = {0, 0};
 *     pix_size all = {24, 24};
 *     pix_status status = pix_convert_bitmap(pix_bitmap_view_of_bitmap(photo), pix_bitmap_of_image_rgba16(large));
 *     if (status == PIX_OK)
 *         status = pix_scale_rgba16(small, corner, all, pix_view_of_image_rgba16(large), PIX_FILTER_AREA, work, words);
 *     if (status == PIX_OK)
 *         status = pix_convert_bitmap(pix_bitmap_view_of_bitmap(pix_bitmap_of_image_rgba16(small)), thumbnail);
 *
 * A premultiplied picture stays so. A side of the source is at most 65535. Both sides of an axis are
 * divided by their greatest common divisor first, which changes no pixel. The sum of an axis'
 * weights is then 1 (nearest) or the source's side (area). By PIX_FILTER_LINEAR it is twice the new
 * side if that is at least the source's, and otherwise 32768. By the last three filters it is 16384.
 * PIX_TOO_LARGE is for products of both sums above 2147483647, and for products of the sum of the
 * rows with the greatest channel above 4294967295.
 *
 * Returns PIX_OK, PIX_BAD_FILTER, PIX_NO_SIDE, PIX_TOO_LARGE, PIX_OUTSIDE, PIX_BAD_SIZE,
 * PIX_BAD_SOURCE, PIX_SMALL_WORK, PIX_BAD_LENGTH (more words than memory holds), PIX_NULL or
 * PIX_OVERLAP. */
static inline pix_status pix_scale(pix_image to, pix_point at, pix_size size, pix_view from, pix_filter filter,
                                   uint32_t *work, size_t words);

/* A table of weights for the `count` columns, or rows, of a picture at another size. Column i is
 * made of `taps` columns of the source, from firsts[i] on, all of which are in the source. Their
 * weights begin at weights[i * taps], in 2^14ths. They add up to 16384, and the negative ones among
 * them to more than -8192. */
typedef struct {
    const uint32_t *firsts; /* `count` of them, from 0 to the side of the source less `taps` */
    const int32_t *weights; /* `count` times `taps` of them */
    uint32_t count;         /* as many as the image has columns, or rows */
    uint32_t taps;          /* from 1 to the side of the source */
} pix_weights;

/* Returns how many words of work memory pix_scale_by takes. The image has the size `to`, and its
 * source the size `from`. A column has `taps` weights, and a row `row_taps`. It is 0 if pix_scale_by
 * returns PIX_NO_SIDE or PIX_TOO_LARGE for this source, or if the source has fewer columns or rows
 * than that. Else it is at least 1. */
static inline size_t pix_scale_by_work(pix_size to, pix_size from, uint32_t taps, uint32_t row_taps);

/* Writes a picture at another size by two tables of your own. So a picture is scaled by any filter,
 * moved by a part of a pixel, or mirrored. `across` is the table of the columns of `to`, and `down`
 * that of its rows. Each channel is the sum of those
 * of the source by both weights. It is rounded once, to the nearest, ties up. An alpha is cut at 0
 * and at the greatest channel, and a color at 0 and at the new alpha. `work` has `words` words, at
 * least as many as pix_scale_by_work says. Here a row of four pixels becomes one of two means:
 *
 *     uint32_t firsts[] = {0, 2}, first[] = {0}, work[64];
 *     int32_t weights[] = {8192, 8192, 8192, 8192}, whole[] = {16384};
 *     pix_weights across = {firsts, weights, 2, 2}, down = {first, whole, 1, 1};
 *     pix_status status = pix_scale_by(pix_image_of(made, 2, 1), pix_view_of(row, 4, 1), across, down, work, 64);
 *
 * Returns PIX_OK, PIX_NO_SIDE (of the source), PIX_TOO_LARGE (a side of the source is above 65535),
 * PIX_BAD_SIZE, PIX_BAD_SOURCE, PIX_BAD_WEIGHTS (a table is not as pix_weights says),
 * PIX_SMALL_WORK, PIX_BAD_LENGTH, PIX_NULL or PIX_OVERLAP. */
static inline pix_status pix_scale_by(pix_image to, pix_view from, pix_weights across, pix_weights down, uint32_t *work,
                                      size_t words);

/* ---- Tables of colors, for images of indices ----
 *
 * Colors here are as files of indexed images have them: sRGB, and not multiplied by an alpha. The
 * bytes of pix_srgb8 are those of a color table of a GIF or of the chunk PLTE of a PNG. pix_convert
 * makes such pixels from others (PIX_FORMAT_SRGB8, PIX_FORMAT_SRGBA8). Written memory must not
 * overlap with read memory. A call that fails changes nothing. */

/* A color of 8 bits a channel. */
typedef struct { uint8_t r, g, b; } pix_srgb8;

/* A color with an alpha, by which it isn't multiplied. */
typedef struct { uint8_t r, g, b, a; } pix_srgba8;

/* A table of `len` colors, from 1 to 256. */
typedef struct { const pix_srgb8 *entries; size_t len; } pix_table;

/* A table of these entries, which stay where they are. Its calls test `len`. */
static inline pix_table pix_table_of(const pix_srgb8 *entries, size_t len);

/* Writes the index of the entry that is nearest to a color, the first if several are equal. The
 * nearest one has the least sum of the squares of the differences in red, green and blue. Returns
 * PIX_OK, PIX_BAD_TABLE, PIX_NULL or PIX_OVERLAP. */
static inline pix_status pix_nearest(pix_table table, pix_srgb8 color, uint8_t *index);

/* Writes the index of the nearest entry of each of `count` pixels. Returns PIX_OK, PIX_BAD_TABLE,
 * PIX_BAD_LENGTH (more pixels than memory holds), PIX_NULL or PIX_OVERLAP. */
static inline pix_status pix_map_indexed(pix_table table, const pix_srgb8 *pixels, size_t count, uint8_t *indices);

/* Writes the index of the nearest entry of each of `count` pixels with an alpha. One whose alpha is
 * below `alpha` gets the index `transparent_index`, which may be that of a transparent entry. The
 * alpha of the others is not looked at. Where all pixels are below `alpha`, a table of no entry
 * serves too: pix_quantize_alpha makes one of them. */
static inline pix_status pix_map_indexed_alpha(pix_table table, const pix_srgba8 *pixels, size_t count, uint8_t alpha,
                                               uint8_t transparent_index, uint8_t *indices);

/* Returns how many colors of work memory pix_quantize takes for `count` pixels. */
static inline size_t pix_quantize_work(size_t count);

/* Returns how many colors of work memory pix_diffuse_indexed takes for rows of `width` pixels, or
 * SIZE_MAX if that is more than memory holds. */
static inline size_t pix_diffuse_indexed_work(size_t width);

/* How many rounds refine a table where a call doesn't say it. */
enum { PIX_DEFAULT_ROUNDS = 6 };

/* Writes a table of the colors of `count` pixels, of at most `len` entries, and writes into `made`
 * how many it has. Where there are no more distinct colors than `len`, they are the table, in order
 * of first place. Otherwise, where all are grays, no table of at most `len` entries has a smaller
 * squared error. Otherwise they are the means of boxes of colors, which six rounds then refine.
 * Boxes are split, always by the split that reduces the squared error most, and then those pairs
 * are merged that raise it least. Both are compared by quotients rounded down, so of nearly equal
 * ones another may be taken. The entries past `made` may hold anything. `work` has
 * pix_quantize_work(count) colors; for a large picture pass a sample of its pixels. Returns PIX_OK,
 * PIX_BAD_TABLE (`len` is 0 or above 256), PIX_BAD_LENGTH, PIX_NULL or PIX_OVERLAP.
 *
 *     size_t made = 0;
 *     pix_status status = pix_quantize(colors, count, work, entries, 16, &made);
 *     if (status == PIX_OK)
 *         status = pix_map_indexed(pix_table_of(entries, made), colors, count, indices);
 */
static inline pix_status pix_quantize(const pix_srgb8 *pixels, size_t count, pix_srgb8 *work, pix_srgb8 *entries, size_t len,
                                      size_t *made);

/* Writes a table of the colors of pixels with an alpha, as pix_quantize does. Those whose alpha is
 * below `alpha` do not count. Where none counts, `made` is 0. */
static inline pix_status pix_quantize_alpha(const pix_srgba8 *pixels, size_t count, uint8_t alpha, pix_srgb8 *work,
                                            pix_srgb8 *entries, size_t len, size_t *made);

/* Writes a table as pix_quantize does, with another number of rounds. In a round each color goes to
 * its nearest entry, the first if several are equal. Each entry goes to the mean of its colors,
 * rounded, and stays if it has none. No round makes the sum of the squared errors greater, and none
 * moves a table of grays. A round takes about as long as pix_map_indexed of the distinct colors, so
 * less than that of the pixels if colors come again. PIX_DEFAULT_ROUNDS are enough for most
 * pictures; without a round a table is made sooner, and fits the picture less. */
static inline pix_status pix_quantize_refined(const pix_srgb8 *pixels, size_t count, uint8_t rounds, pix_srgb8 *work,
                                              pix_srgb8 *entries, size_t len, size_t *made);

/* The same of pixels with an alpha, as pix_quantize_alpha. */
static inline pix_status pix_quantize_refined_alpha(const pix_srgba8 *pixels, size_t count, uint8_t alpha, uint8_t rounds,
                                                    pix_srgb8 *work, pix_srgb8 *entries, size_t len, size_t *made);

/* Writes the index of each of `count` pixels, in rows of `width`, with error diffusion (Floyd and
 * Steinberg). It is the index of the entry that is nearest to the color that is wanted there.
 *
 *   - The target is, in each channel, the pixel's number plus its share of the errors before it.
 *     It is rounded to the nearest, a half up, and clamped to 0 to 255.
 *   - A pixel's error is the target less the chosen entry, within a bound either way in each
 *     channel. The bound is half of the widest step from a level of a channel of the table to the
 *     next, a half up, and at least 24. So no target is further than the bound from its pixel:
 *     errors of a table that lacks a color don't run away.
 *   - 12/16 of it are passed on. Of these, 7/16 go to the pixel on the right. In the next row, 3/16
 *     go to the pixel on the left, 5/16 to the one below, and 1/16 to the one on the right. Shares
 *     past the sides of a row are lost.
 *   - Every second row goes from right to left, from the second on. Left and right are exchanged
 *     there.
 *
 * So rows are whole: `count` is a multiple of `width`. `work` has pix_diffuse_indexed_work(width)
 * colors. Returns what pix_map_indexed does, and PIX_BAD_LENGTH too where `width` is 0 or more than
 * memory holds, or a row isn't whole.
 *
 *     pix_srgb8 ends[2] = {{0, 0, 0}, {255, 255, 255}};
 *     pix_srgb8 gray[4] = {{128, 128, 128}, {128, 128, 128}, {128, 128, 128}, {128, 128, 128}}, work[16];
 *     uint8_t indices[4];
 *     pix_status status = pix_diffuse_indexed(pix_table_of(ends, 2), gray, 4, 4, work, indices);
 */
static inline pix_status pix_diffuse_indexed(pix_table table, const pix_srgb8 *pixels, size_t count, size_t width,
                                             pix_srgb8 *work, uint8_t *indices);

/* Writes the index of each pixel with an alpha, with error diffusion. One whose alpha is below
 * `alpha` gets the index `transparent_index`, and passes on no error. Where all are below, a table
 * of no entry serves too. */
static inline pix_status pix_diffuse_indexed_alpha(pix_table table, const pix_srgba8 *pixels, size_t count, size_t width,
                                                   uint8_t alpha, uint8_t transparent_index, pix_srgb8 *work, uint8_t *indices);

/* How errors are diffused.
 *
 *   - `strength`, from 0 to 16, is how much of an error is passed on, in sixteenths. With less
 *     there is less noise, and areas are less like the picture. With 0 each pixel gets its nearest
 *     entry.
 *   - With `serpentine` every second row goes from right to left: the second, the fourth and so on.
 *     Left and right are exchanged there, also where an error goes. That breaks up the patterns of
 *     rows that all go one way. */
typedef struct { uint8_t strength; bool serpentine; } pix_diffusion;

/* The way of pix_diffuse_indexed and pix_diffuse_indexed_alpha: a strength of 12, and serpentine. */
static inline pix_diffusion pix_default_diffusion(void);

/* Writes the index of each pixel, with error diffusion as `how` says. The target at a pixel is
 * rounded once, after its share is multiplied. Returns PIX_BAD_STRENGTH too if the strength is above
 * 16, and PIX_BAD_LENGTH if `serpentine` rows are not whole: `count` is a multiple of `width` then.
 * Rows that all go one way may end in a part of one. */
static inline pix_status pix_diffuse_indexed_by(pix_table table, const pix_srgb8 *pixels, size_t count, size_t width,
                                                pix_diffusion how, pix_srgb8 *work, uint8_t *indices);

/* The same of pixels with an alpha, as pix_diffuse_indexed_alpha. */
static inline pix_status pix_diffuse_indexed_by_alpha(pix_table table, const pix_srgba8 *pixels, size_t count, size_t width,
                                                      uint8_t alpha, uint8_t transparent_index, pix_diffusion how,
                                                      pix_srgb8 *work, uint8_t *indices);

/* Sets the color of each of `count` pixels in a table, one after the other, and writes its index.
 * That is the index of the entry that matches the color, or of the next entry, which is then set to
 * the color. `entries` has room for `len` of them. `used` is how many are used, before and
 * afterwards, so one table may serve several pictures.
 *
 * The entry that matches a color is its nearest candidate, if that differs from the color by no more
 * than `threshold` in each of red, green and blue. With a threshold of 0 it is the color itself. The
 * match is the last candidate. Entry 0 is the first candidate; each later entry replaces it that is
 * no worse in each channel and better in one.
 *
 *     pix_srgb8 colors[3] = {{9, 9, 9}, {200, 200, 200}, {11, 11, 11}}, near = {2, 2, 2}, entries[256];
 *     uint8_t indices[3];
 *     size_t used = 0;
 *     pix_status status = pix_index_pixels(entries, 256, &used, near, colors, 3, indices);
 *
 * Returns PIX_OK, PIX_BAD_TABLE (`len` is 0 or above 256), PIX_BAD_LENGTH (too many pixels, or
 * `used` is above `len`), PIX_FULL_TABLE where there is no room for a color, PIX_NULL or
 * PIX_OVERLAP. */
static inline pix_status pix_index_pixels(pix_srgb8 *entries, size_t len, size_t *used, pix_srgb8 threshold,
                                          const pix_srgb8 *pixels, size_t count, uint8_t *indices);

/* Writes the entry of each of `count` indices. The table may have no entry, or more than 256.
 * Returns PIX_OK, PIX_BAD_INDEX where an index is past the end, PIX_BAD_LENGTH, PIX_NULL or
 * PIX_OVERLAP. */
static inline pix_status pix_look_up(pix_table table, const uint8_t *indices, size_t count, pix_srgb8 *pixels);

/* Writes for each number below `len` how often it occurs among `count` indices. Returns PIX_OK,
 * PIX_BAD_INDEX where an index is not below `len`, PIX_BAD_LENGTH, PIX_NULL or PIX_OVERLAP. */
static inline pix_status pix_count_indices(const uint8_t *indices, size_t count, size_t *counts, size_t len);

/* Returns how many bytes a row of `count` indices of 1, 2, 4 or 8 bits takes, and 0 for another
 * number of bits. */
static inline size_t pix_row_size(uint32_t bits, size_t count);

/* Packs a row of `count` indices into pix_row_size(bits, count) bytes, as PNG, BMP and TIFF have
 * them. The indices of a byte begin at its most significant bits. Bits that are left over in the
 * last byte are 0. Returns PIX_OK, PIX_BAD_DEPTH, PIX_BAD_INDEX where an index takes more bits,
 * PIX_BAD_LENGTH, PIX_NULL or PIX_OVERLAP.
 *
 *     uint8_t row[5] = {3, 0, 1, 2, 3}, packed[2];
 *     pix_status status = pix_pack_row(2, row, 5, packed);
 */
static inline pix_status pix_pack_row(uint32_t bits, const uint8_t *indices, size_t count, uint8_t *bytes);

/* Unpacks a row of `count` indices from pix_row_size(bits, count) bytes. Bits that are left over
 * are not looked at. Returns PIX_OK, PIX_BAD_DEPTH, PIX_BAD_LENGTH, PIX_NULL or PIX_OVERLAP. */
static inline pix_status pix_unpack_row(uint32_t bits, const uint8_t *bytes, size_t count, uint8_t *indices);

/* ---- Tables of colors with an alpha ----
 *
 * For files with alphas in their tables, such as a PNG with the chunks PLTE and tRNS. Entries and
 * pixels are as there: sRGB, and not multiplied by the alpha.
 *
 * Two pixels are compared as they are seen, over black and over white, in 8 bits. Over black a
 * color is its product with the alpha, rounded to the nearest. Over white it is that and 255 less
 * the alpha. The distance of two pixels is the sum of the squares of their six differences. So the
 * color of a transparent pixel does not count. If all are opaque, each call does the same as the one
 * without _rgba; of grays alone only pix_quantize_refined makes the table of least error. */

/* A table of `len` colors with an alpha, from 1 to 256. */
typedef struct { const pix_srgba8 *entries; size_t len; } pix_table_rgba;

/* A table of these entries, which stay where they are. Its calls test `len`. */
static inline pix_table_rgba pix_table_rgba_of(const pix_srgba8 *entries, size_t len);

/* Writes a table of colors with an alpha, and refines it, as pix_quantize_refined does. Of pixels
 * that are seen alike the first one counts. Where there is room for all of these, they are the
 * table, just as they are. Otherwise boxes are cut by the alpha too, after red, green and blue over
 * black. In a round an entry also stays where the mean of its colors would make their squared error
 * greater. After all rounds an entry whose alpha is at least 250 becomes opaque, where more than
 * half of the colors to which it is the nearest are opaque. The result is divided by its alpha at
 * the end; this doesn't change its look. `work` has pix_quantize_work(count) pixels. */
static inline pix_status pix_quantize_rgba(const pix_srgba8 *pixels, size_t count, uint8_t rounds, pix_srgba8 *work,
                                           pix_srgba8 *entries, size_t len, size_t *made);

/* Writes for each of `count` pixels the index of the entry that looks nearest to it, the first if
 * several are equal. Returns what pix_map_indexed does. */
static inline pix_status pix_map_indexed_rgba(pix_table_rgba table, const pix_srgba8 *pixels, size_t count, uint8_t *indices);

/* Writes the index of each pixel, with error diffusion to a table of colors with an alpha, as
 * pix_diffuse_indexed_by does. Errors are those of the colors over black and of the alpha, and so
 * are the levels of the bound. A target color is clamped to the target alpha. A clear pixel (alpha
 * 0) gets the entry that is seen nearest to it, takes no share, and passes on no error. `work` has
 * pix_diffuse_indexed_work(width) pixels. */
static inline pix_status pix_diffuse_indexed_rgba(pix_table_rgba table, const pix_srgba8 *pixels, size_t count, size_t width,
                                                  pix_diffusion how, pix_srgba8 *work, uint8_t *indices);

/* Writes the entry of each of `count` indices, as pix_look_up does. */
static inline pix_status pix_look_up_rgba(pix_table_rgba table, const uint8_t *indices, size_t count, pix_srgba8 *pixels);

/* ---- The other kinds of pixels ---- */

/* A command on an image of 16 bits a channel. Make it with functions too. */
typedef struct {
    uint32_t kind, op;
    pix_region to, from;
    pix_rgba16 color;
    const pix_rgba16 *pixels; size_t pixel_count;
    const uint16_t *mattes; size_t matte_count;
    uint32_t width, height, stride;
    pix_region mask;
    uint32_t mask_width, mask_height, mask_stride;
    uint16_t alpha;
    const uint8_t *mattes8; size_t matte8_count;
} pix_command_rgba16;

/* A command on an image of gray and alpha. */
typedef struct {
    uint32_t kind, op;
    pix_region to, from;
    pix_graya8 color;
    const pix_graya8 *pixels; size_t pixel_count;
    const uint8_t *mattes; size_t matte_count;
    uint32_t width, height, stride;
    pix_region mask;
    uint32_t mask_width, mask_height, mask_stride;
    uint8_t alpha;
} pix_command_graya8;

/* For 16 bits there are pix_image_of_rgba16, pix_view_of_rgba16, pix_view_of_image_rgba16,
 * pix_clear_rgba16, pix_copy_color_rgba16, pix_copy_image_rgba16, pix_composite_color_rgba16,
 * pix_composite_image_rgba16, pix_composite_matte_rgba16 and pix_composite_image_matte_rgba16
 * (through a pix_matte16), pix_composite_image_alpha_rgba16 (at a uint16_t), pix_run_rgba16,
 * pix_run_window_rgba16, pix_do_rgba16 and pix_repeat_image_rgba16. For pictures at another size
 * there are pix_scale_rgba16, pix_scale_work_rgba16, pix_scale_by_rgba16 and
 * pix_scale_by_work_rgba16. The same are there with _graya8 (through a pix_matte, at a uint8_t).
 * They are defined below, together with those above. */

/* Composites a color with an image of 16 bits a channel through a mask of 8 bits, as a rasterizer of
 * glyphs makes it: 255 is all of the color. Each value counts as 257 times itself in a pix_matte16.
 * The mask is read in place, and one list may have commands with both kinds of masks.
 *
 *     uint8_t coverage[3] = {0, 128, 255};
 *     pix_rgba16 line[3] = {{0, 0, 0, 0}, {0, 0, 0, 0}, {0, 0, 0, 0}};
 *     pix_rgba16 ink = pix_rgba16_of(0, 0, 0, 65535);
 *     pix_region all = pix_region_of(0, 0, 3, 1);
 *     pix_command_rgba16 text =
 *         pix_composite_matte8_rgba16(all, pix_matte_of(coverage, 3, 1), all, ink, PIX_OP_SRC_OVER);
 *     pix_status status = pix_do_rgba16(pix_image_of_rgba16(line, 3, 1), text);
 */
static inline pix_command_rgba16 pix_composite_matte8_rgba16(pix_region to, pix_matte matte, pix_region from,
                                                             pix_rgba16 color, pix_op op);

/* The same of an image, as pix_composite_image_matte does it. */
static inline pix_command_rgba16 pix_composite_image_matte8_rgba16(pix_region to, pix_view_rgba16 source,
                                                                   pix_region from, pix_matte mask,
                                                                   pix_region mask_from, pix_op op);

/* ---- Lists ----
 *
 * For programs that go over all operators, kinds of commands or formats: PIX_EACH_OP(X) is X(..) of
 * each operator, in the order of their numbers. PIX_EACH_KIND and PIX_EACH_FORMAT do the same for
 * kinds and formats. A table that is made of them has a line for each, also when a later version
 * has more:
 *
 *     #define TEXT_OF(NAME, WORD) #WORD,
 *     static const char *const texts[PIX_OP_COUNT] = {PIX_EACH_OP(TEXT_OF)};
 */

/* An operator: its name behind PIX_OP_, and the word for it in scripts. */
/* made by tools/names: each operator */
#define PIX_EACH_OP(X)                                                                                                 \
    X(SRC, Src) X(DEST, Dest) X(SRC_OVER, SrcOver) X(DEST_OVER, DestOver) X(SRC_OUT, SrcOut) X(DEST_OUT, DestOut)      \
    X(SRC_IN, SrcIn) X(DEST_IN, DestIn) X(SRC_ATOP, SrcAtop) X(DEST_ATOP, DestAtop) X(XOR, Xor) X(CLEAR, Clear)        \
    X(PLUS, Plus)
/* made by tools/names: end */

/* A kind of commands: its name behind PIX_KIND_, and that of the function that makes such a
 * command, behind pix_. */
/* made by tools/names: each kind */
#define PIX_EACH_KIND(X)                                                                                               \
    X(CLEAR, clear) X(COPY_COLOR, copy_color) X(COPY_IMAGE, copy_image) X(COMPOSITE_COLOR, composite_color)            \
    X(COMPOSITE_IMAGE, composite_image) X(COMPOSITE_MATTE, composite_matte)                                            \
    X(COMPOSITE_IMAGE_MATTE, composite_image_matte) X(COMPOSITE_IMAGE_ALPHA, composite_image_alpha)
/* made by tools/names: end */

/* A format: its name behind PIX_FORMAT_, and its color model. */
/* made by tools/names: each format */
#define PIX_EACH_FORMAT(X)                                                                                             \
    X(SRGBA8, Rgb) X(SRGBA8P, Rgb) X(RGBA8, Rgb) X(RGBA8P, Rgb) X(BGRA8, Bgr) X(BGRA8P, Bgr) X(RGB8, Rgb)              \
    X(GRAY8, Gray) X(SBGRA8, Bgr) X(SBGRA8P, Bgr) X(SRGB8, Rgb) X(SGRAY8, Gray) X(RGBA16, Rgb) X(RGBA16P, Rgb)         \
    X(RGB16, Rgb) X(BGRA16, Bgr) X(BGRA16P, Bgr) X(BGR16, Bgr) X(BGR8, Bgr) X(SBGR8, Bgr) X(GRAYA8, Gray)              \
    X(GRAYA8P, Gray) X(SGRAYA8, Gray) X(SGRAYA8P, Gray) X(GRAY16, Gray) X(GRAYA16, Gray) X(GRAYA16P, Gray)             \
    X(MATTE8, Matte) X(MATTE16, Matte) X(CMY8, Cmy) X(CMYA8, Cmy) X(CMYA8P, Cmy) X(CMY16, Cmy) X(CMYA16, Cmy)          \
    X(CMYA16P, Cmy) X(SCMY8, Cmy) X(SCMYA8, Cmy) X(SCMYA8P, Cmy) X(HSV8, Hsv) X(HSVA8, Hsv) X(HSVA8P, Hsv)             \
    X(HSV16, Hsv) X(HSVA16, Hsv) X(HSVA16P, Hsv) X(SHSV8, Hsv) X(SHSVA8, Hsv) X(SHSVA8P, Hsv) X(HSL8, Hsl)             \
    X(HSLA8, Hsl) X(HSLA8P, Hsl) X(HSL16, Hsl) X(HSLA16, Hsl) X(HSLA16P, Hsl) X(SHSL8, Hsl) X(SHSLA8, Hsl)             \
    X(SHSLA8P, Hsl) X(HWB8, Hwb) X(HWBA8, Hwb) X(HWBA8P, Hwb) X(HWB16, Hwb) X(HWBA16, Hwb) X(HWBA16P, Hwb)             \
    X(SHWB8, Hwb) X(SHWBA8, Hwb) X(SHWBA8P, Hwb) X(YCBCR8, YCbCr) X(YCBCRA8, YCbCr) X(YCBCRA8P, YCbCr)                 \
    X(YCBCR16, YCbCr) X(YCBCRA16, YCbCr) X(YCBCRA16P, YCbCr) X(XYZ8, Xyz) X(XYZA8, Xyz) X(XYZA8P, Xyz) X(XYZ16, Xyz)   \
    X(XYZA16, Xyz) X(XYZA16P, Xyz) X(SRGBX8, Rgb) X(SBGRX8, Bgr) X(RGBX8, Rgb) X(BGRX8, Bgr)
/* made by tools/names: end */

/* How many operators there are. A number from there on is PIX_BAD_OP. */
#define PIX_OP_COUNT (0 PIX_EACH_OP(PIX_ONE_))

/* How many kinds of commands there are. A number from there on is PIX_BAD_KIND. */
#define PIX_KIND_COUNT (0 PIX_EACH_KIND(PIX_ONE_))

/* How many formats there are. A number from there on is PIX_BAD_FORMAT. */
#define PIX_FORMAT_COUNT (0 PIX_EACH_FORMAT(PIX_ONE_))
#define PIX_ONE_(NAME, MORE) +1

/* ---- What libpix_c.a has ----
 *
 * The functions above call these, which are proved: pix_X calls pix_raw_X. A short call is a longer
 * one at fixed arguments: pix_run is pix_run_window at (0, 0), pix_quantize is pix_quantize_refined,
 * and pix_diffuse_indexed is pix_diffuse_indexed_by. They test sizes, kinds, regions, operators,
 * sources, formats, lengths, tables, indices, depths, strengths, filters and work memory. Here no
 * pointer may be null or badly aligned, even where its length is 0, and even in commands of kinds
 * that do not use it. The image, `done`, `dst` and `work` may share memory with nothing else that is
 * passed. Lengths are counted in elements. `stride` is at least the width, and 0 does not stand for
 * it. `serpentine` is 0 where all rows go from left to right. */

/* made by tools/names: calls */
/* Returns fact number `index` of the library. The first is its version. The others are sizes and
 * offsets in bytes, in the order of the facts of each binding. Past the last one it returns the
 * greatest number of 32 bits. */
uint32_t pix_layout(size_t index);

/* Returns how many bytes a pixel of a format has, or 0 if there is no such format. */
uint32_t pix_raw_format_size(uint32_t format);

/* Runs all commands on a window of a picture, or none. `done` is their number, or the index of the
 * bad one. The window's first pixel is the point (`left`, `top`) of the picture, so an image by
 * itself is the window at (0, 0). */
uint32_t pix_raw_run_window(pix_rgba8 *pixels, size_t pixel_count, uint32_t left, uint32_t top, uint32_t width,
                            uint32_t height, uint32_t stride, const pix_command *commands, size_t command_count,
                            size_t *done);

/* The same on pixels of 16 bits a channel. */
uint32_t pix_raw_run_window_rgba16(pix_rgba16 *pixels, size_t pixel_count, uint32_t left, uint32_t top, uint32_t width,
                                   uint32_t height, uint32_t stride, const pix_command_rgba16 *commands,
                                   size_t command_count, size_t *done);

/* The same on pixels of gray and alpha. */
uint32_t pix_raw_run_window_graya8(pix_graya8 *pixels, size_t pixel_count, uint32_t left, uint32_t top, uint32_t width,
                                   uint32_t height, uint32_t stride, const pix_command_graya8 *commands,
                                   size_t command_count, size_t *done);

/* Converts `count` pixels from a format to another one. */
uint32_t pix_raw_convert(uint32_t from, uint32_t to, const uint8_t *src, size_t src_len, uint8_t *dst, size_t dst_len,
                         size_t count);

/* Writes a bitmap from another of the same size, pixel by pixel. Strides are in bytes, and 0 does
 * not stand for the width. Both buffers begin with the row that is lowest in memory, which is the
 * bottom one if the stride is negative. They end with the last row's last pixel. */
uint32_t pix_raw_convert_bitmap(uint32_t from, uint32_t to, const uint8_t *src, size_t src_len, uint8_t *dst,
                                size_t dst_len, int64_t src_stride, int64_t dst_stride, uint32_t width,
                                uint32_t height);

/* Writes the window at (`left`, `top`) of a picture of `across` by `down` pixels that is made of a
 * source. `work` is the memory for it, of at least as many words as pix_raw_scale_work says. */
uint32_t pix_raw_scale(pix_rgba8 *pixels, size_t pixel_count, uint32_t left, uint32_t top, uint32_t width,
                       uint32_t height, uint32_t stride, uint32_t across, uint32_t down, const pix_rgba8 *source,
                       size_t source_count, uint32_t source_width, uint32_t source_height, uint32_t source_stride,
                       uint32_t filter, uint32_t *work, size_t work_len);

/* The same for pixels of 16 bits a channel. */
uint32_t pix_raw_scale_rgba16(pix_rgba16 *pixels, size_t pixel_count, uint32_t left, uint32_t top, uint32_t width,
                              uint32_t height, uint32_t stride, uint32_t across, uint32_t down,
                              const pix_rgba16 *source, size_t source_count, uint32_t source_width,
                              uint32_t source_height, uint32_t source_stride, uint32_t filter, uint32_t *work,
                              size_t work_len);

/* The same for pixels of gray and alpha. */
uint32_t pix_raw_scale_graya8(pix_graya8 *pixels, size_t pixel_count, uint32_t left, uint32_t top, uint32_t width,
                              uint32_t height, uint32_t stride, uint32_t across, uint32_t down,
                              const pix_graya8 *source, size_t source_count, uint32_t source_width,
                              uint32_t source_height, uint32_t source_stride, uint32_t filter, uint32_t *work,
                              size_t work_len);

/* Sets `words` to how many words of work memory a window of `width` by `height` takes. Its pixels
 * have so many channels, of 8 or 16 bits. */
uint32_t pix_raw_scale_work(uint32_t width, uint32_t height, uint32_t across, uint32_t down, uint32_t source_width,
                            uint32_t source_height, uint32_t channels, uint32_t bits, uint32_t filter, uint64_t *words);

/* Writes a picture that is made of a source by a table of weights for its columns and one for its
 * rows. Row i of a table counts `taps` places from the i-th of `firsts` on, by so many weights in
 * 2^14ths. `work` is the memory for it, of at least as many words as pix_raw_scale_by_work says. */
uint32_t pix_raw_scale_by(pix_rgba8 *pixels, size_t pixel_count, uint32_t width, uint32_t height, uint32_t stride,
                          const pix_rgba8 *source, size_t source_count, uint32_t source_width, uint32_t source_height,
                          uint32_t source_stride, const uint32_t *firsts, size_t first_count, uint32_t taps,
                          const int32_t *weights, size_t weight_count, const uint32_t *row_firsts,
                          size_t row_first_count, uint32_t row_taps, const int32_t *row_weights,
                          size_t row_weight_count, uint32_t *work, size_t work_len);

/* The same for pixels of 16 bits a channel. */
uint32_t pix_raw_scale_by_rgba16(pix_rgba16 *pixels, size_t pixel_count, uint32_t width, uint32_t height,
                                 uint32_t stride, const pix_rgba16 *source, size_t source_count, uint32_t source_width,
                                 uint32_t source_height, uint32_t source_stride, const uint32_t *firsts,
                                 size_t first_count, uint32_t taps, const int32_t *weights, size_t weight_count,
                                 const uint32_t *row_firsts, size_t row_first_count, uint32_t row_taps,
                                 const int32_t *row_weights, size_t row_weight_count, uint32_t *work, size_t work_len);

/* The same for pixels of gray and alpha. */
uint32_t pix_raw_scale_by_graya8(pix_graya8 *pixels, size_t pixel_count, uint32_t width, uint32_t height,
                                 uint32_t stride, const pix_graya8 *source, size_t source_count, uint32_t source_width,
                                 uint32_t source_height, uint32_t source_stride, const uint32_t *firsts,
                                 size_t first_count, uint32_t taps, const int32_t *weights, size_t weight_count,
                                 const uint32_t *row_firsts, size_t row_first_count, uint32_t row_taps,
                                 const int32_t *row_weights, size_t row_weight_count, uint32_t *work, size_t work_len);

/* Sets `words` to how many words of work memory a picture of `width` by `height` takes, by tables
 * of so many weights for a column and for a row. Its pixels have so many channels, of 8 or 16
 * bits. */
uint32_t pix_raw_scale_by_work(uint32_t width, uint32_t height, uint32_t source_width, uint32_t source_height,
                               uint32_t taps, uint32_t row_taps, uint32_t channels, uint32_t bits, uint64_t *words);

/* Writes the index of the entry of a table that is nearest to a color. */
uint32_t pix_raw_nearest(const pix_srgb8 *entries, size_t len, const pix_srgb8 *color, uint8_t *index);

/* Writes the index of the nearest entry of each pixel. */
uint32_t pix_raw_map_indexed(const pix_srgb8 *entries, size_t len, const pix_srgb8 *pixels, size_t pixel_count,
                             uint8_t *indices, size_t index_count);

/* The same for pixels with an alpha: one below `alpha` gets the index `transparent_index`. If all
 * are below, a table without an entry serves too. */
uint32_t pix_raw_map_indexed_alpha(const pix_srgb8 *entries, size_t len, const pix_srgba8 *pixels, size_t pixel_count,
                                   uint8_t alpha, uint8_t transparent_index, uint8_t *indices, size_t index_count);

/* Writes a table of the colors of pixels, refined by `rounds` rounds, and how many entries it
 * has. */
uint32_t pix_raw_quantize_refined(const pix_srgb8 *pixels, size_t pixel_count, uint8_t rounds, pix_srgb8 *work,
                                  size_t work_len, pix_srgb8 *entries, size_t len, size_t *made);

/* The same for pixels with an alpha: those below `alpha` are left out. */
uint32_t pix_raw_quantize_refined_alpha(const pix_srgba8 *pixels, size_t pixel_count, uint8_t alpha, uint8_t rounds,
                                        pix_srgb8 *work, size_t work_len, pix_srgb8 *entries, size_t len, size_t *made);

/* Writes the index of each pixel of rows of `width` by error diffusion, with `strength` sixteenths
 * of each error. If `serpentine` isn't 0, every second row goes from right to left. */
uint32_t pix_raw_diffuse_indexed_by(const pix_srgb8 *entries, size_t len, const pix_srgb8 *pixels, size_t pixel_count,
                                    size_t width, uint8_t strength, uint8_t serpentine, pix_srgb8 *work,
                                    size_t work_len, uint8_t *indices, size_t index_count);

/* The same for pixels with an alpha: one below `alpha` gets the index `transparent_index`, and
 * passes on no error. If all are below, a table without an entry serves too. */
uint32_t pix_raw_diffuse_indexed_by_alpha(const pix_srgb8 *entries, size_t len, const pix_srgba8 *pixels,
                                          size_t pixel_count, size_t width, uint8_t alpha, uint8_t transparent_index,
                                          uint8_t strength, uint8_t serpentine, pix_srgb8 *work, size_t work_len,
                                          uint8_t *indices, size_t index_count);

/* Sets the color of each pixel in a table, and writes its index and how many entries are used. */
uint32_t pix_raw_index_pixels(pix_srgb8 *entries, size_t len, size_t *used, const pix_srgb8 *threshold,
                              const pix_srgb8 *pixels, size_t pixel_count, uint8_t *indices, size_t index_count);

/* Writes the entry of each index. */
uint32_t pix_raw_look_up(const pix_srgb8 *entries, size_t len, const uint8_t *indices, size_t index_count,
                         pix_srgb8 *pixels, size_t pixel_count);

/* Writes how often each number below the length of `counts` is among the indices. */
uint32_t pix_raw_count_indices(const uint8_t *indices, size_t index_count, size_t *counts, size_t len);

/* Packs a row of indices into bytes. */
uint32_t pix_raw_pack_row(uint32_t bits, const uint8_t *indices, size_t index_count, uint8_t *bytes, size_t byte_count);

/* Unpacks a row of indices from bytes. */
uint32_t pix_raw_unpack_row(uint32_t bits, const uint8_t *bytes, size_t byte_count, uint8_t *indices,
                            size_t index_count);

/* Writes a table of the colors of pixels, with their alphas, refined by `rounds` rounds, and how
 * many entries it has. */
uint32_t pix_raw_quantize_rgba(const pix_srgba8 *pixels, size_t pixel_count, uint8_t rounds, pix_srgba8 *work,
                               size_t work_len, pix_srgba8 *entries, size_t len, size_t *made);

/* Writes the index of the entry that looks nearest to each pixel. */
uint32_t pix_raw_map_indexed_rgba(const pix_srgba8 *entries, size_t len, const pix_srgba8 *pixels, size_t pixel_count,
                                  uint8_t *indices, size_t index_count);

/* Writes the index of each pixel of rows of `width` by error diffusion, as
 * pix_raw_diffuse_indexed_by does. */
uint32_t pix_raw_diffuse_indexed_rgba(const pix_srgba8 *entries, size_t len, const pix_srgba8 *pixels,
                                      size_t pixel_count, size_t width, uint8_t strength, uint8_t serpentine,
                                      pix_srgba8 *work, size_t work_len, uint8_t *indices, size_t index_count);

/* Writes the entry of each index. */
uint32_t pix_raw_look_up_rgba(const pix_srgba8 *entries, size_t len, const uint8_t *indices, size_t index_count,
                              pix_srgba8 *pixels, size_t pixel_count);
/* made by tools/names: end */

/* The version of the binary interface. It changes where a call, a number or a layout changes; a
 * program that was compiled with an older header then does not run. It is the number in the soname,
 * libpix.so.4, and pix_layout(0) returns it. */
#define PIX_ABI_VERSION 4

/* ---- Definitions. Nothing below is for callers. ----
 *
 * A function packs its arguments: into a view, into a command, or for a call of the archive, which
 * decides what is refused. Before such a call it has pix_test_ look at the pointers, which the
 * archive can't. What decides more by itself says so: its comment begins with "Decides:". It is
 * tested, and not proved. */

/* The layout that the library was compiled for, at any size of pointers. */
#if defined(__cplusplus)
#define PIX_ASSERT_(name, condition) static_assert(condition, #name)
#elif defined(__STDC_VERSION__) && __STDC_VERSION__ >= 201112L
#define PIX_ASSERT_(name, condition) _Static_assert(condition, #name)
#else
#define PIX_ASSERT_(name, condition) typedef char pix_assert_##name##_[(condition) ? 1 : -1]
#endif

PIX_ASSERT_(lengths, sizeof(size_t) == sizeof(void *));
PIX_ASSERT_(rgba8, sizeof(pix_rgba8) == 4 && offsetof(pix_rgba8, g) == 1 && offsetof(pix_rgba8, a) == 3);
PIX_ASSERT_(rgba16, sizeof(pix_rgba16) == 8 && offsetof(pix_rgba16, g) == 2 && offsetof(pix_rgba16, a) == 6);
PIX_ASSERT_(srgb8, sizeof(pix_srgb8) == 3 && offsetof(pix_srgb8, g) == 1 && offsetof(pix_srgb8, b) == 2);
PIX_ASSERT_(srgba8, sizeof(pix_srgba8) == 4 && offsetof(pix_srgba8, g) == 1 && offsetof(pix_srgba8, a) == 3);
PIX_ASSERT_(graya8, sizeof(pix_graya8) == 2 && offsetof(pix_graya8, a) == 1);
PIX_ASSERT_(region, sizeof(pix_region) == 16 && offsetof(pix_region, width) == 8);

/* The next multiple of a pointer's size, and the offset of word number `n` after the color of a
 * command. */
#define PIX_ROUND_(n) (((n) + sizeof(void *) - 1) / sizeof(void *) * sizeof(void *))
#define PIX_WORD_(n, PIXEL) (PIX_ROUND_(40 + sizeof(PIXEL)) + (n) * sizeof(void *))
#define PIX_LAYOUT_(command, PIXEL, WORDS)                                                                             \
    PIX_ASSERT_(kind_##command, offsetof(command, kind) == 0 && offsetof(command, op) == 4);                           \
    PIX_ASSERT_(to_##command, offsetof(command, to) == 8 && offsetof(command, from) == 24);                            \
    PIX_ASSERT_(color_##command, offsetof(command, color) == 40);                                                      \
    PIX_ASSERT_(pixels_##command, offsetof(command, pixels) == PIX_WORD_(0, PIXEL));                                   \
    PIX_ASSERT_(pixel_count_##command, offsetof(command, pixel_count) == PIX_WORD_(1, PIXEL));                         \
    PIX_ASSERT_(mattes_##command, offsetof(command, mattes) == PIX_WORD_(2, PIXEL));                                   \
    PIX_ASSERT_(matte_count_##command, offsetof(command, matte_count) == PIX_WORD_(3, PIXEL));                         \
    PIX_ASSERT_(width_##command, offsetof(command, width) == PIX_WORD_(4, PIXEL));                                     \
    PIX_ASSERT_(height_##command, offsetof(command, height) == PIX_WORD_(4, PIXEL) + 4);                               \
    PIX_ASSERT_(stride_##command, offsetof(command, stride) == PIX_WORD_(4, PIXEL) + 8);                               \
    PIX_ASSERT_(mask_##command, offsetof(command, mask) == PIX_WORD_(4, PIXEL) + 12);                                  \
    PIX_ASSERT_(mask_width_##command, offsetof(command, mask_width) == PIX_WORD_(4, PIXEL) + 28);                      \
    PIX_ASSERT_(mask_height_##command, offsetof(command, mask_height) == PIX_WORD_(4, PIXEL) + 32);                    \
    PIX_ASSERT_(mask_stride_##command, offsetof(command, mask_stride) == PIX_WORD_(4, PIXEL) + 36);                    \
    PIX_ASSERT_(alpha_##command, offsetof(command, alpha) == PIX_WORD_(4, PIXEL) + 40);                                \
    PIX_ASSERT_(size_of_##command,                                                                                     \
                sizeof(command) == PIX_ROUND_(PIX_WORD_(4, PIXEL) + 42) + (WORDS) * sizeof(void *))

PIX_LAYOUT_(pix_command, pix_rgba8, 0);
PIX_LAYOUT_(pix_command_rgba16, pix_rgba16, 2);
PIX_LAYOUT_(pix_command_graya8, pix_graya8, 0);
PIX_ASSERT_(mattes8, offsetof(pix_command_rgba16, mattes8) == PIX_ROUND_(PIX_WORD_(4, pix_rgba16) + 42));
PIX_ASSERT_(matte8_count,
            offsetof(pix_command_rgba16, matte8_count) == offsetof(pix_command_rgba16, mattes8) + sizeof(void *));

/* What pix_layout returns, from 0 on. */
#define PIX_COMMAND_FACTS_(command)                                                                                    \
    sizeof(command), offsetof(command, kind), offsetof(command, op), offsetof(command, to), offsetof(command, from),   \
        offsetof(command, color), offsetof(command, pixels), offsetof(command, pixel_count),                           \
        offsetof(command, mattes), offsetof(command, matte_count), offsetof(command, width),                           \
        offsetof(command, height), offsetof(command, stride), offsetof(command, mask), offsetof(command, mask_width),  \
        offsetof(command, mask_height), offsetof(command, mask_stride), offsetof(command, alpha)
#define PIX_FACTS_                                                                                                     \
    PIX_ABI_VERSION, sizeof(pix_rgba8), sizeof(pix_rgba16), sizeof(pix_graya8), sizeof(pix_region),                    \
        offsetof(pix_region, x), offsetof(pix_region, y), offsetof(pix_region, width), offsetof(pix_region, height),   \
        PIX_COMMAND_FACTS_(pix_command), PIX_COMMAND_FACTS_(pix_command_rgba16),                                       \
        offsetof(pix_command_rgba16, mattes8), offsetof(pix_command_rgba16, matte8_count),                             \
        PIX_COMMAND_FACTS_(pix_command_graya8)

/* Decides: whether each fact is that of the archive. */
static inline pix_status pix_check_library(void) {
    static const uint32_t facts[] = {PIX_FACTS_};
    const size_t count = sizeof facts / sizeof *facts;
    size_t i;
    for (i = 0; i < count; i++)
        if (pix_layout(i) != facts[i])
            return PIX_BAD_LIBRARY;
    return pix_layout(count) == UINT32_MAX ? PIX_OK : PIX_BAD_LIBRARY;
}

/* An address for slices of no elements, aligned for every type above. It is never read. */
static const uint64_t pix_nothing_ = 0;

/* Decides: how many elements an image has from its first to its last one. It is 0 where no memory
 * could hold them, and then the library refuses the size. */
static inline size_t pix_extent_(uint32_t width, uint32_t height, uint32_t stride, size_t element) {
    uint64_t extent = height == 0 ? 0 : (uint64_t)(height - 1) * stride + width;
    return extent <= (uint64_t)PTRDIFF_MAX / element ? (size_t)extent : 0;
}

/* Decides: whether an image has a size that calls take. */
static inline int pix_is_sized_(uint32_t width, uint32_t height, uint32_t stride, size_t element) {
    return width <= INT32_MAX && height <= INT32_MAX && width <= stride
           && (!height || !width || pix_extent_(width, height, stride, element));
}

/* Decides: whether what is read is apart from what is written. Both lengths are in bytes. */
static inline pix_status pix_apart_(const void *written, size_t written_bytes, const void *read, size_t read_bytes) {
    uintptr_t w = (uintptr_t)written, r = (uintptr_t)read;
    if (!written || !read)
        return PIX_NULL;
    if (!written_bytes || !read_bytes)
        return PIX_OK;
    return (w < r ? r - w < written_bytes : w - r < read_bytes) ? PIX_OVERLAP : PIX_OK;
}

/* Memory that a call is passed: where it begins, how many elements it has, and their bytes. */
typedef struct { const void *at; size_t count, size; } pix_memory_;

/* Decides: whether one is there where it has an element, and has no more bytes than memory holds. */
static inline pix_status pix_is_there_(pix_memory_ it) {
    if (it.size && it.count > (size_t)PTRDIFF_MAX / it.size)
        return PIX_BAD_LENGTH;
    return it.count && !it.at ? PIX_NULL : PIX_OK;
}

/* Decides: the same of all `count` that a call is passed, and whether the first ones, so many as are
 * written, share no byte with another one. */
static inline pix_status pix_test_(const pix_memory_ *memory, size_t written, size_t count) {
    pix_status status = PIX_OK;
    size_t i, j;
    for (i = 0; i < count && status == PIX_OK; i++)
        status = pix_is_there_(memory[i]);
    for (i = 0; i < written && status == PIX_OK; i++)
        for (j = i + 1; j < count && status == PIX_OK; j++)
            if (memory[i].count && memory[j].count)
                status = pix_apart_(memory[i].at, memory[i].count * memory[i].size, memory[j].at,
                                    memory[j].count * memory[j].size);
    return status;
}

/* Elements as the archive takes them: their address, which is an aligned one also without elements,
 * and their number. */
#define PIX_SLICE_(TYPE, at, count) ((count) ? (at) : (TYPE *)(uintptr_t)&pix_nothing_), (count)

/* Decides: the text of a status. */
static inline const char *pix_status_text(pix_status status) {
    switch (status) {
    /* made by tools/names: texts */
    case PIX_OK: return "done";
    case PIX_BAD_SIZE: return "the image has a side above 2147483647, a stride below its width, or too many pixels";
    case PIX_BAD_KIND: return "no such kind of command";
    case PIX_BAD_REGION: return "a region has a side above 2147483647";
    case PIX_BAD_OP: return "no such operator";
    case PIX_BAD_SOURCE: return "a source has a side above 2147483647, a stride below its width, or too many pixels";
    case PIX_BAD_FORMAT: return "no such format";
    case PIX_BAD_LENGTH: return "too many pixels or commands, or lengths that do not match";
    case PIX_NULL: return "a pointer is null";
    case PIX_OVERLAP: return "the written memory overlaps a source, a matte, the list or `done`";
    case PIX_BAD_LIBRARY: return "the version or layout of the library differs from that of this header";
    case PIX_BAD_TABLE: return "a table must have 1 to 256 entries";
    case PIX_BAD_INDEX: return "an index is past the end, or needs more bits than it has";
    case PIX_BAD_DEPTH: return "indices take 1, 2, 4 or 8 bits";
    case PIX_FULL_TABLE: return "a table has no room for a color";
    case PIX_BAD_STRENGTH: return "errors are diffused with a strength of 0 to 16";
    case PIX_NO_SIDE: return "a side of the source or of the new picture is 0";
    case PIX_TOO_LARGE: return "a side of the source is above 65535, or the new picture is too large for its sums";
    case PIX_OUTSIDE: return "the window is not all in the new picture";
    case PIX_SMALL_WORK: return "the work memory is too small";
    case PIX_BAD_FILTER: return "no such filter";
    case PIX_BAD_WEIGHTS: return "a table of weights doesn't fit the image or the source, or a row of it doesn't add up";
    /* made by tools/names: end */
    }
    return "no such status";
}

/* Decides: what a command notes of a source, its size, and its elements by address and number. */
#define PIX_NOTE_(source, elements, source_elements, count)                                                            \
    command.width = source.width;                                                                                      \
    command.height = source.height;                                                                                    \
    command.stride = source.stride ? source.stride : source.width;                                                     \
    command.count = pix_extent_(command.width, command.height, command.stride, sizeof *command.elements);              \
    if (source.source_elements || command.count)                                                                       \
        command.elements = source.source_elements

/* Decides: the same of a mask. */
#define PIX_NOTE_MASK_(matte, region, elements, count)                                                                 \
    command.mask = region;                                                                                             \
    command.mask_width = matte.width;                                                                                  \
    command.mask_height = matte.height;                                                                                \
    command.mask_stride = matte.stride ? matte.stride : matte.width;                                                   \
    command.count =                                                                                                    \
        pix_extent_(command.mask_width, command.mask_height, command.mask_stride, sizeof *command.elements);           \
    if (matte.values || command.count)                                                                                 \
        command.elements = matte.values

/* The views and commands of one kind of pixels: the end of their names, the pixel, the matte and
 * its values, and what a command without a source has besides. */
#define PIX_COMMANDS_(S, PIXEL, MATTE, VALUE, MORE)                                                                    \
    static inline pix_image##S pix_image_of##S(PIXEL *pixels, uint32_t width, uint32_t height) {                       \
        pix_image##S image = {pixels, width, height, width};                                                           \
        return image;                                                                                                  \
    }                                                                                                                  \
    static inline pix_view##S pix_view_of##S(const PIXEL *pixels, uint32_t width, uint32_t height) {                   \
        pix_view##S source = {pixels, width, height, width};                                                           \
        return source;                                                                                                 \
    }                                                                                                                  \
    static inline pix_view##S pix_view_of_image##S(pix_image##S image) {                                               \
        pix_view##S source = {image.pixels, image.width, image.height, image.stride};                                  \
        return source;                                                                                                 \
    }                                                                                                                  \
    /* A command without a source. */                                                                                  \
    static inline pix_command##S pix_command_of_##S(pix_kind kind, pix_op op, pix_region to, pix_region from) {        \
        pix_command##S command;                                                                                        \
        memset(&command, 0, sizeof command);                                                                           \
        command.kind = (uint32_t)kind;                                                                                 \
        command.op = (uint32_t)op;                                                                                     \
        command.to = to;                                                                                               \
        command.from = from;                                                                                           \
        command.pixels = (const PIXEL *)(const void *)&pix_nothing_;                                                   \
        command.mattes = (const VALUE *)(const void *)&pix_nothing_;                                                   \
        MORE                                                                                                           \
        return command;                                                                                                \
    }                                                                                                                  \
    static inline pix_command##S pix_clear##S(void) {                                                                  \
        return pix_command_of_##S(PIX_KIND_CLEAR, PIX_OP_SRC, pix_region_of(0, 0, 0, 0), pix_region_of(0, 0, 0, 0));   \
    }                                                                                                                  \
    static inline pix_command##S pix_copy_color##S(pix_region to, PIXEL color) {                                       \
        pix_command##S command = pix_command_of_##S(PIX_KIND_COPY_COLOR, PIX_OP_SRC, to, pix_region_of(0, 0, 0, 0));   \
        command.color = color;                                                                                         \
        return command;                                                                                                \
    }                                                                                                                  \
    static inline pix_command##S pix_copy_image##S(pix_region to, pix_view##S source, pix_region from) {               \
        pix_command##S command = pix_command_of_##S(PIX_KIND_COPY_IMAGE, PIX_OP_SRC, to, from);                        \
        PIX_NOTE_(source, pixels, pixels, pixel_count);                                                                \
        return command;                                                                                                \
    }                                                                                                                  \
    static inline pix_command##S pix_composite_color##S(pix_region to, PIXEL color, pix_op op) {                       \
        pix_command##S command = pix_command_of_##S(PIX_KIND_COMPOSITE_COLOR, op, to, pix_region_of(0, 0, 0, 0));      \
        command.color = color;                                                                                         \
        return command;                                                                                                \
    }                                                                                                                  \
    static inline pix_command##S pix_composite_image##S(pix_region to, pix_view##S source, pix_region from,            \
                                                        pix_op op) {                                                   \
        pix_command##S command = pix_command_of_##S(PIX_KIND_COMPOSITE_IMAGE, op, to, from);                           \
        PIX_NOTE_(source, pixels, pixels, pixel_count);                                                                \
        return command;                                                                                                \
    }                                                                                                                  \
    static inline pix_command##S pix_composite_matte##S(pix_region to, MATTE matte, pix_region from, PIXEL color,      \
                                                        pix_op op) {                                                   \
        pix_command##S command = pix_command_of_##S(PIX_KIND_COMPOSITE_MATTE, op, to, from);                           \
        command.color = color;                                                                                         \
        PIX_NOTE_(matte, mattes, values, matte_count);                                                                 \
        return command;                                                                                                \
    }                                                                                                                  \
    static inline pix_command##S pix_composite_image_matte##S(pix_region to, pix_view##S source, pix_region from,      \
                                                              MATTE matte, pix_region matte_from, pix_op op) {         \
        pix_command##S command = pix_command_of_##S(PIX_KIND_COMPOSITE_IMAGE_MATTE, op, to, from);                     \
        PIX_NOTE_(source, pixels, pixels, pixel_count);                                                                \
        PIX_NOTE_MASK_(matte, matte_from, mattes, matte_count);                                                        \
        return command;                                                                                                \
    }                                                                                                                  \
    static inline pix_command##S pix_composite_image_alpha##S(pix_region to, pix_view##S source, pix_region from,      \
                                                              VALUE opacity, pix_op op) {                              \
        pix_command##S command = pix_command_of_##S(PIX_KIND_COMPOSITE_IMAGE_ALPHA, op, to, from);                     \
        PIX_NOTE_(source, pixels, pixels, pixel_count);                                                                \
        command.alpha = opacity;                                                                                       \
        return command;                                                                                                \
    }

/* The calls of one kind of pixels, with the test of what else a command may read. */
#define PIX_CALLS_(S, PIXEL, VALUE, TEST)                                                                              \
    /* Decides: whether the memory of a command is apart from the bytes that are written. */                           \
    static inline pix_status pix_beside_##S(const void *written, size_t bytes, const pix_command##S *command) {        \
        pix_status status = pix_apart_(written, bytes, command->pixels, command->pixel_count * sizeof(PIXEL));         \
        if (status != PIX_OK)                                                                                          \
            return status;                                                                                             \
        status = pix_apart_(written, bytes, command->mattes, command->matte_count * sizeof(VALUE));                    \
        return status != PIX_OK ? status : TEST;                                                                       \
    }                                                                                                                  \
    /* Decides: whether all pointers may be passed, and what `done` is where one may not. */                           \
    static inline pix_status pix_run_window##S(pix_image##S window, uint32_t left, uint32_t top,                       \
                                               const pix_command##S *commands, size_t count, size_t *done) {           \
        uint32_t stride = window.stride ? window.stride : window.width;                                                \
        size_t extent = pix_extent_(window.width, window.height, stride, sizeof(PIXEL)), at = 0;                       \
        uint64_t nothing = 0;                                                                                          \
        void *pixels = window.pixels || extent ? (void *)window.pixels : (void *)&nothing;                             \
        const void *list = commands || count ? (const void *)commands : (const void *)&pix_nothing_;                   \
        int is_inside = done && pix_apart_(pixels, extent * sizeof(PIXEL), done, sizeof *done) == PIX_OVERLAP;         \
        pix_status status = is_inside ? PIX_OVERLAP : PIX_BAD_LENGTH;                                                  \
        if (!is_inside && count <= (size_t)PTRDIFF_MAX / sizeof *commands)                                             \
            status = pix_apart_(pixels, extent * sizeof(PIXEL), list, count * sizeof *commands);                       \
        while (status == PIX_OK && at < count) {                                                                       \
            status = pix_beside_##S(pixels, extent * sizeof(PIXEL), &commands[at]);                                    \
            at += status == PIX_OK;                                                                                    \
        }                                                                                                              \
        if (status == PIX_OK)                                                                                          \
            status = (pix_status)pix_raw_run_window##S((PIXEL *)pixels, extent, left, top, window.width, window.height,\
                                                       stride, (const pix_command##S *)list, count, &at);              \
        if (done && !is_inside)                                                                                        \
            *done = at;                                                                                                \
        return status;                                                                                                 \
    }                                                                                                                  \
    static inline pix_status pix_run##S(pix_image##S image, const pix_command##S *commands, size_t count,              \
                                        size_t *done) {                                                                \
        return pix_run_window##S(image, 0, 0, commands, count, done);                                                  \
    }                                                                                                                  \
    static inline pix_status pix_do##S(pix_image##S image, pix_command##S command) {                                   \
        return pix_run##S(image, &command, 1, NULL);                                                                   \
    }

PIX_COMMANDS_(, pix_rgba8, pix_matte, uint8_t, )
PIX_COMMANDS_(_rgba16, pix_rgba16, pix_matte16, uint16_t,
              command.mattes8 = (const uint8_t *)(const void *)&pix_nothing_;)
PIX_COMMANDS_(_graya8, pix_graya8, pix_matte, uint8_t, )
PIX_CALLS_(, pix_rgba8, uint8_t, PIX_OK)
PIX_CALLS_(_rgba16, pix_rgba16, uint16_t, pix_apart_(written, bytes, command->mattes8, command->matte8_count))
PIX_CALLS_(_graya8, pix_graya8, uint8_t, PIX_OK)

static inline pix_command_rgba16 pix_composite_matte8_rgba16(pix_region to, pix_matte matte, pix_region from,
                                                             pix_rgba16 color, pix_op op) {
    pix_command_rgba16 command = pix_command_of__rgba16(PIX_KIND_COMPOSITE_MATTE, op, to, from);
    command.color = color;
    PIX_NOTE_(matte, mattes8, values, matte8_count);
    return command;
}

static inline pix_command_rgba16 pix_composite_image_matte8_rgba16(pix_region to, pix_view_rgba16 source,
                                                                   pix_region from, pix_matte mask,
                                                                   pix_region mask_from, pix_op op) {
    pix_command_rgba16 command = pix_command_of__rgba16(PIX_KIND_COMPOSITE_IMAGE_MATTE, op, to, from);
    PIX_NOTE_(source, pixels, pixels, pixel_count);
    PIX_NOTE_MASK_(mask, mask_from, mattes8, matte8_count);
    return command;
}

static inline size_t pix_format_size(pix_format format) {
    return pix_raw_format_size((uint32_t)format);
}

static inline pix_status pix_convert(pix_format from, pix_format to, const void *src, void *dst, size_t count) {
    const size_t src_size = pix_format_size(from), dst_size = pix_format_size(to);
    const size_t read = count * src_size, written = count * dst_size;
    const pix_memory_ memory[] = {{dst, count, dst_size}, {src, count, src_size}};
    const pix_status status = pix_test_(memory, 1, 2);
    if (status != PIX_OK)
        return status;
    return (pix_status)pix_raw_convert((uint32_t)from, (uint32_t)to,
                                       PIX_SLICE_(const uint8_t, (const uint8_t *)src, read),
                                       PIX_SLICE_(uint8_t, (uint8_t *)dst, written), count);
}

static inline pix_bitmap pix_bitmap_of(void *pixels, uint32_t width, uint32_t height, pix_format format) {
    pix_bitmap image = {pixels, width, height, 0, format};
    return image;
}

static inline pix_bitmap_view pix_bitmap_view_of(const void *pixels, uint32_t width, uint32_t height,
                                                 pix_format format) {
    pix_bitmap_view image = {pixels, width, height, 0, format};
    return image;
}

static inline pix_bitmap_view pix_bitmap_view_of_bitmap(pix_bitmap image) {
    pix_bitmap_view source = {image.pixels, image.width, image.height, image.stride, image.format};
    return source;
}

/* The bytes of a bitmap, from the row that is lowest in memory to the end of the highest one. */
typedef struct { const uint8_t *lowest; size_t length; int64_t stride; } pix_bytes_;

/* Decides: those of a bitmap. `length` is 0 where the size is bad or no memory could hold them, and
 * then the library refuses the size. No address is made before that is known. */
static inline pix_bytes_ pix_bytes_of_(pix_bitmap_view image) {
    pix_bytes_ bytes = {(const uint8_t *)image.pixels, 0, (int64_t)image.stride};
    uint64_t wide = (uint64_t)image.width * pix_format_size(image.format), apart, before;
    if (!image.stride)
        bytes.stride = (int64_t)wide;
    apart = bytes.stride < 0 ? 0 - (uint64_t)bytes.stride : (uint64_t)bytes.stride;
    if (!image.height || image.width > INT32_MAX || image.height > INT32_MAX || wide > apart
        || wide > (uint64_t)PTRDIFF_MAX)
        return bytes;
    if (image.height > 1 && apart > ((uint64_t)PTRDIFF_MAX - wide) / (image.height - 1))
        return bytes;
    before = (image.height - 1) * apart;
    if (bytes.stride < 0 && bytes.lowest && before >= (uintptr_t)bytes.lowest)
        return bytes;
    bytes.length = (size_t)(before + wide);
    if (bytes.stride < 0 && bytes.lowest)
        bytes.lowest -= before;
    return bytes;
}

/* Decides: whether both have one size, which the archive takes once, and whether their pointers may
 * be passed. */
static inline pix_status pix_convert_bitmap(pix_bitmap_view src, pix_bitmap dst) {
    pix_bytes_ read = pix_bytes_of_(src), written = pix_bytes_of_(pix_bitmap_view_of_bitmap(dst));
    uint64_t nothing = 0;
    pix_status status;
    if (!read.lowest && !read.length)
        read.lowest = (const uint8_t *)&pix_nothing_;
    if (!written.lowest && !written.length)
        written.lowest = (const uint8_t *)&nothing;
    if (src.width != dst.width || src.height != dst.height)
        return PIX_BAD_SOURCE;
    status = pix_apart_(written.lowest, written.length, read.lowest, read.length);
    if (status != PIX_OK)
        return status;
    return (pix_status)pix_raw_convert_bitmap((uint32_t)src.format, (uint32_t)dst.format, read.lowest, read.length,
                                              (uint8_t *)(uintptr_t)written.lowest, written.length, read.stride, written.stride,
                                              dst.width, dst.height);
}

/* Decides: the blocks, and what is refused before the first is written. */
static inline pix_status pix_convert_in_place(pix_bitmap image, pix_format to) {
    const uint32_t most = 64;
    pix_bytes_ bytes = pix_bytes_of_(pix_bitmap_view_of_bitmap(image));
    uint64_t size = pix_format_size(image.format), to_size = pix_format_size(to), wide = image.width * size;
    uint64_t apart = bytes.stride < 0 ? 0 - (uint64_t)bytes.stride : (uint64_t)bytes.stride;
    uint8_t block[64 * 8];
    uint32_t x, y;
    if (!size || !to_size || to_size > size)
        return PIX_BAD_FORMAT;
    if (image.width > INT32_MAX || image.height > INT32_MAX || wide > apart || (wide && image.height && !bytes.length))
        return PIX_BAD_SIZE;
    if (!bytes.lowest && bytes.length)
        return PIX_NULL;
    if (!wide)
        return PIX_OK;
    /* a block of pixels is copied, and written from the copy */
    for (y = 0; y < image.height; y++) {
        uint8_t *row = (uint8_t *)image.pixels + (ptrdiff_t)y * (ptrdiff_t)bytes.stride;
        for (x = 0; x < image.width; x += most) {
            uint32_t count = image.width - x < most ? image.width - x : most;
            size_t read = (size_t)(count * size), written = (size_t)(count * to_size);
            memcpy(block, row + x * size, read);
            pix_raw_convert_bitmap((uint32_t)image.format, (uint32_t)to, block, read, row + x * to_size, written, (int64_t)read,
                                   (int64_t)written, count, 1);
        }
    }
    return PIX_OK;
}

/* Decides: how the interval of `length` from `start` on is cut at those from 0 to `limit`. */
static inline void pix_cut_(int32_t start, uint32_t length, uint32_t limit, uint32_t *first, uint32_t *count) {
    int64_t end = (int64_t)start + length, begin = start < 0 ? 0 : start;
    end = end < (int64_t)limit ? end : (int64_t)limit;
    *count = begin < end ? (uint32_t)(end - begin) : 0;
    *first = *count ? (uint32_t)begin : 0;
}

/* Decides: how many copies of a length begin in an interval, and no further than the greatest
 * coordinate. */
static inline uint64_t pix_copies_(int32_t start, uint32_t length, uint32_t each) {
    const uint64_t left = (uint64_t)((int64_t)INT32_MAX - start + 1), held = length < left ? length : left;
    return each ? (held + each - 1) / each : 0;
}

/* Decides: the region of a copy of a pattern. */
static inline pix_region pix_copy_of_(pix_region to, uint32_t width, uint32_t height, uint64_t column, uint64_t row) {
    const uint64_t x = column * width, y = row * height, wide = to.width - x, high = to.height - y;
    return pix_region_of((int32_t)(to.x + (int64_t)x), (int32_t)(to.y + (int64_t)y), wide < width ? (uint32_t)wide : width,
                         high < height ? (uint32_t)high : height);
}

#define PIX_PARTS_(S, PIXEL, FORMAT)                                                                                   \
    static inline pix_bitmap pix_bitmap_of_image##S(pix_image##S image) {                                              \
        pix_bitmap same = {image.pixels, image.width, image.height, 0, FORMAT};                                        \
        same.stride = (ptrdiff_t)((image.stride ? image.stride : image.width) * sizeof *image.pixels);                 \
        return same;                                                                                                   \
    }                                                                                                                  \
    /* Decides: the part, and all of the image where that has a size that is refused. */                               \
    static inline pix_image##S pix_part_of##S(pix_image##S image, pix_region region) {                                 \
        pix_image##S part = image;                                                                                     \
        uint32_t left, top;                                                                                            \
        part.stride = image.stride ? image.stride : image.width;                                                       \
        pix_cut_(region.x, region.width, image.width, &left, &part.width);                                             \
        pix_cut_(region.y, region.height, image.height, &top, &part.height);                                           \
        if (!part.width || !part.height || !image.pixels)                                                              \
            return part;                                                                                               \
        if (!pix_is_sized_(image.width, image.height, part.stride, sizeof(PIXEL)))                                     \
            return image; /* which is refused as a whole */                                                            \
        part.pixels += (size_t)top * part.stride + left;                                                               \
        return part;                                                                                                   \
    }                                                                                                                  \
    static inline PIXEL pix_color_of##S(pix_format format, const void *pixel) {                                        \
        PIXEL color;                                                                                                   \
        memset(&color, 0, sizeof color);                                                                               \
        pix_convert_bitmap(pix_bitmap_view_of(pixel, 1, 1, format), pix_bitmap_of(&color, 1, 1, FORMAT));              \
        return color;                                                                                                  \
    }                                                                                                                  \
    /* Decides: the copies of a pattern. */                                                                            \
    static inline uint64_t pix_repeat_image##S(pix_command##S *commands, uint64_t room, pix_region to,                 \
                                               pix_view##S source, pix_region from, pix_op op) {                       \
        const uint64_t columns = pix_copies_(to.x, to.width, from.width);                                              \
        const uint64_t count = columns * pix_copies_(to.y, to.height, from.height);                                    \
        uint64_t i;                                                                                                    \
        for (i = 0; i < count && i < room; i++)                                                                        \
            commands[i] = pix_composite_image##S(                                                                      \
                pix_copy_of_(to, from.width, from.height, i % columns, i / columns), source, from, op);                \
        return count;                                                                                                  \
    }
PIX_PARTS_(, pix_rgba8, PIX_FORMAT_RGBA8P)
PIX_PARTS_(_rgba16, pix_rgba16, PIX_FORMAT_RGBA16P)
PIX_PARTS_(_graya8, pix_graya8, PIX_FORMAT_GRAYA8P)

/* Pictures at another size, of one kind of pixels: its channels, and the bits of one. */
#define PIX_SCALES_(S, PIXEL, CHANNELS, BITS)                                                                          \
    /* Decides: that no memory holds so many words. */                                                                 \
    static inline size_t pix_scale_work##S(pix_size to, pix_size size, pix_size from, pix_filter filter) {             \
        uint64_t words = 0;                                                                                            \
        if (pix_raw_scale_work(to.width, to.height, size.width, size.height, from.width, from.height, CHANNELS, BITS,  \
                               (uint32_t)filter, &words)                                                               \
            || words > (size_t)PTRDIFF_MAX / sizeof(uint32_t))                                                         \
            return 0;                                                                                                  \
        return words ? (size_t)words : 1;                                                                              \
    }                                                                                                                  \
    /* Decides: the same. */                                                                                           \
    static inline size_t pix_scale_by_work##S(pix_size to, pix_size from, uint32_t taps, uint32_t row_taps) {          \
        uint64_t words = 0;                                                                                            \
        if (pix_raw_scale_by_work(to.width, to.height, from.width, from.height, taps, row_taps, CHANNELS, BITS,        \
                                  &words)                                                                              \
            || words > (size_t)PTRDIFF_MAX / sizeof(uint32_t))                                                         \
            return 0;                                                                                                  \
        return words ? (size_t)words : 1;                                                                              \
    }                                                                                                                  \
    /* Decides: how many weights the tables have, and whether what is written is apart from the rest. */               \
    static inline pix_status pix_scale_by##S(pix_image##S to, pix_view##S from, pix_weights across, pix_weights down,  \
                                             uint32_t *work, size_t words) {                                           \
        const uint32_t stride = to.stride ? to.stride : to.width, apart = from.stride ? from.stride : from.width;      \
        const size_t extent = pix_extent_(to.width, to.height, stride, sizeof(PIXEL));                                 \
        const size_t count = pix_extent_(from.width, from.height, apart, sizeof(PIXEL));                               \
        const size_t weights = (size_t)across.count * across.taps, row_weights = (size_t)down.count * down.taps;       \
        const pix_memory_ memory[] = {                                                                                 \
            {to.pixels, extent, sizeof(PIXEL)},                 {work, words, sizeof *work},                           \
            {from.pixels, count, sizeof(PIXEL)},                {across.firsts, across.count, sizeof *across.firsts},  \
            {across.weights, weights, sizeof *across.weights},  {down.firsts, down.count, sizeof *down.firsts},        \
            {down.weights, row_weights, sizeof *down.weights}};                                                        \
        const pix_status status = pix_test_(memory, 2, 7);                                                             \
        if (status != PIX_OK)                                                                                          \
            return status;                                                                                             \
        return (pix_status)pix_raw_scale_by##S(                                                                        \
            PIX_SLICE_(PIXEL, to.pixels, extent), to.width, to.height, stride,                                         \
            PIX_SLICE_(const PIXEL, from.pixels, count), from.width, from.height,                                      \
            apart, PIX_SLICE_(const uint32_t, across.firsts, across.count), across.taps,                               \
            PIX_SLICE_(const int32_t, across.weights, weights),                                                        \
            PIX_SLICE_(const uint32_t, down.firsts, down.count), down.taps,                                            \
            PIX_SLICE_(const int32_t, down.weights, row_weights), PIX_SLICE_(uint32_t, work, words));                  \
    }                                                                                                                  \
    /* Decides: whether the image, the source and the work memory are apart from each other. */                        \
    static inline pix_status pix_scale##S(pix_image##S to, pix_point at, pix_size size, pix_view##S from,              \
                                          pix_filter filter, uint32_t *work, size_t words) {                           \
        const uint32_t stride = to.stride ? to.stride : to.width, apart = from.stride ? from.stride : from.width;      \
        const size_t extent = pix_extent_(to.width, to.height, stride, sizeof(PIXEL));                                 \
        const size_t count = pix_extent_(from.width, from.height, apart, sizeof(PIXEL));                               \
        uint64_t nothing = 0, no_work = 0;                                                                             \
        PIXEL *written = to.pixels || extent ? to.pixels : (PIXEL *)(void *)&nothing;                                  \
        const PIXEL *read = from.pixels || count ? from.pixels : (const PIXEL *)(const void *)&pix_nothing_;           \
        uint32_t *room = work || words ? work : (uint32_t *)(void *)&no_work;                                          \
        pix_status status = words > (size_t)PTRDIFF_MAX / sizeof *work ? PIX_BAD_LENGTH : PIX_OK;                      \
        if (status == PIX_OK)                                                                                          \
            status = pix_apart_(written, extent * sizeof(PIXEL), read, count * sizeof(PIXEL));                         \
        if (status == PIX_OK)                                                                                          \
            status = pix_apart_(room, words * sizeof *work, read, count * sizeof(PIXEL));                              \
        if (status == PIX_OK)                                                                                          \
            status = pix_apart_(room, words * sizeof *work, written, extent * sizeof(PIXEL));                          \
        if (status != PIX_OK)                                                                                          \
            return status;                                                                                             \
        return (pix_status)pix_raw_scale##S(written, extent, at.x, at.y, to.width, to.height, stride, size.width,      \
                                            size.height, read, count, from.width, from.height, apart,                  \
                                            (uint32_t)filter, room, words);                                            \
    }
PIX_SCALES_(, pix_rgba8, 4, 8)
PIX_SCALES_(_rgba16, pix_rgba16, 4, 16)
PIX_SCALES_(_graya8, pix_graya8, 2, 8)

/* Decides: the part, as pix_part_of does. */
static inline pix_bitmap pix_part_of_bitmap(pix_bitmap image, pix_region region) {
    pix_bitmap part = image;
    uint32_t left, top;
    if (!image.stride)
        part.stride = (ptrdiff_t)(image.width * pix_format_size(image.format));
    pix_cut_(region.x, region.width, image.width, &left, &part.width);
    pix_cut_(region.y, region.height, image.height, &top, &part.height);
    if (!part.width || !part.height || !image.pixels)
        return part;
    if (!pix_bytes_of_(pix_bitmap_view_of_bitmap(image)).length)
        return image; /* which is refused as a whole */
    part.pixels = (uint8_t *)image.pixels + (ptrdiff_t)top * part.stride
                  + (ptrdiff_t)(left * pix_format_size(image.format));
    return part;
}

static inline pix_table pix_table_of(const pix_srgb8 *entries, size_t len) {
    pix_table table;
    table.entries = entries;
    table.len = len;
    return table;
}

/* Decides: how many entries of a table are passed. Any number above 256 is passed as 257: such a
 * table is refused alike, and no index is past them. */
static inline size_t pix_passed_(size_t len) {
    return len < 257 ? len : 257;
}

static inline pix_status pix_nearest(pix_table table, pix_srgb8 color, uint8_t *index) {
    const size_t len = pix_passed_(table.len);
    const pix_memory_ memory[] = {{index, 1, 1}, {table.entries, len, sizeof *table.entries}};
    const pix_status status = pix_test_(memory, 1, 2);
    if (status != PIX_OK)
        return status;
    return (pix_status)pix_raw_nearest(PIX_SLICE_(const pix_srgb8, table.entries, len), &color, index);
}

static inline pix_status pix_map_indexed(pix_table table, const pix_srgb8 *pixels, size_t count, uint8_t *indices) {
    const size_t len = pix_passed_(table.len);
    const pix_memory_ memory[] = {
        {indices, count, 1}, {table.entries, len, sizeof *table.entries}, {pixels, count, sizeof *pixels}};
    const pix_status status = pix_test_(memory, 1, 3);
    if (status != PIX_OK)
        return status;
    return (pix_status)pix_raw_map_indexed(PIX_SLICE_(const pix_srgb8, table.entries, len),
                                           PIX_SLICE_(const pix_srgb8, pixels, count),
                                           PIX_SLICE_(uint8_t, indices, count));
}

static inline pix_status pix_map_indexed_alpha(pix_table table, const pix_srgba8 *pixels, size_t count, uint8_t alpha,
                                               uint8_t transparent_index, uint8_t *indices) {
    const size_t len = pix_passed_(table.len);
    const pix_memory_ memory[] = {
        {indices, count, 1}, {table.entries, len, sizeof *table.entries}, {pixels, count, sizeof *pixels}};
    const pix_status status = pix_test_(memory, 1, 3);
    if (status != PIX_OK)
        return status;
    return (pix_status)pix_raw_map_indexed_alpha(PIX_SLICE_(const pix_srgb8, table.entries, len),
                                                 PIX_SLICE_(const pix_srgba8, pixels, count), alpha, transparent_index,
                                                 PIX_SLICE_(uint8_t, indices, count));
}

static inline size_t pix_quantize_work(size_t count) {
    return count;
}

/* Decides: what stands for more than memory holds. */
static inline size_t pix_diffuse_indexed_work(size_t width) {
    return width > (size_t)PTRDIFF_MAX / 16 ? SIZE_MAX : 4 * width;
}

static inline pix_status pix_quantize_refined(const pix_srgb8 *pixels, size_t count, uint8_t rounds, pix_srgb8 *work,
                                              pix_srgb8 *entries, size_t len, size_t *made) {
    const size_t room = pix_passed_(len);
    const pix_memory_ memory[] = {{entries, room, sizeof *entries},
                                  {work, count, sizeof *work},
                                  {made, 1, sizeof *made},
                                  {pixels, count, sizeof *pixels}};
    const pix_status status = pix_test_(memory, 3, 4);
    if (status != PIX_OK)
        return status;
    return (pix_status)pix_raw_quantize_refined(PIX_SLICE_(const pix_srgb8, pixels, count), rounds,
                                                PIX_SLICE_(pix_srgb8, work, count),
                                                PIX_SLICE_(pix_srgb8, entries, room), made);
}

static inline pix_status pix_quantize_refined_alpha(const pix_srgba8 *pixels, size_t count, uint8_t alpha, uint8_t rounds,
                                                    pix_srgb8 *work, pix_srgb8 *entries, size_t len, size_t *made) {
    const size_t room = pix_passed_(len);
    const pix_memory_ memory[] = {{entries, room, sizeof *entries},
                                  {work, count, sizeof *work},
                                  {made, 1, sizeof *made},
                                  {pixels, count, sizeof *pixels}};
    const pix_status status = pix_test_(memory, 3, 4);
    if (status != PIX_OK)
        return status;
    return (pix_status)pix_raw_quantize_refined_alpha(PIX_SLICE_(const pix_srgba8, pixels, count), alpha, rounds,
                                                      PIX_SLICE_(pix_srgb8, work, count),
                                                      PIX_SLICE_(pix_srgb8, entries, room), made);
}

static inline pix_status pix_quantize(const pix_srgb8 *pixels, size_t count, pix_srgb8 *work, pix_srgb8 *entries, size_t len,
                                      size_t *made) {
    return pix_quantize_refined(pixels, count, PIX_DEFAULT_ROUNDS, work, entries, len, made);
}

static inline pix_status pix_quantize_alpha(const pix_srgba8 *pixels, size_t count, uint8_t alpha, pix_srgb8 *work,
                                            pix_srgb8 *entries, size_t len, size_t *made) {
    return pix_quantize_refined_alpha(pixels, count, alpha, PIX_DEFAULT_ROUNDS, work, entries, len, made);
}

static inline pix_diffusion pix_default_diffusion(void) {
    const pix_diffusion how = {12, true};
    return how;
}

static inline pix_status pix_diffuse_indexed_by(pix_table table, const pix_srgb8 *pixels, size_t count, size_t width,
                                                pix_diffusion how, pix_srgb8 *work, uint8_t *indices) {
    const size_t len = pix_passed_(table.len), work_len = pix_diffuse_indexed_work(width);
    const pix_memory_ memory[] = {{indices, count, 1},
                                  {work, work_len, sizeof *work},
                                  {table.entries, len, sizeof *table.entries},
                                  {pixels, count, sizeof *pixels}};
    const pix_status status = pix_test_(memory, 2, 4);
    if (status != PIX_OK)
        return status;
    return (pix_status)pix_raw_diffuse_indexed_by(
        PIX_SLICE_(const pix_srgb8, table.entries, len), PIX_SLICE_(const pix_srgb8, pixels, count), width,
        how.strength, how.serpentine, PIX_SLICE_(pix_srgb8, work, work_len), PIX_SLICE_(uint8_t, indices, count));
}

static inline pix_status pix_diffuse_indexed_by_alpha(pix_table table, const pix_srgba8 *pixels, size_t count, size_t width,
                                                      uint8_t alpha, uint8_t transparent_index, pix_diffusion how,
                                                      pix_srgb8 *work, uint8_t *indices) {
    const size_t len = pix_passed_(table.len), work_len = pix_diffuse_indexed_work(width);
    const pix_memory_ memory[] = {{indices, count, 1},
                                  {work, work_len, sizeof *work},
                                  {table.entries, len, sizeof *table.entries},
                                  {pixels, count, sizeof *pixels}};
    const pix_status status = pix_test_(memory, 2, 4);
    if (status != PIX_OK)
        return status;
    return (pix_status)pix_raw_diffuse_indexed_by_alpha(
        PIX_SLICE_(const pix_srgb8, table.entries, len), PIX_SLICE_(const pix_srgba8, pixels, count), width, alpha,
        transparent_index, how.strength, how.serpentine, PIX_SLICE_(pix_srgb8, work, work_len),
        PIX_SLICE_(uint8_t, indices, count));
}

static inline pix_status pix_diffuse_indexed(pix_table table, const pix_srgb8 *pixels, size_t count, size_t width,
                                             pix_srgb8 *work, uint8_t *indices) {
    return pix_diffuse_indexed_by(table, pixels, count, width, pix_default_diffusion(), work, indices);
}

static inline pix_status pix_diffuse_indexed_alpha(pix_table table, const pix_srgba8 *pixels, size_t count, size_t width,
                                                   uint8_t alpha, uint8_t transparent_index, pix_srgb8 *work,
                                                   uint8_t *indices) {
    return pix_diffuse_indexed_by_alpha(table, pixels, count, width, alpha, transparent_index, pix_default_diffusion(), work,
                                        indices);
}

static inline pix_status pix_index_pixels(pix_srgb8 *entries, size_t len, size_t *used, pix_srgb8 threshold,
                                          const pix_srgb8 *pixels, size_t count, uint8_t *indices) {
    const size_t room = pix_passed_(len);
    const pix_memory_ memory[] = {{entries, room, sizeof *entries},
                                  {used, 1, sizeof *used},
                                  {indices, count, 1},
                                  {pixels, count, sizeof *pixels}};
    const pix_status status = pix_test_(memory, 3, 4);
    if (status != PIX_OK)
        return status;
    return (pix_status)pix_raw_index_pixels(PIX_SLICE_(pix_srgb8, entries, room), used, &threshold,
                                            PIX_SLICE_(const pix_srgb8, pixels, count),
                                            PIX_SLICE_(uint8_t, indices, count));
}

static inline pix_status pix_look_up(pix_table table, const uint8_t *indices, size_t count, pix_srgb8 *pixels) {
    const size_t len = pix_passed_(table.len);
    const pix_memory_ memory[] = {
        {pixels, count, sizeof *pixels}, {table.entries, len, sizeof *table.entries}, {indices, count, 1}};
    const pix_status status = pix_test_(memory, 1, 3);
    if (status != PIX_OK)
        return status;
    return (pix_status)pix_raw_look_up(PIX_SLICE_(const pix_srgb8, table.entries, len),
                                       PIX_SLICE_(const uint8_t, indices, count), PIX_SLICE_(pix_srgb8, pixels, count));
}

static inline pix_status pix_count_indices(const uint8_t *indices, size_t count, size_t *counts, size_t len) {
    const pix_memory_ memory[] = {{counts, len, sizeof *counts}, {indices, count, 1}};
    const pix_status status = pix_test_(memory, 1, 2);
    if (status != PIX_OK)
        return status;
    return (pix_status)pix_raw_count_indices(PIX_SLICE_(const uint8_t, indices, count),
                                             PIX_SLICE_(size_t, counts, len));
}

/* Decides: the bytes of a row, and none for a depth that there is not. */
static inline size_t pix_row_size(uint32_t bits, size_t count) {
    size_t places;
    if (bits != 1 && bits != 2 && bits != 4 && bits != 8)
        return 0;
    places = 8 / bits;
    return count / places + (count % places != 0);
}

static inline pix_status pix_pack_row(uint32_t bits, const uint8_t *indices, size_t count, uint8_t *bytes) {
    const size_t size = pix_row_size(bits, count);
    const pix_memory_ memory[] = {{bytes, size, 1}, {indices, count, 1}};
    const pix_status status = pix_test_(memory, 1, 2);
    if (status != PIX_OK)
        return status;
    return (pix_status)pix_raw_pack_row(bits, PIX_SLICE_(const uint8_t, indices, count),
                                        PIX_SLICE_(uint8_t, bytes, size));
}

static inline pix_status pix_unpack_row(uint32_t bits, const uint8_t *bytes, size_t count, uint8_t *indices) {
    const size_t size = pix_row_size(bits, count);
    const pix_memory_ memory[] = {{indices, count, 1}, {bytes, size, 1}};
    const pix_status status = pix_test_(memory, 1, 2);
    if (status != PIX_OK)
        return status;
    return (pix_status)pix_raw_unpack_row(bits, PIX_SLICE_(const uint8_t, bytes, size),
                                          PIX_SLICE_(uint8_t, indices, count));
}

static inline pix_table_rgba pix_table_rgba_of(const pix_srgba8 *entries, size_t len) {
    pix_table_rgba table;
    table.entries = entries;
    table.len = len;
    return table;
}

static inline pix_status pix_quantize_rgba(const pix_srgba8 *pixels, size_t count, uint8_t rounds, pix_srgba8 *work,
                                           pix_srgba8 *entries, size_t len, size_t *made) {
    const size_t room = pix_passed_(len);
    const pix_memory_ memory[] = {{entries, room, sizeof *entries},
                                  {work, count, sizeof *work},
                                  {made, 1, sizeof *made},
                                  {pixels, count, sizeof *pixels}};
    const pix_status status = pix_test_(memory, 3, 4);
    if (status != PIX_OK)
        return status;
    return (pix_status)pix_raw_quantize_rgba(PIX_SLICE_(const pix_srgba8, pixels, count), rounds,
                                             PIX_SLICE_(pix_srgba8, work, count), PIX_SLICE_(pix_srgba8, entries, room),
                                             made);
}

static inline pix_status pix_map_indexed_rgba(pix_table_rgba table, const pix_srgba8 *pixels, size_t count, uint8_t *indices) {
    const size_t len = pix_passed_(table.len);
    const pix_memory_ memory[] = {
        {indices, count, 1}, {table.entries, len, sizeof *table.entries}, {pixels, count, sizeof *pixels}};
    const pix_status status = pix_test_(memory, 1, 3);
    if (status != PIX_OK)
        return status;
    return (pix_status)pix_raw_map_indexed_rgba(PIX_SLICE_(const pix_srgba8, table.entries, len),
                                                PIX_SLICE_(const pix_srgba8, pixels, count),
                                                PIX_SLICE_(uint8_t, indices, count));
}

static inline pix_status pix_diffuse_indexed_rgba(pix_table_rgba table, const pix_srgba8 *pixels, size_t count, size_t width,
                                                  pix_diffusion how, pix_srgba8 *work, uint8_t *indices) {
    const size_t len = pix_passed_(table.len), work_len = pix_diffuse_indexed_work(width);
    const pix_memory_ memory[] = {{indices, count, 1},
                                  {work, work_len, sizeof *work},
                                  {table.entries, len, sizeof *table.entries},
                                  {pixels, count, sizeof *pixels}};
    const pix_status status = pix_test_(memory, 2, 4);
    if (status != PIX_OK)
        return status;
    return (pix_status)pix_raw_diffuse_indexed_rgba(
        PIX_SLICE_(const pix_srgba8, table.entries, len), PIX_SLICE_(const pix_srgba8, pixels, count), width,
        how.strength, how.serpentine, PIX_SLICE_(pix_srgba8, work, work_len), PIX_SLICE_(uint8_t, indices, count));
}

static inline pix_status pix_look_up_rgba(pix_table_rgba table, const uint8_t *indices, size_t count, pix_srgba8 *pixels) {
    const size_t len = pix_passed_(table.len);
    const pix_memory_ memory[] = {
        {pixels, count, sizeof *pixels}, {table.entries, len, sizeof *table.entries}, {indices, count, 1}};
    const pix_status status = pix_test_(memory, 1, 3);
    if (status != PIX_OK)
        return status;
    return (pix_status)pix_raw_look_up_rgba(PIX_SLICE_(const pix_srgba8, table.entries, len),
                                            PIX_SLICE_(const uint8_t, indices, count),
                                            PIX_SLICE_(pix_srgba8, pixels, count));
}

#undef PIX_ASSERT_
#undef PIX_ROUND_
#undef PIX_WORD_
#undef PIX_LAYOUT_
#undef PIX_NOTE_
#undef PIX_NOTE_MASK_
#undef PIX_COMMANDS_
#undef PIX_CALLS_
#undef PIX_PARTS_
#undef PIX_SLICE_
#undef PIX_SCALES_

#ifdef __cplusplus
}
#endif
#endif
