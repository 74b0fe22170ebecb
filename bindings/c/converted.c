/* Worked conversions of buffers, and each refusal: the bytes and the status of each row were worked out by hand. A row
 * whose answer is another is printed.
 *
 * The rows call the archive's own function, also with lengths that pix_convert would not pass. */
#include "pix.h"
#include <stdio.h>

enum {
    SRGBA8 = PIX_FORMAT_SRGBA8, SRGBA8P = PIX_FORMAT_SRGBA8P, RGBA8 = PIX_FORMAT_RGBA8, RGBA8P = PIX_FORMAT_RGBA8P,
    BGRA8 = PIX_FORMAT_BGRA8, BGRA8P = PIX_FORMAT_BGRA8P, RGB8 = PIX_FORMAT_RGB8, GRAY8 = PIX_FORMAT_GRAY8,
    SBGRA8 = PIX_FORMAT_SBGRA8, SBGRA8P = PIX_FORMAT_SBGRA8P, SRGB8 = PIX_FORMAT_SRGB8, SGRAY8 = PIX_FORMAT_SGRAY8,
    FORMATS, LONGEST = 12, ROOM = 16
};

/* What a buffer holds before a call. */
enum { OLD = 0xA5 };

/* A conversion: how many bytes it is given and how many it may write, and what it must answer and write. */
typedef struct {
    const char *test;
    uint32_t from, to;
    size_t count, src_len, dst_len;
    uint8_t src[LONGEST];
    pix_status status;
    uint8_t wanted[LONGEST];
} conversion;

static const conversion converted[] = {
    {"alpha", SRGBA8, SRGBA8P, 1, 4, 4, {0x20, 0x40, 0x80, 0x80}, PIX_OK, {0x16, 0x2E, 0x5D, 0x80}},
    {"alpha", RGBA8, RGBA8P, 1, 4, 4, {0x20, 0x40, 0x80, 0x80}, PIX_OK, {0x10, 0x20, 0x40, 0x80}},
    {"alpha", RGBA8P, RGBA8, 1, 4, 4, {0x20, 0x40, 0x80, 0x80}, PIX_OK, {0x40, 0x80, 0xFF, 0x80}},
    {"alpha", BGRA8P, BGRA8, 1, 4, 4, {0x20, 0x40, 0x80, 0x80}, PIX_OK, {0x40, 0x80, 0xFF, 0x80}},
    /* Without an alpha, the channels are those of the maximum, and are not divided. */
    {"alpha", RGBA8P, RGB8, 1, 4, 3, {0x20, 0x40, 0x80, 0x80}, PIX_OK, {0x20, 0x40, 0x80}},
    {"alpha", RGB8, RGBA8P, 1, 3, 4, {5, 6, 7}, PIX_OK, {5, 6, 7, 255}},
    {"order_of_the_channels", RGBA8, BGRA8, 1, 4, 4, {1, 2, 3, 4}, PIX_OK, {3, 2, 1, 4}},
    {"order_of_the_channels", BGRA8P, RGBA8P, 1, 4, 4, {1, 2, 3, 4}, PIX_OK, {3, 2, 1, 4}},
    {"order_of_the_channels", SBGRA8, SRGB8, 1, 4, 3, {1, 2, 3, 4}, PIX_OK, {3, 2, 1}},
    {"order_of_the_channels", SBGRA8, SRGBA8P, 1, 4, 4, {0x80, 0x40, 0x20, 0x80}, PIX_OK, {0x16, 0x2E, 0x5D, 0x80}},
    {"order_of_the_channels", SBGRA8, SBGRA8P, 1, 4, 4, {0x80, 0x40, 0x20, 0x80}, PIX_OK, {0x5D, 0x2E, 0x16, 0x80}},
    {"gray", RGB8, GRAY8, 3, 9, 3, {255, 0, 0, 0, 255, 0, 0, 0, 255}, PIX_OK, {54, 182, 18}},
    {"gray", GRAY8, RGB8, 2, 2, 6, {7, 9}, PIX_OK, {7, 7, 7, 9, 9, 9}},
    {"gray", GRAY8, BGRA8P, 2, 2, 8, {7, 9}, PIX_OK, {7, 7, 7, 255, 9, 9, 9, 255}},
    {"gray", GRAY8, SRGB8, 1, 1, 3, {0x7D}, PIX_OK, {0xBA, 0xBA, 0xBA}},
    {"gray", SGRAY8, SRGB8, 1, 1, 3, {0x45}, PIX_OK, {0x45, 0x45, 0x45}},
    {"gamma", RGB8, SRGB8, 1, 3, 3, {0xDC, 0x43, 0x91}, PIX_OK, {0xEF, 0x8C, 0xC7}},
    {"gamma", SRGB8, RGB8, 1, 3, 3, {0xEF, 0x8C, 0xC7}, PIX_OK, {0xDC, 0x43, 0x92}},
    {"gamma", SRGBA8, RGBA8, 1, 4, 4, {0xEF, 0x8C, 0xC7, 9}, PIX_OK, {0xDC, 0x43, 0x92, 9}},
    {"several_pixels", RGB8, BGRA8, 3, 9, 12, {1, 2, 3, 4, 5, 6, 7, 8, 9}, PIX_OK,
     {3, 2, 1, 255, 6, 5, 4, 255, 9, 8, 7, 255}},
    {"several_pixels", BGRA8P, RGB8, 2, 8, 6, {1, 2, 3, 255, 4, 5, 6, 255}, PIX_OK, {3, 2, 1, 6, 5, 4}},
};

/* A refusal writes nothing. */
static const conversion refused[] = {
    {"no_such_format", FORMATS, RGBA8, 1, 4, 4, {1, 2, 3, 4}, PIX_BAD_FORMAT, {0}},
    {"no_such_format", RGBA8, FORMATS, 1, 4, 4, {1, 2, 3, 4}, PIX_BAD_FORMAT, {0}},
    {"no_such_format", UINT32_MAX, UINT32_MAX, 1, 4, 4, {1, 2, 3, 4}, PIX_BAD_FORMAT, {0}},
    /* The format is tested before the lengths. */
    {"no_such_format", FORMATS, RGBA8, 1, 3, 5, {1, 2, 3}, PIX_BAD_FORMAT, {0}},
    {"wrong_lengths", RGBA8, RGBA8, 1, 3, 4, {1, 2, 3}, PIX_BAD_LENGTH, {0}},
    {"wrong_lengths", RGBA8, RGBA8, 1, 5, 4, {1, 2, 3, 4, 5}, PIX_BAD_LENGTH, {0}},
    {"wrong_lengths", RGBA8, RGB8, 1, 4, 4, {1, 2, 3, 4}, PIX_BAD_LENGTH, {0}},
    {"wrong_lengths", RGBA8, RGBA8, 1, 4, 8, {1, 2, 3, 4}, PIX_BAD_LENGTH, {0}},
    {"wrong_lengths", SBGRA8P, SRGBA8P, 0, 4, 4, {1, 2, 3, 4}, PIX_BAD_LENGTH, {0}},
    /* Four times this count is 0 in as many bits. */
    {"wrong_lengths", RGBA8, RGBA8, SIZE_MAX / 4 + 1, 0, 0, {0}, PIX_BAD_LENGTH, {0}},
    {"wrong_lengths", RGBA8, GRAY8, SIZE_MAX, 0, 0, {0}, PIX_BAD_LENGTH, {0}},
};

static unsigned rows, failures;

static void print(const char *before, uint32_t status, const uint8_t *bytes, size_t count) {
    fprintf(stderr, "%s status %u and", before, (unsigned)status);
    for (size_t i = 0; i < count; i++)
        fprintf(stderr, " %u", bytes[i]);
}

/* Compares the status and the bytes, and those behind them, which stay. */
static void try_row(const conversion *it) {
    uint8_t got[ROOM], wanted[ROOM];
    memset(got, OLD, ROOM);
    memset(wanted, OLD, ROOM);
    if (it->status == PIX_OK)
        memcpy(wanted, it->wanted, it->dst_len);
    const uint32_t status = pix_raw_convert(it->from, it->to, it->src, it->src_len, got, it->dst_len, it->count);
    rows++;
    if (status == (uint32_t)it->status && memcmp(got, wanted, ROOM) == 0)
        return;
    failures++;
    fprintf(stderr, "converted: %s: %lu pixels from %lu to %lu, %lu bytes to %lu:", it->test, (unsigned long)it->count,
            (unsigned long)it->from, (unsigned long)it->to, (unsigned long)it->src_len, (unsigned long)it->dst_len);
    print(" got", status, got, ROOM);
    print(", wanted", it->status, wanted, ROOM);
    fputc('\n', stderr);
}

static void each_format_to_itself(void) {
    static const uint8_t bytes[LONGEST] = {0, 1, 2, 3, 50, 100, 150, 200, 252, 253, 254, 255};
    for (uint32_t format = 0; format < FORMATS; format++) {
        conversion it = {"each_format_to_itself", format, format, 3, LONGEST, LONGEST, {0}, PIX_OK, {0}};
        if (format == RGB8 || format == SRGB8)
            it.count = 4;
        if (format == GRAY8 || format == SGRAY8)
            it.count = 12;
        memcpy(it.src, bytes, LONGEST);
        memcpy(it.wanted, bytes, LONGEST);
        try_row(&it);
    }
}

static void no_pixels(void) {
    for (uint32_t from = 0; from < FORMATS; from++)
        for (uint32_t to = 0; to < FORMATS; to++) {
            const conversion it = {"no_pixels", from, to, 0, 0, 0, {0}, PIX_OK, {0}};
            try_row(&it);
        }
}

int main(void) {
    for (size_t i = 0; i < sizeof converted / sizeof *converted; i++)
        try_row(&converted[i]);
    for (size_t i = 0; i < sizeof refused / sizeof *refused; i++)
        try_row(&refused[i]);
    each_format_to_itself();
    no_pixels();
    printf("converted: %u rows, %u failures\n", rows, failures);
    return failures != 0;
}
