/* Masks of 8 bits on images of 16 bits a channel: rows worked out by hand, lists with masks of both kinds beside the
 * same lists with masks of 16, what is refused, and threads that share a mask.
 *
 * It is C99 and C++11, and says which line failed. */
#include "pix.h"
#include <pthread.h>
#include <stdio.h>

static int failures;

static void check(int holds, const char *what, int line) {
    if (!holds) {
        fprintf(stderr, "masks: line %d: %s\n", line, what);
        failures++;
    }
}

#define CHECK(condition) check((condition) ? 1 : 0, #condition, __LINE__)

static const uint32_t LONG = UINT32_C(2147483648); /* the least side that is refused */

static int is(pix_rgba16 pixel, int r, int g, int b, int a) {
    return pixel.r == r && pixel.g == g && pixel.b == b && pixel.a == a;
}

/* 65535 / 255 is 257. Each of the 256 values is that part of white, and of one level each: 10 * 128 / 255 = 5.02. */
static void each_value(void) {
    static uint8_t values[256];
    static pix_rgba16 image[256];
    const pix_region all = pix_region_of(0, 0, 256, 1);
    const pix_rgba16 white = pix_rgba16_of(65535, 65535, 65535, 65535), few = pix_rgba16_of(10, 1, 0, 65535);
    const pix_matte mask = pix_matte_of(values, 256, 1);
    int i, equal = 1;
    for (i = 0; i < 256; i++)
        values[i] = (uint8_t)i;
    CHECK(pix_do_rgba16(pix_image_of_rgba16(image, 256, 1), pix_composite_matte8_rgba16(all, mask, all, white, PIX_OP_SRC))
          == PIX_OK);
    for (i = 0; i < 256; i++)
        equal &= is(image[i], 257 * i, 257 * i, 257 * i, 257 * i);
    CHECK(equal);
    CHECK(pix_do_rgba16(pix_image_of_rgba16(image, 256, 1), pix_composite_matte8_rgba16(all, mask, all, few, PIX_OP_SRC))
          == PIX_OK);
    CHECK(is(image[0], 0, 0, 0, 0) && is(image[128], 5, 1, 0, 32896) && is(image[255], 10, 1, 0, 65535));
    CHECK(is(image[127], 5, 0, 0, 32639)); /* 10 * 127 / 255 = 4.98, and 127 / 255 = 0.498 */
}

/* Ink of 3000 over paper of 60000, through 51 of 255, which is a fifth: 600 + 60000 * 4 / 5. An image of half an alpha
 * through the second row of a mask, whose rows have three values: 20000 * 204 / 255 = 16000. */
static void by_hand(void) {
    static const uint8_t values[6] = {9, 9, 9, 0, 204, 51};
    const pix_region one = pix_region_of(1, 0, 1, 1), two = pix_region_of(0, 0, 2, 1), last = pix_region_of(2, 1, 1, 1);
    const pix_rgba16 ink = pix_rgba16_of(3000, 0, 0, 65535), paper = pix_rgba16_of(60000, 60000, 60000, 65535);
    pix_rgba16 image[2], source[2] = {{1, 1, 1, 1}, {20000, 10000, 0, 32768}};
    pix_command_rgba16 list[2];
    image[0] = image[1] = paper;
    list[0] = pix_composite_matte8_rgba16(one, pix_matte_of(values, 3, 2), last, ink, PIX_OP_SRC_OVER);
    CHECK(pix_do_rgba16(pix_image_of_rgba16(image, 2, 1), list[0]) == PIX_OK);
    CHECK(is(image[0], 60000, 60000, 60000, 65535) && is(image[1], 48600, 48000, 48000, 65535));
    list[1] = pix_composite_image_matte8_rgba16(two, pix_view_of_rgba16(source, 2, 1), two, pix_matte_of(values, 3, 2),
                                                pix_region_of(0, 1, 2, 1), PIX_OP_SRC);
    CHECK(pix_do_rgba16(pix_image_of_rgba16(image, 2, 1), list[1]) == PIX_OK);
    CHECK(is(image[0], 0, 0, 0, 0) && is(image[1], 16000, 8000, 0, 26214)); /* 32768 * 4 / 5 = 26214.4 */
}

enum { WIDE = 37, HIGH = 11, APART = 40, MASKS = 24 };

/* A list with a mask of 8 bits in each place that `which` has a bit for, and of 16 with the same values elsewhere. */
typedef struct {
    uint8_t bytes[APART * HIGH];
    uint16_t words[APART * HIGH];
    pix_rgba16 source[WIDE * HIGH], image[WIDE * HIGH];
} memory;

static memory made;

static void make(memory *it) {
    uint32_t state = 7;
    for (size_t i = 0; i < APART * HIGH; i++) {
        state = state * UINT32_C(1664525) + UINT32_C(1013904223);
        it->bytes[i] = (uint8_t)(i % 5 == 0 ? 255 * (i % 2) : state >> 24);
        it->words[i] = (uint16_t)(it->bytes[i] << 8 | it->bytes[i]);
    }
    for (size_t i = 0; i < WIDE * HIGH; i++) {
        state = state * UINT32_C(1664525) + UINT32_C(1013904223);
        it->source[i] = pix_rgba16_of((uint16_t)(state >> 18), (uint16_t)(state >> 20), (uint16_t)i, (uint16_t)(state >> 16));
        it->image[i] = pix_rgba16_of((uint16_t)(state >> 19), 5, (uint16_t)(state >> 17), 65535);
    }
}

static size_t listed(const memory *it, pix_command_rgba16 *list, unsigned which) {
    const pix_region all = pix_region_of(0, 0, WIDE, HIGH);
    const pix_view_rgba16 source = pix_view_of_rgba16(it->source, WIDE, HIGH);
    size_t count = 0;
    for (int i = 0; i < MASKS; i++) {
        const pix_region to = pix_region_of(3 * i % 13 - 5, i % 7 - 3, WIDE - i % 4, HIGH);
        const pix_region from = pix_region_of(i % 3 - 1, i % 2, WIDE, HIGH - 1);
        const pix_op op = (pix_op)(i % PIX_OP_COUNT);
        const pix_rgba16 color = it->source[i];
        pix_matte bytes = pix_matte_of(it->bytes, WIDE, HIGH);
        pix_matte16 words = pix_matte16_of(it->words, WIDE, HIGH);
        bytes.stride = words.stride = APART;
        if (which >> i & 1)
            list[count++] = i % 2 ? pix_composite_matte8_rgba16(to, bytes, from, color, op)
                                  : pix_composite_image_matte8_rgba16(to, source, all, bytes, from, op);
        else
            list[count++] = i % 2 ? pix_composite_matte_rgba16(to, words, from, color, op)
                                  : pix_composite_image_matte_rgba16(to, source, all, words, from, op);
        if (i % 5 == 0)
            list[count++] = pix_composite_image_alpha_rgba16(to, source, from, 40000, PIX_OP_SRC_OVER);
    }
    return count;
}

/* The same list with other masks of 8 bits: none, all, and mixed with those of 16; whole, and by bands. */
static void mixed(void) {
    static const unsigned mixes[] = {0xffffff, 0x555555, 0xaaaaaa, 0x00ffff, 0x0f0f0f, 1, 0x800000};
    static memory wanted;
    pix_command_rgba16 list[2 * MASKS];
    size_t done = 0, count = listed(&made, list, 0);
    make(&wanted);
    CHECK(pix_run_rgba16(pix_image_of_rgba16(wanted.image, WIDE, HIGH), list, count, &done) == PIX_OK && done == count);
    for (size_t i = 0; i < sizeof mixes / sizeof *mixes; i++) {
        static memory got;
        make(&got);
        count = listed(&made, list, mixes[i]);
        CHECK(pix_run_rgba16(pix_image_of_rgba16(got.image, WIDE, HIGH), list, count, &done) == PIX_OK && done == count);
        CHECK(memcmp(got.image, wanted.image, sizeof got.image) == 0);
        make(&got);
        for (uint32_t y = 0; y < HIGH; y += 4)
            CHECK(pix_run_window_rgba16(pix_image_of_rgba16(got.image + y * WIDE, WIDE, HIGH - y < 4 ? HIGH - y : 4), 0, y, list,
                                        count, NULL) == PIX_OK);
        CHECK(memcmp(got.image, wanted.image, sizeof got.image) == 0);
    }
}

/* Whether a list with this command in it is refused so, and nothing is changed. */
static int is_refused(pix_command_rgba16 command, pix_status status) {
    static memory got, kept;
    pix_command_rgba16 list[3];
    size_t done = 77;
    make(&got);
    make(&kept);
    list[0] = list[2] = pix_composite_matte8_rgba16(pix_region_of(0, 0, 4, 4), pix_matte_of(got.bytes, 4, 4),
                                                    pix_region_of(0, 0, 4, 4), got.source[0], PIX_OP_SRC);
    list[1] = command;
    return pix_run_rgba16(pix_image_of_rgba16(got.image, WIDE, HIGH), list, 3, &done) == status && done == 1
           && memcmp(&got, &kept, sizeof got) == 0;
}

static void refusals(void) {
    const pix_region all = pix_region_of(0, 0, 4, 4);
    const pix_view_rgba16 source = pix_view_of_rgba16(made.source, 4, 4);
    const pix_rgba16 color = made.source[0];
    const pix_matte good = pix_matte_of(made.bytes, 4, 4);
    for (int i = 0; i < 2; i++) {
#define COMMAND(mask, from, op)                                                                                        \
    (i ? pix_composite_matte8_rgba16(all, mask, from, color, op)                                                       \
       : pix_composite_image_matte8_rgba16(all, source, all, mask, from, op))
        pix_matte bad = good;
        pix_command_rgba16 command = COMMAND(good, all, PIX_OP_SRC);
        bad.stride = 3;
        CHECK(is_refused(COMMAND(bad, all, PIX_OP_SRC), PIX_BAD_SOURCE));
        CHECK(is_refused(COMMAND(pix_matte_of(made.bytes, LONG, 0), all, PIX_OP_SRC), PIX_BAD_SOURCE));
        CHECK(is_refused(COMMAND(pix_matte_of(made.bytes, 0, LONG), all, PIX_OP_SRC), PIX_BAD_SOURCE));
        CHECK(is_refused(COMMAND(pix_matte_of(NULL, 4, 4), all, PIX_OP_SRC), PIX_NULL));
        CHECK(is_refused(COMMAND(good, pix_region_of(0, 0, 1, LONG), PIX_OP_SRC), PIX_BAD_REGION));
        CHECK(is_refused(COMMAND(good, all, (pix_op)PIX_OP_COUNT), PIX_BAD_OP));
        /* One value too few; a mask of 16 bits that is there besides does not make up for it. */
        command.matte8_count = 15;
        command.mattes = made.words;
        command.matte_count = 16;
        CHECK(is_refused(command, PIX_BAD_SOURCE));
        command.mattes8 = NULL;
        CHECK(is_refused(command, PIX_NULL));
        /* An empty mask is read nowhere. */
        CHECK(pix_do_rgba16(pix_image_of_rgba16(made.image, WIDE, HIGH), COMMAND(pix_matte_of(NULL, 0, 9), all, PIX_OP_SRC))
              == PIX_OK);
        CHECK(pix_do_rgba16(pix_image_of_rgba16(NULL, 0, 0), COMMAND(pix_matte_of(NULL, 9, 0), all, PIX_OP_SRC)) == PIX_OK);
#undef COMMAND
    }
}

/* A mask right before the image, right after it, and one byte in it from either side. */
static void overlaps(void) {
    enum { BYTES = 4 * sizeof(pix_rgba16) };
    uint64_t words[4 + BYTES / 8 + 4];
    uint8_t *bytes = (uint8_t *)words;
    pix_rgba16 source[4] = {{9, 9, 9, 9}, {9, 9, 9, 9}, {9, 9, 9, 9}, {9, 9, 9, 9}};
    const pix_region all = pix_region_of(0, 0, 2, 2);
    const pix_image_rgba16 image = pix_image_of_rgba16((pix_rgba16 *)(void *)(bytes + 32), 2, 2);
    memset(words, 0, sizeof words);
    for (int i = 0; i < 2; i++) {
#define RUN(at)                                                                                                        \
    pix_do_rgba16(image, i ? pix_composite_matte8_rgba16(all, pix_matte_of(bytes + (at), 2, 2), all, source[0], PIX_OP_DEST) \
                           : pix_composite_image_matte8_rgba16(all, pix_view_of_rgba16(source, 2, 2), all,             \
                                                               pix_matte_of(bytes + (at), 2, 2), all, PIX_OP_DEST))
        CHECK(RUN(32 - 4) == PIX_OK);
        CHECK(RUN(32 - 3) == PIX_OVERLAP);
        CHECK(RUN(32 + BYTES - 1) == PIX_OVERLAP);
        CHECK(RUN(32 + BYTES) == PIX_OK);
#undef RUN
    }
}

/* Threads that share a mask and a list, each with a band of one image. */
enum { THREADS = 4, TALL = THREADS * HIGH };
static pix_command_rgba16 shared[2 * MASKS];
static size_t shared_count;
static pix_rgba16 tall[WIDE * TALL];

static void *paint(void *band) {
    const uint32_t top = (uint32_t)((uintptr_t)band * HIGH);
    const pix_image_rgba16 part = pix_image_of_rgba16(tall + top * WIDE, WIDE, HIGH);
    pix_status status = pix_run_window_rgba16(part, 0, top, shared, shared_count, NULL);
    return status == PIX_OK ? NULL : tall;
}

static void threads(void) {
    static pix_rgba16 wanted[WIDE * TALL];
    pthread_t running[THREADS];
    shared_count = listed(&made, shared, 0x5a5a5a);
    for (size_t i = 0; i < shared_count; i++)
        shared[i].to.y += (int32_t)(i % TALL);
    CHECK(pix_run_rgba16(pix_image_of_rgba16(wanted, WIDE, TALL), shared, shared_count, NULL) == PIX_OK);
    for (uintptr_t i = 0; i < THREADS; i++)
        CHECK(pthread_create(&running[i], NULL, paint, (void *)i) == 0);
    for (int i = 0; i < THREADS; i++) {
        void *fault = tall;
        CHECK(pthread_join(running[i], &fault) == 0 && fault == NULL);
    }
    CHECK(memcmp(tall, wanted, sizeof tall) == 0);
}

int main(void) {
    make(&made);
    each_value();
    by_hand();
    mixed();
    refusals();
    overlaps();
    threads();
    printf("masks: %d failures\n", failures);
    return failures != 0;
}
