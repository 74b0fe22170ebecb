/* A list of 20 commands over a picture of 3840 by 2160 pixels, by one call of the library, by calls on bands of 8 rows and
 * by four threads, beside pixman, which goes over the picture once for each command.
 *
 *     cc -O2 -Ibindings/c bench/lists.c crates/pix_c/out/libpix_c.a $(pkg-config --cflags --libs pixman-1) -lpthread
 *     ./a.out [ROUNDS]
 *
 * The least of ROUNDS rounds counts (15), each of which times all of them one after the other: the time of the processor,
 * of the slowest thread where there are several. All outcomes are compared, and the status is 1 where one differs. */
#define _POSIX_C_SOURCE 200112L
#include "pix.h"
#include <pixman.h>
#include <pthread.h>
#include <stdio.h>
#include <stdlib.h>
#include <time.h>

enum { WIDE = 3840, HIGH = 2160, POINTS = WIDE * HIGH, COMMANDS = 20, THREADS = 4, WAYS = 4 };
enum { COPY, COLOR, IMAGE, MASK };

static pix_rgba8 start[POINTS], pixels[POINTS], image[POINTS];
static uint8_t mask[POINTS];
static int kinds[COMMANDS];
static pix_rgba8 colors[COMMANDS];
static pix_command list[COMMANDS];
static pixman_image_t *peer, *peer_image, *peer_mask, *peer_colors[COMMANDS];

static uint32_t below(uint32_t count) {
    static uint64_t state = UINT64_C(88172645463325252);
    state ^= state << 13;
    state ^= state >> 7;
    state ^= state << 17;
    return (uint32_t)((state >> 32) * count >> 32);
}

static pix_rgba8 color(uint32_t least, uint32_t most) {
    const uint32_t a = least + below(most + 1 - least);
    return pix_rgba8_of((uint8_t)below(a + 1), (uint8_t)below(a + 1), (uint8_t)below(a + 1), (uint8_t)a);
}

/* Twenty colors, or a copy and then images, colors and colors through a mask in turn. */
static void fill_list(int is_mixed) {
    const pix_region whole = pix_region_of(0, 0, WIDE, HIGH);
    const pix_view source = pix_view_of(image, WIDE, HIGH);
    for (int i = 0; i < COMMANDS; i++) {
        const pix_rgba8 it = colors[i] = color(20, 220);
        const pixman_color_t same = {(uint16_t)(257 * it.b), (uint16_t)(257 * it.g), (uint16_t)(257 * it.r),
                                     (uint16_t)(257 * it.a)};
        peer_colors[i] = pixman_image_create_solid_fill(&same);
        kinds[i] = !is_mixed ? COLOR : i == 0 ? COPY : i % 3 == 0 ? IMAGE : i % 3 == 1 ? COLOR : MASK;
        list[i] = kinds[i] == COPY    ? pix_copy_image(whole, source, whole)
                  : kinds[i] == COLOR ? pix_composite_color(whole, it, PIX_OP_SRC_OVER)
                  : kinds[i] == IMAGE ? pix_composite_image(whole, source, whole, PIX_OP_SRC_OVER)
                                      : pix_composite_matte(whole, pix_matte_of(mask, WIDE, HIGH), whole, it, PIX_OP_SRC_OVER);
    }
}

static void run_peer(void) {
    for (int i = 0; i < COMMANDS; i++) {
        pixman_image_t *source = kinds[i] == COPY || kinds[i] == IMAGE ? peer_image : peer_colors[i];
        pixman_image_composite32(kinds[i] == COPY ? PIXMAN_OP_SRC : PIXMAN_OP_OVER, source,
                                 kinds[i] == MASK ? peer_mask : NULL, peer, 0, 0, 0, 0, 0, 0, WIDE, HIGH);
    }
}

/* Runs the list on the rows from `top` on. */
static void run_rows(uint32_t top, uint32_t rows) {
    if (pix_run_window(pix_image_of(pixels + (size_t)top * WIDE, WIDE, rows), 0, top, list, COMMANDS, NULL) != PIX_OK)
        abort();
}

static double now(void) {
    struct timespec time;
    clock_gettime(CLOCK_THREAD_CPUTIME_ID, &time);
    return (double)time.tv_sec * 1e3 + (double)time.tv_nsec / 1e6;
}

/* Paints a part of the picture in a thread, and writes in the place of its number how long that took. */
static void *paint_part(void *number) {
    const double began = now();
    const uint32_t part = (uint32_t) * (double *)number;
    run_rows(part * (HIGH / THREADS), HIGH / THREADS);
    *(double *)number = now() - began;
    return NULL;
}

static double by_threads(void) {
    pthread_t threads[THREADS];
    double took[THREADS], most = 0;
    for (int i = 0; i < THREADS; i++) {
        took[i] = i;
        if (pthread_create(&threads[i], NULL, paint_part, took + i))
            abort();
    }
    for (int i = 0; i < THREADS; i++) {
        pthread_join(threads[i], NULL);
        most = took[i] > most ? took[i] : most;
    }
    return most;
}

/* Paints the picture in one of the ways, and returns the milliseconds. */
static double paint(int way) {
    memcpy(pixels, start, sizeof pixels);
    const double began = now();
    switch (way) {
    case 0: run_rows(0, HIGH); break;
    case 1:
        for (uint32_t top = 0; top < HIGH; top += 8)
            run_rows(top, 8);
        break;
    case 2: return by_threads();
    default: run_peer();
    }
    return now() - began;
}

static int time_list(int rounds, int is_mixed) {
    static pix_rgba8 wanted[POINTS];
    double least[WAYS] = {1e9, 1e9, 1e9, 1e9};
    fill_list(is_mixed);
    for (int i = 0; i < rounds; i++)
        for (int way = 0; way < WAYS; way++) {
            const double took = paint(way);
            least[way] = took < least[way] ? took : least[way];
            if (i == 0 && way == 0)
                memcpy(wanted, pixels, sizeof pixels);
            else if (memcmp(wanted, pixels, sizeof pixels)) {
                fprintf(stderr, "lists: way %d paints another picture\n", way);
                return 1;
            }
        }
    printf("%-10s one call %6.1f ms, by 8 rows %6.1f, four threads %6.1f, pixman %6.1f: %.2f %.2f %.2f of pixman's time\n",
           is_mixed ? "a mix" : "20 colors", least[0], least[1], least[2], least[3], least[0] / least[3],
           least[1] / least[3], least[2] / least[3]);
    return 0;
}

int main(int count, char **words) {
    const int rounds = count > 1 ? atoi(words[1]) : 15;
    for (int i = 0; i < POINTS; i++) {
        start[i] = color(0, 255);
        image[i] = color(0, 255);
        mask[i] = (uint8_t)below(256);
    }
    peer = pixman_image_create_bits(PIXMAN_a8r8g8b8, WIDE, HIGH, (uint32_t *)(void *)pixels, 4 * WIDE);
    peer_image = pixman_image_create_bits(PIXMAN_a8r8g8b8, WIDE, HIGH, (uint32_t *)(void *)image, 4 * WIDE);
    peer_mask = pixman_image_create_bits(PIXMAN_a8, WIDE, HIGH, (uint32_t *)(void *)mask, WIDE);
    return time_list(rounds, 0) | time_list(rounds, 1);
}
