/* Two threads paint two images from one source at once, and both images come out alike; then four threads paint bands
 * of rows of one image at once, and it is the image that one call paints; and they scale bands, which are the whole.
 * Then a signal handler paints an image while the call that it interrupts paints another one: not under Windows, where
 * no signal comes in the midst of a call. */
#define _DEFAULT_SOURCE
#include "pix.h"
#include <pthread.h>
#include <signal.h>
#include <stdio.h>
#include <string.h>
#ifndef _WIN32
#include <sys/time.h>
#endif

enum { SIDE = 64, ROUNDS = 500, BANDS = 4, HEIGHT = SIDE / BANDS };

static pix_rgba8 source[SIDE * SIDE], images[2][SIDE * SIDE];
static uint8_t values[SIDE * SIDE];

/* Paints the image, and returns null where all went well. */
static void *paint(void *pixels) {
    const pix_image image = pix_image_of((pix_rgba8 *)pixels, SIDE, SIDE);
    const pix_region whole = pix_region_of(0, 0, SIDE, SIDE);
    for (int i = 0; i < ROUNDS; i++) {
        pix_command list[2];
        list[0] = pix_composite_image(pix_region_of(i % 9, -i % 5, SIDE, SIDE), pix_view_of(source, SIDE, SIDE),
                                      whole, PIX_OP_SRC_OVER);
        list[1] = pix_composite_matte(whole, pix_matte_of(values, SIDE, SIDE), whole,
                                      pix_rgba8_of(0, (uint8_t)i, 0, 255), PIX_OP_XOR);
        if (pix_run(image, list, 2, NULL) != PIX_OK)
            return pixels;
    }
    return NULL;
}

/* The commands for both pictures. */
static void fill_list(pix_command *list) {
    const pix_region whole = pix_region_of(0, 0, SIDE, SIDE);
    list[0] = pix_clear();
    list[1] = pix_composite_image(pix_region_of(-3, 5, SIDE, SIDE), pix_view_of(source, SIDE, SIDE), whole,
                                  PIX_OP_SRC_OVER);
    list[2] = pix_composite_matte(whole, pix_matte_of(values, SIDE, SIDE), pix_region_of(2, -7, SIDE, SIDE),
                                  pix_rgba8_of(0, 90, 0, 200), PIX_OP_SRC_ATOP);
    list[3] = pix_composite_color(pix_region_of(9, 11, 40, 40), pix_rgba8_of(9, 9, 9, 99), PIX_OP_XOR);
}

/* Paints a band of the first image, that begins at a row, again and again, and returns null where all went well. */
static void *paint_band(void *row) {
    const size_t top = (size_t)((pix_rgba8 *)row - images[0]) / SIDE;
    const pix_image band = pix_image_of((pix_rgba8 *)row, SIDE, HEIGHT);
    pix_command list[4];
    fill_list(list);
    for (int i = 0; i < ROUNDS; i++)
        if (pix_run_window(band, 0, (uint32_t)top, list, 4, NULL) != PIX_OK)
            return row;
    return NULL;
}

/* Writes a band of the first image as one of a picture at another size, made of a source that all threads read. */
static pix_status scale_rows(pix_rgba8 *rows, uint32_t top, uint32_t height) {
    uint32_t work[4096];
    const pix_size all = {SIDE, SIDE};
    const pix_point at = {0, top};
    return pix_scale(pix_image_of(rows, SIDE, height), at, all, pix_view_of(source, SIDE - 7, SIDE - 5), PIX_FILTER_AREA,
                     work, sizeof work / sizeof *work);
}

static void *scale_band(void *row) {
    const size_t top = (size_t)((pix_rgba8 *)row - images[0]) / SIDE;
    for (int i = 0; i < ROUNDS / 20; i++)
        if (scale_rows((pix_rgba8 *)row, (uint32_t)top, HEIGHT) != PIX_OK)
            return row;
    return NULL;
}

/* Waits for threads, and returns whether all of them went well. */
static int join(pthread_t *threads, int count) {
    int is_well = 1;
    for (int i = 0; i < count; i++) {
        void *answer = NULL;
        pthread_join(threads[i], &answer);
        is_well &= !answer;
    }
    return is_well;
}

/* Runs a job on each band of the first image at once, and returns whether all went well. */
static int on_bands(void *(*job)(void *)) {
    pthread_t threads[BANDS];
    for (int i = 0; i < BANDS; i++)
        if (pthread_create(&threads[i], NULL, job, images[0] + i * HEIGHT * SIDE))
            return 0;
    return join(threads, BANDS);
}

/* Whether the bands of one image, painted at once, are the image painted whole, and bands of a scaled one are that. */
static int try_bands(void) {
    pix_command list[4];
    fill_list(list);
    const int are_painted = on_bands(paint_band) && pix_run(pix_image_of(images[1], SIDE, SIDE), list, 4, NULL) == PIX_OK
                            && memcmp(images[0], images[1], sizeof images[0]) == 0;
    return are_painted && on_bands(scale_band) && scale_rows(images[1], 0, SIDE) == PIX_OK
           && memcmp(images[0], images[1], sizeof images[0]) == 0;
}

#ifdef _WIN32
static int try_handler(void) {
    return 1;
}
#else
static volatile sig_atomic_t handled, refused;
static pix_command handler_list[4];

/* Paints the second image anew. */
static void paint_in_handler(int number) {
    handled = handled < 1000 ? handled + (number == SIGALRM) : handled;
    if (pix_run(pix_image_of(images[1], SIDE, SIDE), handler_list, 4, NULL) != PIX_OK)
        refused = 1;
}

/* Whether an image that is painted again and again, while a handler paints another one, is the image that
 * is painted in peace, and so is the other. */
static int try_handler(void) {
    static pix_rgba8 peaceful[SIDE * SIDE];
    struct itimerval once = {{0, 0}, {0, 0}};
    struct sigaction action;
    int is_well = 1;
    fill_list(handler_list);
    if (pix_run(pix_image_of(peaceful, SIDE, SIDE), handler_list, 4, NULL) != PIX_OK)
        return 0;
    memset(&action, 0, sizeof action);
    action.sa_handler = paint_in_handler;
    if (sigaction(SIGALRM, &action, NULL))
        return 0;
    for (int i = 0; i < 200 * ROUNDS && handled < 200 && is_well; i++) {
        once.it_value.tv_usec = 1 + i % 50;
        is_well = !setitimer(ITIMER_REAL, &once, NULL)
                  && pix_run(pix_image_of(images[0], SIDE, SIDE), handler_list, 4, NULL) == PIX_OK
                  && memcmp(images[0], peaceful, sizeof peaceful) == 0;
    }
    once.it_value.tv_usec = 0;
    if (setitimer(ITIMER_REAL, &once, NULL))
        return 0;
    return is_well && handled > 0 && !refused && memcmp(images[1], peaceful, sizeof peaceful) == 0;
}
#endif

int main(void) {
    pthread_t threads[2];
    for (int i = 0; i < SIDE * SIDE; i++) {
        source[i] = pix_rgba8_of((uint8_t)(i % SIDE), 0, 0, 64);
        values[i] = (uint8_t)(i / SIDE);
    }
    for (int i = 0; i < 2; i++)
        if (pthread_create(&threads[i], NULL, paint, images[i]))
            return 1;
    const int alike = join(threads, 2) && memcmp(images[0], images[1], sizeof images[0]) == 0;
    const int bands = alike && try_bands();
    const int handlers = bands && try_handler();
    puts(!alike     ? "threads: failed"
         : !bands   ? "threads: the bands are not the whole"
         : handlers ? "threads: both images are alike, bands are the whole, and a signal handler may paint"
                    : "threads: a signal handler that paints changes another image, or is not run");
    return !handlers;
}
