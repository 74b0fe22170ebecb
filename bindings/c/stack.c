/* How much stack each call needs: each runs in a thread of the stack that pix.h says, in a process of its own, since a
 * thread that needs more ends its process. It runs twice. Once 8 KiB of the stack are taken away, which is room for the
 * frame of a signal handler: with the registers of AVX-512 it has about 3.6. And once a handler runs on that stack every few
 * microseconds. With the word `least` the least stack of each is looked for, those 8 KiB among it, and printed.
 *
 * Under Windows, where no signal comes in the midst of a call and a thread may get more stack than it asks for, the call
 * runs above a page of the stack that may not be touched: that much below, less those 8 KiB. */
#define _DEFAULT_SOURCE
#include "each.h"
#include <stdio.h>
#include <string.h>
#ifdef _WIN32
#include <process.h>
#include <stdlib.h>
#include <windows.h>
#else
#include <pthread.h>
#include <signal.h>
#include <sys/time.h>
#include <sys/wait.h>
#include <unistd.h>
#endif

enum { SIDE = 96, COUNT = SIDE * SIDE, ENTRIES = 256, OPERATORS = PIX_OP_COUNT, KINDS = PIX_KIND_COUNT, FORMATS = PIX_FORMAT_COUNT };

static pix_rgba8 pixels[COUNT], source[COUNT];
static pix_rgba16 pixels_rgba16[COUNT], source_rgba16[COUNT];
static pix_graya8 pixels_graya8[COUNT], source_graya8[COUNT];
static uint8_t mattes[COUNT], indices[COUNT], packed[COUNT], bytes[COUNT * 8], more_bytes[COUNT * 8];
static uint16_t mattes16[COUNT];
static pix_srgb8 colors[COUNT], noise[ENTRIES], grays[ENTRIES], equals[ENTRIES], work[4 * COUNT];
static pix_srgba8 shades[COUNT], shade_work[4 * COUNT];
/* The first of these again and again: their colors are counted before a table is made of them. */
enum { REPEATED = 700 };
static pix_srgb8 repeated[COUNT];
static pix_srgba8 repeated_shades[COUNT];
static size_t counts[ENTRIES];

/* Any colors, so that each asks for a list of its own; and tables of any colors, of grays, and of few that differ. */
static void fill(void) {
    uint32_t random = 1;
    for (int i = 0; i < COUNT; i++) {
        random = random * 1664525u + 1013904223u;
        const uint8_t r = (uint8_t)(random >> 24), g = (uint8_t)(random >> 16), b = (uint8_t)(random >> 8);
        colors[i] = (pix_srgb8){r, g, b};
        shades[i] = (pix_srgba8){r, g, b, (uint8_t)(r ^ b)};
        repeated[i] = colors[i % REPEATED];
        repeated_shades[i] = shades[i % REPEATED];
        source[i] = pix_rgba8_of(r / 2, g / 2, b / 2, 128);
        source_rgba16[i] = pix_rgba16_of(r, g, b, 30000);
        source_graya8[i] = pix_graya8_of(r / 2, 128);
        mattes[i] = g;
        mattes16[i] = (uint16_t)(g * 257);
        memcpy(bytes + 8 * i, &random, 4);
        memcpy(bytes + 8 * i + 4, &random, 4);
    }
    for (int i = 0; i < ENTRIES; i++) {
        noise[i] = colors[COUNT - 1 - i];
        grays[i] = (pix_srgb8){(uint8_t)i, (uint8_t)i, (uint8_t)i};
        equals[i] = colors[i < 16 ? i : 0];
    }
}

/* One command of each kind by an operator, run on an image and on a window. */
#define RUN_(S, MATTE, VALUES)                                                                                         \
    static pix_status run##S(void) {                                                                                   \
        const pix_region whole = pix_region_of(0, 0, SIDE, SIDE);                                                      \
        const pix_image##S image = pix_image_of##S(pixels##S, SIDE, SIDE);                                             \
        const pix_view##S from = pix_view_of##S(source##S, SIDE, SIDE);                                                \
        const MATTE mask = MATTE##_of(VALUES, SIDE, SIDE);                                                             \
        pix_status status = PIX_OK;                                                                                    \
        for (int i = 0; i < OPERATORS && status == PIX_OK; i++) {                                                      \
            const pix_op op = (pix_op)i;                                                                               \
            pix_command##S list[KINDS];                                                                                \
            for (int k = 0; k < KINDS; k++)                                                                            \
                list[k] = command_of##S((pix_kind)k, whole, from, whole, mask, whole, source##S[i], 99, op);           \
            status = pix_run##S(image, list, KINDS, NULL);                                                             \
            if (status == PIX_OK)                                                                                      \
                status = pix_run_window##S(image, 7, 9, list, KINDS, NULL);                                            \
            for (int k = 0; k < KINDS && status == PIX_OK; k++)                                                        \
                status = pix_do##S(image, list[k]);                                                                    \
        }                                                                                                              \
        return status;                                                                                                 \
    }
RUN_(, pix_matte, mattes)
RUN_(_rgba16, pix_matte16, mattes16)
RUN_(_graya8, pix_matte, mattes)

/* Both kinds of commands with masks of 8 bits on 16, by each operator. */
static pix_status run_bytes(void) {
    const pix_region whole = pix_region_of(0, 0, SIDE, SIDE);
    const pix_image_rgba16 image = pix_image_of_rgba16(pixels_rgba16, SIDE, SIDE);
    const pix_view_rgba16 from = pix_view_of_rgba16(source_rgba16, SIDE, SIDE);
    const pix_matte mask = pix_matte_of(mattes, SIDE, SIDE);
    pix_status status = PIX_OK;
    for (int i = 0; i < OPERATORS && status == PIX_OK; i++) {
        pix_command_rgba16 list[2];
        list[0] = pix_composite_matte8_rgba16(whole, mask, whole, source_rgba16[i], (pix_op)i);
        list[1] = pix_composite_image_matte8_rgba16(whole, from, whole, mask, whole, (pix_op)i);
        status = pix_run_rgba16(image, list, 2, NULL);
    }
    return status;
}

static pix_status repeat(void) {
    static pix_command list[16];
    const pix_view tile = pix_view_of(source, SIDE, SIDE);
    const uint64_t count =
        pix_repeat_image(list, 16, pix_region_of(0, 0, SIDE, SIDE), tile, pix_region_of(0, 0, 24, 24), PIX_OP_SRC_OVER);
    return pix_run(pix_image_of(pixels, SIDE, SIDE), list, (size_t)count, NULL);
}

/* Each pair of formats. */
static pix_status convert(void) {
    pix_status status = PIX_OK;
    for (int from = 0; from <= PIX_FORMAT_SGRAY8; from++)
        for (int to = 0; to <= PIX_FORMAT_SGRAY8 && status == PIX_OK; to++)
            status = pix_convert((pix_format)from, (pix_format)to, bytes, more_bytes, SIDE);
    return status;
}

static pix_status convert_bitmap(void) {
    pix_status status = PIX_OK;
    for (int from = 0; from < FORMATS; from++)
        for (int to = 0; to < FORMATS && status == PIX_OK; to++)
            status = pix_convert_bitmap(pix_bitmap_view_of(bytes, SIDE, 2, (pix_format)from),
                                        pix_bitmap_of(more_bytes, SIDE, 2, (pix_format)to));
    return status;
}

static pix_status convert_in_place(void) {
    pix_status status = PIX_OK;
    for (int from = 0; from < FORMATS; from++)
        for (int to = 0; to < FORMATS && status == PIX_OK; to++)
            if (pix_format_size((pix_format)to) <= pix_format_size((pix_format)from))
                status = pix_convert_in_place(pix_bitmap_of(more_bytes, SIDE, 2, (pix_format)from), (pix_format)to);
    return status;
}

static pix_status colors_of(void) {
    for (int format = 0; format < FORMATS; format++) {
        pixels[format] = pix_color_of((pix_format)format, bytes);
        pixels_rgba16[format] = pix_color_of_rgba16((pix_format)format, bytes);
        pixels_graya8[format] = pix_color_of_graya8((pix_format)format, bytes);
    }
    return PIX_OK;
}

/* A call with each kind of table, on few pixels and on many. */
#define EACH_TABLE_(NAME, CALL)                                                                                        \
    static pix_status NAME(void) {                                                                                     \
        static const size_t pixel_counts[] = {1, 64, 1024, COUNT}, lens[] = {1, 16, ENTRIES};                          \
        const pix_srgb8 *const kinds[] = {noise, grays, equals};                                                       \
        pix_status status = PIX_OK;                                                                                    \
        for (int i = 0; i < 3 * 3 * 4 && status == PIX_OK; i++) {                                                      \
            const pix_table table = pix_table_of(kinds[i % 3], lens[i / 3 % 3]);                                       \
            const size_t count = pixel_counts[i / 9];                                                                  \
            status = CALL;                                                                                             \
        }                                                                                                              \
        return status;                                                                                                 \
    }
EACH_TABLE_(find, pix_nearest(table, colors[count - 1], indices))
EACH_TABLE_(map, pix_map_indexed(table, colors, count, indices))
EACH_TABLE_(map_alpha, pix_map_indexed_alpha(table, shades, count, 128, 255, indices))
EACH_TABLE_(diffuse, pix_diffuse_indexed(table, colors, count, (count + 1) / 2, work, indices))
EACH_TABLE_(diffuse_alpha, pix_diffuse_indexed_alpha(table, shades, count, (count + 1) / 2, 128, 255, work, indices))
#define ODD_ (pix_diffusion){11, false}
#define TURNING_ (pix_diffusion){(uint8_t)(count % 17), true}
EACH_TABLE_(diffuse_by, pix_diffuse_indexed_by(table, colors, count, SIDE, ODD_, work, indices))
EACH_TABLE_(diffuse_by_alpha, pix_diffuse_indexed_by_alpha(table, shades, count, SIDE, 128, 255, ODD_, work, indices))
EACH_TABLE_(diffuse_turning, pix_diffuse_indexed_by(table, colors, count, (count + 1) / 2, TURNING_, work, indices))
EACH_TABLE_(diffuse_turning_alpha,
            pix_diffuse_indexed_by_alpha(table, shades, count, (count + 1) / 2, 128, 255, TURNING_, work, indices))
#define SHADES_ pix_table_rgba_of(shades, table.len)
EACH_TABLE_(map_rgba, pix_map_indexed_rgba(SHADES_, shades, count, indices))
EACH_TABLE_(diffuse_rgba, pix_diffuse_indexed_rgba(SHADES_, shades, count, SIDE, ODD_, shade_work, indices))
EACH_TABLE_(diffuse_turning_rgba,
            pix_diffuse_indexed_rgba(SHADES_, shades, count, (count + 1) / 2, TURNING_, shade_work, indices))

/* Each filter, to a larger picture and to a smaller one, of each kind of pixels. */
#define SCALE_(S)                                                                                                      \
    static pix_status scale##S(void) {                                                                                 \
        static uint32_t room[1 << 16];                                                                                 \
        const pix_size sizes[] = {{SIDE, SIDE}, {17, 31}, {300, 96}, {31, 200}};                                       \
        const pix_point corner = {0, 0};                                                                               \
        pix_status status = PIX_OK;                                                                                    \
        for (int i = 0; i < 4 * PIX_FILTER_COUNT && status == PIX_OK; i++) {                                           \
            const pix_size all = sizes[i % 4];                                                                         \
            const pix_image##S window = pix_image_of##S(pixels##S, 17, 31);                                            \
            status = pix_scale##S(window, corner, all, pix_view_of##S(source##S, SIDE, SIDE), (pix_filter)(i / 4),     \
                                  room, sizeof room / sizeof *room);                                                   \
        }                                                                                                              \
        return status;                                                                                                 \
    }
SCALE_()
SCALE_(_rgba16)
SCALE_(_graya8)

/* By tables of all places, of some and of one. */
#define SCALE_BY_(S)                                                                                                   \
    static pix_status scale_by##S(void) {                                                                              \
        static uint32_t room[1 << 16], firsts[31];                                                                     \
        static int32_t weights[31 * SIDE];                                                                             \
        const uint32_t taps[] = {1, 6, SIDE};                                                                          \
        pix_status status = PIX_OK;                                                                                    \
        for (int i = 0; i < 3 && status == PIX_OK; i++) {                                                              \
            const pix_weights across = {firsts, weights, 17, taps[i]}, down = {firsts, weights, 31, taps[i]};          \
            for (uint32_t k = 0; k < 31; k++) {                                                                        \
                firsts[k] = taps[i] == SIDE ? 0 : 2 * k;                                                               \
                weights[k * taps[i]] = 1 << 14;                                                                        \
            }                                                                                                          \
            status = pix_scale_by##S(pix_image_of##S(pixels##S, 17, 31), pix_view_of##S(source##S, SIDE, SIDE),        \
                                     across, down, room, sizeof room / sizeof *room);                                  \
            memset(weights, 0, sizeof weights);                                                                        \
        }                                                                                                              \
        return status;                                                                                                 \
    }
SCALE_BY_()
SCALE_BY_(_rgba16)
SCALE_BY_(_graya8)

static pix_status scale_by_work(void) {
    const pix_size made = {17, 31}, from = {SIDE, SIDE};
    return pix_scale_by_work(made, from, 6, SIDE) ? PIX_OK : PIX_TOO_LARGE;
}

static pix_status scale_work(void) {
    const pix_size window = {17, 31}, all = {300, 96}, from = {SIDE, SIDE};
    pix_status status = PIX_OK;
    for (int i = 0; i < PIX_FILTER_COUNT && status == PIX_OK; i++)
        status = pix_scale_work(window, all, from, (pix_filter)i) ? PIX_OK : PIX_TOO_LARGE;
    return status;
}

static pix_status look_up(void) {
    static pix_srgb8 found[COUNT];
    memset(indices, 7, sizeof indices);
    return pix_look_up(pix_table_of(noise, ENTRIES), indices, COUNT, found);
}

static pix_status look_up_rgba(void) {
    static pix_srgba8 found[COUNT];
    memset(indices, 7, sizeof indices);
    return pix_look_up_rgba(pix_table_rgba_of(shades, ENTRIES), indices, COUNT, found);
}

static pix_status make(void) {
    static pix_srgb8 made[ENTRIES];
    size_t len = 0;
    pix_status status = pix_quantize_refined(grays, ENTRIES, 0, work, made, ENTRIES, &len);
    if (status == PIX_OK)
        status = pix_quantize_refined(repeated, COUNT, 0, work, made, ENTRIES, &len);
    return status == PIX_OK ? pix_quantize_refined(colors, COUNT, 0, work, made, ENTRIES, &len) : status;
}

static pix_status make_alpha(void) {
    static pix_srgb8 made[ENTRIES];
    size_t len = 0;
    pix_status status = pix_quantize_refined_alpha(repeated_shades, COUNT, 128, 0, work, made, ENTRIES, &len);
    return status == PIX_OK ? pix_quantize_refined_alpha(shades, COUNT, 128, 0, work, made, ENTRIES, &len) : status;
}

static pix_status make_by_default(void) {
    static pix_srgb8 made[ENTRIES];
    size_t len = 0;
    pix_status status = pix_quantize(repeated, COUNT, work, made, ENTRIES, &len);
    return status == PIX_OK ? pix_quantize(colors, COUNT, work, made, ENTRIES, &len) : status;
}

static pix_status make_alpha_by_default(void) {
    static pix_srgb8 made[ENTRIES];
    size_t len = 0;
    return pix_quantize_alpha(shades, COUNT, 128, work, made, ENTRIES, &len);
}

static pix_status refine(void) {
    static pix_srgb8 made[ENTRIES];
    size_t len = 0;
    pix_status status = pix_quantize_refined(grays, ENTRIES, 2, work, made, ENTRIES, &len);
    if (status == PIX_OK)
        status = pix_quantize_refined(grays, ENTRIES, 2, work, made, ENTRIES - 1, &len);
    for (size_t room = 1; room <= ENTRIES && status == PIX_OK; room *= 16)
        status = pix_quantize_refined(colors, COUNT, 2, work, made, room, &len);
    for (size_t room = 1; room <= ENTRIES && status == PIX_OK; room *= 16)
        status = pix_quantize_refined(repeated, COUNT, 2, work, made, room, &len);
    return status;
}

static pix_status refine_alpha(void) {
    static pix_srgb8 made[ENTRIES];
    size_t len = 0;
    return pix_quantize_refined_alpha(shades, COUNT, 128, 2, work, made, ENTRIES, &len);
}

static pix_status make_rgba(void) {
    static pix_srgba8 made[ENTRIES];
    size_t len = 0;
    pix_status status = pix_quantize_rgba(shades, ENTRIES, 2, shade_work, made, ENTRIES, &len);
    for (size_t room = 1; room <= ENTRIES && status == PIX_OK; room *= 16)
        status = pix_quantize_rgba(shades, COUNT, 2, shade_work, made, room, &len);
    for (size_t room = 1; room <= ENTRIES && status == PIX_OK; room *= 16)
        status = pix_quantize_rgba(repeated_shades, COUNT, 2, shade_work, made, room, &len);
    return status;
}

/* Colors that a table of each length has room for, and such as it has none for. */
static pix_status set(void) {
    static pix_srgb8 slots[ENTRIES];
    for (size_t len = 1; len <= ENTRIES; len++)
        for (int threshold = 0; threshold < 256; threshold += 85) {
            const uint8_t level = (uint8_t)threshold;
            size_t used = 0;
            pix_status status = pix_index_pixels(slots, len, &used, (pix_srgb8){0, 0, 0}, noise, len, indices);
            if (status == PIX_OK)
                status = pix_index_pixels(slots, len, &used, (pix_srgb8){level, level, level}, colors, 999, indices);
            if (status != PIX_OK && status != PIX_FULL_TABLE)
                return status;
        }
    return PIX_OK;
}

static pix_status count_all(void) {
    memset(indices, 7, sizeof indices);
    return pix_count_indices(indices, COUNT, counts, ENTRIES);
}

static pix_status pack(void) {
    pix_status status = PIX_OK;
    memset(indices, 1, sizeof indices);
    for (uint32_t bits = 1; bits <= 8 && status == PIX_OK; bits *= 2)
        status = pix_pack_row(bits, indices, COUNT, packed);
    return status;
}

static pix_status unpack(void) {
    pix_status status = PIX_OK;
    for (uint32_t bits = 1; bits <= 8 && status == PIX_OK; bits *= 2)
        status = pix_unpack_row(bits, packed, COUNT, indices);
    return status;
}

/* The calls, and the kibibytes of stack that pix.h says they need. */
enum { FEW = 24, SETTING = 48, MAKING = 128, MATCHING = 272 };
static const struct { const char *name; size_t kibibytes; pix_status (*call)(void); } calls[] = {
    {"pix_check_library", FEW, pix_check_library},
    {"pix_run", FEW, run},
    {"pix_run_rgba16", FEW, run_rgba16},
    {"pix_run_rgba16", FEW, run_bytes},
    {"pix_run_graya8", FEW, run_graya8},
    {"pix_repeat_image", FEW, repeat},
    {"pix_convert", FEW, convert},
    {"pix_convert_bitmap", FEW, convert_bitmap},
    {"pix_convert_in_place", FEW, convert_in_place},
    {"pix_color_of", FEW, colors_of},
    {"pix_scale", FEW, scale},
    {"pix_scale_rgba16", FEW, scale_rgba16},
    {"pix_scale_graya8", FEW, scale_graya8},
    {"pix_scale_work", FEW, scale_work},
    {"pix_scale_by", FEW, scale_by},
    {"pix_scale_by_rgba16", FEW, scale_by_rgba16},
    {"pix_scale_by_graya8", FEW, scale_by_graya8},
    {"pix_scale_by_work", FEW, scale_by_work},
    {"pix_nearest", FEW, find},
    {"pix_quantize_refined, without rounds", MATCHING, make},
    {"pix_quantize_refined_alpha, without rounds", MATCHING, make_alpha},
    {"pix_quantize", MATCHING, make_by_default},
    {"pix_quantize_alpha", MATCHING, make_alpha_by_default},
    {"pix_look_up", FEW, look_up},
    {"pix_count_indices", FEW, count_all},
    {"pix_pack_row", FEW, pack},
    {"pix_unpack_row", FEW, unpack},
    {"pix_index_pixels", SETTING, set},
    {"pix_quantize_refined", MATCHING, refine},
    {"pix_quantize_refined_alpha", MATCHING, refine_alpha},
    {"pix_quantize_rgba", MAKING, make_rgba},
    {"pix_map_indexed", MATCHING, map},
    {"pix_map_indexed_alpha", MATCHING, map_alpha},
    {"pix_diffuse_indexed", MATCHING, diffuse},
    {"pix_diffuse_indexed_alpha", MATCHING, diffuse_alpha},
    {"pix_diffuse_indexed_by", MATCHING, diffuse_by},
    {"pix_diffuse_indexed_by, serpentine", MATCHING, diffuse_turning},
    {"pix_diffuse_indexed_by_alpha", MATCHING, diffuse_by_alpha},
    {"pix_diffuse_indexed_by_alpha, serpentine", MATCHING, diffuse_turning_alpha},
    {"pix_diffuse_indexed_rgba", SETTING, diffuse_rgba},
    {"pix_diffuse_indexed_rgba, serpentine", SETTING, diffuse_turning_rgba},
    {"pix_map_indexed_rgba", SETTING, map_rgba},
    {"pix_look_up_rgba", FEW, look_up_rgba},
};

#ifdef _WIN32
enum { PAGE = 4096, MOST = 600 * 1024 };

/* Has the system give the pages of the stack below. */
static int take_pages(void) {
    volatile unsigned char taken[MOST + 64 * 1024];
    for (size_t i = sizeof taken; i > 0; i -= PAGE < i ? PAGE : i)
        taken[i - 1] = 1;
    return taken[0] + 1;
}

/* Runs a call above a page that may not be touched, so many bytes below: a call that needs more ends the process. */
static int run_above(pix_status (*call)(void), size_t room) {
    volatile unsigned char here = 1;
    DWORD before;
    const uintptr_t least = (uintptr_t)&here - room;
    unsigned char *wall = (unsigned char *)(least - least % PAGE - PAGE);
    if (!take_pages() || !VirtualProtect(wall, PAGE, PAGE_NOACCESS, &before))
        return 2;
    const pix_status status = call();
    return !VirtualProtect(wall, PAGE, before, &before) || status != PIX_OK || here != 1;
}

/* What a process of its own does: the words are `alone`, the number of a call and KiB. */
static int run_alone(char **word) {
    SetErrorMode(SEM_FAILCRITICALERRORS | SEM_NOGPFAULTERRORBOX);
    return run_above(calls[strtoul(word[2], NULL, 10)].call, (strtoul(word[3], NULL, 10) - 8) * 1024);
}

static char *own_path;

/* Returns whether a call succeeds over so much stack. */
static int fits_alone(size_t number, size_t kibibytes) {
    char words[2][32];
    sprintf(words[0], "%u", (unsigned)number);
    sprintf(words[1], "%u", (unsigned)kibibytes);
    fflush(NULL);
    return _spawnl(_P_WAIT, own_path, "stack", "alone", words[0], words[1], NULL) == 0;
}
#else
static int failed;

/* Runs a call while 8 KiB of the stack are taken. */
static void *run_beside(void *call) {
    volatile unsigned char taken[8 * 1024];
    for (size_t i = 0; i < sizeof taken; i++)
        taken[i] = 1;
    const pix_status status = (*(pix_status (**)(void))call)();
    return status == PIX_OK && taken[0] ? NULL : &failed;
}

static volatile sig_atomic_t signals;

static void count_signal(int number) {
    signals = signals < 300 ? signals + (number != 0) : signals;
}

/* Runs a call again and again, until a handler has run 300 times on the stack of this thread. */
static void *run_interrupted(void *call) {
    const struct itimerval often = {{0, 100}, {0, 100}}, never = {{0, 0}, {0, 0}};
    struct sigaction action;
    sigset_t alarms;
    pix_status status = PIX_OK;
    memset(&action, 0, sizeof action);
    action.sa_handler = count_signal;
    if (sigemptyset(&alarms) || sigaddset(&alarms, SIGALRM) || pthread_sigmask(SIG_UNBLOCK, &alarms, NULL)
        || sigaction(SIGALRM, &action, NULL) || setitimer(ITIMER_REAL, &often, NULL))
        return &failed;
    while (signals < 300 && status == PIX_OK)
        status = (*(pix_status (**)(void))call)();
    return setitimer(ITIMER_REAL, &never, NULL) || status != PIX_OK ? &failed : NULL;
}

/* Runs a call in a thread of so much stack, and ends the process. */
static void run_child(void *(*run)(void *), pix_status (*call)(void), size_t kibibytes) {
    const long least = sysconf(_SC_THREAD_STACK_MIN);
    const size_t asked = kibibytes * 1024, size = least > 0 && (size_t)least > asked ? (size_t)least : asked;
    pthread_attr_t attributes;
    pthread_t thread;
    sigset_t all;
    void *answer = NULL;
    if (sigfillset(&all) || pthread_sigmask(SIG_BLOCK, &all, NULL) || pthread_attr_init(&attributes)
        || pthread_attr_setstacksize(&attributes, size) || pthread_create(&thread, &attributes, run, &call)
        || pthread_join(thread, &answer))
        _exit(2);
    _exit(answer ? 1 : 0);
}

/* Returns whether a call succeeds in a thread of so much stack, or of the least that a thread has here. */
static int fits(void *(*run)(void *), pix_status (*call)(void), size_t kibibytes) {
    fflush(NULL);
    const pid_t child = fork();
    if (child == 0)
        run_child(run, call, kibibytes);
    int status = 0;
    return child > 0 && waitpid(child, &status, 0) == child && WIFEXITED(status) && WEXITSTATUS(status) == 0;
}

static int fits_alone(size_t number, size_t kibibytes) {
    return fits(run_beside, calls[number].call, kibibytes);
}

static int fits_interrupted(size_t number, size_t kibibytes) {
    return fits(run_interrupted, calls[number].call, kibibytes);
}
#endif

int main(int words, char **word) {
    const int is_search = words == 2 && !strcmp(word[1], "least");
    int is_well = 1;
    fill();
#ifdef _WIN32
    own_path = word[0];
    if (words == 4 && !strcmp(word[1], "alone"))
        return run_alone(word);
#endif
    for (size_t i = 0; i < sizeof calls / sizeof *calls; i++) {
        size_t kibibytes = calls[i].kibibytes;
        if (is_search) {
            for (kibibytes = 16; !fits_alone(i, kibibytes) && kibibytes < 4096; kibibytes += 4) {}
            printf("%s: %zu KiB\n", calls[i].name, kibibytes);
            continue;
        }
        if (!fits_alone(i, kibibytes)) {
            fprintf(stderr, "stack: %s leaves less than 8 of %zu KiB for a signal\n", calls[i].name, kibibytes);
            is_well = 0;
        }
#ifndef _WIN32
        if (!fits_interrupted(i, kibibytes)) {
            fprintf(stderr, "stack: %s fails with %zu KiB where a handler runs on its stack\n", calls[i].name, kibibytes);
            is_well = 0;
        }
#endif
    }
    if (is_well && !is_search)
        printf("stack: each call fits in what pix.h says, with 8 KiB for a signal\n");
    return !is_well;
}
