/* bench.c - times builds of the library beside pixman and plain loops in one run: see README.md.
 *
 *     bench FOLDER [--part NAME] [--row NAME] [--side N] [--rounds N] [--above] [--csv FILE] NAME=FOLDER [NAME=FOLDER]
 *
 * The first folder has the masks of text, and the others a build each: pix.so, and rasters.so for the part `raster`. */
#define _GNU_SOURCE
#include "cases.h"
#include <dlfcn.h>
#include <stdbool.h>
#include <stdlib.h>
#include <string.h>
#include <time.h>

enum { POINTS = MOST * MOST, RASTER_POINTS = 512 * 512, PASSES = 4, FEW = 3, FEW_RUNS = 4, MAPPED = 5 };

int run_pixman(const job_t *job);
const char *pixman_says(void);

/* The call of crates/pix_bench: a slice is a pointer and a length. */
typedef bool (*rasters_t)(uint32_t work, uint32_t times, const uint8_t *src, size_t src_len, uint8_t *out, size_t out_len);

static struct {
    const build_t *calls;
    rasters_t rasters;
} loaded[BUILDS];

static builds_t builds;
static int rounds = 40;
static uint64_t before[POINTS], pixels[POINTS], read[POINTS], wanted[POINTS], mask[POINTS];

static double now(void) {
    struct timespec time;
    clock_gettime(CLOCK_MONOTONIC, &time);
    return (double)time.tv_sec * 1e9 + (double)time.tv_nsec;
}

/* What reading the clock twice takes, at least. */
static double of_clock(void) {
    static double least;
    for (int i = 0; least == 0 && i < 1000; i++) {
        static double best = 1e300;
        double took = now();
        took = now() - took;
        best = took < best ? took : best;
        least = i == 999 ? best : 0;
    }
    return least;
}

static void fail(const char *what) {
    fprintf(stderr, "bench: %s\n", what);
    exit(1);
}

/* ---- One cell, by one runner ---- */

/* Does the work of a cell by a build, or by its peer, on pixels as they were before, and answers how long it took. */
static double once(const block_t *block, const cell_t *cell, int build, int is_peer) {
    const runner_t *runner = is_peer ? &loaded[build].calls->plain : &loaded[build].calls->pix;
    int is_done;
    double start;
    if (block->work == COMPOSITE) {
        memcpy(pixels, before, pixel_size(cell->job.kind) * cell->job.across * cell->job.across);
        start = now();
        is_done = is_peer && block->peer == PIXMAN ? run_pixman(&cell->job) : runner->run(&cell->job);
    } else {
        start = now();
        is_done = runner->convert(&cell->conversion);
    }
    double took = now() - start - of_clock();
    if (!is_done)
        fail("a call was refused");
    return took > 0 ? took : 0.1;
}

/* How many bytes a cell writes. */
static size_t written(const block_t *block, const cell_t *cell) {
    return block->work == COMPOSITE ? pixel_size(cell->job.kind) * cell->job.across * cell->job.across : 4 * (size_t)POINTS;
}

static void keep_least(double *least, double took, double points) {
    if (*least == 0 || took / points < *least)
        *least = took / points;
}

/* Whether a peer is there, and is another one for this build. */
static int has_peer(const block_t *block, int build) {
    return block->peer == PLAIN || (block->peer == PIXMAN && build == 0 && pixman_says());
}

static void compare(const block_t *block, cell_t *cell) {
    if (!has_peer(block, 0))
        return;
    memset(pixels, 0, sizeof pixels);
    once(block, cell, 0, 1);
    memcpy(wanted, pixels, written(block, cell));
    for (int build = 0; build < builds.count; build++) {
        memset(pixels, 0, sizeof pixels);
        once(block, cell, build, 0);
        cell->differs |= memcmp(wanted, pixels, written(block, cell)) != 0;
    }
}

/* Times a cell: the library and its peers take turns, so that what else the machine does slows them alike. */
static void measure(const block_t *block, cell_t *cell) {
    const size_t across = block->work == COMPOSITE ? cell->job.across : MOST;
    const double points = (double)across * (double)across;
    const int times = across == MOST ? (rounds + PASSES - 1) / PASSES : 8 * rounds;
    for (int round = 0; round < times; round++) {
        for (int build = 0; build < builds.count; build++) {
            keep_least(&cell->ns[build], once(block, cell, build, 0), points);
            if (has_peer(block, build))
                keep_least(&cell->peer_ns[build], once(block, cell, build, 1), points);
        }
    }
    for (int build = 1; block->peer == PIXMAN && build < builds.count; build++)
        cell->peer_ns[build] = cell->peer_ns[0];
}

/* ---- Data ---- */

static kind_t kind_of(const block_t *block, const cell_t *cell) {
    return block->work == COMPOSITE ? cell->job.kind : RGBA8;
}

/* Fills what a cell reads, unless the last one read the same. */
static void fill(const block_t *block, cell_t *cell) {
    static int last[5];
    const kind_t kind = kind_of(block, cell);
    const int is_mask = block->work == COMPOSITE && cell->job.source == MASK;
    const uint32_t across = block->work == COMPOSITE ? cell->job.across : MOST;
    const int these[5] = {1, (int)kind, is_mask, (int)across, (int)cell->shape};
    cell->job.pixels = pixels;
    cell->job.read = read;
    cell->job.color = color_of(kind);
    cell->job.mask = mask;
    cell->conversion.src = (const uint8_t *)read;
    cell->conversion.dst = (uint8_t *)pixels;
    cell->conversion.count = POINTS;
    if (memcmp(last, these, sizeof last) == 0)
        return;
    memcpy(last, these, sizeof last);
    fill_pixels(kind, cell->shape, 0, across, before);
    if (is_mask)
        fill_mask(kind, cell->shape, across, read);
    else
        fill_pixels(kind, cell->shape, 1, across, read);
    fill_mask(kind, cell->shape, across, mask);
}

/* ---- Rasters ---- */

/* The number in crates/pix_bench of the work of a row: both rows of make_indexed have one. */
static uint32_t work_of(uint32_t row) {
    return row < FEW ? row : row == MAPPED ? FEW + 1 : FEW;
}

/* The least time of many works less that of none: a call makes its rasters first. */
static void measure_rasters(cell_t *cell) {
    enum { TIMES = 4 };
    const size_t channels = cell->number == 0 ? 4 : 3;
    uint8_t *src = (uint8_t *)read;
    if (cell->number < FEW || cell->number == MAPPED)
        fill_pixels(RGBA8, RANDOM, 1, MOST, src);
    else
        fill_few(cell->number == FEW_RUNS ? 8 : 1, RASTER_POINTS, src);
    for (int build = 0; build < builds.count; build++) {
        double least[2] = {0, 0};
        for (int round = 0; loaded[build].rasters && round < rounds; round++)
            for (uint32_t many = 0; many < 2; many++) {
                double start = now();
                if (!loaded[build].rasters(work_of(cell->number), TIMES * many, src, channels * RASTER_POINTS, (uint8_t *)pixels,
                                           sizeof pixels))
                    fail("a work on rasters was refused");
                keep_least(&least[many], now() - start, RASTER_POINTS);
            }
        cell->ns[build] = (least[1] - least[0]) / TIMES;
    }
}

/* ---- All of it ---- */

/* Goes over the columns of a block, since cells of a column read the same. */
static void pass_block(block_t *block, int pass) {
    for (int k = 0; k < COLUMNS; k++)
        for (int j = 0; j < block->row_count; j++) {
            cell_t *cell = &block->rows[j].cells[k];
            if (!cell->is_there)
                continue;
            if (block->work == RASTER) {
                if (pass == 0)
                    measure_rasters(cell);
                continue;
            }
            fill(block, cell);
            if (pass == 0)
                compare(block, cell);
            measure(block, cell);
        }
}

static void print_load(const char *when) {
    double load[3] = {0, 0, 0};
    if (getloadavg(load, 3) == 3)
        printf("load %s: %.2f %.2f %.2f\n", when, load[0], load[1], load[2]);
    fflush(stdout);
}

/* Loads the build that is given as NAME=FOLDER. */
static void load(char *given) {
    char path[4096], *folder = strchr(given, '=');
    if (!folder || builds.count == BUILDS)
        fail("give one or two builds, as NAME=FOLDER");
    *folder++ = 0;
    snprintf(path, sizeof path, "%s/pix.so", folder);
    void *library = dlopen(path, RTLD_NOW | RTLD_LOCAL);
    if (!library)
        fail(dlerror());
    loaded[builds.count].calls = (const build_t *)dlsym(library, "bench_build");
    snprintf(path, sizeof path, "%s/rasters.so", folder);
    void *rasters = dlopen(path, RTLD_NOW | RTLD_LOCAL);
    if (rasters)
        *(void **)&loaded[builds.count].rasters = dlsym(rasters, "pix_bench");
    builds.names[builds.count++] = given;
}

int main(int argc, char **argv) {
    static table_t table;
    wanted_t what = {NULL, NULL, 0};
    const char *csv = NULL;
    int is_above = 0;
    if (argc < 3 || !read_text(argv[1]))
        fail("no masks of text");
    for (int i = 2; i < argc; i++) {
        const char *value = i + 1 < argc ? argv[i + 1] : "";
        if (strcmp(argv[i], "--above") == 0)
            is_above = 1;
        else if (strncmp(argv[i], "--", 2) != 0)
            load(argv[i]);
        else if (i++, strcmp(argv[i - 1], "--part") == 0)
            what.part = value;
        else if (strcmp(argv[i - 1], "--row") == 0)
            what.row = value;
        else if (strcmp(argv[i - 1], "--side") == 0)
            what.side = (uint32_t)atoi(value);
        else if (strcmp(argv[i - 1], "--rounds") == 0)
            rounds = atoi(value);
        else if (strcmp(argv[i - 1], "--csv") == 0)
            csv = value;
        else
            fail("no such option");
    }
    make_cases(&table, &what);
    printf("nanoseconds a pixel of the peer, and ratios to it, the least of %d rounds in %d passes\n", rounds, PASSES);
    print_load("before");
    for (int pass = 0; pass < PASSES; pass++)
        for (int i = 0; i < table.count; i++)
            pass_block(&table.blocks[i], pass);
    print_table(&table, &builds, is_above);
    int differing = print_differences(&table);
    print_load("after");
    if (csv && !write_csv(csv, &table, &builds))
        fail("the CSV could not be written");
    return differing != 0;
}
