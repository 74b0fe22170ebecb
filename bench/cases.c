/* cases.c - see cases.h. */
#include "cases.h"
#include <string.h>

#define WORD_(NAME, WORD) #WORD,
static const char *const operators[OPERATORS] = {PIX_EACH_OP(WORD_)};
#undef WORD_
static const char *const source_names[SOURCES] = {"image", "color", "mask", "masked image", "faded image", "copy of an image", "copy of a color", "clear"};
static const char *const part_names[KINDS] = {"rgba8", "rgba16", "graya8"};
static const uint32_t sides[COLUMNS] = {1024, 64, 32, 8};
static const source_t sources[] = {IMAGE, COLOR, MASK, MASKED, FADED};
static const char *const side_names[COLUMNS] = {"1024", "64", "32", "8"};

/* A new block, or null where its part is not wanted. */
static block_t *block_of(table_t *table, const wanted_t *wanted, const char *part) {
    if (wanted->part && strcmp(wanted->part, part) != 0)
        return NULL;
    block_t *block = &table->blocks[table->count++];
    memset(block, 0, sizeof *block);
    block->part = part;
    return block;
}

/* A new row, or null where it is not wanted. */
static row_t *row_of(block_t *block, const wanted_t *wanted, const char *name) {
    if (wanted->row && strcmp(wanted->row, name) != 0)
        return NULL;
    row_t *row = &block->rows[block->row_count++];
    row->name = name;
    return row;
}

/* The job of a side: tiles of 32 by 32 or of 8 by 8 fill an image of 64 by 64, and other sides are those of the image. */
static void make_job(cell_t *cell, kind_t kind, source_t source, uint32_t op, uint32_t side) {
    cell->is_there = 1;
    cell->job.kind = kind;
    cell->job.source = source;
    cell->job.op = op;
    cell->job.side = side;
    cell->job.across = side < 64 ? 64 : side;
}

static void name_sides(block_t *block, const wanted_t *wanted, int count) {
    for (int k = 0; k < count; k++)
        if (!wanted->side || wanted->side == sides[k])
            block->columns[k] = side_names[k];
}

static void add_composites(table_t *table, const wanted_t *wanted, kind_t kind, source_t source, shape_t shape) {
    block_t *block = block_of(table, wanted, part_names[kind]);
    if (!block)
        return;
    snprintf(block->title, sizeof block->title, "%s, %s, %s", part_names[kind], source_names[source], shape_names[shape]);
    block->work = COMPOSITE;
    block->peer = kind == RGBA8 ? PIXMAN : PLAIN;
    name_sides(block, wanted, COLUMNS);
    for (uint32_t op = 0; op < OPERATORS; op++) {
        row_t *row = row_of(block, wanted, operators[op]);
        for (int k = 0; row && k < COLUMNS; k++)
            if (block->columns[k]) {
                make_job(&row->cells[k], kind, source, op, sides[k]);
                row->cells[k].shape = shape;
            }
    }
}

/* Copies have no operator, and their peers take whole images: tiles are left out. */
static void add_copies(table_t *table, const wanted_t *wanted) {
    block_t *block = block_of(table, wanted, "copy");
    if (!block)
        return;
    snprintf(block->title, sizeof block->title, "rgba8, copies");
    block->work = COMPOSITE;
    block->peer = PIXMAN;
    name_sides(block, wanted, 2);
    for (int source = COPY; source <= CLEAR; source++) {
        row_t *row = row_of(block, wanted, source_names[source]);
        for (int k = 0; row && k < 2; k++)
            if (block->columns[k])
                make_job(&row->cells[k], RGBA8, (source_t)source, 0, sides[k]);
    }
}

#define PAIR_(FROM, TO) {#FROM " to " #TO, PIX_FORMAT_##FROM, PIX_FORMAT_##TO}

/* Conversions, of random alphas, of runs that are mostly clear or opaque, and of such that are nothing else. */
static void add_conversions(table_t *table, const wanted_t *wanted) {
    static const struct {
        const char *name;
        uint32_t from, to;
    } pairs[] = {
        PAIR_(SRGBA8, RGBA8P), PAIR_(SBGRA8, RGBA8P), PAIR_(SRGB8, RGBA8P),  PAIR_(SGRAY8, RGBA8P),
        PAIR_(RGBA8P, SRGBA8), PAIR_(RGBA8P, SBGRA8), PAIR_(RGBA8, RGBA8P),  PAIR_(RGBA8P, RGBA8),
        PAIR_(RGBA8, BGRA8),   PAIR_(SRGBA8, RGBA8),  PAIR_(RGBA8, SRGBA8), PAIR_(SRGBA8, SGRAY8),
    };
    static const shape_t shapes[] = {RANDOM, SPRITES, FLAT};
    const size_t count = sizeof shapes / sizeof *shapes;
    block_t *block = block_of(table, wanted, "convert");
    if (!block)
        return;
    snprintf(block->title, sizeof block->title, "conversions of 1024 by 1024");
    block->work = CONVERSION;
    block->peer = PLAIN;
    for (size_t k = 0; k < count; k++)
        block->columns[k] = shape_names[shapes[k]];
    for (size_t i = 0; i < sizeof pairs / sizeof *pairs; i++) {
        row_t *row = row_of(block, wanted, pairs[i].name);
        for (size_t k = 0; row && k < count; k++) {
            row->cells[k].is_there = 1;
            row->cells[k].shape = shapes[k];
            row->cells[k].conversion.from = pairs[i].from;
            row->cells[k].conversion.to = pairs[i].to;
        }
    }
}

/* What rasters alone have. */
static void add_rasters(table_t *table, const wanted_t *wanted) {
    static const char *const names[] = {
        "SrcOver of Hsva8p", "Rgb8 to Hsv8", "YCbCr8 to Rgb8", "make_indexed, random", "make_indexed, runs of 8",
        "map_indexed, random",
    };
    block_t *block = block_of(table, wanted, "raster");
    if (!block)
        return;
    snprintf(block->title, sizeof block->title, "rasters of 512 by 512");
    block->work = RASTER;
    block->columns[0] = "ns a pixel";
    for (uint32_t i = 0; i < sizeof names / sizeof *names; i++) {
        row_t *row = row_of(block, wanted, names[i]);
        if (row) {
            row->cells[0].is_there = 1;
            row->cells[0].number = i;
        }
    }
}

void make_cases(table_t *table, const wanted_t *wanted) {
    static const shape_t shapes[] = {RANDOM, SPRITES, TEXT12, TEXT20};
    table->count = 0;
    for (int kind = 0; kind < KINDS; kind++)
        for (size_t k = 0; k < sizeof sources / sizeof *sources; k++)
            for (int i = 0; i < (sources[k] == MASK ? 4 : sources[k] > MASK ? 1 : 2); i++)
                add_composites(table, wanted, (kind_t)kind, sources[k], shapes[i]);
    add_copies(table, wanted);
    add_conversions(table, wanted);
    add_rasters(table, wanted);
}
