/* build.c - the calls of pix.h that are timed, of the archive that this file is linked with, and the plain loops. */
#include "bench.h"
#include "loops.h"

/* Runs a command on each tile, as a program does that draws sprites: a call for each. */
#define CALLS_(S, PIXEL, MATTE, VALUE)                                                                                 \
    static pix_command##S command##S(const job_t *job, pix_region to) {                                                \
        const uint32_t across = job->across;                                                                           \
        const pix_op op = (pix_op)job->op;                                                                             \
        const PIXEL color = *(const PIXEL *)job->color;                                                                \
        const pix_view##S source = pix_view_of##S((const PIXEL *)job->read, across, across);                           \
        switch (job->source) {                                                                                         \
        case IMAGE: return pix_composite_image##S(to, source, to, op);                                                 \
        case COLOR: return pix_composite_color##S(to, color, op);                                                      \
        case MASK: return pix_composite_matte##S(to, MATTE##_of((const VALUE *)job->read, across, across), to, color, op); \
        case MASKED: return pix_composite_image_matte##S(to, source, to, MATTE##_of((const VALUE *)job->mask, across, across), to, op); \
        case FADED: return pix_composite_image_alpha##S(to, source, to, (VALUE)(OPACITY * ((VALUE)-1 / 255)), op);     \
        case COPY: return pix_copy_image##S(to, source, to);                                                           \
        case FILL: return pix_copy_color##S(to, color);                                                                \
        default: return pix_clear##S();                                                                                \
        }                                                                                                              \
    }                                                                                                                  \
    static int run##S(const job_t *job) {                                                                              \
        const pix_image##S image = pix_image_of##S((PIXEL *)job->pixels, job->across, job->across);                    \
        for (uint32_t y = 0; y < job->across; y += job->side)                                                          \
            for (uint32_t x = 0; x < job->across; x += job->side) {                                                    \
                const pix_region to = pix_region_of((int32_t)x, (int32_t)y, job->side, job->side);                     \
                if (pix_do##S(image, command##S(job, to)) != PIX_OK)                                                   \
                    return 0;                                                                                          \
            }                                                                                                          \
        return 1;                                                                                                      \
    }

CALLS_(, pix_rgba8, pix_matte, uint8_t)
CALLS_(_rgba16, pix_rgba16, pix_matte16, uint16_t)
CALLS_(_graya8, pix_graya8, pix_matte, uint8_t)

static int run_any(const job_t *job) {
    switch (job->kind) {
    case RGBA8: return run(job);
    case RGBA16: return run_rgba16(job);
    default: return run_graya8(job);
    }
}

static int convert_any(const conversion_t *it) {
    return pix_convert((pix_format)it->from, (pix_format)it->to, it->src, it->dst, it->count) == PIX_OK;
}

extern const build_t bench_build;
const build_t bench_build = {{run_any, convert_any}, {run_loops, convert_loops}};
