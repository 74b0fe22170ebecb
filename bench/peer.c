/* peer.c - the same composites by pixman, on pixels of a8r8g8b8: the bytes of a pixel are those of pix_rgba8, in the order in which pixman
 * takes blue for red. Without WITH_PIXMAN it does nothing. */
#include "bench.h"

int run_pixman(const job_t *job);
const char *pixman_says(void);

#ifdef WITH_PIXMAN
#include "pixman_ops.h"

const char *pixman_says(void) {
    return pixman_version_string();
}

static pixman_image_t *bits(pixman_format_code_t format, const void *of, uint32_t across, uint32_t size) {
    return pixman_image_create_bits(format, (int)across, (int)across, (uint32_t *)(uintptr_t)of, (int)(size * across));
}

static pixman_image_t *solid(const uint8_t *color) {
    const pixman_color_t wide = {
        (uint16_t)(257 * color[2]), (uint16_t)(257 * color[1]), (uint16_t)(257 * color[0]), (uint16_t)(257 * color[3]),
    };
    return pixman_image_create_solid_fill(&wide);
}

/* A mask of one value everywhere. */
static pixman_image_t *opacity(void) {
    const pixman_color_t color = {0, 0, 0, (uint16_t)(257 * OPACITY)};
    return pixman_image_create_solid_fill(&color);
}

/* The images of a job, made once for all rounds, as pixman's callers keep them. */
typedef struct {
    job_t job;
    pixman_image_t *to, *from, *mask;
} images_t;

static const images_t *images_of(const job_t *job) {
    static images_t made;
    if (made.to && made.job.source == job->source && made.job.across == job->across && made.job.read == job->read)
        return &made;
    if (made.to) {
        pixman_image_unref(made.to);
        pixman_image_unref(made.from);
        if (made.mask)
            pixman_image_unref(made.mask);
    }
    const int is_image = job->source == IMAGE || job->source == COPY || job->source == MASKED || job->source == FADED;
    made.job = *job;
    made.to = bits(PIXMAN_a8r8g8b8, job->pixels, job->across, 4);
    made.from = is_image ? bits(PIXMAN_a8r8g8b8, job->read, job->across, 4) : solid((const uint8_t *)job->color);
    made.mask = job->source == MASK ? bits(PIXMAN_a8, job->read, job->across, 1)
        : job->source == MASKED     ? bits(PIXMAN_a8, job->mask, job->across, 1)
        : job->source == FADED      ? opacity()
                                    : NULL;
    return &made;
}

int run_pixman(const job_t *job) {
    const images_t *it = images_of(job);
    const pixman_op_t op = job->source == CLEAR ? PIXMAN_OP_CLEAR
        : job->source == COPY || job->source == FILL ? PIXMAN_OP_SRC : operators[job->op];
    const int side = (int)job->side;
    for (int y = 0; y < (int)job->across; y += side)
        for (int x = 0; x < (int)job->across; x += side)
            pixman_image_composite32(op, it->from, it->mask, it->to, x, y, x, y, x, y, side, side);
    return 1;
}
#else
const char *pixman_says(void) {
    return 0;
}

int run_pixman(const job_t *job) {
    (void)job;
    return 0;
}
#endif
