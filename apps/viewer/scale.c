#include "scale.h"
#include <stdio.h>
#include <stdlib.h>

canvas canvas_of(uint32_t width, uint32_t height) {
    canvas it = {calloc((size_t)width * height + 1, sizeof *it.pixels), width, height};
    insist_memory(it.pixels);
    return it;
}

void canvas_free(canvas *it) {
    free(it->pixels);
    it->pixels = NULL;
}

pix_image_rgba16 canvas_image(const canvas *it) { return pix_image_of_rgba16(it->pixels, it->width, it->height); }

pix_view_rgba16 canvas_view(const canvas *it) { return pix_view_of_rgba16(it->pixels, it->width, it->height); }

void insist(pix_status status) {
    if (status != PIX_OK) {
        fprintf(stderr, "viewer: %s\n", pix_status_text(status));
        exit(1);
    }
}

void *insist_memory(void *memory) {
    if (!memory) {
        fprintf(stderr, "viewer: there is not enough memory\n");
        exit(1);
    }
    return memory;
}

canvas scale_window(pix_view_rgba16 source, pix_size whole, pix_region window) {
    const pix_point at = {(uint32_t)window.x, (uint32_t)window.y};
    const pix_size size = {window.width, window.height}, from = {source.width, source.height};
    const size_t words = pix_scale_work_rgba16(size, whole, from, PIX_FILTER_AREA);
    canvas made = canvas_of(window.width, window.height);
    uint32_t *work = insist_memory(malloc((words + 1) * sizeof *work));
    insist(pix_scale_rgba16(canvas_image(&made), at, whole, source, PIX_FILTER_AREA, work, words));
    free(work);
    return made;
}
