/* stand-in.c - the library of plain C, bindings/c/other.c, for WebAssembly, with what it needs of a C library: tools/web --stand-in tries the page over it.
 * Nothing here is proved. */
#include "pix.h"
#include <math.h>
#include <stdlib.h>
#include <string.h>

/* A call that the host sees. */
#define SHOWN_(name) extern __typeof__(name) name __attribute__((export_name(#name)))
/* made by tools/names: calls */
SHOWN_(pix_layout);
SHOWN_(pix_raw_format_size);
SHOWN_(pix_raw_run_window);
SHOWN_(pix_raw_run_window_rgba16);
SHOWN_(pix_raw_run_window_graya8);
SHOWN_(pix_raw_convert);
SHOWN_(pix_raw_convert_bitmap);
SHOWN_(pix_raw_scale);
SHOWN_(pix_raw_scale_rgba16);
SHOWN_(pix_raw_scale_graya8);
SHOWN_(pix_raw_scale_work);
SHOWN_(pix_raw_scale_by);
SHOWN_(pix_raw_scale_by_rgba16);
SHOWN_(pix_raw_scale_by_graya8);
SHOWN_(pix_raw_scale_by_work);
SHOWN_(pix_raw_nearest);
SHOWN_(pix_raw_map_indexed);
SHOWN_(pix_raw_map_indexed_alpha);
SHOWN_(pix_raw_quantize_refined);
SHOWN_(pix_raw_quantize_refined_alpha);
SHOWN_(pix_raw_diffuse_indexed_by);
SHOWN_(pix_raw_diffuse_indexed_by_alpha);
SHOWN_(pix_raw_index_pixels);
SHOWN_(pix_raw_look_up);
SHOWN_(pix_raw_count_indices);
SHOWN_(pix_raw_pack_row);
SHOWN_(pix_raw_unpack_row);
SHOWN_(pix_raw_quantize_rgba);
SHOWN_(pix_raw_map_indexed_rgba);
SHOWN_(pix_raw_diffuse_indexed_rgba);
SHOWN_(pix_raw_look_up_rgba);
/* made by tools/names: end */

#include "other.c"

void *memcpy(void *to, const void *from, size_t count) {
    for (size_t i = 0; i < count; i++)
        ((volatile char *)to)[i] = ((const char *)from)[i];
    return to;
}

void *memmove(void *to, const void *from, size_t count) {
    if (to <= from)
        return memcpy(to, from, count);
    for (size_t i = count; i > 0; i--)
        ((volatile char *)to)[i - 1] = ((const char *)from)[i - 1];
    return to;
}

void *memset(void *to, int byte, size_t count) {
    for (size_t i = 0; i < count; i++)
        ((volatile char *)to)[i] = (char)byte;
    return to;
}

char *getenv(const char *name) {
    (void)name;
    return NULL;
}

unsigned long strtoul(const char *text, char **end, int base) {
    (void)text, (void)end, (void)base;
    return 0;
}

/* No call of the page takes memory: the tables of colors do. */
void *malloc(size_t size) {
    (void)size;
    return NULL;
}

void *calloc(size_t count, size_t size) {
    (void)count, (void)size;
    return NULL;
}

void free(void *memory) {
    (void)memory;
}

void abort(void) {
    __builtin_trap();
}

double floor(double x) {
    return __builtin_floor(x);
}

/* x to the power of y, of x from 0 to 2 and y from 0 to 3, by the series of the logarithm and of its inverse. */
double pow(double x, double y) {
    double log = 0, power = 1, term = 1;
    int halves = 0;
    if (x <= 0)
        return 0;
    for (; x < 0.75; x *= 2)
        halves++;
    double t = (x - 1) / (x + 1);
    for (int i = 59; i > 0; i -= 2)
        log = log * t * t + 1.0 / i;
    log = y * (2 * t * log - halves * 0.69314718055994530942) / 64;
    for (int i = 1; i < 20; i++)
        power += term *= log / i;
    for (int i = 0; i < 6; i++)
        power *= power;
    return power;
}
