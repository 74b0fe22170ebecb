/* each.h - a command of any kind, made of all that the kinds need: so the tests go over PIX_EACH_KIND, and a kind that is new and
 * made by none of them does not compile.
 *
 * A color is composited through `matte` at `from`, and an image through it at `mask_from`. */
#ifndef EACH_H
#define EACH_H

#include "pix.h"

#define EACH_(S, PIXEL, MATTE, VALUE)                                                                                  \
    static inline pix_command##S command_of##S(pix_kind kind, pix_region to, pix_view##S source, pix_region from,      \
                                               MATTE matte, pix_region mask_from, PIXEL color, VALUE alpha, pix_op op) { \
        switch (kind) {                                                                                                \
        case PIX_KIND_CLEAR: return pix_clear##S();                                                                    \
        case PIX_KIND_COPY_COLOR: return pix_copy_color##S(to, color);                                                 \
        case PIX_KIND_COPY_IMAGE: return pix_copy_image##S(to, source, from);                                          \
        case PIX_KIND_COMPOSITE_COLOR: return pix_composite_color##S(to, color, op);                                   \
        case PIX_KIND_COMPOSITE_IMAGE: return pix_composite_image##S(to, source, from, op);                            \
        case PIX_KIND_COMPOSITE_MATTE: return pix_composite_matte##S(to, matte, from, color, op);                      \
        case PIX_KIND_COMPOSITE_IMAGE_MATTE: return pix_composite_image_matte##S(to, source, from, matte, mask_from, op); \
        case PIX_KIND_COMPOSITE_IMAGE_ALPHA: return pix_composite_image_alpha##S(to, source, from, alpha, op);         \
        }                                                                                                              \
        return pix_clear##S();                                                                                         \
    }

EACH_(, pix_rgba8, pix_matte, uint8_t)
EACH_(_rgba16, pix_rgba16, pix_matte16, uint16_t)
EACH_(_graya8, pix_graya8, pix_matte, uint8_t)

#endif
