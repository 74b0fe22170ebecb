// kinds.h - the kinds of pixels that a scene may have, and the calls of pix.h for each under one name.
#ifndef KINDS_H
#define KINDS_H

#include "pix.h"

#include <stdexcept>

inline void insist(pix_status status) {
    if (status != PIX_OK)
        throw std::runtime_error(pix_status_text(status));
}

// Writes a picture in another format: both are of one size.
inline pix_status convert(const pix_bitmap &from, const pix_bitmap &to) {
    return pix_convert_bitmap(pix_bitmap_view_of_bitmap(from), to);
}

// The bytes of the file, taken as if they were light: what browsers do. `straight` is what they are called then, and
// `opaque` where they have no alpha.
struct Bytes {
    using pixel = pix_rgba8;
    using command = pix_command;
    using view = pix_view;

    static constexpr pix_format straight = PIX_FORMAT_RGBA8, opaque = PIX_FORMAT_RGB8, shown = PIX_FORMAT_BGRA8;
    static constexpr auto image_of = pix_image_of;
    static constexpr auto view_of = pix_view_of;
    static constexpr auto bitmap_of = pix_bitmap_of_image;
    static constexpr auto copy_image = pix_copy_image;
    static constexpr auto composite_image = pix_composite_image;
    static constexpr auto run_window = pix_run_window;
};

// Linear light of 16 bits a channel.
struct Light {
    using pixel = pix_rgba16;
    using command = pix_command_rgba16;
    using view = pix_view_rgba16;

    static constexpr pix_format straight = PIX_FORMAT_SRGBA8, opaque = PIX_FORMAT_SRGB8, shown = PIX_FORMAT_SBGRA8;
    static constexpr auto image_of = pix_image_of_rgba16;
    static constexpr auto view_of = pix_view_of_rgba16;
    static constexpr auto bitmap_of = pix_bitmap_of_image_rgba16;
    static constexpr auto copy_image = pix_copy_image_rgba16;
    static constexpr auto composite_image = pix_composite_image_rgba16;
    static constexpr auto run_window = pix_run_window_rgba16;
};

#endif
