// sky.h - a sky that grows lighter to the bottom, without a band that can be seen.
#ifndef SKY_H
#define SKY_H

#include "kinds.h"

#include <algorithm>
#include <array>
#include <cstddef>
#include <cstdint>
#include <random>
#include <vector>

namespace sky {

// How many colors it has, and how far apart they are in a gray ramp from 0 to 255.
constexpr int TONES = 52, STEP = 255 / (TONES - 1);

// A color of a file, which is not premultiplied.
inline pix_rgba8 color_of(const std::array<std::uint8_t, 4> &color) {
    return pix_color_of(PIX_FORMAT_RGBA8, color.data());
}

// Returns the colors from the top to the bottom: a haze over the dark, thicker from one to the next.
inline std::vector<pix_srgb8> colors() {
    std::vector<pix_rgba8> pixels(TONES);
    std::vector<pix_srgb8> colors(TONES);
    const pix_image row = pix_image_of(pixels.data(), TONES, 1);
    std::vector<pix_command> list = {pix_copy_color({0, 0, TONES, 1}, color_of({40, 48, 96, 255}))};
    for (int i = 0; i < TONES; i++) {
        const auto thickness = static_cast<std::uint8_t>(i * 196 / (TONES - 1));
        list.push_back(
            pix_composite_color({i, 0, 1, 1}, color_of({232, 200, 176, thickness}), PIX_OP_SRC_OVER));
    }
    insist(pix_run(row, list.data(), list.size(), nullptr));
    insist(convert(pix_bitmap_of_image(row), pix_bitmap_of(colors.data(), TONES, 1, PIX_FORMAT_RGB8)));
    return colors;
}

// Returns the rows of the sky. A gray ramp is diffused among as many grays as there are colors, and
// each gray is looked up as a color: so points of two colors mix where one would end at a row. All of
// each error is passed on, since the grays are near to each other and in even steps. A little noise is in the ramp, since else all points of a row would change at once.
inline std::vector<pix_srgb8> paint(int width, int height) {
    const std::size_t columns = width, rows = height;
    std::vector<pix_srgb8> pixels(columns * rows), grays(TONES), work(pix_diffuse_indexed_work(columns));
    std::vector<std::uint8_t> indices(pixels.size());
    std::minstd_rand random(8);
    for (std::size_t i = 0; i < pixels.size(); i++) {
        const std::size_t level = 255 * (i / columns) / rows + random() % STEP;
        const auto gray = static_cast<std::uint8_t>(std::min<std::size_t>(level, 255));
        pixels[i] = {gray, gray, gray};
    }
    for (int i = 0; i < TONES; i++) {
        const auto gray = static_cast<std::uint8_t>(i * STEP);
        grays[i] = {gray, gray, gray};
    }
    const std::vector<pix_srgb8> tones = colors();
    insist(pix_diffuse_indexed_by(pix_table_of(grays.data(), TONES), pixels.data(), pixels.size(), columns,
                                  pix_diffusion{16, false}, work.data(), indices.data()));
    insist(pix_look_up(pix_table_of(tones.data(), TONES), indices.data(), indices.size(), pixels.data()));
    return pixels;
}

} // namespace sky

#endif
