// scene.h - sprites that move over a sky, painted by lists of commands.
#ifndef SCENE_H
#define SCENE_H

#include "../common/files.h"
#include "kinds.h"
#include "sky.h"

#include <algorithm>
#include <functional>
#include <random>
#include <thread>
#include <vector>

// A kind of pixels is one of kinds.h.
template <typename Kind> class Scene {
  public:
    // The atlas has square sprites, as high as it is.
    Scene(const file_picture &atlas, int width, int height, int count, int threads)
        : width(width), height(height), threads(threads), side(static_cast<int>(atlas.height)),
          frame(std::size_t(width) * height), ground(frame), cells(std::size_t(atlas.width) * atlas.height) {
        insist(convert(pix_bitmap_of(atlas.bytes, atlas.width, atlas.height, Kind::straight),
                       Kind::bitmap_of(Kind::image_of(cells.data(), atlas.width, atlas.height))));
        source = Kind::view_of(cells.data(), atlas.width, atlas.height);
        paint_sky();
        std::minstd_rand random(8);
        const int kinds = std::max(1, static_cast<int>(atlas.width / atlas.height));
        const auto below = [&random](int limit) { return static_cast<int>(random() % static_cast<unsigned>(limit)); };
        for (int i = 0; i < count; i++) {
            const int x = below(width + side) - side, y = below(height + side) - side;
            sprites.push_back({x, y, below(7) - 3, below(7) - 3, below(kinds)});
        }
    }

    // Moves each sprite on by its step; at the ends it turns round.
    void move() {
        for (Sprite &it : sprites) {
            it.x += it.dx;
            it.y += it.dy;
            if (it.x < -side || it.x > width)
                it.dx = -it.dx;
            if (it.y < -side || it.y > height)
                it.dy = -it.dy;
        }
    }

    // Paints a frame: one list, run on each band of rows at its place.
    void paint() {
        const std::uint32_t cell = static_cast<std::uint32_t>(side);
        const pix_region all = {0, 0, static_cast<std::uint32_t>(width), static_cast<std::uint32_t>(height)};
        std::vector<typename Kind::command> list = {
            Kind::copy_image(all, Kind::view_of(ground.data(), width, height), all)};
        for (const Sprite &it : sprites)
            list.push_back(Kind::composite_image({it.x, it.y, cell, cell}, source, {it.cell * side, 0, cell, cell},
                                                 PIX_OP_SRC_OVER));
        in_bands([&](int top, int bottom) {
            const auto band = Kind::image_of(&frame[std::size_t(top) * width], width, bottom - top);
            return Kind::run_window(band, 0, top, list.data(), list.size(), nullptr);
        });
    }

    // Writes the frame as the bytes that are shown.
    void encode(pix_bitmap screen) {
        screen.format = Kind::shown;
        in_bands([&](int top, int bottom) {
            const pix_region rows = {0, top, screen.width, static_cast<std::uint32_t>(bottom - top)};
            const auto band = Kind::image_of(&frame[std::size_t(top) * width], width, bottom - top);
            return convert(Kind::bitmap_of(band), pix_part_of_bitmap(screen, rows));
        });
    }

  private:
    struct Sprite {
        int x, y, dx, dy, cell;
    };

    int width, height, threads, side;
    std::vector<typename Kind::pixel> frame, ground, cells;
    typename Kind::view source;
    std::vector<Sprite> sprites;

    // Takes the sky as a picture of a file is taken.
    void paint_sky() {
        std::vector<pix_srgb8> pixels = sky::paint(width, height);
        insist(convert(pix_bitmap_of(pixels.data(), width, height, Kind::opaque),
                       Kind::bitmap_of(Kind::image_of(ground.data(), width, height))));
    }

    // Calls a function for each band of rows, from `top` to `bottom`, each but the first in a thread of its own.
    void in_bands(const std::function<pix_status(int, int)> &call) {
        std::vector<pix_status> statuses(threads);
        std::vector<std::thread> others;
        const auto band = [&](int i) { statuses[i] = call(height * i / threads, height * (i + 1) / threads); };
        for (int i = 1; i < threads; i++)
            others.emplace_back(band, i);
        band(0);
        for (std::thread &other : others)
            other.join();
        for (pix_status status : statuses)
            insist(status);
    }
};

#endif
