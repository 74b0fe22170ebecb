// Paints the picture of demo.c in C++, and writes it as a PPM file: demo FILE
#include "pix.h"

#include <algorithm>
#include <cstdlib>
#include <fstream>
#include <iostream>
#include <stdexcept>
#include <string>
#include <vector>

namespace {

const int width = 192, height = 128, sun_side = 48, letter_side = 32, letters = 3, swatches = PIX_OP_COUNT, step = 14;

void insist(pix_status status) {
    if (status != PIX_OK)
        throw std::runtime_error(pix_status_text(status));
}

// The linear color of these channels of 8 bits, in 16.
pix_rgba16 color_of(unsigned r, unsigned g, unsigned b, unsigned a) {
    const auto wide = [](unsigned channel) { return static_cast<std::uint16_t>(257 * channel); };
    return pix_rgba16_of(wide(r), wide(g), wide(b), wide(a));
}

// Pixels in rows without padding, in linear light.
struct Picture {
    std::uint32_t width, height;
    std::vector<pix_rgba16> pixels;

    Picture(std::uint32_t w, std::uint32_t h) : width(w), height(h), pixels(std::size_t{w} * h) {}

    pix_image_rgba16 image() { return pix_image_of_rgba16(pixels.data(), width, height); }
    pix_view_rgba16 source() const { return pix_view_of_rgba16(pixels.data(), width, height); }
    pix_region whole() const { return {0, 0, width, height}; }

    void run(const std::vector<pix_command_rgba16> &list) {
        insist(pix_run_rgba16(image(), list.data(), list.size(), nullptr));
    }
};

// A disk that fades to its rim, decoded into light from sRGB with a straight alpha.
Picture make_sun() {
    Picture sun(sun_side, sun_side);
    std::vector<std::uint8_t> bytes;
    const int last = sun_side - 1, rim = last * last;
    for (int y = 0; y < sun_side; y++)
        for (int x = 0; x < sun_side; x++) {
            const int dx = 2 * x - last, dy = 2 * y - last, from_center = dx * dx + dy * dy;
            int channels[4] = {0, 0, 0, 0};
            if (from_center < rim) {
                channels[0] = 255;
                channels[1] = 220 - 120 * from_center / rim;
                channels[2] = 40;
                channels[3] = std::min((rim - from_center) / 4, 255);
            }
            for (int channel : channels)
                bytes.push_back(static_cast<std::uint8_t>(channel));
        }
    insist(pix_convert_bitmap(pix_bitmap_view_of(bytes.data(), sun_side, sun_side, PIX_FORMAT_SRGBA8),
                              pix_bitmap_of_image_rgba16(sun.image())));
    return sun;
}

// A mask of the letters P, I and X side by side, paler to the bottom.
std::vector<std::uint16_t> make_letters() {
    const int rows[letters][8] = {{0xFC, 0x66, 0x66, 0x7C, 0x60, 0x60, 0xF0, 0x00},
                                  {0x3C, 0x18, 0x18, 0x18, 0x18, 0x18, 0x3C, 0x00},
                                  {0xC6, 0xC6, 0x6C, 0x38, 0x6C, 0xC6, 0xC6, 0x00}};
    std::vector<std::uint16_t> values;
    for (int y = 0; y < letter_side; y++)
        for (int x = 0; x < letters * letter_side; x++) {
            const int row = rows[x / letter_side][8 * y / letter_side], bit = 7 - 8 * (x % letter_side) / letter_side;
            values.push_back(static_cast<std::uint16_t>((row >> bit & 1) != 0 ? 257 * (255 - 4 * y) : 0));
        }
    return values;
}

// Two squares for each operator: an orange one, and a blue one that is composited with its corner.
Picture make_swatches() {
    Picture picture(step * swatches, 12);
    std::vector<pix_command_rgba16> list;
    for (int op = 0; op < swatches; op++) {
        list.push_back(pix_copy_color_rgba16({step * op, 0, 8, 8}, color_of(160, 60, 0, 200)));
        list.push_back(pix_composite_color_rgba16({step * op + 4, 4, 8, 8}, color_of(0, 40, 140, 160), static_cast<pix_op>(op)));
    }
    picture.run(list);
    return picture;
}

Picture paint() {
    const Picture sun = make_sun(), squares = make_swatches();
    const std::vector<std::uint16_t> values = make_letters();
    const pix_matte16 mask = pix_matte16_of(values.data(), letters * letter_side, letter_side);
    Picture picture(width, height);
    std::vector<pix_command_rgba16> list;
    list.push_back(pix_copy_color_rgba16(picture.whole(), color_of(8, 12, 48, 255)));
    for (int band = 0; band < 10; band++)
        list.push_back(pix_composite_color_rgba16({-10, 40 + 7 * band, 400, 400}, color_of(20, 4, 0, 24), PIX_OP_SRC_OVER));
    list.push_back(pix_composite_image_rgba16({160, -14, sun_side, sun_side}, sun.source(), sun.whole(), PIX_OP_SRC_OVER));
    list.push_back(pix_composite_image_rgba16({-20, 76, sun_side, sun_side}, sun.source(), sun.whole(), PIX_OP_PLUS));
    for (int i = 0; i < letters; i++) {
        const pix_region letter{letter_side * i, 0, letter_side, letter_side};
        list.push_back(pix_composite_matte_rgba16({41 + 42 * i, 44, letter_side, letter_side}, mask, letter, color_of(0, 0, 0, 160),
                                           PIX_OP_SRC_OVER));
        list.push_back(pix_composite_matte_rgba16({38 + 42 * i, 41, letter_side, letter_side}, mask, letter,
                                           color_of(255, 240, 200, 255), PIX_OP_SRC_OVER));
    }
    list.push_back(pix_composite_image_rgba16({6, 110, squares.width, squares.height}, squares.source(), squares.whole(),
                                       PIX_OP_SRC_OVER));
    picture.run(list);
    return picture;
}

// Writes the picture, encoded by the sRGB curve; it is opaque everywhere.
void save(Picture picture, const std::string &name) {
    std::string bytes(3 * picture.pixels.size(), '\0');
    insist(pix_convert_bitmap(pix_bitmap_view_of_bitmap(pix_bitmap_of_image_rgba16(picture.image())),
                              pix_bitmap_of(&bytes[0], picture.width, picture.height, PIX_FORMAT_SRGB8)));
    std::ofstream file(name, std::ios::binary);
    file << "P6\n" << picture.width << ' ' << picture.height << "\n255\n" << bytes;
    if (!file.flush())
        throw std::runtime_error(name + " can't be written");
}

} // namespace

int main(int argc, char **argv) {
    try {
        save(paint(), argc > 1 ? argv[1] : "demo.ppm");
    } catch (const std::exception &error) {
        std::cerr << "demo: " << error.what() << '\n';
        return EXIT_FAILURE;
    }
    return EXIT_SUCCESS;
}
