/* The examples of pix.h, each as it stands there, with what they make. The program reads the header and
 * itself, which stand in one folder: a line of an example that doesn't stand here is told. */
#include "pix.h"
#include <ctype.h>
#include <stdio.h>
#include <string.h>

enum { LONGEST = 300 };
static int failures;

static void check(int holds, const char *what) {
    if (!holds) {
        printf("examples: %s\n", what);
        failures++;
    }
}

static int is_pixel(pix_rgba8 pixel, int r, int g, int b, int a) {
    return pixel.r == r && pixel.g == g && pixel.b == b && pixel.a == a;
}

static void first(void) {
    pix_rgba8 pixels[64 * 64];
    pix_image image = pix_image_of(pixels, 64, 64);
    pix_command list[2];
    list[0] = pix_copy_color(pix_region_of(0, 0, 64, 64), pix_rgba8_of(0, 0, 64, 255));
    list[1] = pix_composite_color(pix_region_of(50, -8, 20, 20), pix_rgba8_of(90, 40, 0, 128), PIX_OP_SRC_OVER);
    pix_status status = pix_run(image, list, 2, NULL);
    check(status == PIX_OK && is_pixel(pixels[0], 0, 0, 64, 255) && is_pixel(pixels[63], 90, 40, 32, 255), "the first one");
}

static void a_sprite(void) {
    static pix_rgba8 pixels[64 * 64], sprite_pixels[16 * 16];
    pix_image image = pix_image_of(pixels, 64, 64);
    memset(sprite_pixels, 255, sizeof sprite_pixels);
    pix_view sprite = pix_view_of(sprite_pixels, 16, 16);
    pix_region at = pix_region_of(20, 40, 16, 16), all = pix_region_of(0, 0, 16, 16);
    pix_status status = pix_do(image, pix_composite_image(at, sprite, all, PIX_OP_SRC_OVER));
    check(status == PIX_OK && is_pixel(pixels[40 * 64 + 20], 255, 255, 255, 255) && is_pixel(pixels[39], 0, 0, 0, 0), "a sprite");
}

static void a_glyph(void) {
    static pix_rgba8 pixels[64 * 64];
    static uint8_t values[8 * 12];
    pix_image image = pix_image_of(pixels, 64, 64);
    memset(values, 100, sizeof values);
    pix_matte glyph = pix_matte_of(values, 8, 12);
    pix_region at = pix_region_of(30, 7, 8, 12), all = pix_region_of(0, 0, 8, 12);
    pix_rgba8 ink = pix_rgba8_of(0, 0, 0, 255);
    pix_status status = pix_do(image, pix_composite_matte(at, glyph, all, ink, PIX_OP_SRC_OVER));
    check(status == PIX_OK && is_pixel(pixels[18 * 64 + 37], 0, 0, 0, 100) && !pixels[19 * 64 + 37].a, "a glyph");
}

static void a_glyph_of_16_bits(void) {
    uint8_t coverage[3] = {0, 128, 255};
    pix_rgba16 line[3] = {{0, 0, 0, 0}, {0, 0, 0, 0}, {0, 0, 0, 0}};
    pix_rgba16 ink = pix_rgba16_of(0, 0, 0, 65535);
    pix_region all = pix_region_of(0, 0, 3, 1);
    pix_command_rgba16 text =
        pix_composite_matte8_rgba16(all, pix_matte_of(coverage, 3, 1), all, ink, PIX_OP_SRC_OVER);
    pix_status status = pix_do_rgba16(pix_image_of_rgba16(line, 3, 1), text);
    check(status == PIX_OK && !line[0].a && line[1].a == 32896 && line[2].a == 65535, "a glyph of 16 bits");
}

static void a_photo(void) {
    static uint8_t bytes[64 * 64 * 4];
    static pix_rgba16 pixels[64 * 64];
    memset(bytes, 188, sizeof bytes);
    pix_bitmap photo = pix_bitmap_of(bytes, 64, 64, PIX_FORMAT_SRGBA8);
    pix_image_rgba16 light = pix_image_of_rgba16(pixels, 64, 64);
    pix_bitmap decoded = pix_bitmap_of_image_rgba16(light);
    pix_rgba16 gray = pix_rgba16_of(9000, 9000, 9000, 32768);
    pix_region band = pix_region_of(0, 48, 64, 16);
    pix_status status = pix_convert_bitmap(pix_bitmap_view_of_bitmap(photo), decoded);
    if (status == PIX_OK)
        status = pix_do_rgba16(light, pix_composite_color_rgba16(band, gray, PIX_OP_SRC_OVER));
    if (status == PIX_OK)
        status = pix_convert_bitmap(pix_bitmap_view_of_bitmap(decoded), photo);
    check(status == PIX_OK && bytes[48 * 256 - 1] == 188 && bytes[0] == 188 && bytes[48 * 256] < 188, "a photo");
}

static void a_thumbnail(void) {
    static uint8_t bytes[64 * 64 * 4], result[24 * 24 * 4];
    static pix_rgba16 pixels[64 * 64], made[24 * 24];
    static uint32_t work[1 << 14];
    const size_t words = sizeof work / sizeof *work;
    for (size_t i = 0; i < sizeof bytes; i++)
        bytes[i] = i / 4 % 64 < 32 ? 255 : i % 4 == 3 ? 255 : 0;
    pix_image_rgba16 large = pix_image_of_rgba16(pixels, 64, 64), small = pix_image_of_rgba16(made, 24, 24);
    pix_bitmap photo = pix_bitmap_of(bytes, 64, 64, PIX_FORMAT_SRGBA8);
    pix_bitmap thumbnail = pix_bitmap_of(result, 24, 24, PIX_FORMAT_SRGBA8);
    pix_point corner = {0, 0};
    pix_size all = {24, 24};
    pix_status status = pix_convert_bitmap(pix_bitmap_view_of_bitmap(photo), pix_bitmap_of_image_rgba16(large));
    if (status == PIX_OK)
        status = pix_scale_rgba16(small, corner, all, pix_view_of_image_rgba16(large), PIX_FILTER_AREA, work, words);
    if (status == PIX_OK)
        status = pix_convert_bitmap(pix_bitmap_view_of_bitmap(pix_bitmap_of_image_rgba16(small)), thumbnail);
    check(status == PIX_OK && result[44] == 255 && result[48] == 0, "a thumbnail");
}

static void two_means(void) {
    const pix_rgba8 row[4] = {{10, 0, 0, 255}, {20, 0, 0, 255}, {0, 0, 30, 255}, {0, 0, 51, 255}};
    pix_rgba8 made[2];
    uint32_t firsts[] = {0, 2}, first[] = {0}, work[64];
    int32_t weights[] = {8192, 8192, 8192, 8192}, whole[] = {16384};
    pix_weights across = {firsts, weights, 2, 2}, down = {first, whole, 1, 1};
    pix_status status = pix_scale_by(pix_image_of(made, 2, 1), pix_view_of(row, 4, 1), across, down, work, 64);
    check(status == PIX_OK && made[0].r == 15 && made[1].b == 41, "two means");
}

static void a_table(void) {
    enum { COUNT = 1000 };
    static pix_srgb8 colors[COUNT], work[COUNT], entries[16];
    static uint8_t indices[COUNT];
    const size_t count = COUNT;
    for (size_t i = 0; i < count; i++)
        colors[i].g = (uint8_t)(i / 4);
    size_t made = 0;
    pix_status status = pix_quantize(colors, count, work, entries, 16, &made);
    if (status == PIX_OK)
        status = pix_map_indexed(pix_table_of(entries, made), colors, count, indices);
    check(status == PIX_OK && made == 16 && indices[0] == 0 && indices[COUNT - 1] == 15, "a table");
}

static void a_tile(void) {
    pix_rgba8 pixels[16 * 16];
    pix_image tile = pix_image_of(pixels, 16, 16);
    memset(pixels, 0, sizeof pixels);
    pix_command red = pix_copy_color(pix_region_of(60, 60, 40, 40), pix_rgba8_of(200, 0, 0, 255));
    pix_status status = pix_run_window(tile, 48, 48, &red, 1, NULL);
    check(status == PIX_OK && is_pixel(pixels[12 * 16 + 12], 200, 0, 0, 255) && !pixels[12 * 16 + 11].a, "a tile");
}

static void a_gray(void) {
    pix_srgb8 ends[2] = {{0, 0, 0}, {255, 255, 255}};
    pix_srgb8 gray[4] = {{128, 128, 128}, {128, 128, 128}, {128, 128, 128}, {128, 128, 128}}, work[16];
    uint8_t indices[4];
    pix_status status = pix_diffuse_indexed(pix_table_of(ends, 2), gray, 4, 4, work, indices);
    check(status == PIX_OK && indices[0] == 1 && !indices[1] && indices[2] == 1 && !indices[3], "a gray");
}

static void colors_one_by_one(void) {
    pix_srgb8 colors[3] = {{9, 9, 9}, {200, 200, 200}, {11, 11, 11}}, near = {2, 2, 2}, entries[256];
    uint8_t indices[3];
    size_t used = 0;
    memset(entries, 0, sizeof entries);
    pix_status status = pix_index_pixels(entries, 256, &used, near, colors, 3, indices);
    check(status == PIX_OK && used == 2 && !indices[0] && indices[1] == 1 && !indices[2], "colors one by one");
}

static void a_row(void) {
    uint8_t row[5] = {3, 0, 1, 2, 3}, packed[2];
    pix_status status = pix_pack_row(2, row, 5, packed);
    check(status == PIX_OK && packed[0] == 0xc6 && packed[1] == 0xc0, "a row");
}

#define TEXT_OF(NAME, WORD) #WORD,
static const char *const texts[PIX_OP_COUNT] = {PIX_EACH_OP(TEXT_OF)};

/* The words of a line, without what stands before and behind them. */
static char *trimmed(char *line) {
    char *end = line + strlen(line);
    while (end > line && isspace((unsigned char)end[-1]))
        *--end = 0;
    while (isspace((unsigned char)*line))
        line++;
    return line;
}

/* Whether a line of the header is one of an example: in a comment, far to the right, and code by its first
 * or its last sign. */
static int is_example(const char *line) {
    if (strncmp(line, " *     ", 7))
        return 0;
    return line[7] == '#' || !strncmp(line + 7, "if (", 4) || strchr(";{}", line[strlen(line) - 1]);
}

/* Whether a line stands in this file. */
static int stands_here(const char *wanted) {
    char line[LONGEST];
    FILE *file = fopen(__FILE__, "r");
    int found = 0;
    while (file && !found && fgets(line, sizeof line, file))
        found = !strcmp(trimmed(line), wanted);
    if (file)
        fclose(file);
    return found;
}

/* Compares the lines of all examples; answers how many there are. */
static int compare_lines(void) {
    char line[LONGEST], name[LONGEST * 4];
    const char *end = strrchr(__FILE__, '/');
    int lines = 0;
    snprintf(name, sizeof name, "%.*spix.h", end ? (int)(end + 1 - __FILE__) : 0, __FILE__);
    FILE *file = fopen(name, "r");
    check(file != NULL, "no pix.h beside this file");
    while (file && fgets(line, sizeof line, file)) {
        char *last = line + strlen(line);
        while (last > line && isspace((unsigned char)last[-1]))
            *--last = 0;
        if (!is_example(line))
            continue;
        lines++;
        check(stands_here(trimmed(line + 2)), line);
    }
    if (file)
        fclose(file);
    return lines;
}

int main(void) {
    first();
    a_sprite();
    a_glyph();
    a_glyph_of_16_bits();
    a_photo();
    a_thumbnail();
    two_means();
    a_table();
    a_tile();
    a_gray();
    colors_one_by_one();
    a_row();
    check(!strcmp(texts[PIX_OP_SRC_OVER], "SrcOver"), "words of operators");
    const int lines = compare_lines();
    check(lines > 40, "too few lines of examples");
    printf("examples: %d lines of pix.h, %d failures\n", lines, failures);
    return failures != 0;
}
