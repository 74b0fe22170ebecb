/* Text over a photograph: see --help. */
#include "../common/files.h"
#include "direction.h"
#include "fallback.h"
#include "layout.h"
#include <stdio.h>
#include <stdlib.h>

static const char usage[] =
    "usage: text [OPTION].. --photo FILE --save PNG LINE..\n"
    "Writes lines over the middle of a picture, twice side by side: composited in the bytes of the file on\n"
    "the left, and in linear light on the right. Each line is in a color of its own and smaller than the one\n"
    "before it. It is broken into rows where it is too long, and goes from right to left where its letters\n"
    "do. What the font lacks is taken from other fonts of the machine.\n"
    "\n"
    "  --font FONT     a font file with outlines, or the name of a family (DejaVu Serif of Debian)\n"
    "  --size N        the size of the first line, in pixels, from 4 to 400 (44)\n"
    "  --no-kerning    set all pairs of letters at their plain distance\n"
    "  --atlas PNG     write the masks of all glyphs, too\n"
    "  --report        print how wide each line is, in how many rows, and how many masks and fonts there are\n"
    "  --help          print this\n"
    "\n"
    "It needs a font with outlines, and no screen.\n"
    "Shaping is HarfBuzz's, and masks are FreeType's. Characters that no font has, and rows that the picture is\n"
    "too low for, are named on standard error. The status is 0, 1 after a file that can't be read or written, or\n"
    "2 after another use.\n";

static const char default_font[] = "/usr/share/fonts/truetype/dejavu/DejaVuSerif.ttf";

enum { MARGIN = 14 };

typedef struct {
    const char *photo, *save, *font, *atlas;
    char **lines;
    int count, size, has_kerning, report;
} options;

/* A line of text, and its color in the bytes of a file. */
typedef struct {
    layout_line set;
    uint8_t color[4];
} line;

static void fail(int status, const char *about, const char *what) {
    fprintf(stderr, "text: %s%s%s\n", about, *about ? ": " : "", what);
    if (status == 2)
        fprintf(stderr, "text: try text --help\n");
    exit(status);
}

/* Prints what waits on standard output, or ends the program with a sentence. */
static void end_output(void) {
    char sentence[FILE_SENTENCE];
    if (!file_end_output(sentence))
        fail(1, "", sentence);
}

static void insist(pix_status status) {
    if (status != PIX_OK)
        fail(1, "", pix_status_text(status));
}

static void *insist_memory(void *memory) {
    if (!memory)
        fail(1, "", "there is not enough memory");
    return memory;
}

/* Takes an option with its value, and answers whether it is one. */
static int set_option(options *it, const char *word, const char *value) {
    char rest;
    const char **text = !strcmp(word, "--photo")   ? &it->photo
                        : !strcmp(word, "--save")  ? &it->save
                        : !strcmp(word, "--font")  ? &it->font
                        : !strcmp(word, "--atlas") ? &it->atlas
                                                   : NULL;
    if (!text && strcmp(word, "--size"))
        return 0;
    if (!value)
        fail(2, word, "a value is missing");
    if (text)
        *text = value;
    else if (sscanf(value, "%4d%c", &it->size, &rest) != 1 || it->size < 4 || it->size > 400)
        fail(2, value, "a size is a number from 4 to 400");
    return 1;
}

static options read_options(int argc, char **argv) {
    options it = {NULL, NULL, default_font, NULL, argv, 0, 44, 1, 0};
    int has_options = 1;
    for (int i = 1; i < argc; i++) {
        if (!has_options || strncmp(argv[i], "--", 2)) {
            it.lines[it.count++] = argv[i];
        } else if (!strcmp(argv[i], "--")) {
            has_options = 0;
        } else if (!strcmp(argv[i], "--help")) {
            fputs(usage, stdout);
            printf("It was built to read %s; %s FriBidi, which puts directions in\n"
                   "order; and %s fontconfig, which finds other fonts.\n",
                   file_kinds(), direction_is_there() ? "with" : "without", fallback_is_there() ? "with" : "without");
            end_output();
            exit(0);
        } else if (!strcmp(argv[i], "--no-kerning")) {
            it.has_kerning = 0;
        } else if (!strcmp(argv[i], "--report")) {
            it.report = 1;
        } else if (set_option(&it, argv[i], i + 1 < argc ? argv[i + 1] : NULL)) {
            i++;
        } else {
            fail(2, argv[i], "there is no such option");
        }
    }
    if (!it.photo || !it.save)
        fail(2, "", "name a photograph (--photo) and a file to write (--save)");
    if (!it.count)
        fail(2, "", "give a line of text");
    return it;
}

/* Says on standard error what a user would else have to find in the picture. */
static void warn(const char *about, const char *what) {
    fprintf(stderr, "text: %s: %s\n", about, what);
}

/* Names the characters that no font has, up to eight of them. */
static void warn_of_lacking(const font *letters, const options *chosen) {
    char named[8 * 16 + 32] = "";
    size_t count = letters->lacking_count, shown = count < 8 ? count : 8, at = 0;
    for (size_t i = 0; i < shown; i++)
        at += (size_t)sprintf(named + at, "%sU+%04lX", i ? ", " : "", (unsigned long)letters->lacking[i]);
    if (count > shown)
        sprintf(named + at, " and %lu more", (unsigned long)(count - shown));
    if (count && fallback_is_there())
        warn(named, "no font of this machine has this, and a box stands for it: install one that does");
    else if (count)
        fprintf(stderr, "text: %s: %s has no glyph for this, and a box stands for it: name a font that has one by --font, "
                "since this program was built without fontconfig, which finds other fonts\n", named, chosen->font);
}

/* Says what a line is, with its newlines as spaces: how many masks it has, and how wide and high it is. */
static void report(const char *text, const layout_line *set, int size) {
    for (; *text; text++)
        putchar(*text == '\n' ? ' ' : *text);
    printf(": %lu masks, %d pixels wide at a size of %d", (unsigned long)set->list.count, set->width, size);
    if (set->rows > 1)
        printf(", in %d rows", set->rows);
    putchar('\n');
}

/* Sets all lines, one below the other, in a column that is so wide, and answers where the last one stands. */
static int set_lines(font *letters, const options *chosen, int width, line *lines) {
    static const uint8_t colors[][4] = {{255, 255, 255, 255}, {255, 216, 60, 255},  {0, 0, 0, 255},
                                        {210, 30, 40, 255},   {120, 240, 255, 255}, {255, 255, 255, 150}};
    const int right = width - MARGIN / 2;
    const layout_frame frame = {MARGIN, right > MARGIN ? right : MARGIN, chosen->has_kerning};
    int size = chosen->size, baseline = 0;
    for (int i = 0; i < chosen->count; i++) {
        const char *sentence = layout_text(letters, chosen->lines[i], size, frame, &baseline, &lines[i].set);
        if (sentence)
            fail(1, chosen->font, sentence);
        memcpy(lines[i].color, colors[(size_t)i % (sizeof colors / sizeof *colors)], 4);
        if (lines[i].set.is_mixed)
            warn(chosen->lines[i], "its parts stand in one direction, since this program was built without FriBidi");
        if (chosen->report && lines[i].set.list.count)
            report(chosen->lines[i], &lines[i].set, size);
        if (size > 12)
            size -= size / 4;
    }
    return baseline;
}

/* Opens the font: a file, or a family, or where the default one is not there one that is like it. */
static void open_font(font *letters, const options *chosen) {
    const char *sentence = font_open(letters, chosen->font, 0);
    char *other;
    int index;
    if (sentence && (chosen->font == default_font ? fallback_find("serif", 'A', &other, &index)
                                                  : fallback_named(chosen->font, &other, &index))) {
        font_close(letters);
        sentence = font_open(letters, other, index);
        free(other);
    }
    if (sentence)
        fail(1, chosen->font, sentence);
}

/* Converts a picture: both are of one size. */
static void convert(pix_bitmap from, pix_bitmap to) {
    insist(pix_convert_bitmap(pix_bitmap_view_of_bitmap(from), to));
}

/* Composites all lines over an image, by one list: their colors are in the straight format `as`. */
static void draw(pix_image_rgba16 image, pix_format as, const line *lines, int line_count, pix_matte16 atlas) {
    size_t count = 0, all = 1;
    for (int i = 0; i < line_count; i++)
        all += lines[i].set.list.count;
    pix_command_rgba16 *list = insist_memory(malloc(all * sizeof *list));
    for (int i = 0; i < line_count; i++) {
        const pix_rgba16 color = pix_color_of_rgba16(as, lines[i].color);
        for (size_t j = 0; j < lines[i].set.list.count; j++) {
            const placed_mask *placed = &lines[i].set.list.masks[j];
            list[count++] = pix_composite_matte_rgba16(placed->to, atlas, placed->from, color, PIX_OP_SRC_OVER);
        }
    }
    insist(pix_run_rgba16(image, list, count, NULL));
    free(list);
}

/* Draws over a part of a photograph, with its bytes in the straight format `as`, and writes it to a part of a picture.
 */
static void draw_half(pix_bitmap photo, pix_bitmap half, pix_format as, const line *lines, int line_count,
                      pix_matte16 atlas) {
    pix_rgba16 *pixels = insist_memory(malloc((size_t)photo.width * photo.height * sizeof *pixels + 1));
    pix_image_rgba16 image = pix_image_of_rgba16(pixels, photo.width, photo.height);
    photo.format = half.format = as;
    convert(photo, pix_bitmap_of_image_rgba16(image));
    draw(image, as, lines, line_count, atlas);
    convert(pix_bitmap_of_image_rgba16(image), half);
    free(pixels);
}

/* Draws both halves of a picture as wide as the photograph, each over the middle of it. */
static file_picture draw_halves(const file_picture *photo, const line *lines, int line_count, pix_matte atlas) {
    file_picture drawn = {calloc((size_t)4 * photo->width + 1, photo->height), photo->width, photo->height};
    pix_bitmap to = pix_bitmap_of(insist_memory(drawn.bytes), drawn.width, drawn.height, PIX_FORMAT_SRGBA8);
    pix_bitmap from = pix_bitmap_of(photo->bytes, photo->width, photo->height, PIX_FORMAT_SRGBA8);
    const uint32_t half = photo->width / 2, rest = photo->width - half;
    const pix_bitmap middle = pix_part_of_bitmap(from, pix_region_of((int32_t)rest / 2, 0, half, photo->height));
    uint16_t *values = insist_memory(malloc(sizeof *values * ((size_t)atlas.width * atlas.height + 1)));
    insist(pix_convert_bitmap(pix_bitmap_view_of(atlas.values, atlas.width, atlas.height, PIX_FORMAT_GRAY8),
                              pix_bitmap_of(values, atlas.width, atlas.height, PIX_FORMAT_GRAY16)));
    const pix_matte16 wide = pix_matte16_of(values, atlas.width, atlas.height);
    draw_half(middle, pix_part_of_bitmap(to, pix_region_of(0, 0, half, photo->height)), PIX_FORMAT_RGBA8, lines,
              line_count, wide);
    draw_half(middle, pix_part_of_bitmap(to, pix_region_of((int32_t)rest, 0, half, photo->height)), PIX_FORMAT_SRGBA8,
              lines, line_count, wide);
    free(values);
    return drawn;
}

static void save(const char *name, file_picture picture) {
    char sentence[FILE_SENTENCE];
    if (!file_write_png(name, &picture, sentence))
        fail(1, "", sentence);
    free(picture.bytes);
}

static void save_atlas(const char *name, pix_matte atlas) {
    size_t count = (size_t)atlas.width * atlas.height;
    file_picture picture = {insist_memory(malloc(4 * count + 1)), atlas.width, atlas.height};
    insist(pix_convert(PIX_FORMAT_GRAY8, PIX_FORMAT_RGBA8, atlas.values, picture.bytes, count));
    save(name, picture);
}

int main(int argc, char **argv) {
    file_begin();
    options chosen = read_options(argc, argv);
    file_picture photo;
    font letters;
    char read[FILE_SENTENCE];
    insist(pix_check_library());
    if (!file_read(chosen.photo, &photo, read))
        fail(1, "", read);
    open_font(&letters, &chosen);
    line *lines = insist_memory(calloc((size_t)chosen.count, sizeof *lines));
    int bottom = set_lines(&letters, &chosen, (int)photo.width / 2, lines);
    warn_of_lacking(&letters, &chosen);
    if (bottom > (int)photo.height)
        warn(chosen.photo, "it is too low for the text, whose last rows are not seen");
    pix_matte atlas = font_atlas(&letters);
    file_picture drawn = draw_halves(&photo, lines, chosen.count, atlas);
    if (chosen.report)
        printf("%lu masks of %lu font%s in an atlas of %u x %u\n", (unsigned long)letters.count,
               (unsigned long)letters.face_count, letters.face_count > 1 ? "s" : "", atlas.width, atlas.height);
    if (chosen.atlas)
        save_atlas(chosen.atlas, atlas);
    save(chosen.save, drawn);
    for (int i = 0; i < chosen.count; i++)
        free(lines[i].set.list.masks);
    free(lines);
    free(photo.bytes);
    font_close(&letters);
    end_output();
    return 0;
}
