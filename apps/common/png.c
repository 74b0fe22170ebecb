#include "readers.h"
#include "write.h"

#include <errno.h>
#include <png.h>
#include <setjmp.h>
#include <stdlib.h>
#include <string.h>

/* Looks for EXIF among the chunks of a PNG file: each is a length, a name of four letters, so many
 * bytes and a sum. */
static int png_orientation(FILE *file) {
    enum { MOST = 1 << 16 };
    uint8_t head[8], bytes[4096];
    for (long at = 8; !fseek(file, at, SEEK_SET) && fread(head, 1, 8, file) == 8;) {
        const uint32_t length =
            (uint32_t)head[0] << 24 | (uint32_t)head[1] << 16 | (uint32_t)head[2] << 8 | head[3];
        if (!memcmp(head + 4, "eXIf", 4) && length <= MOST)
            return exif_orientation(
                bytes, fread(bytes, 1, length < sizeof bytes ? length : sizeof bytes, file));
        if (!memcmp(head + 4, "IEND", 4) || length > 0x7fffffff - 12)
            break;
        at += (long)length + 12;
    }
    return 1;
}

/* What libpng does at an error: it jumps back, with the sentence. */
typedef struct {
    jmp_buf back;
    char text[FILE_SENTENCE];
} png_errors;

static void png_failed(png_structp png, png_const_charp what) {
    png_errors *errors = png_get_error_ptr(png);
    snprintf(errors->text, sizeof errors->text, "%s", what);
    longjmp(errors->back, 1);
}

static void png_warned(png_structp png, png_const_charp what) {
    (void)png;
    (void)what;
}

/* Asks for bytes with a straight alpha, whatever the file has. They are taken as sRGB. */
static void ask_for_bytes(png_structp png) {
    png_set_expand(png);
    png_set_scale_16(png);
    png_set_gray_to_rgb(png);
    png_set_add_alpha(png, 255, PNG_FILLER_AFTER);
}

/* Whether bytes have the word sRGB, as the name of a profile has it. */
static int names_srgb(png_const_bytep bytes, png_uint_32 length) {
    for (png_uint_32 i = 0; i + 4 <= length; i++)
        if (!memcmp(bytes + i, "sRGB", 4) || (i + 7 <= length && !memcmp(bytes + i, "s\0R\0G\0B", 7)))
            return 1;
    return 0;
}

/* Whether places of white, red, green and blue are others than those of sRGB. */
static int are_others(const double places[8]) {
    static const double own[8] = {0.3127, 0.329, 0.64, 0.33, 0.3, 0.6, 0.15, 0.06};
    for (int i = 0; i < 8; i++)
        if (places[i] - own[i] > 0.001 || own[i] - places[i] > 0.001)
            return 1;
    return 0;
}

/* Warns where the file says that its colors are no sRGB: by its profile, else by sRGB, else by gAMA
 * and cHRM, which is the order in which PNG has them count. */
static void warn_of_colors(png_structp png, png_infop info, const char *name) {
    char text[64] = "", *profile_name;
    int packed, intent;
    png_bytep profile;
    png_uint_32 length;
    double gamma = 0, at[8];
    if (png_get_iCCP(png, info, &profile_name, &packed, &profile, &length)) {
        if (!names_srgb(profile, length))
            snprintf(text, sizeof text, "a profile of their own (iCCP)");
    } else if (!png_get_sRGB(png, info, &intent)) {
        if (png_get_gAMA(png, info, &gamma) && (gamma > 0.45505 || gamma < 0.45405))
            snprintf(text, sizeof text, "gAMA %.5f", gamma);
        if (png_get_cHRM(png, info, at, at + 1, at + 2, at + 3, at + 4, at + 5, at + 6, at + 7) &&
            are_others(at))
            snprintf(text + strlen(text), sizeof text - strlen(text), "%sa cHRM of their own",
                     *text ? " and " : "");
    }
    if (*text)
        fprintf(stderr, "%s: its colors have %s, and are read as sRGB\n", name, text);
}

/* Decodes into memory that stands in `picture` whatever happens. libpng's simplified interface is
 * of no use here: some versions of it mix up the rows of interlaced files of 16 bits. */
static int decode_png(png_structp png, png_infop info, const char *name, file_picture *picture) {
    png_read_info(png, info);
    warn_of_colors(png, info, name);
    ask_for_bytes(png);
    const int passes = png_set_interlace_handling(png);
    png_read_update_info(png, info);
    const size_t row = (size_t)4 * png_get_image_width(png, info);
    if (png_get_rowbytes(png, info) != row ||
        !file_make(picture, png_get_image_width(png, info), png_get_image_height(png, info)))
        return 0;
    for (int pass = 0; pass < passes; pass++)
        for (uint32_t y = 0; y < picture->height; y++)
            png_read_row(png, picture->bytes + row * y, NULL);
    return 1;
}

int file_read_png(FILE *file, const char *name, file_picture *picture, int *orientation,
                  char sentence[FILE_SENTENCE]) {
    png_errors errors = {.text = NO_MEMORY};
    volatile int is_read = 0;
    png_structp png =
        png_create_read_struct(PNG_LIBPNG_VER_STRING, &errors, png_failed, png_warned);
    png_infop info = png ? png_create_info_struct(png) : NULL;
    if (info && !setjmp(errors.back)) {
        png_init_io(png, file);
        is_read = decode_png(png, info, name, picture);
    }
    png_destroy_read_struct(&png, &info, NULL);
    if (is_read) {
        *orientation = png_orientation(file);
        return 1;
    }
    free(picture->bytes);
    picture->bytes = NULL;
    return file_refuse(sentence, name, errors.text);
}

/* What is written goes through a file of our own: libpng's own way by a name deletes what it could
 * not write, be it a device. */
int file_write_png(const char *name, const file_picture *picture, char sentence[FILE_SENTENCE]) {
    png_image png;
    memset(&png, 0, sizeof png);
    png.version = PNG_IMAGE_VERSION;
    png.width = picture->width;
    png.height = picture->height;
    png.format = PNG_FORMAT_RGBA;
    file_new file;
    if (!file_new_open(&file, name))
        return file_refuse(sentence, name, strerror(errno));
    const int is_written = png_image_write_to_stdio(&png, file.file, 0, picture->bytes, 0, NULL);
    if (file_new_close(&file, is_written))
        return 1;
    return file_refuse(sentence, name, is_written ? strerror(errno) : png.message);
}
