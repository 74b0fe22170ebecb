#include "pix.h"
#include "readers.h"

#include <jpeglib.h>
#include <setjmp.h>
#include <stdlib.h>
#include <string.h>

/* What libjpeg does at an error: it jumps back, with the sentence. A warning, as of a file that
 * ends early, is one too. `row` is memory for a row of CMYK, and another one. */
typedef struct {
    struct jpeg_error_mgr base;
    jmp_buf back;
    char text[JMSG_LENGTH_MAX];
    uint8_t *row;
} jpeg_errors;

static void jpeg_failed(j_common_ptr jpeg) {
    jpeg_errors *errors = (jpeg_errors *)jpeg->err;
    jpeg->err->format_message(jpeg, errors->text);
    longjmp(errors->back, 1);
}

static void jpeg_warned(j_common_ptr jpeg, int level) {
    if (level < 0)
        jpeg_failed(jpeg);
}

/* The orientation that the first marker with EXIF names. */
static int jpeg_orientation(const struct jpeg_decompress_struct *jpeg) {
    for (jpeg_saved_marker_ptr it = jpeg->marker_list; it; it = it->next)
        if (it->data_length > 6 && !memcmp(it->data, "Exif\0\0", 6))
            return exif_orientation(it->data, it->data_length);
    return 1;
}

/* Makes red, green and blue of a row of CMYK, which JPEG files hold as what is left of the paper:
 * 255 - ink. Each color is multiplied by what black leaves, as a straight color is by its alpha;
 * and then the alpha goes. */
static int convert_inks(uint8_t *inks, uint8_t *other, uint8_t *to, uint32_t width) {
    return pix_convert(PIX_FORMAT_RGBA8, PIX_FORMAT_RGBA8P, inks, other, width) == PIX_OK &&
           pix_convert(PIX_FORMAT_RGBA8P, PIX_FORMAT_RGB8, other, inks, width) == PIX_OK &&
           pix_convert(PIX_FORMAT_RGB8, PIX_FORMAT_RGBA8, inks, to, width) == PIX_OK;
}

/* Decodes the rows, with an alpha of 255, into memory that stands in `picture` whatever happens.
 */
static int decode_rows(struct jpeg_decompress_struct *jpeg, jpeg_errors *errors,
                       file_picture *picture) {
    const int is_inks = jpeg->out_color_space == JCS_CMYK;
    errors->row = malloc((size_t)8 * jpeg->output_width);
    if (!errors->row || !file_make(picture, jpeg->output_width, jpeg->output_height))
        return 0;
    while (jpeg->output_scanline < jpeg->output_height) {
        uint8_t *to = picture->bytes + (size_t)4 * picture->width * jpeg->output_scanline;
        JSAMPROW row = is_inks ? errors->row : to;
        jpeg_read_scanlines(jpeg, &row, 1);
        if (is_inks && !convert_inks(row, row + (size_t)4 * picture->width, to, picture->width))
            return 0;
    }
    return 1;
}

static int decode_jpeg(struct jpeg_decompress_struct *jpeg, jpeg_errors *errors,
                       file_picture *picture, int *orientation) {
    jpeg_save_markers(jpeg, JPEG_APP0 + 1, 0xffff);
    jpeg_read_header(jpeg, TRUE);
    *orientation = jpeg_orientation(jpeg);
    const int is_inks = jpeg->jpeg_color_space == JCS_CMYK || jpeg->jpeg_color_space == JCS_YCCK;
    jpeg->out_color_space = is_inks ? JCS_CMYK : JCS_EXT_RGBA;
    jpeg_start_decompress(jpeg);
    if (!decode_rows(jpeg, errors, picture))
        return 0;
    jpeg_finish_decompress(jpeg);
    return 1;
}

int file_read_jpeg(FILE *file, const char *name, file_picture *picture, int *orientation,
                   char sentence[FILE_SENTENCE]) {
    struct jpeg_decompress_struct jpeg;
    jpeg_errors errors;
    volatile int is_read = 0;
    jpeg.err = jpeg_std_error(&errors.base);
    errors.base.error_exit = jpeg_failed;
    errors.base.emit_message = jpeg_warned;
    errors.row = NULL;
    strcpy(errors.text, NO_MEMORY);
    if (!setjmp(errors.back)) {
        jpeg_create_decompress(&jpeg);
        jpeg_stdio_src(&jpeg, file);
        is_read = decode_jpeg(&jpeg, &errors, picture, orientation);
    }
    jpeg_destroy_decompress(&jpeg);
    free(errors.row);
    if (is_read)
        return 1;
    free(picture->bytes);
    picture->bytes = NULL;
    return file_refuse(sentence, name, errors.text);
}
