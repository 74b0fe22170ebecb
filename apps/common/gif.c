#ifdef HAS_GIF
#include "readers.h"

#include <gif_lib.h>
#include <stdlib.h>
#include <string.h>

static int read_bytes(GifFileType *gif, GifByteType *bytes, int count) {
    return (int)fread(bytes, 1, (size_t)count, gif->UserData);
}

/* Goes on to the first frame, and answers whether there is one. `clear` becomes the index of its
 * clear pixels, or -1. */
static int find_frame(GifFileType *gif, int *clear) {
    GifRecordType type;
    *clear = NO_TRANSPARENT_COLOR;
    while (DGifGetRecordType(gif, &type) == GIF_OK && type != TERMINATE_RECORD_TYPE) {
        int code;
        GifByteType *bytes;
        GraphicsControlBlock control;
        if (type == IMAGE_DESC_RECORD_TYPE)
            return DGifGetImageDesc(gif) == GIF_OK;
        if (type != EXTENSION_RECORD_TYPE || DGifGetExtension(gif, &code, &bytes) != GIF_OK)
            return 0;
        if (code == GRAPHICS_EXT_FUNC_CODE && bytes &&
            DGifExtensionToGCB(bytes[0], bytes + 1, &control) == GIF_OK)
            *clear = control.TransparentColor;
        while (bytes)
            if (DGifGetExtensionNext(gif, &bytes) != GIF_OK)
                return 0;
    }
    return 0;
}

/* Writes a line of indices as pixels; one past the table is clear. */
static void write_line(const ColorMapObject *table, const GifPixelType *line, int count, int clear,
                       uint8_t *to) {
    for (int i = 0; i < count; i++, to += 4) {
        if (line[i] == clear || line[i] >= table->ColorCount)
            continue;
        const GifColorType *color = &table->Colors[line[i]];
        to[0] = color->Red;
        to[1] = color->Green;
        to[2] = color->Blue;
        to[3] = 255;
    }
}

/* Decodes the lines of a frame, which come in four passes where they are interlaced. */
static int decode_lines(GifFileType *gif, int clear, file_picture *picture) {
    static const int starts[] = {0, 4, 2, 1}, steps[] = {8, 8, 4, 2};
    const GifImageDesc *frame = &gif->Image;
    const ColorMapObject *table = frame->ColorMap ? frame->ColorMap : gif->SColorMap;
    const int passes = frame->Interlace ? 4 : 1;
    GifPixelType *line = malloc((size_t)frame->Width + 1);
    int is_read = table && line;
    for (int pass = 0; pass < passes; pass++)
        for (int y = frame->Interlace ? starts[pass] : 0; is_read && y < frame->Height;
             y += frame->Interlace ? steps[pass] : 1) {
            is_read = DGifGetLine(gif, line, frame->Width) == GIF_OK;
            if (is_read)
                write_line(table, line, frame->Width, clear,
                           picture->bytes +
                               ((size_t)(frame->Top + y) * picture->width + (size_t)frame->Left) *
                                   4);
        }
    free(line);
    return is_read;
}

/* Makes a clear picture of the size of the screen, or of the frame where that reaches beyond it.
 */
static int make_screen(const GifFileType *gif, file_picture *picture) {
    const int right = gif->Image.Left + gif->Image.Width,
              bottom = gif->Image.Top + gif->Image.Height;
    return file_make(picture, (uint32_t)(right > gif->SWidth ? right : gif->SWidth),
                     (uint32_t)(bottom > gif->SHeight ? bottom : gif->SHeight));
}

int file_read_gif(FILE *file, const char *name, file_picture *picture, int *orientation,
                  char sentence[FILE_SENTENCE]) {
    int error = 0, clear, is_read = 0;
    const char *what = "this GIF file has no frame that can be read";
    GifFileType *gif = DGifOpen(file, read_bytes, &error);
    (void)orientation;
    if (gif && find_frame(gif, &clear)) {
        if (!make_screen(gif, picture))
            what = NO_MEMORY;
        else
            is_read = decode_lines(gif, clear, picture);
    }
    if (gif && !is_read && gif->Error)
        error = gif->Error;
    const char *said = error ? GifErrorString(error) : NULL;
    if (gif)
        DGifCloseFile(gif, NULL);
    if (is_read && picture->width && picture->height)
        return 1;
    free(picture->bytes);
    picture->bytes = NULL;
    return file_refuse(sentence, name, said ? said : what);
}
#else
typedef int gif_is_left_out;
#endif
