#ifdef HAS_WEBP
#include "readers.h"

#include <stdlib.h>
#include <string.h>
#include <webp/demux.h>

/* Reads all of a file, and answers null where there is no memory for it. */
static uint8_t *read_all(FILE *file, size_t *size) {
    uint8_t *bytes = NULL;
    size_t room = 1 << 16;
    for (*size = 0;; room *= 2) {
        uint8_t *more = realloc(bytes, room);
        if (!more) {
            free(bytes);
            return NULL;
        }
        bytes = more;
        *size += fread(bytes + *size, 1, room - *size, file);
        if (*size < room)
            return bytes;
    }
}

/* Copies the first frame, which the decoder owns, and looks for EXIF. */
static const char *decode(WebPAnimDecoder *decoder, file_picture *picture, int *orientation) {
    WebPAnimInfo info;
    WebPChunkIterator exif;
    uint8_t *frame;
    int time;
    if (!WebPAnimDecoderGetInfo(decoder, &info) || !WebPAnimDecoderGetNext(decoder, &frame, &time))
        return "this WebP file is cut or broken";
    if (!file_make(picture, info.canvas_width, info.canvas_height))
        return NO_MEMORY;
    memcpy(picture->bytes, frame, (size_t)4 * info.canvas_width * info.canvas_height);
    if (WebPDemuxGetChunk(WebPAnimDecoderGetDemuxer(decoder), "EXIF", 1, &exif)) {
        *orientation = exif_orientation(exif.chunk.bytes, exif.chunk.size);
        WebPDemuxReleaseChunkIterator(&exif);
    }
    return NULL;
}

int file_read_webp(FILE *file, const char *name, file_picture *picture, int *orientation,
                   char sentence[FILE_SENTENCE]) {
    WebPAnimDecoderOptions options;
    WebPData data = {NULL, 0};
    const char *what = NO_MEMORY;
    data.bytes = read_all(file, &data.size);
    if (data.bytes) {
        WebPAnimDecoderOptionsInit(&options);
        options.color_mode = MODE_RGBA;
        WebPAnimDecoder *decoder = WebPAnimDecoderNew(&data, &options);
        what = decoder ? decode(decoder, picture, orientation) : "this WebP file is cut or broken";
        WebPAnimDecoderDelete(decoder);
    }
    free((void *)data.bytes);
    return what ? file_refuse(sentence, name, what) : 1;
}
#else
typedef int webp_is_left_out;
#endif
