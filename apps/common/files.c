#include "readers.h"

#include <errno.h>
#include <stdlib.h>
#include <string.h>

#ifdef HAS_GIF
#define OF_GIF file_read_gif
#else
#define OF_GIF NULL
#endif
#ifdef HAS_WEBP
#define OF_WEBP file_read_webp
#else
#define OF_WEBP NULL
#endif

/* A kind of file: its name, how it begins, where a point stands for any byte, how names of it end,
 * which library it takes, and who reads it: nobody where the library was not there. */
typedef struct {
    const char *name, *start, *end, *other_end, *library;
    size_t length;
    file_reader *reader;
} kind;

enum { KINDS = 4, LONGEST = 12 };

static const kind kinds[KINDS] = {
    {"PNG", "\x89PN", ".png", ".png", "libpng", 3, file_read_png},
    {"JPEG", "\xff\xd8\xff", ".jpg", ".jpeg", "libjpeg", 3, file_read_jpeg},
    {"GIF", "GIF8", ".gif", ".gif", "libgif", 4, OF_GIF},
    {"WebP", "RIFF....WEBP", ".webp", ".webp", "libwebp", 12, OF_WEBP},
};

const char *file_kinds(void) {
    static const char *const texts[] = {"PNG and JPEG", "PNG, JPEG and GIF", "PNG, JPEG and WebP",
                                        "PNG, JPEG, GIF and WebP"};
    return texts[(kinds[2].reader ? 1 : 0) + (kinds[3].reader ? 2 : 0)];
}

int file_refuse(char sentence[FILE_SENTENCE], const char *name, const char *what) {
    snprintf(sentence, FILE_SENTENCE, "%s: %s", name, what);
    return 0;
}

/* Whether a name ends with this, which is in small letters. */
static int ends_with(const char *name, const char *end) {
    const size_t length = strlen(name), count = strlen(end);
    if (length < count)
        return 0;
    for (size_t i = 0; i < count; i++) {
        const char letter = name[length - count + i];
        if ((letter >= 'A' && letter <= 'Z' ? letter - 'A' + 'a' : letter) != end[i])
            return 0;
    }
    return 1;
}

int file_is_named_so(const char *name) {
    for (int i = 0; i < KINDS; i++)
        if (kinds[i].reader &&
            (ends_with(name, kinds[i].end) || ends_with(name, kinds[i].other_end)))
            return 1;
    return 0;
}

/* The kind that begins with these bytes, or null. */
static const kind *kind_of(const uint8_t *bytes, size_t count) {
    for (int i = 0; i < KINDS; i++) {
        size_t same = 0;
        while (same < kinds[i].length && same < count &&
               (kinds[i].start[same] == '.' || (uint8_t)kinds[i].start[same] == bytes[same]))
            same++;
        if (same == kinds[i].length)
            return &kinds[i];
    }
    return NULL;
}

int file_make(file_picture *picture, uint32_t width, uint32_t height) {
    picture->width = width;
    picture->height = height;
    picture->bytes =
        (uint64_t)width * height <= UINT32_MAX / 4 ? calloc((size_t)width * height + 1, 4) : NULL;
    return picture->bytes != NULL;
}

/* Turns a picture upright that lies as EXIF says, and answers whether there was memory for it. */
static int set_upright(file_picture *picture, int orientation) {
    const file_picture lying = *picture;
    const int is_turned = orientation > 4;
    if (orientation == 1)
        return 1;
    const int is_made = file_make(picture, is_turned ? lying.height : lying.width,
                                  is_turned ? lying.width : lying.height);
    if (is_made)
        file_turn(lying.bytes, lying.width, lying.height, 4, orientation, picture->bytes);
    free(lying.bytes);
    return is_made;
}

/* Says that the library for a kind of file was not there. */
static int refuse_kind(char sentence[FILE_SENTENCE], const char *name, const kind *of) {
    char what[80];
    snprintf(what, sizeof what, "this is a %s file, and no %s was there to build with", of->name,
             of->library);
    return file_refuse(sentence, name, what);
}

/* Reads an open file whose first bytes are these. */
static int read_open(FILE *file, const char *name, const uint8_t *first, size_t count,
                     file_picture *picture, char sentence[FILE_SENTENCE]) {
    const kind *of = kind_of(first, count);
    int orientation = 1;
    if (!of)
        return file_refuse(sentence, name,
                           count ? "this is neither a PNG nor a JPEG, GIF or WebP file"
                                 : "this file is empty: it is neither a PNG nor a JPEG");
    if (!of->reader)
        return refuse_kind(sentence, name, of);
    if (fseek(file, 0, SEEK_SET))
        return file_refuse(sentence, name, strerror(errno));
    if (!of->reader(file, name, picture, &orientation, sentence))
        return 0;
    return set_upright(picture, orientation) || file_refuse(sentence, name, NO_MEMORY);
}

int file_read(const char *name, file_picture *picture, char sentence[FILE_SENTENCE]) {
    uint8_t first[LONGEST] = {0};
    picture->bytes = NULL;
    FILE *file = fopen(name, "rb");
    if (!file)
        return file_refuse(sentence, name, strerror(errno));
    const size_t count = fread(first, 1, sizeof first, file);
    const int is_read = ferror(file) ? file_refuse(sentence, name, strerror(errno))
                                     : read_open(file, name, first, count, picture, sentence);
    fclose(file);
    return is_read;
}
