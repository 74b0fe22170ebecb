#include "readers.h"
#include <string.h>

/* How a picture is turned: whether its sides change places, and at which ends of the old ones it
 * begins. */
typedef struct {
    int is_turned, from_right, from_below;
} turning;

static turning turning_of(int orientation) {
    const turning it = {
        orientation >= 5,
        orientation == 2 || orientation == 3 || orientation == 7 || orientation == 8,
        orientation == 3 || orientation == 4 || orientation == 6 || orientation == 7};
    return it;
}

void file_turn(const void *from, uint32_t width, uint32_t height, size_t size, int orientation,
               void *to) {
    /* Square by square, so that what is read by columns stays near. */
    enum { SIDE = 32 };
    const turning by = turning_of(orientation);
    const uint64_t columns = by.is_turned ? height : width, rows = by.is_turned ? width : height;
    const uint64_t across = (columns + SIDE - 1) / SIDE,
                   squares = across * ((rows + SIDE - 1) / SIDE);
    for (uint64_t square = 0; square < squares; square++) {
        const uint64_t top = square / across * SIDE, left = square % across * SIDE;
        for (uint64_t row = top; row < rows && row < top + SIDE; row++)
            for (uint64_t column = left; column < columns && column < left + SIDE; column++) {
                const uint64_t x = by.is_turned ? row : column, y = by.is_turned ? column : row;
                const uint64_t line = by.from_below ? height - 1 - y : y,
                               at = by.from_right ? width - 1 - x : x;
                memcpy((unsigned char *)to + (row * columns + column) * size,
                       (const unsigned char *)from + (line * width + at) * size, size);
            }
    }
}

/* A number of two or four bytes, in the order that EXIF begins with. */
static uint32_t number(const uint8_t *bytes, int count, int is_big) {
    uint32_t value = 0;
    for (int i = 0; i < count; i++)
        value |= (uint32_t)bytes[i] << 8 * (is_big ? count - 1 - i : i);
    return value;
}

int exif_orientation(const uint8_t *bytes, size_t size) {
    enum { HEADER = 8, ENTRY = 12, TAG = 0x112, SHORT = 3 };
    if (size >= 6 && !memcmp(bytes, "Exif\0\0", 6)) {
        bytes += 6;
        size -= 6;
    }
    if (size < HEADER || (memcmp(bytes, "II*\0", 4) && memcmp(bytes, "MM\0*", 4)))
        return 1;
    const int is_big = bytes[0] == 'M';
    const size_t start = number(bytes + 4, 4, is_big);
    if (start > size - 2)
        return 1;
    size_t left = number(bytes + start, 2, is_big), at = start + 2;
    for (; left && size - at >= ENTRY; left--, at += ENTRY) {
        const uint32_t value = number(bytes + at + 8, 2, is_big);
        if (number(bytes + at, 2, is_big) == TAG && number(bytes + at + 2, 2, is_big) == SHORT)
            return value >= 1 && value <= 8 ? (int)value : 1;
    }
    return 1;
}
