/* view.h - a part of a picture in a window, and what of it has to be painted again. */
#ifndef VIEW_H
#define VIEW_H

#include "scale.h"
#include <SDL.h>

/* How a picture lies in a window: `zoom` pixels for each of its own, or one for -zoom where that is negative, or as
 * many as fit where it is 0; and its upper left corner at (x, y). */
typedef struct {
    int zoom;
    int32_t x, y;
    uint32_t wide, high;    /* of the picture as it is seen */
    uint32_t width, height; /* of the window */
} place;

typedef struct {
    pix_view_rgba16 picture; /* premultiplied, at its own size */
    int fits; /* the `most` of view_fit where the zoom follows the size of the window, and else 0 */
    place wanted, painted;
    SDL_Surface *screen; /* the window's pixels as they were painted, encoded; null before the first painting */
} view;

/* What a painting changed: `parts` were painted, and `moved` says whether all others moved. */
typedef struct {
    SDL_Rect parts[4];
    int count, moved;
} painting;

enum { LEAST_ZOOM = -64, MOST_ZOOM = 64, EXACTLY = -1 };

/* The picture, which must outlive the view, in a window of this size, as large as fits and at most at its own size. */
void view_open(view *it, pix_view_rgba16 picture, uint32_t width, uint32_t height);
void view_close(view *it);

/* Another picture in the place of the one before: in the window as that was where it fitted, and else at most at its
 * own size. */
void view_show(view *it, pix_view_rgba16 picture);

/* The same picture, turned: at the same zoom, with its middle in the middle of the window. */
void view_show_turned(view *it, pix_view_rgba16 picture);

/* What a user does. Nothing is painted: view_paint does that. */
void view_resize(view *it, uint32_t width, uint32_t height);
void view_pan(view *it, int32_t dx, int32_t dy);
void view_fit(view *it, int most); /* as large as fits, by whole factors up to the zoom `most`, or EXACTLY */
void view_zoom(view *it, int zoom, int32_t x, int32_t y); /* about a point of the window, which stays */
int view_next_zoom(const view *it, int steps);            /* the zoom so many steps nearer */

/* A screen, of SDL's BGRA32, as a bitmap. */
pix_bitmap view_bitmap(SDL_Surface *screen);

/* Paints what is not yet as it is wanted, and nothing else. */
painting view_paint(view *it);

#endif
