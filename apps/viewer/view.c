#include "view.h"
#include <stdlib.h>

enum { CELL = 16, MOST_BANDS = 16, LARGE = 1 << 16 };

/* The window around the picture, and the cells of the checkerboard under it, in sRGB. */
static const uint8_t GROUND[] = {40, 40, 44}, LIGHT[] = {204, 204, 204}, DARK[] = {153, 153, 153};

static uint32_t scaled(uint32_t side, int zoom) {
    return zoom > 0 ? side * (uint32_t)zoom : (side + (uint32_t)-zoom - 1) / (uint32_t)-zoom;
}

/* Where a side of the picture begins: in the middle of the window where it is the shorter one, and else so that no room
 * is left. */
static int32_t settled(int32_t at, uint32_t side, uint32_t room) {
    int32_t least = (int32_t)room - (int32_t)side;
    if (least >= 0)
        return least / 2;
    return at < least ? least : at > 0 ? 0 : at;
}

pix_bitmap view_bitmap(SDL_Surface *screen) {
    pix_bitmap bitmap = pix_bitmap_of(screen->pixels, (uint32_t)screen->w, (uint32_t)screen->h, PIX_FORMAT_SBGRA8);
    bitmap.stride = screen->pitch;
    return bitmap;
}

static void settle(view *it) {
    place *to = &it->wanted;
    to->x = settled(to->x, to->wide, to->width);
    to->y = settled(to->y, to->high, to->height);
}

/* The side of a picture beside one that is `fitted`: at least 1. */
static uint32_t beside(uint32_t side, uint32_t other, uint32_t fitted) {
    const uint64_t exact = ((uint64_t)side * fitted + other / 2) / other;
    return exact ? (uint32_t)exact : 1;
}

/* Sets a zoom, and how large the picture is by it. */
static void set_zoom(view *it, int zoom) {
    place *to = &it->wanted;
    const uint32_t width = it->picture.width, height = it->picture.height;
    const int is_wider = (uint64_t)width * to->height >= (uint64_t)height * to->width;
    to->zoom = zoom;
    to->wide = zoom ? scaled(width, zoom) : is_wider ? to->width : beside(width, height, to->height);
    to->high = zoom ? scaled(height, zoom) : is_wider ? beside(height, width, to->width) : to->height;
}

/* Forgets what was painted and made of a picture. */
static void set_picture(view *it, pix_view_rgba16 picture) {
    memset(&it->painted, 0, sizeof it->painted);
    it->picture = picture;
}

void view_show(view *it, pix_view_rgba16 picture) {
    set_picture(it, picture);
    view_fit(it, it->fits ? it->fits : 1);
}

void view_show_turned(view *it, pix_view_rgba16 picture) {
    place *to = &it->wanted;
    set_picture(it, picture);
    set_zoom(it, to->zoom);
    to->x = ((int32_t)to->width - (int32_t)to->wide) / 2;
    to->y = ((int32_t)to->height - (int32_t)to->high) / 2;
    if (it->fits)
        view_fit(it, it->fits);
}

void view_open(view *it, pix_view_rgba16 picture, uint32_t width, uint32_t height) {
    memset(it, 0, sizeof *it);
    it->wanted.width = width;
    it->wanted.height = height;
    view_show(it, picture);
}

void view_close(view *it) {
    SDL_FreeSurface(it->screen);
}

void view_resize(view *it, uint32_t width, uint32_t height) {
    it->wanted.x += ((int32_t)width - (int32_t)it->wanted.width) / 2;
    it->wanted.y += ((int32_t)height - (int32_t)it->wanted.height) / 2;
    it->wanted.width = width;
    it->wanted.height = height;
    if (it->fits)
        view_fit(it, it->fits);
    settle(it);
}

void view_pan(view *it, int32_t dx, int32_t dy) {
    it->wanted.x += dx;
    it->wanted.y += dy;
    settle(it);
}

/* The greatest zoom up to `most` at which the picture is no larger than this. */
static int zoom_within(const view *it, int most, uint32_t width, uint32_t height) {
    int zoom = most;
    while (zoom > LEAST_ZOOM && (scaled(it->picture.width, zoom) > width || scaled(it->picture.height, zoom) > height))
        zoom = zoom == 1 ? -2 : zoom - 1;
    return zoom;
}

int view_next_zoom(const view *it, int steps) {
    const place *from = &it->wanted;
    int zoom = from->zoom ? from->zoom : zoom_within(it, MOST_ZOOM, from->wide, from->high);
    /* What fits exactly lies between two whole factors. */
    if (steps < 0 && (scaled(it->picture.width, zoom) < from->wide || scaled(it->picture.height, zoom) < from->high))
        steps++;
    for (; steps > 0 && zoom < MOST_ZOOM; steps--)
        zoom = zoom == -2 ? 1 : zoom + 1;
    for (; steps < 0 && zoom > LEAST_ZOOM; steps++)
        zoom = zoom == 1 ? -2 : zoom - 1;
    return zoom;
}

void view_fit(view *it, int most) {
    const place *to = &it->wanted;
    view_zoom(it, most == EXACTLY ? 0 : zoom_within(it, most, to->width, to->height), 0, 0);
    it->fits = most;
}

/* Where the corner goes so that what is at `fixed` stays there. */
static int32_t about(int32_t fixed, int32_t at, uint32_t before, uint32_t after) {
    return fixed - (int32_t)(((int64_t)fixed - at) * after / (before ? before : 1));
}

void view_zoom(view *it, int zoom, int32_t x, int32_t y) {
    place *to = &it->wanted;
    const place before = *to;
    set_zoom(it, zoom);
    to->x = about(x, before.x, before.wide, to->wide);
    to->y = about(y, before.y, before.high, to->high);
    it->fits = 0;
    settle(it);
}

/* The part of a region that another one has too; without points where they have none in common. */
static pix_region common(pix_region one, pix_region other) {
    const int64_t left = SDL_max(one.x, other.x), top = SDL_max(one.y, other.y);
    const int64_t right = SDL_min((int64_t)one.x + one.width, (int64_t)other.x + other.width);
    const int64_t bottom = SDL_min((int64_t)one.y + one.height, (int64_t)other.y + other.height);
    if (left >= right || top >= bottom)
        return pix_region_of(one.x, one.y, 0, 0);
    return pix_region_of((int32_t)left, (int32_t)top, (uint32_t)(right - left), (uint32_t)(bottom - top));
}

/* The picture as it is seen in a part of the window, with where it lies there; `made` is to be freed after its use. */
static pix_view_rgba16 shown(const view *it, pix_region part, pix_region *to, canvas *made) {
    const place *at = &it->wanted;
    const pix_size whole = {at->wide, at->high};
    *to = pix_region_of(at->x, at->y, at->wide, at->high);
    if (at->wide == it->picture.width && at->high == it->picture.height)
        return it->picture;
    *to = common(*to, part);
    if (to->width && to->height)
        *made = scale_window(it->picture, whole,
                             pix_region_of(to->x - at->x, to->y - at->y, to->width, to->height));
    return canvas_view(made);
}

/* Adds the dark cells of the checkerboard that reach a part of the window; the board moves with the picture. */
static size_t add_cells(pix_command_rgba16 *list, const place *at, pix_region frame, pix_region part) {
    const pix_rgba16 dark = pix_color_of_rgba16(PIX_FORMAT_SRGB8, DARK);
    size_t count = 0;
    int32_t right = part.x + (int32_t)part.width, bottom = part.y + (int32_t)part.height;
    int32_t frame_right = frame.x + (int32_t)frame.width, frame_bottom = frame.y + (int32_t)frame.height;
    int32_t first_row = part.y > at->y ? (part.y - at->y) / CELL : 0,
            first_column = part.x > at->x ? (part.x - at->x) / CELL : 0;
    for (int32_t row = first_row; at->y + row * CELL < bottom && at->y + row * CELL < frame_bottom; row++)
        for (int32_t column = first_column; at->x + column * CELL < right && at->x + column * CELL < frame_right;
             column++) {
            int32_t x = at->x + column * CELL, y = at->y + row * CELL;
            if ((row + column) % 2)
                list[count++] = pix_copy_color_rgba16(pix_region_of(x, y, (uint32_t)SDL_min(CELL, frame_right - x),
                                                                    (uint32_t)SDL_min(CELL, frame_bottom - y)),
                                                      dark);
        }
    return count;
}

/* Writes pixels as the bytes of a part of the screen. */
static void encode(const canvas *tile, SDL_Surface *screen, pix_region part) {
    pix_bitmap image = pix_bitmap_of_image_rgba16(canvas_image(tile));
    insist(pix_convert_bitmap(pix_bitmap_view_of_bitmap(image), pix_part_of_bitmap(view_bitmap(screen), part)));
}

/* Paints a band of rows of the window: as a tile, by the commands of the whole window. */
static void paint_band(const view *it, pix_region part) {
    const place *at = &it->wanted;
    canvas tile = canvas_of(part.width, part.height), made = {NULL, 0, 0};
    pix_region frame;
    pix_view_rgba16 source = shown(it, part, &frame, &made);
    pix_region picture = pix_region_of(at->x, at->y, at->wide, at->high);
    size_t most = (size_t)(part.width / CELL + 2) * (part.height / CELL + 2) + 3, count = 0;
    pix_command_rgba16 *list = insist_memory(malloc(most * sizeof *list));
    list[count++] = pix_copy_color_rgba16(part, pix_color_of_rgba16(PIX_FORMAT_SRGB8, GROUND));
    list[count++] = pix_copy_color_rgba16(picture, pix_color_of_rgba16(PIX_FORMAT_SRGB8, LIGHT));
    count += add_cells(list + count, at, picture, part);
    list[count++] =
        pix_composite_image_rgba16(frame, source, pix_region_of(0, 0, source.width, source.height), PIX_OP_SRC_OVER);
    insist(pix_run_window_rgba16(canvas_image(&tile), (uint32_t)part.x, (uint32_t)part.y, list, count, NULL));
    encode(&tile, it->screen, part);
    free(list);
    canvas_free(&made);
    canvas_free(&tile);
}

/* A band that a thread paints. */
typedef struct {
    const view *of;
    pix_region part;
} band;

static int on_thread(void *given) {
    const band *it = given;
    paint_band(it->of, it->part);
    return 0;
}

/* Paints a part of the window, by as many threads as there are processors where it is large. */
static void paint_part(const view *it, pix_region part) {
    band bands[MOST_BANDS];
    SDL_Thread *threads[MOST_BANDS] = {NULL};
    const int is_large = (uint64_t)part.width * part.height >= LARGE;
    const uint32_t count = is_large ? (uint32_t)SDL_clamp(SDL_GetCPUCount(), 1, MOST_BANDS) : 1;
    for (uint32_t i = 0; i < count; i++) {
        const uint32_t first = part.height * i / count, end = part.height * (i + 1) / count;
        bands[i].of = it;
        bands[i].part = pix_region_of(part.x, part.y + (int32_t)first, part.width, end - first);
        if (i + 1 < count)
            threads[i] = SDL_CreateThread(on_thread, "band", &bands[i]);
        if (!threads[i])
            on_thread(&bands[i]);
    }
    for (uint32_t i = 0; i < count; i++)
        SDL_WaitThread(threads[i], NULL);
}

/* A screen as rows of four bytes a pixel: the library moves them, whatever they mean. */
static pix_image rows_of(SDL_Surface *screen) {
    pix_image image = pix_image_of(screen->pixels, (uint32_t)screen->w, (uint32_t)screen->h);
    image.stride = (uint32_t)screen->pitch / 4;
    return image;
}

/* Moves what was painted to where it is wanted on a new screen, and answers the part of the window that it covers. */
static SDL_Rect move_screen(view *it, SDL_Surface *screen) {
    SDL_Rect covered = {0, 0, 0, 0};
    if (it->screen && it->painted.zoom == it->wanted.zoom && it->painted.wide == it->wanted.wide &&
        it->painted.high == it->wanted.high) {
        SDL_Rect old = {it->wanted.x - it->painted.x, it->wanted.y - it->painted.y, it->screen->w, it->screen->h};
        SDL_Rect all = {0, 0, screen->w, screen->h};
        SDL_IntersectRect(&old, &all, &covered);
        insist(pix_do(rows_of(screen), pix_copy_image(pix_region_of(old.x, old.y, (uint32_t)old.w, (uint32_t)old.h),
                                                      pix_view_of_image(rows_of(it->screen)),
                                                      pix_region_of(0, 0, (uint32_t)old.w, (uint32_t)old.h))));
    }
    return covered;
}

/* Adds a part with points in it. */
static void add_part(painting *done, int x, int y, int width, int height) {
    SDL_Rect part = {x, y, width, height};
    if (width > 0 && height > 0)
        done->parts[done->count++] = part;
}

painting view_paint(view *it) {
    painting done = {{{0, 0, 0, 0}}, 0, 0};
    if (it->screen && !memcmp(&it->wanted, &it->painted, sizeof it->wanted))
        return done;
    int width = (int)it->wanted.width, height = (int)it->wanted.height;
    SDL_Surface *screen = insist_memory(SDL_CreateRGBSurfaceWithFormat(0, width, height, 32, SDL_PIXELFORMAT_BGRA32));
    SDL_SetSurfaceBlendMode(screen, SDL_BLENDMODE_NONE);
    SDL_Rect covered = move_screen(it, screen);
    SDL_FreeSurface(it->screen);
    it->screen = screen;
    it->painted = it->wanted;
    done.moved = covered.w > 0 && covered.h > 0;
    if (!done.moved)
        covered.y = covered.h = covered.w = covered.x = 0;
    int right = covered.x + covered.w, bottom = covered.y + covered.h;
    add_part(&done, 0, 0, width, covered.y);
    add_part(&done, 0, bottom, width, height - bottom);
    add_part(&done, 0, covered.y, covered.x, covered.h);
    add_part(&done, right, covered.y, width - right, covered.h);
    for (int i = 0; i < done.count; i++) {
        SDL_Rect part = done.parts[i];
        paint_part(it, pix_region_of(part.x, part.y, (uint32_t)part.w, (uint32_t)part.h));
    }
    return done;
}
