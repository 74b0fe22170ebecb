/* A viewer of pictures in files: see --help. */
#include "../common/files.h"
#include "album.h"
#include "options.h"
#include "view.h"
#include <stdio.h>
#include <stdlib.h>

/* The window, the files and the one of them that is shown. */
typedef struct {
    SDL_Window *window;
    album files;
    canvas picture;
    view shown;
    int reports, wants_full;
    int width, height; /* of the window, when it last was no full screen */
} viewer;

/* Reads what a file has, in light, into `picture`; or says why not, and answers 0. */
static int decode(const char *name, canvas *picture) {
    file_picture file;
    char sentence[FILE_SENTENCE];
    if (!file_read(name, &file, sentence)) {
        fprintf(stderr, "viewer: %s\n", sentence);
        return 0;
    }
    *picture = canvas_of(file.width, file.height);
    insist(pix_convert_bitmap(
        pix_bitmap_view_of(file.bytes, file.width, file.height, PIX_FORMAT_SRGBA8),
        pix_bitmap_of_image_rgba16(canvas_image(picture))));
    free(file.bytes);
    return 1;
}

/* Tells in the window's title which picture is shown. */
static void set_title(const viewer *it) {
    const char *name = it->files.names[it->files.at];
    char title[FILE_SENTENCE];
    snprintf(title, sizeof title, "%.200s (%zu of %zu)", name, it->files.at + 1, it->files.count);
    SDL_SetWindowTitle(it->window, title);
}

/* Shows the picture `first` steps of the album on, or the one after it by `step` where it can't be
 * read, and so on. */
static void go(viewer *it, size_t first, int step) {
    const size_t count = it->files.count;
    canvas next;
    for (size_t i = 0, at = first % count; i < count && at != it->files.at; i++) {
        if (decode(it->files.names[at], &next)) {
            view_show(&it->shown, canvas_view(&next));
            canvas_free(&it->picture);
            it->picture = next;
            it->files.at = at;
            set_title(it);
            return;
        }
        at = (at + count + (size_t)step) % count;
    }
}

/* Turns the picture as an orientation of EXIF would. */
static void turn(viewer *it, int orientation) {
    const canvas old = it->picture;
    const int is_turned = orientation > 4;
    it->picture =
        canvas_of(is_turned ? old.height : old.width, is_turned ? old.width : old.height);
    file_turn(old.pixels, old.width, old.height, sizeof *old.pixels, orientation,
              it->picture.pixels);
    free(old.pixels);
    view_show_turned(&it->shown, canvas_view(&it->picture));
}

/* Goes to full screen or back to the window, which SDL may leave as large as the screen. */
static void set_full(viewer *it) {
    if (it->wants_full)
        SDL_GetWindowSize(it->window, &it->width, &it->height);
    if (SDL_SetWindowFullscreen(it->window, it->wants_full ? SDL_WINDOW_FULLSCREEN_DESKTOP : 0))
        fail(1, "full screen", SDL_GetError());
    if (!it->wants_full)
        SDL_SetWindowSize(it->window, it->width, it->height);
}

/* Writes the screen to a file. */
static void save(const char *name, SDL_Surface *screen) {
    file_picture file = {NULL, (uint32_t)screen->w, (uint32_t)screen->h};
    char sentence[FILE_SENTENCE];
    file.bytes = insist_memory(malloc((size_t)4 * file.width * file.height));
    insist(
        pix_convert_bitmap(pix_bitmap_view_of_bitmap(view_bitmap(screen)),
                           pix_bitmap_of(file.bytes, file.width, file.height, PIX_FORMAT_SRGBA8)));
    if (!file_write_png(name, &file, sentence))
        fail(1, "", sentence);
    free(file.bytes);
}

/* Prints how the picture lies in the window, how many pixels of that were painted, and in how long. */
static void report(const view *it, long painted, double milliseconds) {
    const place *at = &it->wanted;
    char zoom[16] = "exact";
    if (at->zoom)
        snprintf(zoom, sizeof zoom, "%s%d", at->zoom < 0 ? "1/" : "", abs(at->zoom));
    printf("%u x %u, zoom %s, at %d,%d: painted %ld of %ld pixels, %.1f ms\n", (unsigned)at->width,
           (unsigned)at->height, zoom, (int)at->x, (int)at->y, painted,
           (long)at->width * (long)at->height, milliseconds);
}

/* Paints what changed, and shows it; all of the window where it has to be shown anyway, as after
 * another window was over it. */
static void show(viewer *of, int all) {
    view *it = &of->shown;
    const Uint64 before = SDL_GetPerformanceCounter();
    painting done = view_paint(it);
    const double seconds = (double)(SDL_GetPerformanceCounter() - before) / (double)SDL_GetPerformanceFrequency();
    SDL_Surface *shown = SDL_GetWindowSurface(of->window);
    SDL_Rect whole = {0, 0, it->screen->w, it->screen->h};
    SDL_Rect *parts = all || done.moved ? &whole : done.parts;
    int count = all || done.moved ? 1 : done.count;
    long painted = 0;
    for (int i = 0; i < done.count; i++)
        painted += (long)done.parts[i].w * done.parts[i].h;
    if (of->reports && (done.count || done.moved))
        report(it, painted, 1000 * seconds);
    if (!shown)
        fail(1, "the window", SDL_GetError());
    for (int i = 0; i < count; i++)
        if (SDL_BlitSurface(it->screen, &parts[i], shown, &parts[i]))
            fail(1, "the window", SDL_GetError());
    if (count && SDL_UpdateWindowSurfaceRects(of->window, parts, count))
        fail(1, "the window", SDL_GetError());
}

/* Does what a key says of the place of the picture. */
static void on_place_key(view *it, SDL_Keycode key) {
    const int32_t step = 32, middle_x = (int32_t)it->wanted.width / 2,
                  middle_y = (int32_t)it->wanted.height / 2;
    switch (key) {
    case SDLK_LEFT: view_pan(it, step, 0); break;
    case SDLK_RIGHT: view_pan(it, -step, 0); break;
    case SDLK_UP: view_pan(it, 0, step); break;
    case SDLK_DOWN: view_pan(it, 0, -step); break;
    case SDLK_PLUS:
    case SDLK_EQUALS:
    case SDLK_KP_PLUS: view_zoom(it, view_next_zoom(it, 1), middle_x, middle_y); break;
    case SDLK_MINUS:
    case SDLK_KP_MINUS: view_zoom(it, view_next_zoom(it, -1), middle_x, middle_y); break;
    case SDLK_1: view_zoom(it, 1, middle_x, middle_y); break;
    case SDLK_f: view_fit(it, MOST_ZOOM); break;
    case SDLK_e: view_fit(it, EXACTLY); break;
    }
}

/* Does what a key says, and answers whether the program goes on. */
static int on_key(viewer *it, SDL_Keycode key) {
    const size_t at = it->files.at, last = it->files.count - 1;
    switch (key) {
    case SDLK_n:
    case SDLK_SPACE:
    case SDLK_PAGEDOWN: go(it, at + 1, 1); break;
    case SDLK_p:
    case SDLK_BACKSPACE:
    case SDLK_PAGEUP: go(it, at + last, -1); break;
    case SDLK_HOME: go(it, 0, 1); break;
    case SDLK_END: go(it, last, -1); break;
    case SDLK_r: turn(it, 6); break;
    case SDLK_l: turn(it, 8); break;
    case SDLK_m: turn(it, 2); break;
    case SDLK_F11:
    case SDLK_RETURN: it->wants_full = !it->wants_full; break;
    case SDLK_q: return 0;
    case SDLK_ESCAPE:
        if (!it->wants_full)
            return 0;
        it->wants_full = 0;
        break;
    default: on_place_key(&it->shown, key);
    }
    return 1;
}

/* Does what an event says, sets `all` where the window lost what it showed, and answers whether
 * the program goes on. */
static int on_event(viewer *of, const SDL_Event *event, int *all) {
    view *it = &of->shown;
    switch (event->type) {
    case SDL_QUIT: return 0;
    case SDL_KEYDOWN: return on_key(of, event->key.keysym.sym);
    case SDL_MOUSEWHEEL:
        view_zoom(it, view_next_zoom(it, event->wheel.y), event->wheel.mouseX,
                  event->wheel.mouseY);
        break;
    case SDL_MOUSEMOTION:
        if (event->motion.state & SDL_BUTTON_LMASK)
            view_pan(it, event->motion.xrel, event->motion.yrel);
        break;
    case SDL_WINDOWEVENT:
        if (event->window.event == SDL_WINDOWEVENT_SIZE_CHANGED)
            view_resize(it, (uint32_t)event->window.data1, (uint32_t)event->window.data2);
        *all |= event->window.event == SDL_WINDOWEVENT_SIZE_CHANGED ||
                event->window.event == SDL_WINDOWEVENT_EXPOSED;
        break;
    }
    return 1;
}

/* Does all that waits, and answers whether the program goes on. */
static int take_events(viewer *it, int *all) {
    SDL_Event event;
    int goes_on = 1;
    while (goes_on && SDL_PollEvent(&event))
        goes_on = on_event(it, &event, all);
    return goes_on;
}

/* Does all that waits, and shows what comes of it. Answers whether the program goes on. */
static int on_events(viewer *it) {
    int all = 0, goes_on = take_events(it, &all);
    const int is_full = (SDL_GetWindowFlags(it->window) & SDL_WINDOW_FULLSCREEN) != 0;
    if (goes_on && is_full != it->wants_full) {
        /* What SDL tells of it comes by events of its own. */
        set_full(it);
        goes_on = take_events(it, &all);
    }
    show(it, all);
    return goes_on;
}

/* Goes on for so long as if nothing were played. */
static int wait_for(viewer *it, int milliseconds) {
    const Uint64 end = SDL_GetTicks64() + (Uint64)milliseconds;
    int goes_on = 1;
    for (Uint64 now = SDL_GetTicks64(); goes_on && now < end; now = SDL_GetTicks64())
        if (SDL_WaitEventTimeout(NULL, (int)(end - now)))
            goes_on = on_events(it);
    return goes_on;
}

/* Does what was asked for by --play, as if a user did it. */
static void play(viewer *it, const options *chosen) {
    int goes_on = 1;
    for (size_t i = 0; i < chosen->count && goes_on; i++) {
        action *next = &chosen->actions[i];
        if (next->width)
            SDL_SetWindowSize(it->window, next->width, next->height);
        else if (next->event.type)
            SDL_PushEvent(&next->event);
        goes_on = next->wait ? wait_for(it, next->wait) : on_events(it);
    }
}

/* Reads the file that was named alone, or else the first one that can be read; or ends the
 * program. */
static void open_album(viewer *it, const options *chosen) {
    it->files = album_of(chosen->files, chosen->file_count);
    while (!decode(it->files.names[it->files.at], &it->picture))
        if (it->files.is_of_file || ++it->files.at == it->files.count)
            exit(1);
}

/* Opens the window, with what was asked for in it. */
static void open_window(viewer *it, const options *chosen) {
    int width = chosen->width, height = chosen->height;
    if (SDL_Init(SDL_INIT_VIDEO))
        fail(1, "the screen", SDL_GetError());
    it->window = SDL_CreateWindow("viewer", SDL_WINDOWPOS_UNDEFINED, SDL_WINDOWPOS_UNDEFINED,
                                  width, height, SDL_WINDOW_RESIZABLE);
    if (!it->window)
        fail(1, "the window", SDL_GetError());
    set_title(it);
    it->wants_full = chosen->is_full;
    if (it->wants_full)
        set_full(it);
    SDL_GetWindowSize(it->window, &width, &height);
    view_open(&it->shown, canvas_view(&it->picture), (uint32_t)width, (uint32_t)height);
    if (chosen->is_exact)
        view_fit(&it->shown, EXACTLY);
}

int main(int argc, char **argv) {
    file_begin();
    options chosen = options_of(argc, argv);
    viewer it = {.reports = chosen.reports};
    insist(pix_check_library());
    open_album(&it, &chosen);
    open_window(&it, &chosen);
    int goes_on = on_events(&it);
    if (chosen.plays)
        play(&it, &chosen);
    while (!chosen.plays && goes_on && SDL_WaitEvent(NULL))
        goes_on = on_events(&it);
    if (chosen.save)
        save(chosen.save, it.shown.screen);
    view_close(&it.shown);
    canvas_free(&it.picture);
    album_free(&it.files);
    free(chosen.files);
    free(chosen.actions);
    SDL_DestroyWindow(it.window);
    SDL_Quit();
    end_output();
    return 0;
}
