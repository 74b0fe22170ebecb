#include "options.h"
#include "../common/files.h"
#include "scale.h"
#include <stdio.h>
#include <stdlib.h>

static const char usage[] =
    "usage: viewer [OPTION].. FILE..\n"
    "Shows pictures over a checkerboard, one at a time: files of %s, and folders of them.\n"
    "Where a single file is named, the others of its folder are the next and previous ones.\n"
    "\n"
    "  --size WxH      the size of the window at first (640x480)\n"
    "  --full          begin in full screen\n"
    "  --exact         begin as by E, and not as large as fits by whole factors\n"
    "  --play WORDS    do what these words say, one after the other, and end: the name of a key,\n"
    "                  wheel=STEPS@X,Y, drag=DX,DY, WxH for another size of the window, or "
    "wait=MILLISECONDS\n"
    "  --save PNG      write what the window shows at the end\n"
    "  --report        print a line for each painting: how much of the window was painted, in how long\n"
    "  --help          print this\n"
    "\n"
    "  N, Space, PageDown      the next picture\n"
    "  P, Backspace, PageUp    the previous one\n"
    "  Home, End               the first and the last one\n"
    "  arrows, a drag          pan\n"
    "  + and -, the wheel      zoom by whole factors\n"
    "  1                       the picture at its own size\n"
    "  F                       as large as fits, by whole factors\n"
    "  E                       exactly as large as fits\n"
    "  R, L                    turn to the right, to the left\n"
    "  M                       mirror\n"
    "  F11, Return             full screen, and back\n"
    "  Q, Escape               end; Escape leaves full screen first\n"
    "\n"
    "It needs a screen; SDL_VIDEODRIVER=dummy does without one. GIF and WebP files need libgif "
    "and libwebp\n"
    "when the program is built. Pictures are turned upright by their EXIF, of several frames the "
    "first one\n"
    "is shown, and CMYK becomes (255 - ink) * (255 - black) / 255: no profile of colors is read.\n"
    "The status is 0, 1 after a file that can't be read or written, or 2 after another use.\n";

void fail(int status, const char *about, const char *what) {
    fprintf(stderr, "viewer: %s%s%s\n", about, *about ? ": " : "", what);
    if (status == 2)
        fprintf(stderr, "viewer: try viewer --help\n");
    exit(status);
}

void end_output(void) {
    char sentence[FILE_SENTENCE];
    if (!file_end_output(sentence))
        fail(1, "", sentence);
}

/* Whether a text is a width and a height with an `x` between them, from 1 to 16384. */
static int read_size(const char *text, int *width, int *height) {
    char rest;
    return sscanf(text, "%5dx%5d%c", width, height, &rest) == 2 && *width >= 1 && *height >= 1 &&
           *width <= 16384 && *height <= 16384;
}

/* Whether a text is a word of --play. */
static int read_action(const char *word, action *it) {
    int x, y, steps;
    char rest;
    memset(it, 0, sizeof *it);
    if (read_size(word, &it->width, &it->height))
        return 1;
    it->width = 0;
    if (sscanf(word, "wait=%9d%c", &it->wait, &rest) == 1)
        return it->wait > 0;
    if (sscanf(word, "wheel=%5d@%5d,%5d%c", &steps, &x, &y, &rest) == 3) {
        it->event.type = SDL_MOUSEWHEEL;
        it->event.wheel.y = steps;
        it->event.wheel.mouseX = x;
        it->event.wheel.mouseY = y;
    } else if (sscanf(word, "drag=%5d,%5d%c", &x, &y, &rest) == 2) {
        it->event.type = SDL_MOUSEMOTION;
        it->event.motion.state = SDL_BUTTON_LMASK;
        it->event.motion.xrel = x;
        it->event.motion.yrel = y;
    } else {
        it->event.type = SDL_KEYDOWN;
        it->event.key.keysym.sym = SDL_GetKeyFromName(word);
        return it->event.key.keysym.sym != SDLK_UNKNOWN;
    }
    return 1;
}

/* Takes the words of --play. */
static void read_actions(options *it, const char *text) {
    char *words = insist_memory(strdup(text));
    it->plays = 1;
    for (char *word = strtok(words, " "); word; word = strtok(NULL, " ")) {
        it->actions = insist_memory(realloc(it->actions, (it->count + 1) * sizeof *it->actions));
        if (!read_action(word, &it->actions[it->count++]))
            fail(2, word, "no key has this name, and it is no other word of --play");
    }
    free(words);
}

/* Takes an option with its value, and answers whether it is one. */
static int set_value(options *it, const char *word, const char *value) {
    if (strcmp(word, "--size") && strcmp(word, "--play") && strcmp(word, "--save"))
        return 0;
    if (!value)
        fail(2, word, "a value is missing");
    if (!strcmp(word, "--play"))
        read_actions(it, value);
    else if (!strcmp(word, "--save"))
        it->save = value;
    else if (!read_size(value, &it->width, &it->height))
        fail(2, value, "a size is WxH, with sides from 1 to 16384");
    return 1;
}

/* Takes an option without a value, and answers whether it is one. */
static int set_flag(options *it, const char *word) {
    int *flag = !strcmp(word, "--report")  ? &it->reports
                : !strcmp(word, "--full")  ? &it->is_full
                : !strcmp(word, "--exact") ? &it->is_exact
                                           : NULL;
    if (flag)
        *flag = 1;
    return flag != NULL;
}

options options_of(int argc, char **argv) {
    options it = {NULL, NULL, 0, 640, 480, 0, 0, 0, 0, NULL, 0};
    it.files = insist_memory(malloc((size_t)argc * sizeof *it.files + 1));
    for (int i = 1; i < argc; i++) {
        if (!strcmp(argv[i], "--help")) {
            printf(usage, file_kinds());
            end_output();
            exit(0);
        } else if (set_value(&it, argv[i], i + 1 < argc ? argv[i + 1] : NULL)) {
            i++;
        } else if (argv[i][0] != '-' || !argv[i][1]) {
            it.files[it.file_count++] = argv[i];
        } else if (!set_flag(&it, argv[i])) {
            fail(2, argv[i], "there is no such option");
        }
    }
    if (!it.file_count)
        fail(2, "", "name a PNG or JPEG file, or another picture");
    return it;
}
