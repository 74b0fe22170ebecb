/* options.h - what the viewer was asked for. */
#ifndef OPTIONS_H
#define OPTIONS_H

#include <SDL.h>

/* What a word of --play makes happen: an event, or else another size of the window, or else so
 * many milliseconds of waiting. */
typedef struct {
    SDL_Event event;
    int width, height, wait;
} action;

typedef struct {
    char **files; /* files and folders, as they were named */
    const char *save;
    int file_count, width, height, reports, plays, is_full, is_exact;
    action *actions;
    size_t count;
} options;

/* Reads the words of the command line. Prints the help, or a sentence about a wrong one, and ends
 * the program then. The caller frees `files` and `actions`. */
options options_of(int argc, char **argv);

/* Ends the program with a sentence. */
void fail(int status, const char *about, const char *what);

/* Prints what waits on standard output, or ends the program with a sentence. */
void end_output(void);

#endif
