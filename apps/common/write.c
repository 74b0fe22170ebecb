#define _XOPEN_SOURCE 700
#include "write.h"
#include "readers.h"

#include <errno.h>
#include <fcntl.h>
#include <stdlib.h>
#include <string.h>
#include <sys/stat.h>
#include <unistd.h>

void file_begin(void) {
    for (int it = 0; it < 3; it++)
        if (fcntl(it, F_GETFD) < 0 && open("/dev/null", O_RDONLY) != it)
            return;
}

int file_end_output(char sentence[FILE_SENTENCE]) {
    errno = 0;
    if (!fflush(stdout) && !ferror(stdout))
        return 1;
    return file_refuse(sentence, "standard output", strerror(errno ? errno : EIO));
}

/* The name of a file that a link leads to, or this name, in memory of malloc. */
static char *name_behind(const char *name) {
    char *behind = realpath(name, NULL);
    return behind || errno != ENOENT ? behind : strdup(name);
}

/* Opens a new file beside the one of this name, with these rights. */
static FILE *open_beside(file_new *it, mode_t rights) {
    const size_t room = strlen(it->name) + 32;
    it->beside = malloc(room);
    if (!it->beside)
        return NULL;
    snprintf(it->beside, room, "%s.%ld", it->name, (long)getpid());
    const int made = open(it->beside, O_WRONLY | O_CREAT | O_EXCL | O_CLOEXEC, rights);
    it->file = made < 0 ? NULL : fdopen(made, "wb");
    if (!it->file) {
        free(it->beside);
        it->beside = NULL;
    }
    return it->file;
}

int file_new_open(file_new *it, const char *name) {
    struct stat old, link;
    const int is_there = !stat(name, &old);
    memset(it, 0, sizeof *it);
    if (is_there ? !S_ISREG(old.st_mode) : !lstat(name, &link)) {
        it->file = fopen(name, "wb");
        return it->file != NULL;
    }
    if (is_there && access(name, W_OK))
        return 0;
    it->name = name_behind(name);
    if (!it->name || !open_beside(it, is_there ? old.st_mode & 0777 : 0666)) {
        const int why = errno;
        free(it->name);
        errno = why;
        return 0;
    }
    if (is_there)
        fchmod(fileno(it->file), old.st_mode & 0777);
    return 1;
}

int file_new_close(file_new *it, int is_whole) {
    const int is_closed = !fclose(it->file);
    int is_done = is_whole && is_closed;
    if (it->beside && is_done)
        is_done = !rename(it->beside, it->name);
    const int why = errno;
    if (it->beside && !is_done)
        remove(it->beside);
    free(it->beside);
    free(it->name);
    errno = why;
    return is_done;
}
