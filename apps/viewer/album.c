#include "album.h"
#include "../common/files.h"
#include "options.h"
#include "scale.h"

#include <dirent.h>
#include <errno.h>
#include <stdio.h>
#include <stdlib.h>
#include <sys/stat.h>

static int is_digit(char letter) { return letter >= '0' && letter <= '9'; }

/* Takes the digits at the start of a text, without zeros before them, and answers how many there
 * are. */
static size_t take_number(const char **text) {
    size_t count = 0;
    while (**text == '0')
        ++*text;
    while (is_digit((*text)[count]))
        count++;
    return count;
}

/* Compares names as people order them: 2.png is before 10.png. */
static int compare_names(const void *one, const void *other) {
    const char *a = *(char *const *)one, *b = *(char *const *)other;
    while (*a && *b) {
        if (is_digit(*a) && is_digit(*b)) {
            const size_t digits = take_number(&a), others = take_number(&b);
            const int order = digits != others ? (digits < others ? -1 : 1) : memcmp(a, b, digits);
            if (order)
                return order;
            a += digits;
            b += digits;
        } else if (*a != *b) {
            return (unsigned char)*a < (unsigned char)*b ? -1 : 1;
        } else {
            a++;
            b++;
        }
    }
    return *a || *b ? (*a ? 1 : -1) : strcmp(*(char *const *)one, *(char *const *)other);
}

/* Adds a name: what is before it, of this length, and the rest. */
static void add(album *it, const char *before, size_t length, const char *rest) {
    char *name = insist_memory(malloc(length + strlen(rest) + 2));
    memcpy(name, before, length);
    if (length && before[length - 1] != '/')
        name[length++] = '/';
    strcpy(name + length, rest);
    it->names = insist_memory(realloc(it->names, (it->count + 1) * sizeof *it->names));
    it->names[it->count++] = name;
}

static int is_folder(const char *name) {
    struct stat found;
    return !stat(name, &found) && S_ISDIR(found.st_mode);
}

/* Adds the pictures of the folder that the first letters of a text name, in order; and `shown`,
 * whatever its name is. Answers whether the folder could be read. */
static int add_folder(album *it, const char *text, size_t length, const char *shown) {
    const size_t first = it->count;
    char *folder = insist_memory(strdup(length ? text : "."));
    if (length)
        folder[length] = 0;
    DIR *all = opendir(folder);
    free(folder);
    if (!all)
        return 0;
    for (struct dirent *entry; (entry = readdir(all));) {
        const int is_shown = shown && !strcmp(entry->d_name, shown);
        if (!is_shown && !file_is_named_so(entry->d_name))
            continue;
        add(it, text, length, entry->d_name);
        if (!is_shown && is_folder(it->names[it->count - 1]))
            free(it->names[--it->count]);
    }
    closedir(all);
    if (it->count > first) /* of no pictures there may be no array */
        qsort(it->names + first, it->count - first, sizeof *it->names, compare_names);
    return 1;
}

/* Adds all of the folder of a file, and finds the file among them; the file alone where the folder
 * can't be read. */
static void add_around(album *it, const char *file) {
    const char *slash = strrchr(file, '/'), *name = slash ? slash + 1 : file;
    if (!add_folder(it, file, (size_t)(name - file), name))
        add(it, "", 0, file);
    for (it->at = 0; it->at < it->count && strcmp(it->names[it->at], file);)
        it->at++;
    if (it->at == it->count)
        add(it, "", 0, file);
}

album album_of(char **words, int count) {
    album it = {NULL, 0, 0, count == 1 && !is_folder(words[0])};
    for (int i = 0; i < count; i++) {
        const size_t before = it.count;
        if (it.is_of_file)
            add_around(&it, words[i]);
        else if (!is_folder(words[i]))
            add(&it, "", 0, words[i]);
        else if (!add_folder(&it, words[i], strlen(words[i]), NULL))
            fail(1, words[i], strerror(errno));
        else if (it.count == before)
            fail(1, words[i], "there is no picture in this folder");
    }
    return it;
}

void album_free(album *it) {
    for (size_t i = 0; i < it->count; i++)
        free(it->names[i]);
    free(it->names);
}
