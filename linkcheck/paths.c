/* The files that are to be checked, in order. */
#define _POSIX_C_SOURCE 200809L
#include "paths.h"
#include "names.h"
#include "output.h"

#include <dirent.h>
#include <errno.h>
#include <fnmatch.h>
#include <stdio.h>
#include <stdlib.h>
#include <string.h>
#include <sys/stat.h>

static char *copy_of(const char *words) {
    char *copy = strdup(words);
    if (!copy) no_memory();
    return copy;
}

/* Keeps the name and the text, which are on the heap. */
static void keep(struct paths *p, char *name, const char *wrong, struct text *text) {
    if (p->count == p->room) {
        p->room = p->room ? 2 * p->room : 64;
        p->path = realloc(p->path, p->room * sizeof *p->path);
        if (!p->path) no_memory();
    }
    p->path[p->count++] = (struct path){name, wrong ? copy_of(wrong) : NULL, text};
}

static char *joined(const char *folder, const char *name) {
    size_t length = strlen(folder);
    const char *slash = length && folder[length - 1] == '/' ? "" : "/";
    char *path = malloc(length + strlen(name) + 2);
    if (!path) no_memory();
    sprintf(path, "%s%s%s", folder, slash, name);
    return path;
}

static int not_hidden(const struct dirent *entry) {
    return entry->d_name[0] != '.';
}

static void add_folder(struct paths *p, const char *folder);

static bool fits(const struct paths *p, const char *name) {
    const int answer = fnmatch(p->pattern, strrchr(name, '/') + 1, 0);
    if (answer != 0 && answer != FNM_NOMATCH) give_up("the pattern of --glob can't be used");
    return answer == 0;
}

/* What can't be a folder is left out unless its name fits. A link to a folder is not followed, as it may lead back. */
static void add_entry(struct paths *p, char *name) {
    struct stat link, file;
    const int known = lstat(name, &link), told = stat(name, &file), error = errno;
    if (known == 0 && told == 0 && S_ISDIR(link.st_mode)) {
        add_folder(p, name);
        free(name);
    } else if (known == 0 && told == 0 && S_ISDIR(file.st_mode)) {
        keep(p, name, "a link to a folder, not followed", NULL);
    } else if (known == 0 && (told == 0 || S_ISLNK(link.st_mode)) && !fits(p, name)) {
        free(name);
    } else if (known != 0 || told != 0) {
        keep(p, name, strerror(error), NULL);
    } else {
        keep(p, name, S_ISREG(file.st_mode) ? NULL : "not a file", NULL);
    }
}

static void add_folder(struct paths *p, const char *folder) {
    struct dirent **entry;
    int count = scandir(folder, &entry, not_hidden, alphasort);
    if (count < 0) {
        keep(p, copy_of(folder), strerror(errno), NULL);
        return;
    }
    for (int i = 0; i < count; i++) {
        add_entry(p, joined(folder, entry[i]->d_name));
        free(entry[i]);
    }
    free(entry);
}

/* A folder in which nothing was found. */
static void keep_empty(struct paths *p, const char *name) {
    struct output words = {.file = KEPT};
    put(&words, "no table in this folder: no file named ");
    put_name(&words, p->pattern);
    put(&words, "; --glob takes others");
    put_bytes(&words, "", 1);
    if (words.error) no_memory();
    keep(p, copy_of(name), words.bytes, NULL);
    free(words.bytes);
}

static void add_and_read(struct paths *p, const char *name) {
    struct text *text = malloc(sizeof *text);
    if (!text) no_memory();
    int error = text_read(text, name);
    keep(p, copy_of(name), error ? strerror(error) : NULL, text);
}

void paths_add(struct paths *p, const char *name) {
    struct stat file;
    const size_t before = p->count;
    if (strcmp(name, "-") == 0) {
        add_and_read(p, name);
    } else if (stat(name, &file) != 0) {
        keep(p, copy_of(name), strerror(errno), NULL);
    } else if (S_ISDIR(file.st_mode)) {
        add_folder(p, name);
        if (p->count == before) keep_empty(p, name);
    } else if (S_ISREG(file.st_mode)) {
        keep(p, copy_of(name), NULL, NULL);
    } else {
        add_and_read(p, name);
    }
}

void paths_free(struct paths *p) {
    for (size_t i = 0; i < p->count; i++) {
        free(p->path[i].name);
        free(p->path[i].wrong);
        free(p->path[i].text);
    }
    free(p->path);
}
