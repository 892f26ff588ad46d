#define _XOPEN_SOURCE 700

#include "outputs.h"

#include <errno.h>
#include <fcntl.h>
#include <signal.h>
#include <stdio.h>
#include <stdlib.h>
#include <string.h>
#include <unistd.h>

#include "files.h"

static bool write_all(int file, const uint8_t *bytes, size_t len)
{
    while (len > 0) {
        ssize_t written = write(file, bytes, len);
        if (written < 0 && errno == EINTR)
            continue;
        if (written < 0)
            return false;
        bytes += written;
        len -= (size_t)written;
    }
    return true;
}

/* Closes a file after work that was good or not, and keeps the first error. */
static bool close_after(int file, bool good)
{
    int why = errno;
    if (close(file) != 0 && good)
        return false;
    errno = why;
    return good;
}

/* How much of a path names the folder, its last / too. */
static size_t folder_len(const char *path)
{
    const char *slash = strrchr(path, '/');
    return slash != NULL ? (size_t)(slash - path) + 1 : 0;
}

/* The folder of a file, and a name there, to be freed. */
static char *beside(const char *path, const char *name)
{
    size_t folder = folder_len(path), room = strlen(name) + 1;
    char *other = malloc(folder + room);
    if (other != NULL) {
        memcpy(other, path, folder);
        memcpy(other + folder, name, room);
    }
    return other;
}

/* A file that isn't there yet: it is known by its folder. A link that leads
 * nowhere stays. */
static bool find_new_target(struct output *output)
{
    char *folder = beside(output->path, ".");
    bool good = folder != NULL && stat(folder, &output->known_by) == 0;
    struct stat link;
    free(folder);
    if (good && lstat(output->path, &link) == 0) {
        errno = ENOENT;
        good = false;
    }
    output->is_new = true;
    output->target = good ? strdup(output->path) : NULL;
    return output->target != NULL;
}

/* Finds the file that will be replaced, links followed. What isn't a file (a
 * terminal, a pipe, a device) can't be replaced: it has no target. */
static bool find_target(struct output *output)
{
    struct stat *found = &output->known_by;
    if (is_standard(output->path))
        return fstat(STDOUT_FILENO, found) == 0;
    if (stat(output->path, found) != 0)
        return errno == ENOENT && find_new_target(output);
    if (S_ISDIR(found->st_mode)) {
        errno = EISDIR;
        return false;
    }
    if (!S_ISREG(found->st_mode))
        return true;
    if (access(output->path, W_OK) == 0)
        output->target = realpath(output->path, NULL);
    return output->target != NULL;
}

/* Whether two names stand for one file. */
static bool is_same(const struct output *a, const struct output *b)
{
    return a->is_new == b->is_new && a->known_by.st_dev == b->known_by.st_dev &&
           a->known_by.st_ino == b->known_by.st_ino &&
           (!a->is_new || strcmp(a->path + folder_len(a->path), b->path + folder_len(b->path)) == 0);
}

static bool are_different(const struct output *outputs, size_t count)
{
    for (size_t i = 1; i < count; i++) {
        for (size_t j = 0; j < i; j++) {
            if (is_same(&outputs[i], &outputs[j])) {
                say("%s and %s are one file", outputs[j].path, outputs[i].path);
                return false;
            }
        }
    }
    return true;
}

/* Writes to what can't be replaced. */
static bool write_in_place(struct output *output)
{
    if (output->target != NULL)
        return true;
    if (is_standard(output->path))
        return write_all(STDOUT_FILENO, output->bytes, output->len);
    int file = open(output->path, O_WRONLY);
    return file >= 0 && close_after(file, write_all(file, output->bytes, output->len));
}

/* The mode of a file that open would make. */
static mode_t new_mode(void)
{
    mode_t mask = umask(0);
    umask(mask);
    return 0666 & ~mask;
}

/* Gives a file the owner, as far as the user may, and the mode of the one whose
 * place it will take, or the mode of a new one. */
static bool set_owner_and_mode(int file, const struct output *output)
{
    const struct stat *old = &output->known_by;
    if (output->is_new)
        return fchmod(file, new_mode()) == 0;
    if (fchown(file, old->st_uid, old->st_gid) != 0 && errno != EPERM)
        return false;
    return fchmod(file, old->st_mode & 0777) == 0;
}

/* Writes the bytes beside the target and sees them safe on the disk. */
static bool write_temporary(struct output *output)
{
    if (output->target == NULL)
        return true;
    char *name = beside(output->target, ".palette.XXXXXX");
    int file = name != NULL ? mkstemp(name) : -1;
    if (file < 0) {
        int why = errno;
        free(name);
        errno = why;
        return false;
    }
    output->temporary = name;
    return close_after(file, write_all(file, output->bytes, output->len) &&
                                 set_owner_and_mode(file, output) && fsync(file) == 0);
}

static bool replace_target(struct output *output)
{
    if (output->target == NULL)
        return true;
    if (rename(output->temporary, output->target) != 0)
        return false;
    free(output->temporary);
    output->temporary = NULL;
    return true;
}

/* One step for all the files; says what is wrong. */
static bool each(struct output *outputs, size_t count, bool (*step)(struct output *))
{
    for (size_t i = 0; i < count; i++) {
        if (!step(&outputs[i])) {
            complain(is_standard(outputs[i].path) ? "standard output" : outputs[i].path);
            return false;
        }
    }
    return true;
}

/* Signals wait until no temporary file is left. */
static bool replace_files(struct output *outputs, size_t count)
{
    sigset_t all, before;
    sigfillset(&all);
    sigprocmask(SIG_BLOCK, &all, &before);
    bool good = each(outputs, count, write_temporary) && each(outputs, count, replace_target);
    for (size_t i = 0; i < count; i++) {
        if (outputs[i].temporary != NULL)
            unlink(outputs[i].temporary);
    }
    sigprocmask(SIG_SETMASK, &before, NULL);
    return good;
}

bool write_files(struct output *outputs, size_t count)
{
    for (size_t i = 0; i < count; i++) {
        outputs[i].target = outputs[i].temporary = NULL;
        outputs[i].is_new = false;
    }
    bool good = each(outputs, count, find_target) && are_different(outputs, count) &&
                each(outputs, count, write_in_place) && replace_files(outputs, count);
    for (size_t i = 0; i < count; i++) {
        free(outputs[i].temporary);
        free(outputs[i].target);
    }
    return good;
}
