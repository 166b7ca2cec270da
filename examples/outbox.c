/* See outbox.h. */
#define _POSIX_C_SOURCE 200809L
#include "outbox.h"

#include <errno.h>
#include <fcntl.h>
#include <inttypes.h>
#include <limits.h>
#include <stdio.h>
#include <string.h>
#include <unistd.h>

static int path_of(const char *folder, const char *what, uint64_t sequence, char *path) {
    if (snprintf(path, PATH_MAX, "%s/%s-%" PRIu64, folder, what, sequence) < PATH_MAX) return 1;
    errno = ENAMETOOLONG;
    return 0;
}

static int flush_and_close(int file, int result) {
    if (result == 0) result = fsync(file);
    int why = errno;
    close(file);
    errno = why;
    return result;
}

int outbox_note(const char *folder, const char *what, uint64_t sequence, const char *bundle) {
    char path[PATH_MAX];
    if (!path_of(folder, what, sequence, path)) return -1;
    int file = open(path, O_WRONLY | O_CREAT | O_TRUNC | O_CLOEXEC, 0666);
    if (file < 0) return -1;
    ssize_t length = (ssize_t)strlen(bundle);
    if (flush_and_close(file, write(file, bundle, (size_t)length) == length ? 0 : -1) != 0) return -1;
    int opened = open(folder, O_RDONLY | O_DIRECTORY | O_CLOEXEC);
    return opened < 0 ? -1 : flush_and_close(opened, 0);
}

int outbox_has(const char *folder, const char *what, uint64_t sequence, char bundle[BUNDLE_NAME]) {
    char path[PATH_MAX];
    if (!path_of(folder, what, sequence, path)) return 0;
    FILE *file = fopen(path, "rb");
    if (file == NULL) return 0;
    size_t length = fread(bundle, 1, BUNDLE_NAME - 1, file);
    fclose(file);
    bundle[length] = 0;
    return 1;
}

void outbox_strike_out(const char *folder, const char *what, uint64_t sequence) {
    char path[PATH_MAX];
    if (path_of(folder, what, sequence, path)) unlink(path);
}
