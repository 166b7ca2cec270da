/* See files.h. */
#define _POSIX_C_SOURCE 200809L
#include "files.h"

#include "store.h"

#include <limits.h>
#include <stdio.h>
#include <stdlib.h>
#include <sys/stat.h>
#include <unistd.h>

void files_stop(const char *why) {
    perror(why);
    exit(1);
}

void files_make_folder(const char *path) {
    if (mkdir(path, 0777) != 0) files_stop(path);
}

size_t files_read(const char *path, uint8_t *bytes, size_t most) {
    FILE *file = fopen(path, "rb");
    if (file == NULL) files_stop(path);
    size_t length = fread(bytes, 1, most, file);
    fclose(file);
    return length;
}

void files_write(const char *path, const uint8_t *bytes, size_t length) {
    FILE *file = fopen(path, "wb");
    if (file == NULL || fwrite(bytes, 1, length, file) != length || fclose(file) != 0) files_stop(path);
}

void files_remove(const char *path) {
    if (unlink(path) != 0) files_stop(path);
}

const char *files_book(const char *folder, unsigned book) {
    static char path[PATH_MAX];
    snprintf(path, sizeof path, "%s/book-%04u", folder, book);
    return path;
}

void files_copy_book(const char *from, const char *to, unsigned book) {
    uint8_t bytes[STORE_BYTES];
    size_t length = files_read(files_book(from, book), bytes, sizeof bytes);
    files_write(files_book(to, book), bytes, length);
}
