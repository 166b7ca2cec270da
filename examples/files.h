/* Files by hand, as examples/operate.c needs them to copy books and to damage them. Each call stops the program if it
 * cannot be done. */
#ifndef FILES_H
#define FILES_H

#include <stddef.h>
#include <stdint.h>

void files_stop(const char *why);
void files_make_folder(const char *path);
size_t files_read(const char *path, uint8_t *bytes, size_t most);
void files_write(const char *path, const uint8_t *bytes, size_t length);
void files_remove(const char *path);

/* FOLDER/book-NNNN */
const char *files_book(const char *folder, unsigned book);

/* A backup of a book, or the way back: the whole stored file. */
void files_copy_book(const char *from, const char *to, unsigned book);

#endif
