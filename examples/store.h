/* A book of sales in a file, so that it survives a crash: the stored form, and how it is read and written.
 *
 * The stored form is the same as that of the Rust crate. All numbers are little-endian, whatever the processor:
 *
 *     bytes 0 to 7             OFFERSBK
 *     bytes 8 to 11            the version of the form, 1
 *     bytes 12 to 15           the count of words, 16,385
 *     bytes 16 to 65,555       the words of the book
 *     bytes 65,556 to 65,559   CRC-32 (that of zlib) of all bytes before it
 *
 * A book is written beside the old one, to PATH.new, flushed, and renamed to PATH; then the folder is flushed. So PATH
 * is the old book or the new one wherever this is cut off. PATH.new is never read, and is overwritten if it is there.
 *
 * One process at a time may save to a path. The file is a new one, with the permissions of a new one; if PATH is a
 * link, the link is replaced. Nothing here needs the heap; a load takes some 132,000 bytes of stack. */
#ifndef STORE_H
#define STORE_H

#include <stddef.h>
#include <stdint.h>

#ifdef __cplusplus
extern "C" {
#endif

#define STORE_BYTES 65560
#define STORE_FORM 1

enum store_result {
    STORE_DONE = 0,
    STORE_NO_FILE,      /* there is no such file */
    STORE_NOT_READ,     /* the file could not be read; errno says why */
    STORE_NOT_WRITTEN,  /* the book could not be saved; errno says why. The file holds the old book or the new one */
    STORE_NOT_A_BOOK,   /* the bytes do not begin with OFFERSBK */
    STORE_FORM_UNKNOWN, /* the version of the form is not 1 */
    STORE_WRONG_LENGTH, /* there are not 65,560 bytes */
    STORE_CHECKSUM,     /* the checksum is not that of the bytes */
    STORE_UNSOUND       /* the book is unsound (number 21) */
};

/* What a result says, in words. */
const char *store_text(int result);

/* Writes the stored form of a book, STORE_BYTES bytes. */
void store_to_bytes(const uint32_t *book, uint8_t *bytes);

/* Reads a stored form of any length: STORE_NOT_A_BOOK and the results after it, in this order. Unless the result is
 * STORE_DONE, the book is not changed. */
int store_from_bytes(const uint8_t *bytes, size_t length, uint32_t *book);

/* Saves a book: STORE_UNSOUND, with nothing written, or STORE_NOT_WRITTEN. After STORE_DONE the new book stands, even
 * if the power fails: on a disk that keeps what it was told to flush. */
int store_save(const char *path, const uint32_t *book);

/* Loads a book: STORE_NO_FILE, STORE_NOT_READ, then as store_from_bytes. */
int store_load(const char *path, uint32_t *book);

#ifdef __cplusplus
}
#endif

#endif
