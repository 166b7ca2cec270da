/* See store.h. */
#define _POSIX_C_SOURCE 200809L
#include "store.h"

#include "../include/offers.h"

#include <errno.h>
#include <fcntl.h>
#include <limits.h>
#include <stdio.h>
#include <string.h>
#include <unistd.h>

static const uint8_t MAGIC[8] = {'O', 'F', 'F', 'E', 'R', 'S', 'B', 'K'};

enum { FORM_AT = 8, COUNT_AT = 12, WORDS_AT = 16, CHECKSUM_AT = WORDS_AT + 4 * OFFERS_BOOK_WORDS };

_Static_assert(CHECKSUM_AT + 4 == STORE_BYTES, "the stored form ends with its checksum");

const char *store_text(int result) {
    switch (result) {
    case STORE_DONE: return "done";
    case STORE_NO_FILE: return "there is no such file";
    case STORE_NOT_READ: return "the file could not be read";
    case STORE_NOT_WRITTEN: return "the book could not be saved";
    case STORE_NOT_A_BOOK: return "this is no stored book";
    case STORE_FORM_UNKNOWN: return "the stored book has a form that is not known here";
    case STORE_WRONG_LENGTH: return "the stored book has not 65,560 bytes";
    case STORE_CHECKSUM: return "the stored book is damaged: its checksum is not that of its bytes";
    case STORE_UNSOUND: return "the book is not sound (number 21)";
    default: return "a result that is not known here";
    }
}

static uint32_t word_at(const uint8_t *bytes) {
    return (uint32_t)bytes[0] | (uint32_t)bytes[1] << 8 | (uint32_t)bytes[2] << 16 | (uint32_t)bytes[3] << 24;
}

static void put_word(uint8_t *bytes, uint32_t word) {
    for (int i = 0; i < 4; i++) bytes[i] = (uint8_t)(word >> 8 * i);
}

/* effects[k][byte]: what a byte does to a checksum k bytes after it. */
static void fill_effects(uint32_t effects[4][256]) {
    for (uint32_t byte = 0; byte < 256; byte++) {
        uint32_t effect = byte;
        for (int bit = 0; bit < 8; bit++) effect = effect >> 1 ^ (effect & 1 ? 0xEDB88320u : 0);
        effects[0][byte] = effect;
    }
    for (int later = 1; later < 4; later++)
        for (int byte = 0; byte < 256; byte++) {
            uint32_t before = effects[later - 1][byte];
            effects[later][byte] = before >> 8 ^ effects[0][before & 0xFF];
        }
}

/* The CRC-32 of all bytes before the checksum, four bytes at a time. */
static uint32_t checksum_of(const uint8_t *bytes) {
    uint32_t effects[4][256];
    fill_effects(effects);
    uint32_t sum = 0xFFFFFFFFu;
    for (size_t at = 0; at < CHECKSUM_AT; at += 4) {
        sum ^= word_at(bytes + at);
        sum = effects[3][sum & 0xFF] ^ effects[2][sum >> 8 & 0xFF] ^ effects[1][sum >> 16 & 0xFF]
              ^ effects[0][sum >> 24];
    }
    return ~sum;
}

void store_to_bytes(const uint32_t *book, uint8_t *bytes) {
    memcpy(bytes, MAGIC, sizeof MAGIC);
    put_word(bytes + FORM_AT, STORE_FORM);
    put_word(bytes + COUNT_AT, OFFERS_BOOK_WORDS);
    for (size_t i = 0; i < OFFERS_BOOK_WORDS; i++) put_word(bytes + WORDS_AT + 4 * i, book[i]);
    put_word(bytes + CHECKSUM_AT, checksum_of(bytes));
}

static int is_sound(const uint32_t *book) {
    return offers_count(book, OFFERS_BOOK_WORDS).number == OFFERS_ANSWERED;
}

/* The form is looked at before the length, as a later form may have another length. */
static int look_at_frame(const uint8_t *bytes, size_t length) {
    if (length >= FORM_AT && memcmp(bytes, MAGIC, sizeof MAGIC) != 0) return STORE_NOT_A_BOOK;
    if (length >= COUNT_AT && word_at(bytes + FORM_AT) != STORE_FORM) return STORE_FORM_UNKNOWN;
    if (length != STORE_BYTES) return STORE_WRONG_LENGTH;
    if (word_at(bytes + CHECKSUM_AT) != checksum_of(bytes)) return STORE_CHECKSUM;
    if (word_at(bytes + COUNT_AT) != OFFERS_BOOK_WORDS) return STORE_UNSOUND;
    return STORE_DONE;
}

int store_from_bytes(const uint8_t *bytes, size_t length, uint32_t *book) {
    int result = look_at_frame(bytes, length);
    if (result != STORE_DONE) return result;
    uint32_t words[OFFERS_BOOK_WORDS];
    for (size_t i = 0; i < OFFERS_BOOK_WORDS; i++) words[i] = word_at(bytes + WORDS_AT + 4 * i);
    if (!is_sound(words)) return STORE_UNSOUND;
    memcpy(book, words, sizeof words);
    return STORE_DONE;
}

static int open_again_if_interrupted(const char *path, int flags) {
    int file;
    do file = open(path, flags | O_CLOEXEC, 0666);
    while (file < 0 && errno == EINTR);
    return file;
}

static int write_all(int file, const uint8_t *bytes, size_t length) {
    while (length > 0) {
        ssize_t written = write(file, bytes, length);
        if (written < 0 && errno == EINTR) continue;
        if (written < 0) return -1;
        bytes += written;
        length -= (size_t)written;
    }
    return 0;
}

static int flush(int file) {
    int result;
    do result = fsync(file);
    while (result != 0 && errno == EINTR);
    return result;
}

/* Closes what was flushed, or what failed already: what close itself says is not needed. */
static int close_with(int file, int result) {
    int why = errno;
    close(file);
    errno = why;
    return result;
}

static int write_flushed(const char *path, const uint8_t *bytes) {
    int file = open_again_if_interrupted(path, O_WRONLY | O_CREAT | O_TRUNC);
    if (file < 0) return -1;
    int result = write_all(file, bytes, STORE_BYTES);
    if (result == 0) result = flush(file);
    return close_with(file, result);
}

static int flush_folder_of(const char *path) {
    char folder[PATH_MAX] = ".";
    const char *slash = strrchr(path, '/');
    if (slash != NULL) snprintf(folder, sizeof folder, "%.*s", (int)(slash - path) + 1, path);
    int opened = open_again_if_interrupted(folder, O_RDONLY | O_DIRECTORY);
    if (opened < 0) return -1;
    return close_with(opened, flush(opened));
}

static int write_beside_and_rename(const char *path, const char *beside, const uint8_t *bytes) {
    if (write_flushed(beside, bytes) == 0 && rename(beside, path) == 0) return 0;
    int why = errno;
    unlink(beside);
    errno = why;
    return -1;
}

int store_save(const char *path, const uint32_t *book) {
    if (!is_sound(book)) return STORE_UNSOUND;
    char beside[PATH_MAX];
    if (snprintf(beside, sizeof beside, "%s.new", path) >= (int)sizeof beside) {
        errno = ENAMETOOLONG;
        return STORE_NOT_WRITTEN;
    }
    uint8_t bytes[STORE_BYTES];
    store_to_bytes(book, bytes);
    if (write_beside_and_rename(path, beside, bytes) != 0) return STORE_NOT_WRITTEN;
    return flush_folder_of(path) == 0 ? STORE_DONE : STORE_NOT_WRITTEN;
}

/* Reads up to `most` bytes: how many there were, or -1. */
static ssize_t read_up_to(int file, uint8_t *bytes, size_t most) {
    size_t length = 0;
    while (length < most) {
        ssize_t count = read(file, bytes + length, most - length);
        if (count == 0) break;
        if (count < 0 && errno != EINTR) return -1;
        if (count > 0) length += (size_t)count;
    }
    return (ssize_t)length;
}

int store_load(const char *path, uint32_t *book) {
    int file = open_again_if_interrupted(path, O_RDONLY);
    if (file < 0) return errno == ENOENT ? STORE_NO_FILE : STORE_NOT_READ;
    uint8_t bytes[STORE_BYTES + 1]; /* one more, so that a longer file is noticed */
    ssize_t length = read_up_to(file, bytes, sizeof bytes);
    close_with(file, 0);
    if (length < 0) return STORE_NOT_READ;
    return store_from_bytes(bytes, (size_t)length, book);
}
