/* See series.h. */
#define _POSIX_C_SOURCE 200809L
#include "series.h"

#include <dirent.h>
#include <errno.h>
#include <fcntl.h>
#include <limits.h>
#include <stdio.h>
#include <string.h>
#include <unistd.h>

int series_lock(const char *folder, int waits) {
    char path[PATH_MAX];
    if (snprintf(path, sizeof path, "%s/lock", folder) >= (int)sizeof path) return -1;
    int file = open(path, O_RDWR | O_CREAT | O_CLOEXEC, 0666);
    if (file < 0) return -1;
    struct flock whole = {.l_type = F_WRLCK, .l_whence = SEEK_SET};
    int result;
    do result = fcntl(file, waits ? F_SETLKW : F_SETLK, &whole);
    while (result != 0 && errno == EINTR);
    if (result == 0) return file;
    close(file);
    return -1;
}

void series_unlock(int lock) {
    close(lock);
}

static int path_of(const char *folder, unsigned book, char *path) {
    return snprintf(path, PATH_MAX, "%s/book-%04u", folder, book) < PATH_MAX;
}

/* 12 for book-0012; 0 for a name that no book has, such as book-0012.new. */
static unsigned number_in(const char *name) {
    unsigned book = 0;
    char due[32];
    if (sscanf(name, "book-%9u", &book) != 1) return 0;
    snprintf(due, sizeof due, "book-%04u", book);
    return strcmp(name, due) == 0 ? book : 0;
}

int series_count(const char *folder) {
    DIR *listing = opendir(folder);
    if (listing == NULL) return -1;
    unsigned last = 0;
    struct dirent *entry;
    for (errno = 0; (entry = readdir(listing)) != NULL; errno = 0) {
        unsigned book = number_in(entry->d_name);
        if (book > last) last = book;
    }
    int is_whole = errno == 0;
    closedir(listing);
    return is_whole ? (int)last : -1;
}

int series_load(const char *folder, unsigned book, uint32_t *words) {
    char path[PATH_MAX];
    return path_of(folder, book, path) ? store_load(path, words) : STORE_NOT_READ;
}

series_found series_find(const char *folder, uint32_t till, uint64_t sequence) {
    int count = series_count(folder);
    if (count < 0) return (series_found){.stored = STORE_NOT_READ};
    series_found none = {.book = (unsigned)count, .sale = {.number = OFFERS_SALE_UNKNOWN}};
    uint32_t words[OFFERS_BOOK_WORDS];
    for (unsigned book = none.book; book > 0; book--) {
        int stored = series_load(folder, book, words);
        if (stored != STORE_DONE) return (series_found){.stored = stored, .book = book};
        offers_booking sale = offers_find(words, OFFERS_BOOK_WORDS, till, sequence);
        if (sale.number != OFFERS_SALE_UNKNOWN) return (series_found){.book = book, .sale = sale};
    }
    return none;
}

static uint64_t largest_in(const uint32_t *words, uint32_t till, uint64_t largest) {
    uint64_t entries = offers_count(words, OFFERS_BOOK_WORDS).entries;
    for (uint64_t i = 0; i < entries; i++) {
        offers_booking sale = offers_entry(words, OFFERS_BOOK_WORDS, i);
        if (sale.till == till && sale.sequence > largest) largest = sale.sequence;
    }
    return largest;
}

int series_largest(const char *folder, uint32_t till, uint64_t *largest) {
    int count = series_count(folder);
    if (count < 0) return STORE_NOT_READ;
    uint32_t words[OFFERS_BOOK_WORDS];
    *largest = 0;
    for (unsigned book = 1; book <= (unsigned)count; book++) {
        int stored = series_load(folder, book, words);
        if (stored != STORE_DONE) return stored;
        *largest = largest_in(words, till, *largest);
    }
    return STORE_DONE;
}

/* The book that has the number, or else the last one, or else an empty one to begin with. */
static series_answer load_for(const char *folder, uint32_t till, uint64_t sequence, uint32_t *words) {
    series_found found = series_find(folder, till, sequence);
    if (found.stored != STORE_DONE) return (series_answer){.stored = found.stored, .book = found.book};
    if (found.book == 0) {
        memset(words, 0, sizeof(uint32_t) * OFFERS_BOOK_WORDS);
        return (series_answer){.book = 1};
    }
    return (series_answer){.stored = series_load(folder, found.book, words), .book = found.book};
}

/* What was booked or cancelled before is saved again too: the save before this one may have failed, or been cut off,
 * with the new book in place and not flushed. */
static series_answer save_answered(const char *folder, const uint32_t *words, series_answer answer) {
    if (answer.receipt.number != OFFERS_ANSWERED) return answer;
    char path[PATH_MAX];
    int stored = path_of(folder, answer.book, path) ? store_save(path, words) : STORE_NOT_WRITTEN;
    if (stored != STORE_DONE) return (series_answer){.stored = stored, .book = answer.book};
    return answer;
}

series_answer series_sell(const char *folder, const uint8_t *bundle, size_t length, uint32_t till, uint64_t sequence,
                          offers_question question) {
    uint32_t words[OFFERS_BOOK_WORDS];
    series_answer answer = load_for(folder, till, sequence, words);
    if (answer.stored != STORE_DONE) return answer;
    answer.receipt = offers_sale(words, OFFERS_BOOK_WORDS, bundle, length, till, sequence, question);
    if (answer.receipt.number == OFFERS_BOOK_FULL) {
        memset(words, 0, sizeof words);
        answer.book++;
        answer.receipt = offers_sale(words, OFFERS_BOOK_WORDS, bundle, length, till, sequence, question);
    }
    return save_answered(folder, words, answer);
}

series_answer series_cancel(const char *folder, uint32_t till, uint64_t sequence) {
    uint32_t words[OFFERS_BOOK_WORDS];
    series_answer answer = load_for(folder, till, sequence, words);
    if (answer.stored != STORE_DONE) return answer;
    answer.receipt = offers_cancel(words, OFFERS_BOOK_WORDS, till, sequence);
    return save_answered(folder, words, answer);
}
