/* See settlement.h. */
#include "settlement.h"

#include <string.h>

typedef struct {
    int series;
    unsigned book;
} place;

static uint32_t words[OFFERS_BOOK_WORDS], other_words[OFFERS_BOOK_WORDS];

/* Goes on to the next book of all series: whether there is one. */
static int next_book(const char *const *folders, int count, place *at) {
    at->book++;
    while (at->series < count && (int)at->book > series_count(folders[at->series])) {
        at->series++;
        at->book = 1;
    }
    return at->series < count;
}

/* There is no settlement, and no amounts. */
static int refuse(settlement *made, int stored, place at) {
    memset(made, 0, sizeof *made);
    made->stored = stored;
    made->series = at.series;
    made->book = at.book;
    return 0;
}

static int load(const char *const *folders, place at, uint32_t *book, settlement *made) {
    int stored = series_load(folders[at.series], at.book, book);
    return stored == STORE_DONE || refuse(made, stored, at);
}

static int is_every_folder_read(const char *const *folders, int count, settlement *made) {
    for (int i = 0; i < count; i++)
        if (series_count(folders[i]) < 0) return refuse(made, STORE_NOT_READ, (place){i, 0});
    return 1;
}

/* Which railways a book has, and how many of its sales are cancelled. */
static void look_at_sales(settlement *made, uint8_t *has_railway) {
    uint64_t entries = offers_count(words, OFFERS_BOOK_WORDS).entries;
    made->sales += entries;
    for (uint64_t i = 0; i < entries; i++) {
        offers_booking sale = offers_entry(words, OFFERS_BOOK_WORDS, i);
        made->cancelled += sale.status == OFFERS_WAS_CANCELLED;
        for (uint32_t leg = 0; leg < sale.question.count; leg++) has_railway[sale.question.legs[leg].railway] = 1;
    }
}

static void add_book(settlement *made) {
    uint8_t has_railway[OFFERS_LARGEST_RAILWAY + 1] = {0};
    look_at_sales(made, has_railway);
    for (uint32_t railway = 1; railway <= OFFERS_LARGEST_RAILWAY; railway++)
        if (has_railway[railway]) made->owed[railway] += offers_balance(words, OFFERS_BOOK_WORDS, railway).amount;
    made->total += offers_total(words, OFFERS_BOOK_WORDS).amount;
    made->books++;
}

static void report(settlement *made, const offers_booking *sale, place at, place other) {
    if (made->twice < SETTLEMENT_MOST_TWICE)
        made->places[made->twice] =
            (number_in_two_books){sale->till, sale->sequence, at.series, other.series, at.book, other.book};
    made->twice++;
}

/* The numbers of one book that stand in another. */
static void compare_books(settlement *made, place at, place other) {
    uint64_t entries = offers_count(words, OFFERS_BOOK_WORDS).entries;
    for (uint64_t i = 0; i < entries; i++) {
        offers_booking sale = offers_entry(words, OFFERS_BOOK_WORDS, i);
        if (offers_find(other_words, OFFERS_BOOK_WORDS, sale.till, sale.sequence).number == OFFERS_ANSWERED)
            report(made, &sale, at, other);
    }
}

static int is_sum_of_balances_the_total(const settlement *made) {
    uint64_t sum = 0;
    for (uint32_t railway = 1; railway <= OFFERS_LARGEST_RAILWAY; railway++) sum += made->owed[railway];
    return sum == made->total;
}

int settle(const char *const *folders, int count, settlement *made) {
    memset(made, 0, sizeof *made);
    if (!is_every_folder_read(folders, count, made)) return 0;
    for (place at = {0, 0}; next_book(folders, count, &at);) {
        if (!load(folders, at, words, made)) return 0;
        add_book(made);
        for (place other = at; next_book(folders, count, &other);) {
            if (!load(folders, other, other_words, made)) return 0;
            compare_books(made, at, other);
        }
    }
    return made->twice == 0 && is_sum_of_balances_the_total(made);
}
