/* What tests/stored asks of examples/store.c, in a program of its own; rust/examples/store_steps.rs is the same over
 * the Rust crate.
 *
 *     store_steps sell PATH BUNDLE SEQUENCE   sells one more ticket into the book at PATH, a new one if there is none
 *     store_steps tell PATH                   tells how many sales the book at PATH has, and what they come to
 *     store_steps notice PATH                 damages the stored book in memory in every way that is asked for */
#include "../examples/store.h"
#include "../include/offers.h"

#include <inttypes.h>
#include <stdio.h>
#include <stdlib.h>
#include <string.h>

static uint32_t book[OFFERS_BOOK_WORDS];
static uint8_t bundle[OFFERS_MOST_BUNDLE_BYTES];
static uint8_t stored[2 * STORE_BYTES];
static uint8_t damaged[STORE_BYTES];

static void stop_unless_done(int result) {
    if (result == STORE_DONE) return;
    puts(store_text(result));
    exit(1);
}

static size_t read_file(const char *path, uint8_t *bytes, size_t most) {
    FILE *file = fopen(path, "rb");
    if (file == NULL) {
        perror(path);
        exit(1);
    }
    size_t length = fread(bytes, 1, most, file);
    fclose(file);
    return length;
}

static void sell(const char *path, const char *bundle_path, uint64_t sequence) {
    size_t length = read_file(bundle_path, bundle, sizeof bundle);
    int loaded = store_load(path, book);
    if (loaded != STORE_NO_FILE) stop_unless_done(loaded);
    offers_question ticket = {.offer = 42, .day = 20240615, .persons = 3, .cards = {7}, .count = 2};
    ticket.legs[0] = (offers_leg){.railway = 1185, .fare = 1010};
    ticket.legs[1] = (offers_leg){.railway = 1181, .fare = 500};
    offers_receipt told = offers_sale(book, OFFERS_BOOK_WORDS, bundle, length, 1, sequence, ticket);
    if (told.number != OFFERS_ANSWERED) {
        printf("refused by %" PRIu64 "\n", told.number);
        exit(1);
    }
    stop_unless_done(store_save(path, book));
    puts("saved");
    fflush(stdout);
}

static void tell(const char *path) {
    stop_unless_done(store_load(path, book));
    printf("%" PRIu64 " sales, %" PRIu64 " cents\n", offers_count(book, OFFERS_BOOK_WORDS).entries,
           offers_total(book, OFFERS_BOOK_WORDS).amount);
}

static void must_be(int result, int due, const char *damage, size_t place) {
    if (result == due) return;
    printf("%s %zu: %s, and not: %s\n", damage, place, store_text(result), store_text(due));
    exit(1);
}

static int due_for_byte(size_t place) {
    if (place < 8) return STORE_NOT_A_BOOK;
    return place < 12 ? STORE_FORM_UNKNOWN : STORE_CHECKSUM;
}

static size_t notice_flipped_bits(void) {
    memcpy(damaged, stored, STORE_BYTES);
    for (size_t bit = 0; bit < 8 * STORE_BYTES; bit++) {
        damaged[bit / 8] ^= (uint8_t)(1u << bit % 8);
        must_be(store_from_bytes(damaged, STORE_BYTES, book), due_for_byte(bit / 8), "flipped bit", bit);
        damaged[bit / 8] ^= (uint8_t)(1u << bit % 8);
    }
    return 8 * STORE_BYTES;
}

static size_t notice_torn_lengths(void) {
    for (size_t length = 0; length <= sizeof stored; length++) {
        if (length == STORE_BYTES) continue;
        must_be(store_from_bytes(stored, length, book), STORE_WRONG_LENGTH, "length", length);
    }
    return sizeof stored;
}

/* Zeros in place of the bytes that were not written yet; where those are zeros already, nothing is damaged. */
static size_t notice_zeros(void) {
    size_t tried = 0;
    memcpy(damaged, stored, STORE_BYTES);
    for (size_t from = STORE_BYTES; from-- > 0;) {
        damaged[from] = 0;
        if (stored[from] == 0) continue;
        must_be(store_from_bytes(damaged, STORE_BYTES, book), due_for_byte(from), "zeros from byte", from);
        tried++;
    }
    return tried;
}

static void notice(const char *path) {
    read_file(path, stored, STORE_BYTES);
    stop_unless_done(store_from_bytes(stored, STORE_BYTES, book));
    memcpy(stored + STORE_BYTES, stored, STORE_BYTES);
    printf("%zu flipped bits, ", notice_flipped_bits());
    printf("%zu other lengths, ", notice_torn_lengths());
    printf("%zu tails of zeros\n", notice_zeros());
    stop_unless_done(store_from_bytes(stored, STORE_BYTES, book));
}

int main(int argc, char **argv) {
    if (argc == 5 && strcmp(argv[1], "sell") == 0) {
        sell(argv[2], argv[3], strtoull(argv[4], NULL, 10));
    } else if (argc == 3 && strcmp(argv[1], "tell") == 0) {
        tell(argv[2]);
    } else if (argc == 3 && strcmp(argv[1], "notice") == 0) {
        notice(argv[2]);
    } else {
        fputs("usage: store_steps sell PATH BUNDLE SEQUENCE | tell PATH | notice PATH\n", stderr);
        return 2;
    }
    return 0;
}
