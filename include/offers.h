/* The offer engine for C and C++. Link with liboffers.a, which tools/library builds for x86-64 and 64-bit Arm Linux.
 *
 * Every call answers for every argument. It checks bundle, question and book itself, reads nothing but what it is lent,
 * writes nothing but the book of a sale or a cancel, and keeps nothing between calls. What no call can check:
 *
 * - that behind each pointer lie as many bytes (bundle) or 32-bit words (book) as its length says. NULL will do where
 *   the length is 0;
 * - that a book is aligned for uint32_t. A bundle may lie anywhere;
 * - that nothing else writes to the bundle or the book while the call runs, or reads the book while a sale or a cancel
 *   runs, and that the two do not overlap. Calls on different books may run at once.
 *
 * `number` is 0 where a call is answered. Otherwise it is refused, by one of the numbers below: `place` and `detail`
 * say where, every other value is 0, and no word of the book is changed. Records, legs and entries count from 0. */
#ifndef OFFERS_H
#define OFFERS_H

#include <stddef.h>
#include <stdint.h>

#ifdef __cplusplus
extern "C" {
#endif

/* The version of the engine. The first number rises where a program that was written before has to be changed. */
#define OFFERS_VERSION "2.1.0"
#define OFFERS_VERSION_MAJOR 2
#define OFFERS_VERSION_MINOR 1
#define OFFERS_VERSION_PATCH 0

/* The numbers of refusals: when; place, detail (0 where nothing is said). A call tells the first that it comes to. */
/* numbers: begin */
enum offers_number {
    OFFERS_ANSWERED = 0,
    OFFERS_BUNDLE_TOO_LONG = 1,   /* the bundle has more than 1,048,576 bytes */
    OFFERS_MARK_UNKNOWN = 2,      /* a mark is unknown, or one byte is left; record */
    OFFERS_RECORD_SHORT = 3,      /* the last record is shorter than its length; record */
    OFFERS_FIELD_BROKEN = 4,      /* a field breaks its rule; record, field */
    OFFERS_OTHER_TRANSFEROR = 5,  /* a record has another transferor than the first one; record */
    OFFERS_KEY_REPEATED = 6,      /* a record has the key of an earlier one, and their periods overlap; later record,
                                     earlier record */
    OFFERS_LINK_MISSING = 7,      /* a record needs another one that is not in the bundle; record, 1 no RE, 2 no CO,
                                     3 no AR, 4 no ME */
    OFFERS_QUESTION_LIMITS = 11,  /* the question, or the railway of a balance, is outside its limits */
    OFFERS_NO_CONDITIONS = 12,    /* the offer has no conditions for the railway of a leg; leg */
    OFFERS_DAY_OUTSIDE = 13,      /* none of the conditions for a leg is valid on the day; leg */
    OFFERS_PERSONS_OUTSIDE = 14,  /* the persons are fewer or more than a leg's conditions allow; leg */
    OFFERS_CONDITION_UNREAD = 15, /* a leg's conditions have one that the engine does not read; leg, field */
    /* 16 was OFFERS_FARE_TOO_HIGH; neither is used again */
    OFFERS_CARD_TWICE = 17,       /* the question gives a card twice */
    OFFERS_BOOK_UNSOUND = 21,     /* the book is not sound */
    OFFERS_NUMBER_LIMITS = 22,    /* the till or the sequence is 0 or too large */
    OFFERS_NUMBER_TAKEN = 23,     /* the sale number is held by another question; entry */
    OFFERS_BOOK_FULL = 24,        /* the book has 256 sales, and the sale number is new */
    OFFERS_SALE_UNKNOWN = 25      /* the sale is not in this book */
};

/* What a number means, in words. */
static inline const char *offers_text(uint64_t number) {
    switch (number) {
    case OFFERS_ANSWERED: return "answered";
    case OFFERS_BUNDLE_TOO_LONG: return "the bundle has more than 1,048,576 bytes";
    case OFFERS_MARK_UNKNOWN: return "a mark is unknown, or one byte is left";
    case OFFERS_RECORD_SHORT: return "the last record is shorter than its length";
    case OFFERS_FIELD_BROKEN: return "a field breaks its rule";
    case OFFERS_OTHER_TRANSFEROR: return "a record has another transferor than the first one";
    case OFFERS_KEY_REPEATED: return "a record has the key of an earlier one, and their periods overlap";
    case OFFERS_LINK_MISSING: return "a record needs another one that is not in the bundle";
    case OFFERS_QUESTION_LIMITS: return "the question, or the railway of a balance, is outside its limits";
    case OFFERS_NO_CONDITIONS: return "the offer has no conditions for the railway of a leg";
    case OFFERS_DAY_OUTSIDE: return "none of the conditions for a leg is valid on the day";
    case OFFERS_PERSONS_OUTSIDE: return "the persons are fewer or more than a leg's conditions allow";
    case OFFERS_CONDITION_UNREAD: return "a leg's conditions have one that the engine does not read";
    case OFFERS_CARD_TWICE: return "the question gives a card twice";
    case OFFERS_BOOK_UNSOUND: return "the book is not sound";
    case OFFERS_NUMBER_LIMITS: return "the till or the sequence is 0 or too large";
    case OFFERS_NUMBER_TAKEN: return "the sale number is held by another question";
    case OFFERS_BOOK_FULL: return "the book has 256 sales, and the sale number is new";
    case OFFERS_SALE_UNKNOWN: return "the sale is not in this book";
    default: return "refused for a reason that is not known here";
    }
}
/* numbers: end */

/* What came of a sale or a cancel. */
enum offers_outcome {
    OFFERS_REFUSED = 0,
    OFFERS_BOOKED = 1,
    OFFERS_ALREADY_BOOKED = 2,
    OFFERS_CANCELLED = 3,
    OFFERS_ALREADY_CANCELLED = 4
};

/* What came of it, in words. */
static inline const char *offers_outcome_text(uint32_t outcome) {
    switch (outcome) {
    case OFFERS_REFUSED: return "refused";
    case OFFERS_BOOKED: return "booked";
    case OFFERS_ALREADY_BOOKED: return "already booked";
    case OFFERS_CANCELLED: return "cancelled";
    case OFFERS_ALREADY_CANCELLED: return "already cancelled";
    default: return "an outcome that is not known here";
    }
}

/* Whether a sale in a book is cancelled. */
enum offers_status {
    OFFERS_LIVE = 0,
    OFFERS_WAS_CANCELLED = 1
};

/* The words of a book: any other length is unsound. A new book is all zeros; keep it as it stands between calls. */
#define OFFERS_BOOK_WORDS 16385
#define OFFERS_MOST_ENTRIES 256

/* The limits of what is asked. */
#define OFFERS_MOST_BUNDLE_BYTES 1048576
#define OFFERS_MOST_LEGS 8
#define OFFERS_MOST_CARDS 4
#define OFFERS_MOST_PERSONS 99
#define OFFERS_LARGEST_OFFER 99999
#define OFFERS_LARGEST_RAILWAY 9999
#define OFFERS_LARGEST_CARD 999
#define OFFERS_LARGEST_PLAIN_FARE 999999
#define OFFERS_LARGEST_TILL 65535
#define OFFERS_LARGEST_SEQUENCE 4294967295u

typedef struct {
    uint32_t railway; /* 1 to 9999 */
    uint32_t fare;    /* plain fare per person in cents, 0 to 999,999 */
} offers_leg;

typedef struct {
    uint32_t offer;                    /* 1 to 99,999 */
    uint32_t day;                      /* YYYYMMDD, a real date of the years 1583 to 9999 */
    uint32_t persons;                  /* 1 to 99 */
    uint32_t cards[OFFERS_MOST_CARDS]; /* 1 to 999, all different, then zeros; their order is part of the question */
    uint32_t count;                    /* legs, 1 to 8; what stands in `legs` after them does not matter */
    offers_leg legs[OFFERS_MOST_LEGS];
} offers_question;

typedef struct {
    uint64_t number, place, detail;
    uint64_t records;
} offers_judgement;

typedef struct {
    uint64_t number, place, detail;
    uint64_t fare;                    /* the sum of the parts, in cents; 32 bits hold it */
    uint32_t parts[OFFERS_MOST_LEGS]; /* one a leg, zeros after them */
} offers_quote;

typedef struct {
    uint64_t number, place, detail;
    uint32_t outcome;                 /* enum offers_outcome */
    uint32_t cancelled;               /* 1 if the sale is cancelled now, else 0 */
    uint32_t parts[OFFERS_MOST_LEGS]; /* as priced at the first booking */
} offers_receipt;

typedef struct {
    uint64_t number, place, detail;
    uint64_t amount; /* in cents */
} offers_sum;

typedef struct {
    uint64_t number, place, detail;
    uint64_t entries;
} offers_tally;

typedef struct {
    uint64_t number, place, detail;
    uint64_t entry; /* which entry of the book it is */
    uint64_t sequence;
    uint32_t till;
    uint32_t status;                  /* enum offers_status */
    offers_question question;         /* as it was asked, with zeros in the legs that are not used */
    uint32_t parts[OFFERS_MOST_LEGS]; /* as priced at the first booking */
} offers_booking;

/* Judges a bundle, of any length: 1 to 7, or the count of its records. */
offers_judgement offers_verdict(const uint8_t *bundle, size_t length);

/* Prices a ticket: 1 to 7, 11, 17, then the legs from the first, each for 12 to 15. */
offers_quote offers_fare(const uint8_t *bundle, size_t length, offers_question question);

/* Books a sale under its number, till and sequence: 21, 22, 23, 24, then as offers_fare. The same question under a
 * number that is in the book is OFFERS_ALREADY_BOOKED, with its first parts and whatever the bundle: a till that got no
 * answer sends its sale again. A number is known only in its own book: ask the earlier ones by offers_find. */
offers_receipt offers_sale(uint32_t *book, size_t words, const uint8_t *bundle, size_t length, uint32_t till,
                           uint64_t sequence, offers_question question);

/* Cancels a sale: 21, 22, 25. Its number stays taken. */
offers_receipt offers_cancel(uint32_t *book, size_t words, uint32_t till, uint64_t sequence);

/* What a railway is owed over the sales not cancelled: 21, 11. */
offers_sum offers_balance(const uint32_t *book, size_t words, uint32_t railway);

/* What all railways are owed: 21. */
offers_sum offers_total(const uint32_t *book, size_t words);

/* How many sales the book has, cancelled ones too: 21. */
offers_tally offers_count(const uint32_t *book, size_t words);

/* The sale at an entry of the book, in the order of booking: 21, then 25 from the count on. */
offers_booking offers_entry(const uint32_t *book, size_t words, size_t entry);

/* The sale that has a number, as the book has it: 21, 22, 25. Nothing is booked. */
offers_booking offers_find(const uint32_t *book, size_t words, uint32_t till, uint64_t sequence);

#ifdef __cplusplus
}
#endif

#endif
