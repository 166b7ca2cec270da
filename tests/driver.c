/* Asks the engine what standard input asks and answers on standard output, in the layouts of struct request and struct reply.
 *
 * Each request is asked twice, with every lent buffer flush at the guard page behind it and flush at the one before it. Bundles cannot be
 * written, nor books that a call only reads. What lies between a buffer and the farther guard page must stay as it was.
 *
 * driver --wrong KIND N spoils the first request from the N-th on that KIND fits, to show that the other side notices.
 */
#include <stdio.h>
#include <stdlib.h>
#include <string.h>
#include <sys/mman.h>
#include <unistd.h>

#include "offers.h"

enum call { VERDICT = 1, FARE, SALE, CANCEL, BALANCE, TOTAL, COUNT, ENTRY, FIND };
enum end { BEHIND, BEFORE, ENDS };
enum finding { FINE, ANSWERS_DIFFER, BOOKS_DIFFER, WRITTEN_BESIDE };
enum { CANARY = 0xA5 };

/* An Arm kernel may have pages of 4, 16 or 64 KiB. */
static size_t page;

/* After it come bundle_sent bytes and, unless the book is kept from the last reply, book_sent words; `more` counts zeros after them. */
struct request {
    uint64_t sequence, entry, bundle_sent, bundle_more, book_sent, book_more;
    uint32_t call, till, railway, book_kept;
    offers_question question;
};
_Static_assert(sizeof(struct request) == 6 * 8 + (4 + 24) * 4, "a request has no padding");
_Static_assert(sizeof(size_t) == 8, "an entry is asked for as it is sent");

/* Every value of every answer: what a call does not tell is 0. */
struct answer {
    uint64_t number, place, detail, value, entry, sequence;
    uint32_t outcome, cancelled, till, status;
    offers_question question;
    uint32_t parts[8];
};
_Static_assert(sizeof(struct answer) == 6 * 8 + (4 + 24 + 8) * 4, "an answer has no padding");
_Static_assert(sizeof(offers_tally) == 4 * 8, "a tally has no value but those told");
_Static_assert(sizeof(offers_booking) == 5 * 8 + (2 + 24 + 8) * 4, "a booking has no value but those told");

/* After it come `changes` pairs of a word's place in the book and its new value. */
struct reply {
    uint32_t finding, changes;
    struct answer answer;
};

struct change {
    uint32_t place, word;
};

static void *must(void *memory) {
    if (memory == NULL || memory == MAP_FAILED) {
        perror("driver: no memory");
        exit(2);
    }
    return memory;
}

/* ---- buffers between guard pages */

struct room {
    uint8_t *pages; /* the first byte after the guard page before */
    size_t size, length, sent;
    uint8_t *buffer;
};

static struct room make_room(size_t sent, size_t more) {
    struct room room = {.length = sent + more, .sent = sent};
    room.size = room.length / page * page + (room.length % page > 0 || room.length == 0 ? page : 0);
    int flags = MAP_PRIVATE | MAP_ANONYMOUS | MAP_NORESERVE;
    uint8_t *all = must(mmap(NULL, room.size + 2 * page, PROT_NONE, flags, -1, 0));
    room.pages = all + page;
    return room;
}

static void clear_room(struct room *room) { munmap(room->pages - page, room->size + 2 * page); }

static void protect(const struct room *room, int protection) {
    if (mprotect(room->pages, room->size, protection) == 0) return;
    perror("driver: no protection");
    exit(2);
}

static uint8_t *slack(const struct room *room, enum end end) { return end == BEHIND ? room->pages : room->pages + room->length; }

static void place(struct room *room, enum end end, const void *bytes, int protection) {
    protect(room, PROT_READ | PROT_WRITE);
    memset(slack(room, end), CANARY, room->size - room->length);
    room->buffer = end == BEHIND ? room->pages + room->size - room->length : room->pages;
    if (room->sent > 0) memcpy(room->buffer, bytes, room->sent);
    protect(room, protection);
    if (room->length == 0 && end == BEFORE) room->buffer = NULL;
}

static int is_untouched(const struct room *room, enum end end) {
    const uint8_t *bytes = slack(room, end);
    for (size_t i = 0; i < room->size - room->length; i++)
        if (bytes[i] != CANARY) return 0;
    return 1;
}

/* ---- the calls */

static struct answer of_receipt(offers_receipt r) {
    struct answer a = {.number = r.number, .place = r.place, .detail = r.detail, .outcome = r.outcome, .cancelled = r.cancelled};
    memcpy(a.parts, r.parts, sizeof a.parts);
    return a;
}

static struct answer of_value(uint64_t number, uint64_t place, uint64_t detail, uint64_t value) {
    return (struct answer){.number = number, .place = place, .detail = detail, .value = value};
}

static struct answer of_quote(offers_quote q) {
    struct answer a = of_value(q.number, q.place, q.detail, q.fare);
    memcpy(a.parts, q.parts, sizeof a.parts);
    return a;
}

static struct answer of_judgement(offers_judgement j) { return of_value(j.number, j.place, j.detail, j.records); }

static struct answer of_sum(offers_sum s) { return of_value(s.number, s.place, s.detail, s.amount); }

static struct answer of_tally(offers_tally t) { return of_value(t.number, t.place, t.detail, t.entries); }

static struct answer of_booking(offers_booking b) {
    struct answer a = {.number = b.number, .place = b.place, .detail = b.detail, .entry = b.entry, .sequence = b.sequence};
    a.till = b.till;
    a.status = b.status;
    a.question = b.question;
    memcpy(a.parts, b.parts, sizeof a.parts);
    return a;
}

static struct answer ask(const struct request *r, const struct room *bundle, const struct room *lent) {
    uint32_t *book = (uint32_t *)(void *)lent->buffer;
    size_t words = lent->length / sizeof *book;
    switch (r->call) {
    case VERDICT: return of_judgement(offers_verdict(bundle->buffer, bundle->length));
    case FARE: return of_quote(offers_fare(bundle->buffer, bundle->length, r->question));
    case SALE: return of_receipt(offers_sale(book, words, bundle->buffer, bundle->length, r->till, r->sequence, r->question));
    case CANCEL: return of_receipt(offers_cancel(book, words, r->till, r->sequence));
    case BALANCE: return of_sum(offers_balance(book, words, r->railway));
    case TOTAL: return of_sum(offers_total(book, words));
    case COUNT: return of_tally(offers_count(book, words));
    case ENTRY: return of_booking(offers_entry(book, words, r->entry));
    case FIND: return of_booking(offers_find(book, words, r->till, r->sequence));
    }
    fprintf(stderr, "driver: no call %u\n", r->call);
    exit(2);
}

static int reads_bundle(const struct request *r) { return r->call <= SALE; }
static int reads_book(const struct request *r) { return r->call >= SALE; }
static int writes_book(const struct request *r) { return r->call == SALE || r->call == CANCEL; }
static int tells_a_sum(const struct request *r) { return r->call == BALANCE || r->call == TOTAL; }
static int tells_a_sale(const struct request *r) { return r->call == ENTRY || r->call == FIND; }

/* ---- spoiling */

enum wrong {
    ANSWER, ONE_ANSWER, SUM, READING, WORD, ONE_WORD, READ_BEHIND, READ_BEFORE, WRITE_BEHIND, WRITE_SLACK, WRITE_BUNDLE, WRITE_READ, WRONGS
};
static const char *const WRONG_NAMES[WRONGS] = {"answer",      "one-answer",  "sum",          "reading",     "word",         "one-word",
                                                "read-behind", "read-before", "write-behind", "write-slack", "write-bundle", "write-read"};
static enum wrong wrong = WRONGS;
static uint64_t requests_until_wrong;

static int is_wrong_now(const struct request *r) {
    if (wrong == WRONGS) return 0;
    if (requests_until_wrong > 0) requests_until_wrong--;
    if (requests_until_wrong > 0) return 0;
    int has_book = r->book_sent > 0 || r->book_kept;
    int needs_bundle = wrong == READ_BEHIND || wrong == READ_BEFORE || wrong == WRITE_BUNDLE;
    int needs_book = wrong == WORD || wrong == ONE_WORD || wrong == WRITE_BEHIND || wrong == WRITE_SLACK;
    if (needs_bundle) return reads_bundle(r) && r->bundle_sent > 0;
    if (wrong == SUM) return tells_a_sum(r);
    if (wrong == READING) return tells_a_sale(r);
    if (wrong == WRITE_READ) return r->call >= COUNT && has_book;
    if (needs_book) return writes_book(r) && has_book;
    return 1;
}

static void spoil_answer(const struct request *r, struct answer *answer) {
    if (writes_book(r)) answer->parts[0] ^= 1;
    else if (tells_a_sale(r)) answer->question.legs[OFFERS_MOST_LEGS - 1].fare ^= 1;
    else answer->value ^= 1;
}

static void spoil(const struct request *r, enum end end, struct answer *answer, const struct room *bundle, const struct room *book) {
    volatile uint8_t *bundle_bytes = bundle->buffer, *book_bytes = book->buffer;
    switch (wrong) {
    case ANSWER:
    case SUM:
    case READING: spoil_answer(r, answer); break;
    case ONE_ANSWER:
        if (end == BEHIND) spoil_answer(r, answer);
        break;
    case WORD: book_bytes[book->length / 2] ^= 1; break;
    case ONE_WORD: book_bytes[book->length / 2] ^= end == BEHIND; break;
    case READ_BEHIND: (void)bundle_bytes[bundle->length]; break;
    case READ_BEFORE: (void)bundle_bytes[-1]; break;
    case WRITE_BEHIND: book_bytes[book->length] = 0; break;
    case WRITE_SLACK:
        if (end == BEFORE) book_bytes[book->length] = 0;
        break;
    case WRITE_BUNDLE: bundle_bytes[0] ^= 0; break;
    case WRITE_READ: book_bytes[0] ^= 0; break;
    case WRONGS: break;
    }
}

/* ---- one request */

/* The book as the last reply left it. */
static uint32_t *kept;
static size_t kept_words;

static void keep(uint32_t *book, size_t words) {
    free(kept);
    kept = book;
    kept_words = words;
}

static uint32_t list_changes(const uint32_t *before, const uint32_t *after, size_t words, struct change *changes) {
    uint32_t count = 0;
    if (memcmp(before, after, words * sizeof *before) == 0) return 0;
    for (size_t i = 0; i < words; i++)
        if (before[i] != after[i]) changes[count++] = (struct change){(uint32_t)i, after[i]};
    return count;
}

/* The rooms are left as after the last end; book_after gets the words as after the first. */
static enum finding ask_at_both_ends(const struct request *r, const uint8_t *bytes, struct room *bundle, struct room *book, uint32_t *book_after,
                                     struct answer *answer) {
    int may_write = writes_book(r) && r->book_more == 0;
    int is_wrong = is_wrong_now(r);
    struct answer answers[ENDS];
    for (enum end end = BEHIND; end < ENDS; end++) {
        place(bundle, end, bytes, PROT_READ);
        place(book, end, kept, may_write ? PROT_READ | PROT_WRITE : PROT_READ);
        answers[end] = ask(r, bundle, book);
        if (is_wrong) spoil(r, end, &answers[end], bundle, book);
        if (!is_untouched(bundle, end) || !is_untouched(book, end)) return WRITTEN_BESIDE;
        if (end == BEHIND && book->sent > 0) memcpy(book_after, book->buffer, book->sent);
    }
    *answer = answers[BEHIND];
    if (is_wrong) wrong = WRONGS;
    if (memcmp(&answers[BEHIND], &answers[BEFORE], sizeof *answer) != 0) return ANSWERS_DIFFER;
    if (book->sent > 0 && memcmp(book_after, book->buffer, book->sent) != 0) return BOOKS_DIFFER;
    return FINE;
}

static void answer_request(const struct request *r, const uint8_t *bytes) {
    size_t sent = reads_book(r) ? kept_words : 0;
    struct room bundle = make_room(r->bundle_sent, r->bundle_more);
    struct room book = make_room(sent * sizeof *kept, r->book_more * sizeof *kept);
    uint32_t *after = must(malloc(book.sent + 1));
    struct change *changes = must(malloc(sent * sizeof *changes + 1));
    struct reply reply = {0};
    reply.finding = ask_at_both_ends(r, bytes, &bundle, &book, after, &reply.answer);
    if (reply.finding == FINE) reply.changes = list_changes(kept, after, sent, changes);
    fwrite(&reply, sizeof reply, 1, stdout);
    fwrite(changes, sizeof *changes, reply.changes, stdout);
    fflush(stdout);
    for (uint32_t i = 0; i < reply.changes; i++) kept[changes[i].place] = changes[i].word;
    free(changes);
    free(after);
    clear_room(&bundle);
    clear_room(&book);
}

static void *read_all(size_t size) {
    void *bytes = must(malloc(size + 1));
    if (fread(bytes, 1, size, stdin) != size) {
        fprintf(stderr, "driver: a request ends early\n");
        exit(2);
    }
    return bytes;
}

static void choose_wrong(const char *kind, const char *request) {
    for (wrong = 0; wrong < WRONGS && strcmp(kind, WRONG_NAMES[wrong]) != 0;) wrong++;
    requests_until_wrong = strtoull(request, NULL, 10);
    if (wrong < WRONGS) return;
    fprintf(stderr, "driver: no kind %s\n", kind);
    exit(2);
}

int main(int argc, char **argv) {
    if (argc == 4 && strcmp(argv[1], "--wrong") == 0) choose_wrong(argv[2], argv[3]);
    page = (size_t)sysconf(_SC_PAGESIZE);
    keep(must(malloc(1)), 0);
    struct request request;
    while (fread(&request, sizeof request, 1, stdin) == 1) {
        uint8_t *bytes = read_all(request.bundle_sent);
        if (!request.book_kept) keep(read_all(request.book_sent * sizeof *kept), request.book_sent);
        answer_request(&request, bytes);
        free(bytes);
    }
    return 0;
}
