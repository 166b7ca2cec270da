/* A till and the office through all that happens to them in operation: docs/OPERATING.md has the rules. Everything is
 * kept in real files, in a folder that must be new.
 * Run by examples/run operate, which also builds it. Usage: operate FOLDER BUNDLES
 * BUNDLES is a folder with family.bundle, sample.bundle and cut-short.bundle, such as examples. */
#define _POSIX_C_SOURCE 200809L
#include "files.h"
#include "office.h"
#include "protocol.h"

#include <inttypes.h>
#include <limits.h>
#include <stdio.h>
#include <stdlib.h>
#include <string.h>
#include <sys/wait.h>
#include <unistd.h>

enum { TILL = 7, NORTH = 1185, SOUTH = 1181, RAILCARD = 7, MEMBERS_CARD = 21, MOST_UNSENT = 600 };

/* What becomes of a message on its way. */
enum fate { ANSWERED, ANSWER_LOST };

static char till_folder[PATH_MAX], office_root[PATH_MAX], office_books[PATH_MAX], spare[PATH_MAX], backup[PATH_MAX];
static named_bundle spring, summer;
static till handset = {till_folder, TILL, &spring};
static office main_office = {office_root, NULL};

static void join(char *path, const char *folder, const char *name) {
    if (snprintf(path, PATH_MAX, "%s/%s", folder, name) >= PATH_MAX) files_stop("the name of the folder is too long");
}

static offers_question ticket(uint32_t day, uint32_t persons) {
    return (offers_question){
        .offer = 42,
        .day = day,
        .persons = persons,
        .cards = {RAILCARD, MEMBERS_CARD},
        .count = 2,
        .legs = {{.railway = NORTH, .fare = 1010}, {.railway = SOUTH, .fare = 500}},
    };
}

static void both_owe(void) {
    owed("owed by the till's books", till_folder);
    owed("owed by the office's books", office_books);
}

static uint64_t next_number(void) {
    uint64_t sequence = 0;
    int stored = till_next(&handset, &sequence);
    if (stored != STORE_DONE) {
        line("no next number: %s", store_text(stored));
        exit(1);
    }
    return sequence;
}

static int is_answered(series_answer answer) {
    return answer.stored == STORE_DONE && answer.receipt.number == OFFERS_ANSWERED;
}

/* Numbers the sale, books it and saves the book; only then prints the ticket. */
static void sell(offers_question question) {
    uint64_t sequence = next_number();
    series_answer answer = till_sell(&handset, sequence, question);
    told("till", &handset, sequence, answer);
    line(is_answered(answer) ? "the book is saved: the ticket is printed" : "no ticket is printed");
}

static void cancel(uint64_t sequence) {
    series_answer answer = till_cancel(&handset, sequence);
    told("till", &handset, sequence, answer);
    line(is_answered(answer) ? "the book is saved: the passenger is told" : "nothing is cancelled");
}

static series_answer arrives(const message *message) {
    const char *who = message->is_sale ? "sale sent up, office" : "cancellation sent up, office";
    series_answer answer = office_take(&main_office, message);
    told(who, &handset, message->sequence, answer);
    return answer;
}

static void send_up(const message *message, enum fate fate) {
    series_answer answer = arrives(message);
    if (fate == ANSWER_LOST)
        line("the answer is lost: the till keeps the message");
    else if (is_answered(answer))
        till_strike_out(&handset, message);
    else
        line("the till keeps the message");
}

/* The message of the outbox about a number. */
static message unsent(uint64_t sequence, int is_sale) {
    static message messages[MOST_UNSENT];
    int count = till_unsent(&handset, messages, MOST_UNSENT);
    for (int i = 0; i < count; i++)
        if (messages[i].sequence == sequence && messages[i].is_sale == is_sale) return messages[i];
    line("nothing is unsent of %d/%" PRIu64, TILL, sequence);
    exit(1);
}

static void send_unsent(uint64_t sequence, int is_sale, enum fate fate) {
    message message = unsent(sequence, is_sale);
    send_up(&message, fate);
}

/* All that the till has to send, told as one line. */
static void send_all(void) {
    static message messages[MOST_UNSENT];
    int count = till_unsent(&handset, messages, MOST_UNSENT), answered = 0;
    for (int i = 0; i < count; i++) {
        if (!is_answered(office_take(&main_office, &messages[i]))) continue;
        till_strike_out(&handset, &messages[i]);
        answered++;
    }
    line("the till sends up all that is in its outbox: messages: %d, answered: %d", count, answered);
}

/* A till takes over a bundle only if the engine accepts it. */
static void take_bundle(const char *name) {
    static named_bundle delivered;
    if (!bundles_read(main_office.bundles, name, &delivered)) files_stop(name);
    offers_judgement judgement = offers_verdict(delivered.bytes, delivered.length);
    if (judgement.number != OFFERS_ANSWERED) {
        line("%s is refused by %" PRIu64 ": %s", name, judgement.number, offers_text(judgement.number));
        line("the till sells by %s as before", handset.bundle->name);
        return;
    }
    summer = delivered;
    handset.bundle = &summer;
    line("%s is accepted: the till sells by it from now on", name);
}

static void show_price(offers_question question) {
    offers_quote quote = offers_fare(summer.bytes, summer.length, question);
    line("7/1 would cost %" PRIu32 " and %" PRIu32 " by it", quote.parts[0], quote.parts[1]);
}

static void sales_without_signal(void) {
    title("Two sales, by family.bundle, without a signal");
    sell(ticket(20240615, 3));
    sell(ticket(20240616, 2));
    both_owe();
}

static void lost_answer(void) {
    title("The signal comes back for a moment");
    send_unsent(1, 1, ANSWER_LOST);
    both_owe();
}

static void changed_bundle(void) {
    title("The bundle changes, and the till sends again");
    take_bundle("cut-short.bundle");
    take_bundle("sample.bundle");
    show_price(ticket(20240615, 3));
    send_unsent(1, 1, ANSWERED);
    message second = unsent(2, 1);
    message misnamed = second;
    strcpy(misnamed.bundle, "winter.bundle");
    line("7/2 comes up for the first time: if it named winter.bundle, which the office has not");
    arrives(&misnamed);
    line("but it names %s, which it was sold by", second.bundle);
    send_up(&second, ANSWERED);
    line("the ticket of 7/1 is printed again at the till");
    told("till", &handset, 1, till_sell(&handset, 1, ticket(20240615, 3)));
    both_owe();
}

static void refused_sales(void) {
    title("Sales that are refused");
    line("a day outside the season: nothing is booked, and the number stays free");
    sell(ticket(20250615, 3));
    line("the next sale has the same number");
    sell(ticket(20240617, 1));
    line("another question under a number that is taken");
    told("till", &handset, 2, till_sell(&handset, 2, ticket(20240616, 4)));
    line("sequence 0, and a cancellation of a sale that is not there");
    told("till", &handset, 0, till_sell(&handset, 0, ticket(20240616, 4)));
    told("till", &handset, 300, till_cancel(&handset, 300));
    both_owe();
}

static void cancellation(void) {
    title("A cancellation, and late copies");
    message sale = unsent(3, 1);
    send_up(&sale, ANSWERED);
    cancel(3);
    send_unsent(3, 0, ANSWER_LOST);
    send_unsent(3, 0, ANSWERED);
    line("a late copy of the sale arrives");
    arrives(&sale);
    both_owe();
}

static void cancellation_first(void) {
    title("A cancellation that comes before its sale");
    sell(ticket(20240618, 5));
    cancel(4);
    send_unsent(4, 0, ANSWERED);
    send_unsent(4, 1, ANSWERED);
    send_unsent(4, 0, ANSWERED);
    both_owe();
}

/* Looks for the number that was under way. If a book has it, it is asked once more, so that the book is saved again. */
static void restart(uint64_t sequence) {
    series_found found = series_find(till_folder, TILL, sequence);
    if (found.stored != STORE_DONE) {
        line("restart: %s", store_text(found.stored));
    } else if (found.sale.number == OFFERS_ANSWERED) {
        line("restart: 7/%" PRIu64 " is found in book-%04u", sequence, found.book);
        told("till", &handset, sequence, till_sell(&handset, sequence, found.sale.question));
        line("the book is saved again: the ticket is printed now");
    } else {
        line("restart: 7/%" PRIu64 " is not found: it is sold again under its number", sequence);
    }
}

/* All but the save: the note is written, the book is changed in memory, and half of the new file is there. */
static void sell_but_for_the_save(uint64_t sequence, offers_question question) {
    uint32_t book[OFFERS_BOOK_WORDS];
    uint8_t bytes[STORE_BYTES];
    char beside[PATH_MAX];
    outbox_note(till_folder, OUTBOX_SALE, sequence, summer.name);
    series_load(till_folder, 1, book);
    offers_sale(book, OFFERS_BOOK_WORDS, summer.bytes, summer.length, TILL, sequence, question);
    store_to_bytes(book, bytes);
    join(beside, till_folder, "book-0001.new");
    files_write(beside, bytes, STORE_BYTES / 2);
}

/* The note is written, and the book is not saved: the note does not count. */
static void cut_off_in_cancellation(void) {
    message messages[MOST_UNSENT];
    line("the power fails while 7/6 is cancelled");
    outbox_note(till_folder, OUTBOX_CANCEL, 6, "");
    int is_live = series_find(till_folder, TILL, 6).sale.status == OFFERS_LIVE;
    line("restart: 7/6 is %s, the till has %d sales to send and nothing else", is_live ? "not cancelled" : "CANCELLED",
         till_unsent(&handset, messages, MOST_UNSENT));
    cancel(6);
}

static void cut_off(void) {
    title("The till is cut off");
    line("the power fails while 7/5 is saved");
    sell_but_for_the_save(5, ticket(20240619, 2));
    restart(5);
    sell(ticket(20240619, 2));
    told("till", &handset, 6, till_sell(&handset, 6, ticket(20240620, 2)));
    line("the power fails before the ticket of 7/6 is printed");
    restart(6);
    cut_off_in_cancellation();
    both_owe();
}

/* Where the new file has to be written there is a folder, so that it cannot. */
static void failed_save(void) {
    title("A save that fails");
    char beside[PATH_MAX];
    join(beside, till_folder, "book-0001.new");
    files_make_folder(beside);
    sell(ticket(20240621, 4));
    rmdir(beside);
    line("the disk is mended: the same is asked again under the same number");
    sell(ticket(20240621, 4));
    both_owe();
}

/* Whether another process gets the lock. */
static int another_gets_lock(void) {
    fflush(stdout);
    pid_t other = fork();
    if (other < 0) files_stop("fork");
    if (other == 0) _exit(series_lock(till_folder, 0) >= 0);
    int status = 0;
    waitpid(other, &status, 0);
    return WEXITSTATUS(status);
}

static void one_process(void) {
    title("One process at a time");
    int lock = series_lock(till_folder, 1);
    line("one has the till's lock, another asks for it: it %s", another_gets_lock() ? "GETS IT" : "has to wait");
    series_unlock(lock);
    line("the first is done: the other %s", another_gets_lock() ? "gets it" : "DOES NOT GET IT");
}

static void full_book(void) {
    title("A full book and the next one");
    for (uint64_t sequence = next_number(); sequence <= OFFERS_MOST_ENTRIES; sequence++) {
        offers_question question = ticket(20240621, 1 + (uint32_t)(sequence % 9));
        if (!is_answered(till_sell(&handset, sequence, question))) line("NOT SOLD");
    }
    uint32_t book[OFFERS_BOOK_WORDS];
    series_load(till_folder, 1, book);
    offers_receipt full = offers_sale(book, OFFERS_BOOK_WORDS, summer.bytes, summer.length, TILL, 257,
                                      ticket(20240622, 1));
    told("book-0001", &handset, 257, (series_answer){.book = 1, .receipt = full});
    sell(ticket(20240622, 1));
    send_all();
    both_owe();
}

static void earlier_book(void) {
    title("Numbers of the first book while the second is in use");
    message late = {TILL, 1, 1, "sample.bundle", ticket(20240615, 3)};
    line("a late copy of 7/1 arrives, and names the wrong bundle");
    arrives(&late);
    line("another question under 7/1 arrives, from a handset that was given the wrong till number");
    late.question.persons = 4;
    arrives(&late);
    cancel(2);
    send_unsent(2, 0, ANSWERED);
    both_owe();
}

static void without_asking(void) {
    title("What would happen without asking the earlier book (on a copy of the office's books)");
    const char *const copy[] = {spare};
    files_copy_book(office_books, spare, 1);
    files_copy_book(office_books, spare, 2);
    uint32_t book[OFFERS_BOOK_WORDS];
    store_load(files_book(spare, 2), book);
    series_answer answer = {.book = 2};
    answer.receipt = offers_sale(book, OFFERS_BOOK_WORDS, spring.bytes, spring.length, TILL, 1, ticket(20240615, 3));
    told("copy", &handset, 1, answer);
    store_save(files_book(spare, 2), book);
    settled("settlement of the copy", copy, 1);
}

static void show_damaged(const char *how, const uint8_t *bytes, size_t length) {
    const char *const series[] = {till_folder};
    files_write(files_book(till_folder, 1), bytes, length);
    line("%s", how);
    told("till", &handset, 258, till_sell(&handset, 258, ticket(20240623, 2)));
    settled("settlement", series, 1);
}

static void show_changed(const char *how, size_t at, uint8_t value, const uint8_t *good) {
    uint8_t bytes[STORE_BYTES];
    memcpy(bytes, good, sizeof bytes);
    bytes[at] = value;
    show_damaged(how, bytes, sizeof bytes);
}

/* Its checksum is right: it was damaged before it was stored. */
static void show_unsound(void) {
    uint32_t book[OFFERS_BOOK_WORDS];
    uint8_t bytes[STORE_BYTES];
    store_load(files_book(backup, 1), book);
    book[0] = 257;
    store_to_bytes(book, bytes);
    show_damaged("257 sales in it, with a checksum to match", bytes, sizeof bytes);
}

/* Neither is taken for a new till. */
static void show_missing(void) {
    char gone[PATH_MAX];
    join(gone, spare, "gone");
    const till without_folder = {gone, TILL, &summer};
    uint64_t sequence = 0;
    files_remove(files_book(till_folder, 1));
    line("it is gone, and book-0002 is there");
    told("till", &handset, 258, till_sell(&handset, 258, ticket(20240623, 2)));
    line("the whole folder is gone");
    line("till: no next number: %s", store_text(till_next(&without_folder, &sequence)));
}

/* Each book is loaded, which checks it, and saved in place of the other. */
static void take_over(const char *from, const char *to) {
    uint32_t book[OFFERS_BOOK_WORDS];
    int lock = series_lock(to, 1), count = series_count(from);
    for (int i = 1; i <= count; i++) {
        if (series_load(from, (unsigned)i, book) != STORE_DONE) files_stop(from);
        if (store_save(files_book(to, (unsigned)i), book) != STORE_DONE) files_stop(to);
    }
    series_unlock(lock);
}

static void damaged_book(void) {
    title("A book of the till is damaged: nothing is sold, nothing is settled");
    uint8_t good[STORE_BYTES];
    line("before it, a cancellation that is not sent yet");
    cancel(7);
    files_copy_book(till_folder, backup, 1);
    files_copy_book(till_folder, backup, 2);
    files_read(files_book(backup, 1), good, sizeof good);
    show_damaged("cut off at 40,000 bytes", good, 40000);
    show_changed("one bit is another", 30000, good[30000] ^ 1, good);
    show_changed("its first byte is another", 0, 'X', good);
    show_changed("its form is another", 8, 2, good);
    show_unsound();
    show_missing();
    line("no sale is noted that the office has not: the till takes over the office's books");
    take_over(office_books, till_folder);
    line("the cancellation of 7/7 is noted, and the office has not got it: 7/7 is cancelled again");
    cancel(7);
    sell(ticket(20240623, 2));
    both_owe();
}

static void damaged_at_office(void) {
    title("A book of the office is damaged: nothing is answered");
    files_write(files_book(office_books, 2), (const uint8_t *)"OFFERSBK", 8);
    send_unsent(258, 1, ANSWERED);
    line("whatever the office has booked of a till stands in the till's books: the office takes them over");
    take_over(till_folder, office_books);
    send_unsent(258, 1, ANSWERED);
    send_unsent(7, 0, ANSWERED);
    both_owe();
}

/* The backup was taken before the last sale. */
static void older_copy(void) {
    const till older = {backup, TILL, &summer};
    uint64_t sequence = 0;
    if (till_next(&older, &sequence) != STORE_DONE) files_stop("backup");
    line("by the backup the till's next number is 7/%" PRIu64 ", and that is sold", sequence);
}

static void empty_book(void) {
    static const uint32_t empty[OFFERS_BOOK_WORDS];
    const char *const copy[] = {spare};
    files_copy_book(office_books, spare, 2);
    store_save(files_book(spare, 1), empty);
    line("with an empty book in place of the office's first, 7/5 comes again");
    told("copy", &handset, 5, series_sell(spare, summer.bytes, summer.length, TILL, 5, ticket(20240619, 2)));
    settled("settlement of the copy, wrong and without a sign of it", copy, 1);
}

static void wrong_ways_to_mend(void) {
    title("Two wrong ways to mend a series (on copies)");
    older_copy();
    empty_book();
}

static void settle_all(void) {
    title("Settlement");
    const char *const series[] = {office_books, till_folder};
    settled("over all books of the office", series, 1);
    settled("over all books of the till", series + 1, 1);
    settled("over both by mistake", series, 2);
}

static void make_folders(const char *folder) {
    join(till_folder, folder, "till-00007");
    join(office_root, folder, "office");
    join(spare, folder, "spare");
    join(backup, folder, "backup");
    files_make_folder(till_folder);
    files_make_folder(office_root);
    files_make_folder(spare);
    files_make_folder(backup);
    office_folder(&main_office, TILL, office_books, sizeof office_books);
    files_make_folder(office_books);
}

static void play(void) {
    sales_without_signal();
    lost_answer();
    changed_bundle();
    refused_sales();
    cancellation();
    cancellation_first();
    cut_off();
    failed_save();
    one_process();
    full_book();
    earlier_book();
    without_asking();
    damaged_book();
    damaged_at_office();
    wrong_ways_to_mend();
    settle_all();
}

int main(int argc, char **argv) {
    if (argc != 3) {
        fprintf(stderr, "usage: operate FOLDER BUNDLES\n");
        return 2;
    }
    main_office.bundles = argv[2];
    if (!bundles_read(argv[2], "family.bundle", &spring)) files_stop("family.bundle");
    make_folders(argv[1]);
    play();
    return 0;
}
