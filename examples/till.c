/* See till.h. */
#define _POSIX_C_SOURCE 200809L
#include "till.h"

#include <string.h>

int till_next(const till *till, uint64_t *sequence) {
    int stored = series_largest(till->folder, till->number, sequence);
    if (stored == STORE_DONE) ++*sequence;
    return stored;
}

static series_answer sell_locked(const till *till, uint64_t sequence, offers_question question) {
    const named_bundle *bundle = till->bundle;
    series_found found = series_find(till->folder, till->number, sequence);
    if (found.stored != STORE_DONE) return (series_answer){.stored = found.stored, .book = found.book};
    /* The note of a sale that is in a book stays as it is: it names the bundle that the sale was sold by. */
    int is_new = found.sale.number == OFFERS_SALE_UNKNOWN;
    if (is_new && outbox_note(till->folder, OUTBOX_SALE, sequence, bundle->name) != 0)
        return (series_answer){.stored = STORE_NOT_WRITTEN};
    series_answer answer =
        series_sell(till->folder, bundle->bytes, bundle->length, till->number, sequence, question);
    int is_refused = answer.stored == STORE_DONE && answer.receipt.number != OFFERS_ANSWERED;
    if (is_new && is_refused) outbox_strike_out(till->folder, OUTBOX_SALE, sequence);
    return answer;
}

series_answer till_sell(const till *till, uint64_t sequence, offers_question question) {
    int lock = series_lock(till->folder, 1);
    if (lock < 0) return (series_answer){.stored = STORE_NOT_READ};
    series_answer answer = sell_locked(till, sequence, question);
    series_unlock(lock);
    return answer;
}

static series_answer cancel_locked(const till *till, uint64_t sequence) {
    series_found found = series_find(till->folder, till->number, sequence);
    if (found.stored != STORE_DONE) return (series_answer){.stored = found.stored, .book = found.book};
    int is_known = found.sale.number == OFFERS_ANSWERED;
    if (is_known && outbox_note(till->folder, OUTBOX_CANCEL, sequence, "") != 0)
        return (series_answer){.stored = STORE_NOT_WRITTEN};
    return series_cancel(till->folder, till->number, sequence);
}

series_answer till_cancel(const till *till, uint64_t sequence) {
    int lock = series_lock(till->folder, 1);
    if (lock < 0) return (series_answer){.stored = STORE_NOT_READ};
    series_answer answer = cancel_locked(till, sequence);
    series_unlock(lock);
    return answer;
}

/* What is unsent of a sale: at most two messages. */
static int unsent_of(const till *till, const offers_booking *sale, message *messages, int most) {
    message base = {.till = sale->till, .sequence = sale->sequence, .question = sale->question};
    int count = 0;
    if (count < most && outbox_has(till->folder, OUTBOX_SALE, sale->sequence, base.bundle)) {
        messages[count] = base;
        messages[count++].is_sale = 1;
    }
    int is_cancelled = sale->status == OFFERS_WAS_CANCELLED;
    if (is_cancelled && count < most && outbox_has(till->folder, OUTBOX_CANCEL, sale->sequence, base.bundle))
        messages[count++] = base;
    return count;
}

int till_unsent(const till *till, message *messages, int most) {
    int books = series_count(till->folder), count = 0;
    uint32_t words[OFFERS_BOOK_WORDS];
    for (int book = 1; book <= books; book++) {
        if (series_load(till->folder, (unsigned)book, words) != STORE_DONE) return -1;
        uint64_t entries = offers_count(words, OFFERS_BOOK_WORDS).entries;
        for (uint64_t i = 0; i < entries; i++) {
            offers_booking sale = offers_entry(words, OFFERS_BOOK_WORDS, i);
            count += unsent_of(till, &sale, messages + count, most - count);
        }
    }
    return books < 0 ? -1 : count;
}

void till_strike_out(const till *till, const message *message) {
    outbox_strike_out(till->folder, message->is_sale ? OUTBOX_SALE : OUTBOX_CANCEL, message->sequence);
}
