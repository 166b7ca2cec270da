/* See office.h. */
#define _POSIX_C_SOURCE 200809L
#include "office.h"

#include <inttypes.h>
#include <limits.h>
#include <stdio.h>

int office_folder(const office *office, uint32_t till, char *path, size_t most) {
    return snprintf(path, most, "%s/till-%05" PRIu32, office->folder, till) < (int)most;
}

static series_answer take_sale(const office *office, const char *folder, const message *message) {
    static named_bundle bundle;
    if (bundles_read(office->bundles, message->bundle, &bundle))
        return series_sell(folder, bundle.bytes, bundle.length, message->till, message->sequence, message->question);
    series_found found = series_find(folder, message->till, message->sequence);
    if (found.stored != STORE_DONE) return (series_answer){.stored = found.stored, .book = found.book};
    if (found.sale.number != OFFERS_ANSWERED) return (series_answer){.stored = STORE_NO_FILE};
    /* It is booked, and so it is not priced: no bundle is needed. */
    return series_sell(folder, NULL, 0, message->till, message->sequence, message->question);
}

series_answer office_take(const office *office, const message *message) {
    char folder[PATH_MAX];
    int lock = office_folder(office, message->till, folder, sizeof folder) ? series_lock(folder, 1) : -1;
    if (lock < 0) return (series_answer){.stored = STORE_NOT_READ};
    series_answer answer = message->is_sale ? take_sale(office, folder, message)
                                            : series_cancel(folder, message->till, message->sequence);
    series_unlock(lock);
    return answer;
}
