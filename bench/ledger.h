/* The bookkeeping of the sales book in SQLite, in memory. It prices nothing: a sale brings its parts. */
#ifndef LEDGER_H
#define LEDGER_H

#include "../include/offers.h"

struct ledger;

struct ledger *open_ledger(void);
void close_ledger(struct ledger *l);

/* Each in a transaction of its own. The receipts are as the engine's; a number held by another question is not told apart. */
offers_receipt ledger_sale(struct ledger *l, uint32_t till, uint64_t sequence, const offers_question *question, const uint32_t parts[8]);
offers_receipt ledger_cancel(struct ledger *l, uint32_t till, uint64_t sequence);
uint64_t ledger_balance(struct ledger *l, uint32_t railway);
uint64_t ledger_total(struct ledger *l);

/* What no till does: a sale taken out, or made live again, so that it can be timed once more. */
void ledger_forget(struct ledger *l, uint32_t till, uint64_t sequence);
void ledger_revive(struct ledger *l, uint32_t till, uint64_t sequence);

#endif
