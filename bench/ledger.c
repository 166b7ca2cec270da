#include "ledger.h"
#include "measure.h"

#include <sqlite3.h>
#include <stdlib.h>

/* The key of the sales is (till, sequence); the index on the parts has all that a balance reads of them. */
static const char SCHEMA[] =
    "CREATE TABLE sales (id INTEGER PRIMARY KEY, till INTEGER NOT NULL, sequence INTEGER NOT NULL, offer INTEGER NOT NULL, day INTEGER NOT NULL,"
    " persons INTEGER NOT NULL, card_1 INTEGER NOT NULL, card_2 INTEGER NOT NULL, card_3 INTEGER NOT NULL, card_4 INTEGER NOT NULL,"
    " cancelled INTEGER NOT NULL DEFAULT 0, UNIQUE (till, sequence));"
    "CREATE TABLE parts (sale INTEGER NOT NULL, leg INTEGER NOT NULL, railway INTEGER NOT NULL, fare INTEGER NOT NULL, amount INTEGER NOT NULL,"
    " PRIMARY KEY (sale, leg)) WITHOUT ROWID;"
    "CREATE INDEX parts_by_railway ON parts (railway, sale, amount);";

enum statement { BEGIN, COMMIT, ADD_SALE, ADD_PART, FIND_SALE, FIND_PARTS, CANCEL, BALANCE, TOTAL, FORGET_PARTS, FORGET_SALE, REVIVE, STATEMENTS };

static const char *const TEXTS[STATEMENTS] = {
    [BEGIN] = "BEGIN",
    [COMMIT] = "COMMIT",
    [ADD_SALE] = ("INSERT OR IGNORE INTO sales (till, sequence, offer, day, persons, card_1, card_2, card_3, card_4)"
                  " VALUES (?, ?, ?, ?, ?, ?, ?, ?, ?)"),
    [ADD_PART] = "INSERT INTO parts (sale, leg, railway, fare, amount) VALUES (?, ?, ?, ?, ?)",
    [FIND_SALE] = "SELECT id, cancelled FROM sales WHERE till = ? AND sequence = ?",
    [FIND_PARTS] = "SELECT leg, amount FROM parts WHERE sale = ?",
    [CANCEL] = "UPDATE sales SET cancelled = 1 WHERE id = ?",
    [BALANCE] = "SELECT sum(amount) FROM parts JOIN sales ON sales.id = parts.sale WHERE railway = ? AND NOT cancelled",
    [TOTAL] = "SELECT sum(amount) FROM parts JOIN sales ON sales.id = parts.sale WHERE NOT cancelled",
    [FORGET_PARTS] = "DELETE FROM parts WHERE sale = (SELECT id FROM sales WHERE till = ? AND sequence = ?)",
    [FORGET_SALE] = "DELETE FROM sales WHERE till = ? AND sequence = ?",
    [REVIVE] = "UPDATE sales SET cancelled = 0 WHERE till = ? AND sequence = ?",
};

struct ledger {
    sqlite3 *base;
    sqlite3_stmt *statements[STATEMENTS];
};

struct ledger *open_ledger(void) {
    struct ledger *l = malloc(sizeof *l);
    demand(l != NULL && sqlite3_open(":memory:", &l->base) == SQLITE_OK, "SQLite does not open");
    demand(sqlite3_exec(l->base, SCHEMA, NULL, NULL, NULL) == SQLITE_OK, "SQLite refuses the tables");
    for (int s = 0; s < STATEMENTS; s++)
        demand(sqlite3_prepare_v3(l->base, TEXTS[s], -1, SQLITE_PREPARE_PERSISTENT, &l->statements[s], NULL) == SQLITE_OK, TEXTS[s]);
    return l;
}

void close_ledger(struct ledger *l) {
    for (int s = 0; s < STATEMENTS; s++) sqlite3_finalize(l->statements[s]);
    sqlite3_close(l->base);
    free(l);
}

/* ---- statements */

static sqlite3_stmt *bound(struct ledger *l, enum statement s, int count, const int64_t *values) {
    for (int k = 0; k < count; k++) sqlite3_bind_int64(l->statements[s], k + 1, values[k]);
    return l->statements[s];
}

static void run(struct ledger *l, enum statement s, int count, const int64_t *values) {
    demand(sqlite3_step(bound(l, s, count, values)) == SQLITE_DONE, TEXTS[s]);
    sqlite3_reset(l->statements[s]);
}

static uint64_t sum(struct ledger *l, enum statement s, int count, const int64_t *values) {
    sqlite3_stmt *asked = bound(l, s, count, values);
    demand(sqlite3_step(asked) == SQLITE_ROW, TEXTS[s]);
    int64_t value = sqlite3_column_int64(asked, 0);
    sqlite3_reset(asked);
    return (uint64_t)value;
}

/* ---- sales */

/* The row of a sale, 0 if there is none. */
static int64_t find_sale(struct ledger *l, uint32_t till, uint64_t sequence, uint32_t *cancelled) {
    sqlite3_stmt *asked = bound(l, FIND_SALE, 2, (int64_t[]){till, (int64_t)sequence});
    int64_t id = 0;
    if (sqlite3_step(asked) == SQLITE_ROW) {
        id = sqlite3_column_int64(asked, 0);
        *cancelled = (uint32_t)sqlite3_column_int(asked, 1);
    }
    sqlite3_reset(asked);
    return id;
}

static void find_parts(struct ledger *l, int64_t sale, uint32_t parts[8]) {
    sqlite3_stmt *asked = bound(l, FIND_PARTS, 1, &sale);
    while (sqlite3_step(asked) == SQLITE_ROW) parts[sqlite3_column_int(asked, 0)] = (uint32_t)sqlite3_column_int64(asked, 1);
    sqlite3_reset(asked);
}

static void add_parts(struct ledger *l, const offers_question *q, const uint32_t parts[8], offers_receipt *receipt) {
    int64_t sale = sqlite3_last_insert_rowid(l->base);
    for (uint32_t k = 0; k < q->count; k++) {
        run(l, ADD_PART, 5, (int64_t[]){sale, k, q->legs[k].railway, q->legs[k].fare, parts[k]});
        receipt->parts[k] = parts[k];
    }
}

offers_receipt ledger_sale(struct ledger *l, uint32_t till, uint64_t sequence, const offers_question *q, const uint32_t parts[8]) {
    offers_receipt receipt = {.outcome = OFFERS_BOOKED};
    run(l, BEGIN, 0, NULL);
    const uint32_t *cards = q->cards;
    run(l, ADD_SALE, 9, (int64_t[]){till, (int64_t)sequence, q->offer, q->day, q->persons, cards[0], cards[1], cards[2], cards[3]});
    if (sqlite3_changes(l->base) == 1) {
        add_parts(l, q, parts, &receipt);
    } else {
        receipt.outcome = OFFERS_ALREADY_BOOKED;
        find_parts(l, find_sale(l, till, sequence, &receipt.cancelled), receipt.parts);
    }
    run(l, COMMIT, 0, NULL);
    return receipt;
}

offers_receipt ledger_cancel(struct ledger *l, uint32_t till, uint64_t sequence) {
    offers_receipt receipt = {.number = OFFERS_SALE_UNKNOWN};
    run(l, BEGIN, 0, NULL);
    uint32_t was_cancelled = 0;
    int64_t sale = find_sale(l, till, sequence, &was_cancelled);
    if (sale != 0) {
        if (!was_cancelled) run(l, CANCEL, 1, &sale);
        receipt = (offers_receipt){.outcome = was_cancelled ? OFFERS_ALREADY_CANCELLED : OFFERS_CANCELLED, .cancelled = 1};
        find_parts(l, sale, receipt.parts);
    }
    run(l, COMMIT, 0, NULL);
    return receipt;
}

uint64_t ledger_balance(struct ledger *l, uint32_t railway) { return sum(l, BALANCE, 1, (int64_t[]){railway}); }

uint64_t ledger_total(struct ledger *l) { return sum(l, TOTAL, 0, NULL); }

void ledger_forget(struct ledger *l, uint32_t till, uint64_t sequence) {
    run(l, FORGET_PARTS, 2, (int64_t[]){till, (int64_t)sequence});
    run(l, FORGET_SALE, 2, (int64_t[]){till, (int64_t)sequence});
}

void ledger_revive(struct ledger *l, uint32_t till, uint64_t sequence) { run(l, REVIVE, 2, (int64_t[]){till, (int64_t)sequence}); }
