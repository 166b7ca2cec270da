#include "validator.h"

#include <stdbool.h>
#include <string.h>

enum { LIMIT = 1048576 };

/* ---- the layout */

enum kind { TEXT, NUMBER, NUMBER_OR_BLANK, FLAG, FLAG_OR_BLANK, MOST_PERSONS, ROUNDING, FACTOR, FIRST_DAY, LAST_DAY };

struct row {
    unsigned field;
    size_t start, length;
    enum kind kind;
    long least, most;
};

struct plain_table {
    char mark[PLAIN_MARK];
    size_t length, key_length, count;
    struct row rows[22];
};

const struct plain_table PLAIN_CO = {
    "CO", 155, 9, 22,
    {{1, 1, 4, NUMBER, 1, 9999}, {2, 5, 5, NUMBER, 1, 99999}, {3, 10, 4, NUMBER, 0, 9999}, {4, 14, 100, TEXT, 0, 0},
     {27, 114, 1, FLAG_OR_BLANK, 0, 0}, {28, 115, 2, NUMBER_OR_BLANK, 0, 99}, {29, 117, 2, MOST_PERSONS, 0, 0}, {30, 119, 1, NUMBER, 0, 9},
     {31, 120, 1, FLAG, 0, 0}, {32, 121, 1, FLAG, 0, 0}, {33, 122, 1, FLAG, 0, 0}, {34, 123, 1, FLAG, 0, 0}, {35, 124, 1, FLAG, 0, 0},
     {36, 125, 1, FLAG, 0, 0}, {37, 126, 1, FLAG, 0, 0}, {38, 127, 1, FLAG, 0, 0}, {39, 128, 6, NUMBER_OR_BLANK, 0, 100000},
     {40, 134, 1, ROUNDING, 0, 0}, {41, 135, 3, FACTOR, 0, 0}, {42, 138, 8, FIRST_DAY, 0, 0}, {43, 146, 2, NUMBER, 1, 99},
     {44, 148, 8, LAST_DAY, 0, 0}}};

const struct plain_table PLAIN_RE = {
    "RE", 440, 3, 11,
    {{1, 1, 4, NUMBER, 1, 9999}, {2, 5, 3, NUMBER, 1, 999}, {3, 8, 30, TEXT, 0, 0}, {4, 38, 30, TEXT, 0, 0}, {5, 68, 30, TEXT, 0, 0},
     {6, 98, 30, TEXT, 0, 0}, {7, 128, 30, TEXT, 0, 0}, {8, 158, 265, TEXT, 0, 0}, {9, 423, 8, FIRST_DAY, 0, 0}, {10, 431, 2, NUMBER, 1, 99},
     {11, 433, 8, LAST_DAY, 0, 0}}};

const struct plain_table PLAIN_AR = {
    "AR", 49, 12, 13,
    {{1, 1, 4, NUMBER, 1, 9999}, {2, 5, 5, NUMBER, 1, 99999}, {3, 10, 4, NUMBER, 0, 9999}, {4, 14, 3, NUMBER, 1, 999},
     {5, 17, 6, NUMBER, 0, 100000}, {6, 23, 1, FLAG, 0, 0}, {7, 24, 3, NUMBER, 1, 999}, {8, 27, 1, FLAG, 0, 0}, {9, 28, 1, ROUNDING, 0, 0},
     {10, 29, 3, FACTOR, 0, 0}, {11, 32, 8, FIRST_DAY, 0, 0}, {12, 40, 2, NUMBER, 1, 99}, {13, 42, 8, LAST_DAY, 0, 0}}};

const struct plain_table PLAIN_ME = {
    "ME", 1231, 9, 11,
    {{1, 1, 4, NUMBER, 1, 9999}, {2, 5, 5, NUMBER, 1, 99999}, {3, 10, 4, NUMBER, 0, 9999}, {4, 14, 240, TEXT, 0, 0}, {5, 254, 240, TEXT, 0, 0},
     {6, 494, 240, TEXT, 0, 0}, {7, 734, 240, TEXT, 0, 0}, {8, 974, 240, TEXT, 0, 0}, {9, 1214, 8, FIRST_DAY, 0, 0},
     {10, 1222, 2, NUMBER, 1, 99}, {11, 1224, 8, LAST_DAY, 0, 0}}};

const struct plain_table *plain_table_at(const uint8_t *bytes, size_t left) {
    static const struct plain_table *const TABLES[] = {&PLAIN_CO, &PLAIN_RE, &PLAIN_AR, &PLAIN_ME};
    if (left < PLAIN_MARK) return NULL;
    for (size_t t = 0; t < 4; t++)
        if (memcmp(bytes, TABLES[t]->mark, PLAIN_MARK) == 0) return TABLES[t];
    return NULL;
}

size_t plain_step(const struct plain_table *table) { return PLAIN_MARK + table->length; }

/* ---- one field; positions count from 1 */

static bool is_text(const uint8_t *s, size_t n) {
    for (size_t i = 0; i < n; i++)
        if (s[i] < 32 || (s[i] > 126 && s[i] < 160)) return false;
    return true;
}

static bool is_blank(const uint8_t *s, size_t n) {
    for (size_t i = 0; i < n; i++)
        if (s[i] != ' ') return false;
    return true;
}

long plain_number(const uint8_t *record, size_t start, size_t length) {
    const uint8_t *s = record + start - 1;
    long value = 0;
    for (size_t i = 0; i < length; i++) {
        if (s[i] < '0' || s[i] > '9') return -1;
        value = value * 10 + (s[i] - '0');
    }
    return value;
}

static bool is_leap_year(long year) { return year % 400 == 0 || (year % 4 == 0 && year % 100 != 0); }

static long month_length(long year, long month) {
    if (month == 2) return is_leap_year(year) ? 29 : 28;
    return month < 1 || month > 12 ? 0 : 30 + (month + month / 8) % 2;
}

int plain_is_day(long day) {
    long year = day / 10000, in_month = day % 100;
    if (year < 1583 || year > 9999) return false;
    return in_month >= 1 && in_month <= month_length(year, day / 100 % 100);
}

static bool is_between(long value, long least, long most) { return value >= least && value <= most; }

static bool is_flag(uint8_t b) { return b == 'Y' || b == 'N'; }

static bool is_rounding(uint8_t b) { return b == '+' || b == '-' || b == '0' || b == 'N'; }

/* The least persons stand right before; blank, they read as -1, below any most. */
static bool is_most_persons(const uint8_t *record, const struct row *row) {
    if (is_blank(record + row->start - 1, row->length)) return true;
    long most = plain_number(record, row->start, row->length);
    return is_between(most, 1, 99) && (most == 99 || plain_number(record, row->start - 2, 2) <= most);
}

/* The rounding stands right before. */
static bool is_factor(const uint8_t *record, const struct row *row) {
    return is_between(plain_number(record, row->start, row->length), record[row->start - 2] == 'N' ? 0 : 1, 999);
}

/* The first day stands ten bytes before. */
static bool is_last_day(const uint8_t *record, const struct row *row) {
    long last = plain_number(record, row->start, row->length);
    return plain_is_day(last) && plain_number(record, row->start - 10, 8) <= last;
}

static bool keeps(const struct row *row, const uint8_t *record) {
    const uint8_t *s = record + row->start - 1;
    switch (row->kind) {
    case TEXT: return is_text(s, row->length);
    case NUMBER: return is_between(plain_number(record, row->start, row->length), row->least, row->most);
    case NUMBER_OR_BLANK: return is_blank(s, row->length) || is_between(plain_number(record, row->start, row->length), row->least, row->most);
    case FLAG: return is_flag(*s);
    case FLAG_OR_BLANK: return *s == ' ' || is_flag(*s);
    case MOST_PERSONS: return is_most_persons(record, row);
    case ROUNDING: return is_rounding(*s);
    case FACTOR: return is_factor(record, row);
    case FIRST_DAY: return plain_is_day(plain_number(record, row->start, row->length));
    case LAST_DAY: return is_last_day(record, row);
    }
    return false;
}

/* ---- periods of good records: a record ends with its first day, its version and its last day */

static long first_day(const struct plain_table *table, const uint8_t *record) { return plain_number(record, table->length - 17, 8); }

static long last_day(const struct plain_table *table, const uint8_t *record) { return plain_number(record, table->length - 7, 8); }

int plain_holds_day(const struct plain_table *table, const uint8_t *record, long day) {
    return is_between(day, first_day(table, record), last_day(table, record));
}

int plain_share_day(const struct plain_table *table, const uint8_t *record, const uint8_t *other) {
    return first_day(table, record) <= last_day(table, other) && first_day(table, other) <= last_day(table, record);
}

/* ---- the records, each by itself */

static offers_judgement refused(uint64_t number, uint64_t place, uint64_t detail) { return (offers_judgement){number, place, detail, 0}; }

static const struct row *broken_row(const struct plain_table *table, const uint8_t *record) {
    for (size_t k = 0; k < table->count; k++)
        if (!keeps(&table->rows[k], record)) return &table->rows[k];
    return NULL;
}

offers_judgement plain_check_records(const uint8_t *bundle, size_t length) {
    if (length > LIMIT) return refused(OFFERS_BUNDLE_TOO_LONG, 0, 0);
    size_t records = 0;
    for (size_t at = 0; at < length; records++) {
        const struct plain_table *table = plain_table_at(bundle + at, length - at);
        if (table == NULL) return refused(OFFERS_MARK_UNKNOWN, records, 0);
        if (length - at < plain_step(table)) return refused(OFFERS_RECORD_SHORT, records, 0);
        const struct row *broken = broken_row(table, bundle + at + PLAIN_MARK);
        if (broken != NULL) return refused(OFFERS_FIELD_BROKEN, records, broken->field);
        at += plain_step(table);
    }
    return (offers_judgement){0, 0, 0, records};
}

/* ---- the records, each beside the others; all marks are known and all records whole */

/* The detail of the first link that is missing, 0 if none is. */
static uint64_t missing_link(struct plain_searches by, const void *in, const struct plain_table *table, const uint8_t *record) {
    if (table == &PLAIN_AR && !by.has(in, &PLAIN_RE, record)) return 1;
    if ((table == &PLAIN_AR || table == &PLAIN_ME) && !by.has(in, &PLAIN_CO, record)) return 2;
    if (table == &PLAIN_CO && record[122 - 1] == 'Y' && !by.has(in, &PLAIN_AR, record)) return 3;
    if (table == &PLAIN_CO && record[126 - 1] == 'Y' && !by.has(in, &PLAIN_ME, record)) return 4;
    return 0;
}

offers_judgement plain_check_together(const uint8_t *bundle, size_t length, struct plain_searches by, const void *in) {
    size_t i = 0;
    for (size_t at = 0; at < length; i++) {
        const struct plain_table *table = plain_table_at(bundle + at, length - at);
        const uint8_t *record = bundle + at + PLAIN_MARK;
        if (memcmp(record, bundle + PLAIN_MARK, 4) != 0) return refused(OFFERS_OTHER_TRANSFEROR, i, 0);
        size_t j = by.clashing(in, i, table, record);
        if (j < i) return refused(OFFERS_KEY_REPEATED, i, j);
        uint64_t detail = missing_link(by, in, table, record);
        if (detail != 0) return refused(OFFERS_LINK_MISSING, i, detail);
        at += plain_step(table);
    }
    return (offers_judgement){0, 0, 0, i};
}

/* ---- both searches as loops over the records */

struct lent {
    const uint8_t *bundle;
    size_t length;
};

static bool clash(const struct plain_table *table, const uint8_t *record, const uint8_t *other) {
    return memcmp(other + 4, record + 4, table->key_length) == 0 && plain_share_day(table, record, other);
}

static size_t clashing(const void *in, size_t i, const struct plain_table *table, const uint8_t *record) {
    const struct lent *lent = in;
    size_t at = 0;
    for (size_t j = 0; j < i; j++) {
        const struct plain_table *other = plain_table_at(lent->bundle + at, lent->length - at);
        if (other == table && clash(table, record, lent->bundle + at + PLAIN_MARK)) return j;
        at += plain_step(other);
    }
    return i;
}

static bool railway_serves(const uint8_t *own, const uint8_t *other) {
    return memcmp(own + 9, "0000", 4) == 0 || memcmp(other + 9, "0000", 4) == 0 || memcmp(own + 9, other + 9, 4) == 0;
}

/* Whether a record of the table is the one that this record wants there. */
static bool serves(const struct plain_table *wanted, const uint8_t *record, const uint8_t *other) {
    if (wanted == &PLAIN_RE) return memcmp(other + 4, record + 13, 3) == 0;
    if (memcmp(other + 4, record + 4, 5) != 0) return false;
    return wanted == &PLAIN_CO || railway_serves(record, other);
}

static inline bool walk_for(const struct lent *lent, const struct plain_table *wanted, const uint8_t *record) {
    for (size_t at = 0; at < lent->length;) {
        const struct plain_table *table = plain_table_at(lent->bundle + at, lent->length - at);
        if (table == wanted && serves(wanted, record, lent->bundle + at + PLAIN_MARK)) return true;
        at += plain_step(table);
    }
    return false;
}

/* The compiler makes one walk for each table, with no test at every step of which it is. */
static int has(const void *in, const struct plain_table *wanted, const uint8_t *record) {
    if (wanted == &PLAIN_RE) return walk_for(in, &PLAIN_RE, record);
    if (wanted == &PLAIN_CO) return walk_for(in, &PLAIN_CO, record);
    return walk_for(in, wanted, record);
}

offers_judgement plain_verdict(const uint8_t *bundle, size_t length) {
    offers_judgement alone = plain_check_records(bundle, length);
    if (alone.number != 0) return alone;
    struct lent lent = {bundle, length};
    return plain_check_together(bundle, length, (struct plain_searches){clashing, has}, &lent);
}
