#include "bundles.h"

#include <stdio.h>
#include <stdlib.h>
#include <string.h>

enum { MARK = 2, RECORD_ROOM = 1300 };

static const char MARKS[] = "CO RE AR ME";
enum table { CO, RE, AR, ME, TABLES };
static const size_t LENGTHS[TABLES] = {155, 440, 49, 1231};

const struct recipe TEXT_HEAVY = {"text-heavy", 1, 0, 100, 34, 1, 0, 0};
const struct recipe CO_HEAVY = {"CO-heavy", 100, 1, 0, 0, 1, 0, 0};
const struct recipe AR_HEAVY = {"AR-heavy", 1, 100, 0, 0, 1, 0, 0};
const struct recipe MIXED = {"mixed", 5, 5, 1, 0, 1, 0, 0};
const struct recipe FOUR_CARDS = {"four cards", 5, 5, 1, 0, 4, 0, 0};
const struct recipe BY_TABLE = {"by table", 4, 4, 1, 0, 3, 0, 1};
const struct recipe OWN_RAILWAYS = {"own railways", 4, 4, 4, 0, 3, 1, 1};
const struct recipe MANY_OFFERS = {"many offers", 1, 1, 0, 0, 1, 0, 1};
const struct recipe *const TIMED[TIMED_RECIPES] = {&TEXT_HEAVY, &CO_HEAVY, &AR_HEAVY, &BY_TABLE, &OWN_RAILWAYS, &MANY_OFFERS};
const size_t TIMED_SIZE[TIMED_SIZES] = {64 * KIB, 256 * KIB, 1024 * KIB};

const char *words_of(const struct bundle *b, struct recipe recipe, size_t size) {
    static char words[80];
    snprintf(words, sizeof words, "%s, %zu KiB, %zu records", recipe.name, size / KIB, b->records);
    return words;
}

/* Fields 5 to 10 of an AR record: discount, whether it is applied together with others, rating, companion, rounding and factor. The first
 * code's are those of every recipe. */
static const char *const CARDS[] = {"030000Y001N+050", "010000Y001NN000", "005000Y002N-010", "060000N001NN000"};
enum { CARD_COUNT = sizeof CARDS / sizeof *CARDS };

/* ---- chance */

unsigned chance(unsigned limit) {
    static uint64_t state = 88172645463325252u;
    state ^= state << 13;
    state ^= state >> 7;
    state ^= state << 17;
    return (unsigned)(state >> 32) % limit;
}

/* Words of letters, some with an accent, and blanks: ISO 8859-1. */
static void write_text(char *to, size_t n) {
    for (size_t i = 0; i < n; i++) {
        unsigned c = chance(20);
        to[i] = (char)(c < 3 ? ' ' : c < 4 ? 0xC0 + chance(64) : 'a' + chance(26));
    }
    to[n] = '\0';
}

/* ---- records */

static int fits(const struct bundle *b, size_t size, size_t bytes) { return b->length + bytes <= size; }

static void add(struct bundle *b, const char *record) {
    size_t n = strlen(record);
    memcpy(b->bytes + b->length, record, n);
    b->length += n;
    b->records++;
}

void add_re(struct bundle *b, unsigned code) {
    char text[416], record[RECORD_ROOM];
    write_text(text, 415);
    snprintf(record, sizeof record, "RE1185%03u%s202401010120241231", code, text);
    add(b, record);
}

void add_co(struct bundle *b, struct recipe recipe, unsigned offer, unsigned railway) {
    char text[101], record[RECORD_ROOM];
    write_text(text, 100);
    snprintf(record, sizeof record, "CO1185%05u%04u%sN01991NN%cNNN%cN025000+005202401010120241231", offer, railway, text,
             recipe.ar > 0 ? 'Y' : 'N', recipe.me > 0 ? 'Y' : 'N');
    add(b, record);
}

void add_ar(struct bundle *b, unsigned offer, unsigned railway, unsigned code) {
    char record[RECORD_ROOM];
    snprintf(record, sizeof record, "AR1185%05u%04u%03u%s202401010120241231", offer, railway, code, CARDS[(code - 1) % CARD_COUNT]);
    add(b, record);
}

static void add_me(struct bundle *b, unsigned offer, unsigned railway) {
    char text[1201], record[RECORD_ROOM];
    write_text(text, 1200);
    snprintf(record, sizeof record, "ME1185%05u%04u%s202401010120241231", offer, railway, text);
    add(b, record);
}

/* ---- bundles */

static void add_types(struct bundle *b, struct recipe recipe, size_t size) {
    size_t share = size * (size_t)recipe.re_percent / 100;
    unsigned code = 1;
    do add_re(b, code++);
    while (code <= (unsigned)recipe.codes || (fits(b, share, MARK + LENGTHS[RE]) && code <= BUNDLE_CODES));
}

/* Records of a table that an offer has for one railway. */
static int count_of(struct recipe recipe, enum table table, int railway) {
    if (table == CO) return recipe.co > railway;
    if (railway < recipe.own_only) return 0;
    if (table == AR) return recipe.ar > railway ? recipe.codes : 0;
    return table == ME && recipe.me > railway;
}

static size_t bytes_for(struct recipe recipe, int railway) {
    size_t bytes = 0;
    for (enum table table = CO; table < TABLES; table++) bytes += (size_t)count_of(recipe, table, railway) * (MARK + LENGTHS[table]);
    return bytes;
}

static void add_of_table(struct bundle *b, struct recipe recipe, enum table table, unsigned offer, int railway) {
    int count = count_of(recipe, table, railway);
    if (table == CO && count > 0) add_co(b, recipe, offer, (unsigned)railway);
    for (int code = 1; table == AR && code <= count; code++) add_ar(b, offer, (unsigned)railway, (unsigned)code);
    if (table == ME && count > 0) add_me(b, offer, (unsigned)railway);
}

static void add_by_offer(struct bundle *b, struct recipe recipe, size_t size) {
    unsigned offer = 1;
    int railway = 0;
    for (size_t bytes; fits(b, size, bytes = bytes_for(recipe, railway)); railway++) {
        if (bytes == 0) {
            offer++;
            railway = -1;
            continue;
        }
        for (enum table table = CO; table < TABLES; table++) add_of_table(b, recipe, table, offer, railway);
    }
}

static void add_by_table(struct bundle *b, struct recipe recipe, size_t size) {
    size_t of_offer = 0;
    for (int railway = 0; bytes_for(recipe, railway) > 0; railway++) of_offer += bytes_for(recipe, railway);
    unsigned offers = (unsigned)((size - b->length) / of_offer);
    for (enum table table = CO; table < TABLES; table++)
        for (unsigned offer = 1; offer <= offers; offer++)
            for (int railway = 0; bytes_for(recipe, railway) > 0; railway++) add_of_table(b, recipe, table, offer, railway);
}

void make_bundle(struct bundle *b, struct recipe recipe, size_t size) {
    b->length = b->records = 0;
    add_types(b, recipe, size);
    if (recipe.by_table) add_by_table(b, recipe, size);
    else add_by_offer(b, recipe, size);
}

/* An offer has 10,000 railways, and with one code as many keys: three offers are enough for all AR records. */
enum { COSTLIEST_OFFERS = 3, RAILWAYS = 10000 };

static void add_needed(struct bundle *b) {
    const struct recipe no_links = {"", 1, 0, 0, 0, 1, 0, 0};
    for (unsigned offer = 1; offer <= COSTLIEST_OFFERS; offer++) add_co(b, no_links, offer, 0);
    add_re(b, 1);
}

void make_costliest(struct bundle *b, int needed_last) {
    size_t needed = COSTLIEST_OFFERS * (MARK + LENGTHS[CO]) + MARK + LENGTHS[RE];
    b->length = b->records = 0;
    if (!needed_last) add_needed(b);
    size_t end = needed_last ? BUNDLE_LIMIT - needed : BUNDLE_LIMIT;
    for (unsigned k = 0; fits(b, end, MARK + LENGTHS[AR]); k++) add_ar(b, 1 + k / RAILWAYS, k % RAILWAYS, 1);
    if (needed_last) add_needed(b);
}

/* ---- records of a made bundle, which is valid */

static enum table table_at(const struct bundle *b, size_t at) {
    const char *found = strstr(MARKS, (char[3]){(char)b->bytes[at], (char)b->bytes[at + 1], '\0'});
    return (enum table)((found - MARKS) / 3);
}

static size_t length_at(const struct bundle *b, size_t at) { return MARK + LENGTHS[table_at(b, at)]; }

static size_t start_of(const struct bundle *b, size_t record) {
    size_t at = 0;
    while (record-- > 0) at += length_at(b, at);
    return at;
}

unsigned middle_offer(const struct bundle *b) {
    size_t middle = b->records / 2;
    char offer[6] = "";
    memcpy(offer, b->bytes + start_of(b, middle) + MARK + 4, 5);
    return (unsigned)atoi(offer);
}

/* ---- order */

int is_sorted(const struct bundle *b) {
    static const size_t KEY_LENGTHS[TABLES] = {9, 3, 12, 9};
    const uint8_t *last[TABLES] = {NULL, NULL, NULL, NULL};
    for (size_t at = 0; at < b->length; at += length_at(b, at)) {
        enum table table = table_at(b, at);
        const uint8_t *key = b->bytes + at + MARK + 4;
        if (last[table] != NULL && memcmp(last[table], key, KEY_LENGTHS[table]) > 0) return 0;
        last[table] = key;
    }
    return 1;
}

void shuffle(struct bundle *b) {
    static struct bundle sorted;
    static size_t starts[BUNDLE_LIMIT / MARK];
    memcpy(&sorted, b, sizeof sorted);
    size_t count = 0;
    for (size_t at = 0; at < sorted.length; at += length_at(&sorted, at)) starts[count++] = at;
    size_t length = 0;
    for (; count > 0; count--) {
        size_t drawn = chance((unsigned)count), from = starts[drawn], bytes = length_at(&sorted, from);
        memcpy(b->bytes + length, sorted.bytes + from, bytes);
        length += bytes;
        starts[drawn] = starts[count - 1];
    }
}

/* ---- seasons; a record ends with its first day, its version and its last day */

enum { DAY = 8, PERIOD = 18, KEY_AT = MARK + 4, RAILWAY_AT = KEY_AT + 5 };

static uint8_t *first_day_at(struct bundle *b, size_t at) { return b->bytes + at + length_at(b, at) - PERIOD; }

static uint8_t *last_day_at(struct bundle *b, size_t at) { return b->bytes + at + length_at(b, at) - DAY; }

static unsigned number_at(const uint8_t *digits, int count) {
    unsigned value = 0;
    for (int k = 0; k < count; k++) value = value * 10 + (unsigned)(digits[k] - '0');
    return value;
}

static void write_number(uint8_t *to, int count, unsigned value) {
    for (int k = count - 1; k >= 0; k--, value /= 10) to[k] = (uint8_t)('0' + value % 10);
}

static void write_period(struct bundle *b, size_t at, unsigned first_day, unsigned last_day) {
    write_number(first_day_at(b, at), DAY, first_day);
    write_number(last_day_at(b, at), DAY, last_day);
}

static void write_season(struct bundle *b, size_t at, unsigned season) {
    unsigned year = (2024 + season / 2) * 10000;
    if (season % 2 == 0) write_period(b, at, year + 601, year + 1130);
    else write_period(b, at, year + 1201, year + 10000 + 531);
}

static unsigned season_at(struct bundle *b, size_t at) {
    unsigned first_day = number_at(first_day_at(b, at), DAY);
    return (first_day / 10000 - 2024) * 2 + (first_day % 10000 == 1201);
}

static void add_season(struct bundle *b, const struct bundle *once, size_t from, unsigned season) {
    size_t at = b->length, bytes = length_at(once, from);
    memcpy(b->bytes + at, once->bytes + from, bytes);
    write_season(b, at, season);
    b->length += bytes;
    b->records++;
}

static void add_key_by_key(struct bundle *b, const struct bundle *once, unsigned seasons) {
    for (size_t at = 0; at < once->length; at += length_at(once, at))
        for (unsigned season = 0; season < seasons; season++) add_season(b, once, at, season);
}

static void add_season_by_season(struct bundle *b, const struct bundle *once, unsigned seasons) {
    for (unsigned season = 0; season < seasons; season++)
        for (size_t at = 0; at < once->length; at += length_at(once, at)) add_season(b, once, at, season);
}

void make_seasonal(struct bundle *b, struct recipe recipe, size_t size, unsigned seasons, enum order order) {
    static struct bundle once;
    make_bundle(&once, recipe, size / seasons);
    b->length = b->records = 0;
    if (order == BY_SEASON) add_season_by_season(b, &once, seasons);
    else add_key_by_key(b, &once, seasons);
    if (order == BY_CHANCE) shuffle(b);
}

unsigned own_railway(unsigned railway, unsigned season, unsigned seasons) { return railway * seasons + season; }

void give_own_keys(struct bundle *b, unsigned seasons) {
    for (size_t at = 0; at < b->length; at += length_at(b, at)) {
        unsigned season = season_at(b, at);
        uint8_t *code = b->bytes + at + KEY_AT, *railway = b->bytes + at + RAILWAY_AT;
        if (table_at(b, at) == RE) write_number(code, 3, 1 + (number_at(code, 3) - 1) * seasons + season);
        else write_number(railway, 4, own_railway(number_at(railway, 4), season, seasons));
        write_period(b, at, 20240101, 20241231);
    }
}

/* ---- other cards and conditions */

enum { DISCOUNT_OF_CO_AT = 128, DISCOUNT_OF_AR_AT = 17 };

static void draw_table(struct bundle *b, enum table table, void (*draw)(uint8_t *record)) {
    for (size_t at = 0; at < b->length; at += length_at(b, at)) {
        if (table_at(b, at) != table) continue;
        draw(b->bytes + at + MARK);
        if (chance(5) == 0) memcpy(last_day_at(b, at), first_day_at(b, at), DAY);
    }
}

static void draw_card(uint8_t *record) {
    char said[16];
    snprintf(said, sizeof said, "%06u%c%03uN%c%03u", chance(100001), "YN"[chance(2)], 1 + chance(3), "+-0N"[chance(4)], 1 + chance(999));
    memcpy(record + DISCOUNT_OF_AR_AT - 1, said, strlen(said));
}

void draw_cards(struct bundle *b) { draw_table(b, AR, draw_card); }

static void draw_condition(uint8_t *record) {
    char said[16];
    snprintf(said, sizeof said, "%06u%c%03u", chance(100001), "+-0N"[chance(4)], 1 + chance(999));
    memcpy(record + DISCOUNT_OF_CO_AT - 1, said, strlen(said));
}

void draw_conditions(struct bundle *b) { draw_table(b, CO, draw_condition); }

/* ---- damage */

void break_last_field(struct bundle *b) { b->bytes[b->length - 1] = 'X'; }

static void change_byte(struct bundle *b) {
    static const char LIKELY[] = " 019YN+-0CRAMEO\n\x7f\xa0";
    size_t start = start_of(b, chance((unsigned)b->records));
    size_t length = length_at(b, start);
    size_t last_bytes = chance(2) && length > 60 ? 60 : length;
    size_t at = start + length - 1 - chance((unsigned)last_bytes);
    b->bytes[at] = chance(4) ? (uint8_t)LIKELY[chance(sizeof LIKELY - 1)] : (uint8_t)chance(256);
}

static void cut_end(struct bundle *b) { b->length -= 1 + chance(200); }

/* One record's first bytes, key and all, over another's: a repeated key, a lost link, or, between tables, a broken field. */
static void copy_start(struct bundle *b) {
    size_t from = start_of(b, chance((unsigned)b->records)), to = start_of(b, chance((unsigned)b->records));
    size_t most = MARK + 16;
    if (b->bytes[from] == b->bytes[to]) memmove(b->bytes + to, b->bytes + from, most);
    else memmove(b->bytes + to + MARK, b->bytes + from + MARK, 4 + chance(10));
}

static void change_transferor(struct bundle *b) { b->bytes[start_of(b, chance((unsigned)b->records)) + MARK + 3] = (uint8_t)('0' + chance(10)); }

static void change_offer(struct bundle *b) { b->bytes[start_of(b, chance((unsigned)b->records)) + MARK + 4 + chance(3)] = '7'; }

static void copy_period(struct bundle *b) {
    size_t from = start_of(b, chance((unsigned)b->records)), to = start_of(b, chance((unsigned)b->records));
    memmove(first_day_at(b, to), first_day_at(b, from), PERIOD);
}

/* One record's first or last day over another's: where they are of one season or of neighbours, the periods of a key then share a day or more, or
 * the last day is before the first. */
static void copy_day(struct bundle *b) {
    size_t from = start_of(b, chance((unsigned)b->records)), to = start_of(b, chance((unsigned)b->records));
    uint8_t *over = chance(2) ? first_day_at(b, to) : last_day_at(b, to);
    memmove(over, chance(2) ? first_day_at(b, from) : last_day_at(b, from), DAY);
}

static void remove_record(struct bundle *b) {
    size_t at = start_of(b, chance((unsigned)b->records)), n = length_at(b, at);
    memmove(b->bytes + at, b->bytes + at + n, b->length - at - n);
    b->length -= n;
}

void damage(struct bundle *b) {
    static void (*const WAYS[])(struct bundle *) = {change_byte, change_byte, change_byte, cut_end, copy_start, copy_start, change_transferor,
                                                    change_offer, copy_period, copy_day, copy_day, remove_record};
    WAYS[chance(sizeof WAYS / sizeof *WAYS)](b);
}
