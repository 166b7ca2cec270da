"""The stored cases: name, input, the line that is due, and why.

The lines were worked out from the scope document, not taken from a run. Records count from 0 in the order they are written here.
"""
from records import ar, co, me, re

# A bundle that every link is kept in: record 0 wants an AR and an ME, record 1 serves record 2.
ALL = co({33: "Y", 37: "Y"}) + re() + ar() + me()

CASES = []


def case(name, data, line, why):
    CASES.append((name, data, line, why))


# The document's own examples.
case("example-empty", b"", "OK 0", "an empty bundle is accepted")
case("example-xx", b"XX", "NO 2 0 0", "XX is no mark")
case("example-discount", b"AR1185000420000007030000Y001N+050202401010120241231", "NO 7 0 1", "an AR alone lacks its RE before its CO")

# Accepted.
case("all-tables", ALL, "OK 4", "each table once, every link kept")
case("links-backwards", me() + ar() + re() + co({33: "Y", 37: "Y"}), "OK 4", "a link may lead to a later record as well as to an earlier one")
case("co-alone", co(), "OK 1", "a CO with no flag at Y wants nothing")
case("re-alone", re(), "OK 1", "an RE wants nothing")
case("same-key-in-two-tables", co() + me(), "OK 2", "a key is told apart within its table only")
case("ar-codes-differ", co() + re() + re({2: "008"}) + ar() + ar({4: "008"}), "OK 5", "the code is part of an AR's key")
case("ar-railways-differ", co() + re() + ar() + ar({3: "1181"}), "OK 4", "the railway is part of an AR's key")
case("offers-differ", co() + co({2: "00043"}), "OK 2", "the offer is part of a CO's key")

# 2: mark unknown, or one byte left.
case("mark-lower-case", b"co" + co()[2:], "NO 2 0 0", "marks are in capitals")
case("mark-swapped", b"OC" + co()[2:], "NO 2 0 0", "the two letters count in order")
case("mark-half-known", b"CE" + co()[2:], "NO 2 0 0", "both letters have to be of one mark")
case("mark-one-byte", b"C", "NO 2 0 0", "one byte left is 2, also the first letter of a mark")
case("mark-one-byte-later", ALL + b"A", "NO 2 4 0", "one byte left after four records")
case("mark-line-feed", ALL + b"\n", "NO 2 4 0", "a line feed after the last record is one byte left")
case("mark-two-line-ends", ALL + b"\r\n", "NO 2 4 0", "two bytes that are no mark")
case("mark-between", co() + b"\n" + re(), "NO 2 1 0", "nothing may stand between records")
case("mark-before-links", ar() + b"XX", "NO 2 1 0", "2 in a late record is told before 7 in an early one")

# 3: record shorter than its length.
case("short-mark-only", b"CO", "NO 3 0 0", "a known mark and nothing after it")
case("short-co", co()[:-1], "NO 3 0 0", "a CO of 154 bytes")
case("short-re", co() + re()[:-1], "NO 3 1 0", "an RE of 439 bytes")
case("short-ar", co() + re() + ar()[:-1], "NO 3 2 0", "an AR of 48 bytes")
case("short-me", co() + me()[:-1], "NO 3 1 0", "an ME of 1230 bytes")
case("short-before-field", co({1: "0000"})[:-1], "NO 3 0 0", "3 is told before 4: a short record is not looked into")
case("short-after-field", co({1: "0000"}) + b"AR", "NO 4 0 1", "4 in record 0 is told before 3 in record 1")
case("short-before-links", ar() + b"ME", "NO 3 1 0", "3 in a late record is told before 7 in an early one")

# 4: a field breaks its rule.
case("field-first-of-two", co({2: "00000", 44: "20241301"}), "NO 4 0 2", "fields are told from left to right")
case("field-first-of-two-records", co({44: "20241301"}) + re({1: "0000"}), "NO 4 0 44", "records are told from record 0")
case("field-before-mark", co({44: "20241301"}) + b"XX", "NO 4 0 44", "4 in record 0 is told before 2 in record 1")
case("field-late-before-5", co() + re({1: "1181"}) + co({30: " "}), "NO 4 2 30", "4 in a late record is told before 5 in an early one")
case("field-late-before-6", co() + co() + re({2: "000"}), "NO 4 2 2", "4 in a late record is told before 6 in an early one")
case("field-late-before-7", ar() + me({9: "20240100"}), "NO 4 1 9", "4 in a late record is told before 7 in an early one")
case("transferor-0000", re({1: "0000"}), "NO 4 0 1", "a transferor is 0001 to 9999")
case("transferor-ends", re({1: "0001"}) + re({1: "0001", 2: "999"}), "OK 2", "0001 is a transferor, 999 a code")
case("transferor-9999", re({1: "9999"}), "OK 1", "9999 is a transferor")
case("transferor-blank-inside", re({1: "1 85"}), "NO 4 0 1", "a number is digits alone")
case("transferor-superscript", re({1: "118\xb2"}), "NO 4 0 1", "a superscript digit is text, no digit")
case("offer-00000", co({2: "00000"}), "NO 4 0 2", "an offer is 00001 to 99999")
case("offer-ends", co({2: "00001"}) + co({2: "99999"}), "OK 2", "both ends of the offers")
case("railway-9999", co({3: "9999"}), "OK 1", "9999 is a railway")
case("railway-letter", co({3: "118A"}), "NO 4 0 3", "a railway is four digits")
case("co-text-31", co({4: "a\x1fb"}), "NO 4 0 4", "31 is no text byte")
case("co-text-127", co({4: " " * 99 + "\x7f"}), "NO 4 0 4", "127 is no text byte, also as the last of the field")
case("co-text-159", co({4: "\x9f"}), "NO 4 0 4", "159 is no text byte")
case("co-text-ends", co({4: " ~\xa0\xff"}), "OK 1", "32, 126, 160 and 255 are text bytes")
case("flag-27-blank", co({27: " "}), "OK 1", "field 27 may be blank")
case("flag-27-lower-case", co({27: "y"}), "NO 4 0 27", "flags are capitals")
case("flag-31-blank", co({31: " "}), "NO 4 0 31", "of the flags field 27 alone may be blank")
case("flag-38-digit", co({38: "1"}), "NO 4 0 38", "a flag is Y or N")
case("persons-blank", co({28: "  ", 29: "  "}), "OK 1", "two blanks are 00 and 99")
case("persons-least-blank", co({28: "  ", 29: "01"}), "OK 1", "each of the two may be blank by itself: least is 00")
case("persons-most-blank", co({28: "99", 29: "  "}), "OK 1", "each of the two may be blank by itself: most is 99")
case("persons-least-half-blank", co({28: " 1"}), "NO 4 0 28", "one blank and one digit is a fault")
case("persons-most-half-blank", co({29: "1 "}), "NO 4 0 29", "one digit and one blank is a fault")
case("persons-most-00", co({28: "00", 29: "00"}), "NO 4 0 29", "most is 01 to 99")
case("persons-least-over-most", co({28: "10", 29: "09"}), "NO 4 0 29", "least above most is a fault at 29")
case("persons-least-99-most-98", co({28: "99", 29: "98"}), "NO 4 0 29", "98 is a most, and 99 is above it")
case("persons-equal", co({28: "09", 29: "09"}), "OK 1", "least may equal most")
case("persons-99", co({28: "99", 29: "99"}), "OK 1", "99 is no most")
case("series-blank", co({30: " "}), "NO 4 0 30", "the series is a digit")
case("series-ends", co({30: "0"}) + co({3: "1185", 30: "9"}), "OK 2", "any digit is a series")
case("co-discount-blank", co({39: " " * 6}), "OK 1", "in CO six blanks are 000000")
case("co-discount-half-blank", co({39: " 25000"}), "NO 4 0 39", "five digits and a blank are no number")
case("co-discount-100000", co({39: "100000"}), "OK 1", "the greatest discount")
case("co-discount-100001", co({39: "100001"}), "NO 4 0 39", "above the greatest discount")
case("rounding-lower-case", co({40: "n"}), "NO 4 0 40", "rounding is one of + - 0 N")
case("rounding-before-factor", co({40: " ", 41: "   "}), "NO 4 0 40", "the rounding byte stands left of the factor")
case("factor-000-under-n", co({40: "N", 41: "000"}), "OK 1", "under N any three digits pass")
case("factor-999-under-n", co({40: "N", 41: "999"}), "OK 1", "under N any three digits pass")
case("factor-blank-under-n", co({40: "N", 41: "   "}), "NO 4 0 41", "under N it still has to be digits")
case("factor-000-under-plus", co({40: "+", 41: "000"}), "NO 4 0 41", "000 is a fault unless rounding is N")
case("factor-000-under-minus", co({40: "-", 41: "000"}), "NO 4 0 41", "000 is a fault unless rounding is N")
case("factor-000-under-0", co({40: "0", 41: "000"}), "NO 4 0 41", "000 is a fault unless rounding is N")
case("factor-001-under-0", co({40: "0", 41: "001"}), "OK 1", "the least factor")
case("day-29-february-2024", co({42: "20240229"}), "OK 1", "2024 is a leap year")
case("day-29-february-2000", co({42: "20000229"}), "OK 1", "2000 is a leap year")
case("day-29-february-2023", co({42: "20230229"}), "NO 4 0 42", "2023 is no leap year")
case("day-29-february-2100", co({42: "20240101", 44: "21000229"}), "NO 4 0 44", "2100 is no leap year")
case("day-31-april", co({42: "20240431"}), "NO 4 0 42", "April has 30 days")
case("day-31-july-and-august", co({42: "20240731", 44: "20240831"}), "OK 1", "July and August both have 31 days")
case("day-31-september", co({42: "20240931"}), "NO 4 0 42", "September has 30 days")
case("day-32-august", co({42: "20240801", 44: "20240832"}), "NO 4 0 44", "August has 31 days")
case("day-00", co({42: "20240100"}), "NO 4 0 42", "there is no day 00")
case("day-month-00", co({42: "20240015"}), "NO 4 0 42", "there is no month 00")
case("day-month-13", co({42: "20241301"}), "NO 4 0 42", "there is no month 13")
case("day-1582", co({42: "15821231"}), "NO 4 0 42", "years start at 1583")
case("day-ends", co({42: "15830101", 44: "99991231"}), "OK 1", "the first and the last day there are")
case("day-blank", co({42: " " * 8}), "NO 4 0 42", "no rule lets a day be blank")
case("version-00", co({43: "00"}), "NO 4 0 43", "a version is 01 to 99")
case("version-before-last-day", co({42: "20240102", 43: "00", 44: "20240101"}), "NO 4 0 43", "the version stands between the two days")
case("last-day-before-first", co({42: "20240102", 44: "20240101"}), "NO 4 0 44", "the fault is at the last day")
case("last-day-equals-first", co({42: "20240102", 44: "20240102"}), "OK 1", "a period of one day")
case("ar-discount-blank", ar({5: " " * 6}), "NO 4 0 5", "in AR a blank discount is a fault")
case("ar-cumulative-blank", ar({6: " "}), "NO 4 0 6", "a flag, and field 27 alone may be blank")
case("ar-rating-000", ar({7: "000"}), "NO 4 0 7", "a rating is 001 to 999")
case("ar-factor-000", ar({10: "000"}), "NO 4 0 10", "000 is a fault under +")
case("ar-last-day-before-first", ar({13: "20231231"}), "NO 4 0 13", "the fault is at the last day")
case("re-code-000", re({2: "000"}), "NO 4 0 2", "a code is 001 to 999")
case("re-link-line-feed", re({8: " " * 264 + "\n"}), "NO 4 0 8", "a line feed is no text byte, also as the last of the field")
case("me-text-last-byte", me({8: " " * 239 + "\x00"}), "NO 4 0 8", "0 is no text byte")

# 5: another transferor.
case("transferor-other", co() + re() + re({1: "1181", 2: "008"}), "NO 5 2 0", "record 2 has another transferor than record 0")
case("transferor-first-counts", co({1: "1181"}) + re() + re({2: "008"}), "NO 5 1 0", "the first record's transferor is the one that counts")

# 6: key repeated.
case("key-co", co({3: "1181"}) + re() + co() + re({2: "008"}) + co(), "NO 6 4 2", "record 4 repeats the key of record 2")
case("key-re", re() + co() + re(), "NO 6 2 0", "record 2 repeats the code of record 0")
case("key-ar", co() + re() + ar({3: "1185"}) + ar() + ar({3: "1185"}), "NO 6 4 2", "record 4 repeats offer, railway and code of record 2")
case("key-me", co() + me() + me({3: "1185"}) + me(), "NO 6 3 1", "record 3 repeats offer and railway of record 1")
case("key-other-version", co() + co({39: "010000", 43: "02"}), "NO 6 1 0", "versions and discounts are no part of a key")
case("key-thrice", co() + co() + co(), "NO 6 1 0", "the first pair found: record 1 with record 0")
case("key-two-pairs", co() + re() + re() + co(), "NO 6 2 1", "the first record that repeats a key is record 2, not 3")

# 6, or not: summer and winter. A day that is the last of one period and the first of another is in both.
SUMMER, WINTER = ("20240101", "20240531"), ("20240601", "20241231")


def in_period(make, first_field, period, changed=None):
    """A record of a table whose first day is that field, and whose last day is the field two further on."""
    return make({**(changed or {}), first_field: period[0], first_field + 2: period[1]})


def co_in(period, changed=None):
    return in_period(co, 42, period, changed)


for name, make, field, before in (("co", co, 42, b""), ("re", re, 9, b""), ("ar", ar, 11, co() + re()), ("me", me, 9, co())):
    earlier = {"ar": 2, "me": 1}.get(name, 0)
    summer, winter = in_period(make, field, SUMMER), in_period(make, field, WINTER)
    touching = in_period(make, field, ("20240531", "20241231"))
    late, nested = in_period(make, field, ("20241231", "20251231")), in_period(make, field, ("20240701", "20240731"))
    accepted, refused = f"OK {earlier + 2}", f"NO 6 {earlier + 1} {earlier}"
    case(f"season-{name}", before + summer + winter, accepted, "the winter's first day is the day after the summer's last")
    case(f"season-{name}-winter-first", before + winter + summer, accepted, "the order of the periods does not count")
    case(f"season-{name}-first-day-shared", before + summer + touching, refused, "31 May is in both")
    case(f"season-{name}-last-day-shared", before + touching + summer, refused, "31 May is in both, the later period first")
    case(f"season-{name}-end-of-year", before + winter + late, refused, "31 December is in both")
    case(f"season-{name}-nested", before + winter + nested, refused, "July is in both")
    case(f"season-{name}-around", before + nested + winter, refused, "July is in both, the shorter period first")
    case(f"season-{name}-repeated", before + summer + winter + summer, f"NO 6 {earlier + 2} {earlier}", "the summer is there twice")

FIRST, THIRD = co_in(("20240101", "20240331")), co_in(("20240701", "20240930"))
case("season-not-transitive", FIRST + THIRD + co_in(("20240201", "20240831")), "NO 6 2 0", "February to August meets both, and the first counts")
case("season-not-the-first-of-the-key", FIRST + THIRD + co_in(("20240801", "20241231")), "NO 6 2 1", "August to December meets the second alone")
case("season-in-between", FIRST + THIRD + co_in(("20240401", "20240630")), "OK 3", "April to June is in neither")
case("season-one-day", co_in(("20240601", "20240601")) + co_in(("20240602", "20240602")), "OK 2", "two days, a record each")
case("season-same-day", co_in(("20240601", "20240601")) + co_in(("20240601", "20240601")), "NO 6 1 0", "one day, twice")
case("season-years", b"".join(co_in((f"{year}0101", f"{year}1231")) for year in range(2020, 2030)), "OK 10", "ten years, a record each")
case("season-other-railway", co_in(SUMMER) + co_in(SUMMER, {3: "1185"}), "OK 2", "another key may have the same period")
case("season-link-off-its-days", co_in(WINTER, {33: "Y"}) + in_period(re, 9, SUMMER) + in_period(ar, 11, SUMMER), "OK 3", "links ignore the days")

# 7: link missing.
case("link-ar-re", co() + ar(), "NO 7 1 1", "no RE of the code")
case("link-ar-re-other-code", co() + re({2: "008"}) + ar(), "NO 7 2 1", "the RE has another code")
case("link-ar-co", re() + ar(), "NO 7 1 2", "no CO of the offer")
case("link-ar-co-other-offer", re() + co({2: "00043"}) + ar(), "NO 7 2 2", "the CO has another offer")
case("link-ar-co-any-railway", re() + co({3: "1185"}) + ar({3: "1181"}), "OK 3", "an AR's CO may have any railway")
case("link-me-co", re() + me(), "NO 7 1 2", "no CO of the offer")
case("link-me-co-any-railway", co({3: "1185"}) + me({3: "1181"}), "OK 2", "an ME's CO may have any railway")
case("link-co-ar", co({33: "Y"}), "NO 7 0 3", "no AR of the offer")
case("link-co-ar-other-railway", re() + co({3: "1185", 33: "Y"}) + ar({3: "1181"}), "NO 7 1 3", "the AR has neither railway 1185 nor 0000")
case("link-co-ar-own-railway", re() + co({3: "1185", 33: "Y"}) + ar({3: "1185"}), "OK 3", "the AR has the CO's railway")
case("link-co-ar-0000", re() + co({3: "1185", 33: "Y"}) + ar(), "OK 3", "an AR of 0000 serves every railway")
case("link-co-0000-ar", re() + co({33: "Y"}) + ar({3: "1181"}), "OK 3", "a CO of 0000 is served by any railway")
case("link-co-ar-other-offer", re() + co({33: "Y"}) + co({2: "00043"}) + ar({2: "00043"}), "NO 7 1 3", "the AR has another offer")
case("link-co-me", co({37: "Y"}), "NO 7 0 4", "no ME of the offer")
case("link-co-me-other-railway", co({3: "1185", 37: "Y"}) + me({3: "1181"}), "NO 7 0 4", "the ME has neither railway 1185 nor 0000")
case("link-co-me-0000", co({3: "1185", 37: "Y"}) + me(), "OK 2", "an ME of 0000 serves every railway")
case("link-co-both", co({33: "Y", 37: "Y"}), "NO 7 0 3", "the AR is told before the ME")
case("link-co-second", co({33: "Y", 37: "Y"}) + re() + ar(), "NO 7 0 4", "the AR is there, the ME is not")
case("link-ar-both", re({2: "008"}) + ar(), "NO 7 1 1", "the RE is told before the CO")

# Each record for 5, then 6, then 7, before the next record.
case("order-5-6-7", co({33: "Y"}) + re() + ar() + co({1: "1181", 37: "Y"}), "NO 5 3 0", "record 3 has another transferor, a repeated key and no ME")
case("order-6-7", co({33: "Y"}) + re() + ar() + co({37: "Y"}), "NO 6 3 0", "record 3 repeats a key and has no ME")
case("order-7-before-5", re() + ar() + re({1: "1181", 2: "008"}), "NO 7 1 2", "7 at record 1 is told before 5 at record 2")
case("order-7-before-6", ar() + re() + re(), "NO 7 0 2", "7 at record 0 is told before 6 at record 2")
case("order-6-before-5", re() + re() + re({1: "1181"}), "NO 6 1 0", "6 at record 1 is told before 5 at record 2")
case("order-link-to-other-transferor", ar() + co() + re({1: "1181"}), "NO 5 2 0", "the RE serves the AR, and is at fault at its own record")

# The bundle of examples/: two types of discount, one offer for all railways and for two of its own, another for one railway and for
# groups of two to five.
SAMPLE_RECORDS = [
    re({3: "Annual card", 4: "Half of the fare"}),
    re({2: "012", 3: "Staff card", 4: "Free travel"}),
    co({33: "Y", 37: "Y"}),
    co({3: "1185", 33: "Y", 39: "030000", 40: "+", 41: "050"}),
    co({3: "1181", 39: " " * 6, 40: "0", 41: "010"}),
    ar(),
    ar({3: "1185", 5: "050000", 9: "N", 10: "000"}),
    ar({3: "1185", 4: "012", 5: "100000", 9: "-", 10: "001"}),
    me({4: "Not valid in night trains. G\xfcltig f\xfcr Hin- und R\xfcckfahrt."}),
    co({2: "00043", 3: "1185", 28: "02", 29: "05", 39: "060000"}),
]
SAMPLE = b"".join(SAMPLE_RECORDS)
SAMPLE_LINE = "OK 10"
