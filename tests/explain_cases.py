"""What the program explain owes to a bundle: the names and rules of fields, and the words for the samples of examples/.

The names are short forms of those in source document 001, Appendices C, H, I and O; the rules are the scope document's. Both are
written by hand and share nothing with crates/. Positions are counted from the lengths in records.py.
"""
import re as patterns

from cases import SAMPLE, SAMPLE_RECORDS
from records import GOOD, ar, co, me, re

END = "Only this first fault is told. Once it is mended there may be another."

TABLES = {"CO": "conditions", "RE": "types of discount", "AR": "additional discounts", "ME": "memo"}

FLAG = "Y or N, in capitals"
TEXT = (
    "text, of bytes 32 to 126 and 160 to 255 only; the first other byte is {byte}, at position {at} of the record, "
    "byte {place} of the bundle"
)
DAY = "a real day, written YYYYMMDD, of the years 1583 to 9999"
LAST_DAY = DAY + ', and not before the first day in field {before}, which is "{earlier}"'
FACTOR = 'digits only, {least} to 999, under the rounding in field {before}, which is "{earlier}"; 000 is for rounding N only'
VERSION = "digits only, 01 to 99"
OFFER = "digits only, 00001 to 99999"
RAILWAY = "four digits, 0000 to 9999, where 0000 stands for all railways"
TRANSFEROR = "four digits, 0001 to 9999"

# Of each field its name, its rule and the field that the rule looks back to.
FIELDS = {
    "CO": {
        1: ("transferor", TRANSFEROR, None),
        2: ("offer number", OFFER, None),
        3: ("participating railway", RAILWAY, None),
        4: ("conditions of fields 4 to 26, taken as one text", TEXT, None),
        27: ("special conditions on the number of passengers", FLAG + ", or blank", None),
        28: ("minimum number of passengers", "digits only, 00 to 99, or all blank", None),
        29: (
            "maximum number of passengers",
            "digits only, 01 to 99, or all blank, and if it is 01 to 98, not below the minimum in field {before}, which is "
            '"{earlier}"',
            28,
        ),
        30: ("special series", "digits only, 0 to 9", None),
        31: ("train restrictions", FLAG, None),
        32: ("passenger category discounts", FLAG, None),
        33: ("additional discount", FLAG, None),
        34: ("accompanying-person discount", FLAG, None),
        35: ("exclusion periods", FLAG, None),
        36: ("exchange and refund", FLAG, None),
        37: ("extra information", FLAG, None),
        38: ("supplement required", FLAG, None),
        39: ("discount", "digits only, 000000 to 100000, or all blank", None),
        40: ("rounding", "one of + - 0 N", None),
        41: ("rounding factor", FACTOR, 40),
        42: ("first day of validity", DAY, None),
        43: ("version number", VERSION, None),
        44: ("last day of validity", LAST_DAY, 42),
    },
    "RE": {
        1: ("transferor", TRANSFEROR, None),
        2: ("discount code", "digits only, 001 to 999", None),
        3: ("type of discount in the country's language", TEXT, None),
        4: ("type of discount in French", TEXT, None),
        5: ("type of discount in German", TEXT, None),
        6: ("type of discount in English", TEXT, None),
        7: ("reserved", TEXT, None),
        8: ("link", TEXT, None),
        9: ("first day of validity", DAY, None),
        10: ("version number", VERSION, None),
        11: ("last day of validity", LAST_DAY, 9),
    },
    "AR": {
        1: ("transferor", TRANSFEROR, None),
        2: ("offer number", OFFER, None),
        3: ("participating railway", RAILWAY, None),
        4: ("discount code", "digits only, 001 to 999", None),
        5: ("discount", "digits only, 000000 to 100000", None),
        6: ("cumulative discounts", FLAG, None),
        7: ("rating", "digits only, 001 to 999", None),
        8: ("accompanying-person discount permitted", FLAG, None),
        9: ("rounding", "one of + - 0 N", None),
        10: ("rounding factor", FACTOR, 9),
        11: ("first day of validity", DAY, None),
        12: ("version number", VERSION, None),
        13: ("last day of validity", LAST_DAY, 11),
    },
    "ME": {
        1: ("transferor", TRANSFEROR, None),
        2: ("offer number", OFFER, None),
        3: ("participating railway", RAILWAY, None),
        4: ("extra information in the country's language", TEXT, None),
        5: ("extra information in French", TEXT, None),
        6: ("extra information in German", TEXT, None),
        7: ("extra information in English", TEXT, None),
        8: ("reserved", TEXT, None),
        9: ("first day of validity", DAY, None),
        10: ("version number", VERSION, None),
        11: ("last day of validity", LAST_DAY, 9),
    },
}


def shown(data):
    """Bytes as explain shows them."""
    return "".join(chr(byte) if 32 <= byte <= 126 and byte not in b'"\\' else f"\\x{byte:02X}" for byte in data)


def delivered(data):
    """A value of which no more than 60 bytes are shown."""
    return f'"{shown(data[:60])}"' + (f"... ({len(data)} bytes)" if len(data) > 60 else "")


def parts_of(table, record):
    """Each field of a record by its number: its first position and its bytes."""
    parts = {}
    start = 1
    for field, good in GOOD[table]:
        parts[field] = (start, record[start + 1 : start + 1 + len(good)])
        start += len(good)
    return parts


def key(table, record):
    parts = {field: shown(data) for field, (_, data) in parts_of(table, record).items()}
    if table == "RE":
        return f"code {parts[2]}"
    return f"offer {parts[2]}, railway {parts[3]}" + (f", code {parts[4]}" if table == "AR" else "")


def place_lines(number, at, table, named):
    """The lines that say which record it is; `named` is its key, or nothing where it is cut off."""
    return [
        f"Record {number}, counted from 0, is of table {table} ({TABLES[table]})" + (f": {named}." if named else "."),
        f"It starts with its mark at byte {at} of the bundle, counted from 0.",
    ]


def span(name, first, length):
    return f"{name}s {first} to {first + length - 1}" if length > 1 else f"{name} {first}"


def is_text(byte):
    return 32 <= byte <= 126 or 160 <= byte


def rule_words(rule, before, table, record, at, start, data):
    parts = parts_of(table, record)
    earlier = shown(parts[before][1]) if before else ""
    bad = next((i for i, byte in enumerate(data) if not is_text(byte)), 0)
    least = "000" if earlier == "N" else "001"
    return rule.format(byte=data[bad], at=start + bad, place=at + 1 + start + bad, before=before, earlier=earlier, least=least)


def character_line(byte):
    """What a byte is that no text may have."""
    line = f"A bundle is ISO 8859-1, which has one byte for each character. Byte {byte} "
    if byte == 9:
        return line + "is a tab, which no text may have."
    if byte in (10, 13):
        return line + "is a line end, which no text may have."
    if byte < 128:
        return line + "is no character."
    return (
        line + "is none of them: UTF-8 has such bytes within characters of several bytes, Windows-1252 has dashes, curved quotes and "
        "the like there."
    )


def letter_lines(at, upto):
    """What is told of the first letter of two bytes, in the bytes of a record up to the end of its broken field."""
    letter = patterns.search(rb"[\xC2\xC3][\x80-\xBF]", upto)
    if not letter:
        return []
    return [
        f'The bytes "{shown(letter.group())}" at byte {at + letter.start()} look like UTF-8, where a letter with an accent takes two bytes '
        "and shifts what follows. Save the file as ISO 8859-1."
    ]


def near_line(table, distance, place):
    """Where a mark stands that was due elsewhere: so many bytes further on, or earlier if the distance is negative."""
    length = f"{abs(distance)} byte" + ("" if abs(distance) == 1 else "s")
    where, fault = ("further on", "long") if distance > 0 else ("earlier", "short")
    return f"A mark, {table}, stands {length} {where}, at byte {place}: what is before it is too {fault} by as much."


def field_lines(number, at, table, record, field, shift=()):
    """All lines due where a field of a record is broken that stands at a byte of the bundle; `shift` is what tells that it is shifted."""
    name, rule, before = FIELDS[table][field]
    start, data = parts_of(table, record)[field]
    odd = [character_line(next(byte for byte in data if not is_text(byte)))] if rule is TEXT else []
    return (
        [f"NO 4 {number} {field}", "A field breaks its rule."]
        + place_lines(number, at, table, key(table, record))
        + [
            f"Field {field}, {name}: {span('position', start, len(data))} of the record, counted from 1 behind the mark; "
            f"{span('byte', at + 1 + start, len(data))} of the bundle.",
            f"Delivered: {delivered(data)}.",
            f"It must be {rule_words(rule, before, table, record, at, start, data)}.",
        ]
        + odd
        + letter_lines(at, record[: 1 + start + len(data)])
        + list(shift)
        + [END]
    )


def changed(place, record):
    """The sample's records with one of them changed."""
    return SAMPLE_RECORDS[:place] + [record] + SAMPLE_RECORDS[place + 1 :]


# One offer for all railways, a railcard that counts beside other cards, and a members' card that does so on 1185 and stands alone on 1181.
FAMILY_RECORDS = [
    re({3: "Family railcard"}),
    re({2: "021", 3: "Members' card"}),
    co({33: "Y"}),
    ar({7: "002"}),
    ar({3: "1185", 4: "021", 5: "010000", 7: "001", 9: "N", 10: "000"}),
    ar({3: "1181", 4: "021", 5: "025000", 6: "N", 7: "001", 9: "N", 10: "000"}),
]

# A delivery for summer and winter: an offer and a card that change on 1 June, and a railway's own CO in July alone.
SEASON_RECORDS = [
    co({33: "Y", 37: "Y", 39: "010000", 44: "20240531"}),
    co({33: "Y", 37: "Y", 39: "020000", 42: "20240601"}),
    co({3: "1185", 39: "050000", 42: "20240701", 44: "20240731"}),
    re({3: "Annual card", 11: "20240531"}),
    re({3: "Annual card", 9: "20240601"}),
    ar({5: "025000", 13: "20240531"}),
    ar({5: "050000", 11: "20240601"}),
    me({4: "Half price in July on railway 1185."}),
]

# The bundles of examples/, each with its lines. The refused ones are an accepted one with a change that the last lines tell.
SAMPLES = {
    "sample": (
        SAMPLE,
        """\
OK 10
The bundle is accepted: every record keeps the rules. Its records by table:
CO (conditions): 4
RE (types of discount): 2
AR (additional discounts): 3
ME (memo): 1
""",
    ),
    "family": (
        b"".join(FAMILY_RECORDS),
        """\
OK 6
The bundle is accepted: every record keeps the rules. Its records by table:
CO (conditions): 1
RE (types of discount): 2
AR (additional discounts): 3
ME (memo): 0
""",
    ),
    "broken-field": (
        b"".join(changed(3, co({3: "1185", 33: "Y", 39: "030000", 40: "+", 41: "000"}))),
        """\
NO 4 3 41
A field breaks its rule.
Record 3, counted from 0, is of table CO (conditions): offer 00042, railway 1185.
It starts with its mark at byte 1041 of the bundle, counted from 0.
Field 41, rounding factor: positions 135 to 137 of the record, counted from 1 behind the mark; bytes 1177 to 1179 of the bundle.
Delivered: "000".
It must be digits only, 001 to 999, under the rounding in field 40, which is "+"; 000 is for rounding N only.
Only this first fault is told. Once it is mended there may be another.
""",
    ),
    "repeated-key": (
        b"".join(changed(7, ar({3: "1185", 4: "007", 5: "100000", 9: "-", 10: "001"}))),
        """\
NO 6 7 6
The record has the key of an earlier record, and the two periods overlap.
Record 7, counted from 0, is of table AR (additional discounts): offer 00042, railway 1185, code 007.
It starts with its mark at byte 1457 of the bundle, counted from 0.
Record 6, at byte 1406 of the bundle, has the same key: offer 00042, railway 1185, code 007.
Record 7 is valid from 20240101 to 20241231, both days included.
Record 6 is valid from 20240101 to 20241231, both days included.
The first day that is in both periods is 20240101.
Records of one key may stand together only if no day is in two of their periods.
Keep one of the two, or correct the first or the last day of one.
Only this first fault is told. Once it is mended there may be another.
""",
    ),
    "summer-and-winter": (
        b"".join(SEASON_RECORDS),
        """\
OK 8
The bundle is accepted: every record keeps the rules. Its records by table:
CO (conditions): 3
RE (types of discount): 2
AR (additional discounts): 2
ME (memo): 1
""",
    ),
    # the summer of the CO ends a day too late
    "overlapping-seasons": (
        b"".join([co({33: "Y", 37: "Y", 39: "010000", 44: "20240601"})] + SEASON_RECORDS[1:]),
        """\
NO 6 1 0
The record has the key of an earlier record, and the two periods overlap.
Record 1, counted from 0, is of table CO (conditions): offer 00042, railway 0000.
It starts with its mark at byte 157 of the bundle, counted from 0.
Record 0, at byte 0 of the bundle, has the same key: offer 00042, railway 0000.
Record 1 is valid from 20240601 to 20241231, both days included.
Record 0 is valid from 20240101 to 20240601, both days included.
The first day that is in both periods is 20240601.
Records of one key may stand together only if no day is in two of their periods.
Keep one of the two, or correct the first or the last day of one.
Only this first fault is told. Once it is mended there may be another.
""",
    ),
    "missing-link": (
        b"".join(changed(4, co({3: "1181", 33: "Y", 39: " " * 6, 40: "0", 41: "010"}))[:5] + SAMPLE_RECORDS[6:]),
        """\
NO 7 4 3
The record needs another record that is not in the bundle.
Record 4, counted from 0, is of table CO (conditions): offer 00042, railway 1181.
It starts with its mark at byte 1198 of the bundle, counted from 0.
Flag 33, additional discount, is Y, so an AR record of offer 00042 for railway 1181 or 0000 is needed; there is none.
Add that record, or set the flag to N.
Only this first fault is told. Once it is mended there may be another.
""",
    ),
    # the memo's three letters with two dots are two bytes each
    "saved-as-utf-8": (
        SAMPLE.decode("latin-1").encode("utf-8"),
        """\
NO 4 8 9
A field breaks its rule.
Record 8, counted from 0, is of table ME (memo): offer 00042, railway 0000.
It starts with its mark at byte 1508 of the bundle, counted from 0.
Field 9, first day of validity: positions 1214 to 1221 of the record, counted from 1 behind the mark; bytes 2723 to 2730 of the bundle.
Delivered: "   20240".
It must be a real day, written YYYYMMDD, of the years 1583 to 9999.
The bytes "\\xC3\\xBC" at byte 1551 look like UTF-8, where a letter with an accent takes two bytes and shifts what follows. Save the \
file as ISO 8859-1.
The next record should start at byte 2741. A mark, CO, stands 3 bytes further on, at byte 2744: what is before it is too long by as much.
Only this first fault is told. Once it is mended there may be another.
""",
    ),
    "cut-short": (
        SAMPLE[:-20],
        """\
NO 3 9 0
The bundle ends inside a record.
Record 9, counted from 0, is of table CO (conditions): offer 00043, railway 1185.
It starts with its mark at byte 2741 of the bundle, counted from 0.
Behind the mark it needs 155 bytes; the bundle has 135 left, which is 20 too few.
The usual causes: the delivery was cut off, or this record lost bytes. Send it again.
Only this first fault is told. Once it is mended there may be another.
""",
    ),
}
