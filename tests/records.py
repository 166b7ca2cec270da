"""Makes records of the four tables, field by field.

The layout here is written from the scope document by hand and shares nothing with crates/, so that a slip in one shows
against the other. A record is good as it stands; a case names the fields in which it differs.
"""

# Field number and its bytes in a good record, in order.
GOOD = {
    "CO": [(1, "1185"), (2, "00042"), (3, "0000"), (4, " " * 100), (27, "N"), (28, "01"), (29, "99"), (30, "1")]
    + [(flag, "N") for flag in range(31, 39)]
    + [(39, "025000"), (40, "N"), (41, "000"), (42, "20240101"), (43, "01"), (44, "20241231")],
    "RE": [(1, "1185"), (2, "007")]
    + [(text, " " * 30) for text in range(3, 8)]
    + [(8, " " * 265), (9, "20240101"), (10, "01"), (11, "20241231")],
    "AR": [(1, "1185"), (2, "00042"), (3, "0000"), (4, "007"), (5, "030000"), (6, "Y"), (7, "001"), (8, "N")]
    + [(9, "+"), (10, "050"), (11, "20240101"), (12, "01"), (13, "20241231")],
    "ME": [(1, "1185"), (2, "00042"), (3, "0000")]
    + [(text, " " * 240) for text in range(4, 9)]
    + [(9, "20240101"), (10, "01"), (11, "20241231")],
}

# Lengths of a record without its mark.
LENGTHS = {"CO": 155, "RE": 440, "AR": 49, "ME": 1231}


def record(table, changed=None):
    """The mark and the record of a table, with some fields changed; a short text is filled up with blanks."""
    changed = dict(changed or {})
    parts = []
    for field, good in GOOD[table]:
        value = changed.pop(field, good)
        if len(value) < len(good) and len(good) >= 30:
            value = value.ljust(len(good))
        assert len(value) == len(good), (table, field, value)
        parts.append(value)
    assert not changed, (table, changed)
    body = "".join(parts).encode("latin-1")
    assert len(body) == LENGTHS[table], table
    return table.encode() + body


def co(changed=None):
    return record("CO", changed)


def re(changed=None):
    return record("RE", changed)


def ar(changed=None):
    return record("AR", changed)


def me(changed=None):
    return record("ME", changed)


def many(conditions, discounts):
    """A good bundle of one RE, some CO of one railway each and some AR of one railway each."""
    parts = [re()]
    parts += [co({3: f"{railway:04}"}) for railway in range(conditions)]
    parts += [ar({3: f"{railway:04}"}) for railway in range(discounts)]
    return b"".join(parts)
