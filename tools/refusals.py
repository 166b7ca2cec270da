"""The numbers of refusals: the one list, docs/refusals.tsv, those that are gone, and a function for C over texts."""
import csv
import pathlib

ROOT = pathlib.Path(__file__).resolve().parent.parent
LIST = ROOT / "docs" / "refusals.tsv"
# These were in the list once. Neither such a number nor its names are used again.
GONE = ({"number": "16", "C": "FARE_TOO_HIGH", "Rust": "FareTooHigh"},)


def rows_of(path):
    """The rows of a list that is separated by tabs, each by the names in its first line. Spreadsheets may put a mark
    before it and end lines in their own way."""
    with open(path, newline="", encoding="utf-8-sig") as file:
        return list(csv.DictReader(file, delimiter="\t", quoting=csv.QUOTE_NONE))


def rows():
    return rows_of(LIST)


def c_string(text):
    for mark in '\\"?':
        text = text.replace(mark, f"\\{mark}")
    return f'"{text}"'


def c_function(name, texts, otherwise):
    """A function for C that tells the text of each number, and what stands for any other."""
    cases = [f"    case {number}: return {c_string(text)};" for number, text in texts]
    head = [f"static inline const char *{name}(uint64_t number) {{", "    switch (number) {"]
    return "\n".join([*head, *cases, f"    default: return {otherwise};", "    }", "}", ""])
