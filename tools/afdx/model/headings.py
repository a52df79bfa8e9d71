"""What the headings of interface control documents mean: which column of afdx table each of them is, and in which unit."""
import difflib
import functools
import re
import unicodedata
from collections.abc import Callable
from fractions import Fraction

from afdx.model import KEYS, description_faults
from afdx.model.heading_words import COLUMNS, NUMERALS, OF_NODES, OPEN, RATES, REMARKS, TIMES, WEAK, Column  # noqa: F401

# How many ns a unit of time has, how many times a second a unit of a rate is, and how many m a unit of length has.
NS = {"ns": 1, "us": 10**3, "ms": 10**6, "s": 10**9}
HERTZ = {"hz": 1, "khz": 1000}
OF_A_METRE = {"m": Fraction(1), "cm": Fraction(1, 100), "mm": Fraction(1, 1000), "km": Fraction(1000), "ft": Fraction(3048, 10000)}
# Columns that become comments of a row. Those of virtual links may differ where lines differ in the destination alone.
LIMITS = ["limit_us", "limit_ms", "limit_ns", "limit_s"]
NAMED = ["name", "message", "port", "rx_port"]
UDP = ["udp_port", "udp_source_port", "udp_destination_port"]
# Columns that are no values of a description, so that nothing usual stands in the place of one that is misspelt.
ASIDE = {REMARKS, "document_name", "direction", "tx_port", "stream", *NAMED, *UDP}
# What stands in brackets behind a heading, or behind a slash at its end.
BEHIND = re.compile(r"(.*?)\s*[(\[{]\s*([^()\[\]{}]*?)\s*[)\]}]\s*$", re.DOTALL)


def normal(heading: str) -> str:
    """A heading in small letters without accents, with _ between its words."""
    text = unicodedata.normalize("NFKD", heading.strip().lower().replace("µ", "u").replace("μ", "u"))
    text = "".join(sign for sign in text if not unicodedata.combining(sign))
    return re.sub("[^a-z0-9]+", "_", text).strip("_")


def with_unit(column: Column, unit: str) -> str:
    return f"{column.name}_{unit}" if unit else column.name


def forms() -> dict[str, dict[str, list[str]]]:
    """For each section each heading that is known, and the columns that it may be."""
    found: dict[str, dict[str, list[str]]] = {}
    for section, columns in COLUMNS.items():
        mine = found.setdefault(section, {})
        stems: dict[str, list[Column]] = {}
        for column in columns:
            for stem in dict.fromkeys((column.name, *column.headings)):
                stems.setdefault(stem, []).append(column)
        of_name = {column.name: column for column in columns}
        stems |= {stem: [of_name[name] for name in names] for stem, names in OPEN.get(section, {}).items()}
        for stem, ones in stems.items():
            bare = [with_unit(it, unit) for it in ones for unit in ([it.usual] if it.usual is not None else it.units)]
            mine.setdefault(stem, list(dict.fromkeys(bare)))
            for column in ones:
                for unit, words in column.units.items():
                    for word in words:
                        fitting = mine.setdefault(f"{stem}_{word}", [])
                        fitting += [it for it in [with_unit(column, unit)] if it not in fitting]
        # A column's own name means nothing else.
        mine |= {with_unit(it, unit): [with_unit(it, unit)] for it in columns for unit in (it.units or ("",)) if unit or it.usual == ""}
    # Of an outage `from` and `to` alone are the ends.
    found["outage"] |= {"from": ["from"], "to": ["to"]}
    return found


FORMS = forms()
OF_COLUMN = {section: {with_unit(it, unit): it for it in columns for unit in (it.units or ("",))} for section, columns in COLUMNS.items()}


def columns_of(name: str, section: str) -> list[str]:
    """The columns that a heading may be, in normal form: none where it is not known."""
    return FORMS[section].get(name, [])


@functools.lru_cache(maxsize=100_000)
def meanings(text: str, section: str) -> list[str]:
    """The columns that a heading may be, as it is written: what stands in brackets behind it is its unit, or says nothing of a
    column without units."""
    found = columns_of(normal(text), section)
    behind = BEHIND.fullmatch(text.strip())
    if found or not behind:
        return found
    fitting = columns_of(normal(behind[1]), section)
    return fitting if not normal(behind[2]) or not any(OF_COLUMN[section][it].units for it in fitting) else []


def unknown_unit(text: str, section: str) -> tuple[str, list[str]] | None:
    """The unit in brackets behind a heading whose words are known and whose unit is not, and the columns that it may be."""
    behind = BEHIND.fullmatch(text.strip())
    if not behind or meanings(text, section):
        return None
    fitting = columns_of(normal(behind[1]), section)
    return (behind[2], fitting) if fitting else None


@functools.cache
def key_of(column: str, section: str) -> str:
    """The key of a section for which a column stands, in whatever unit; other columns stand for themselves."""
    if column in ("id_hex",):
        return "id"
    if section == "link" and column.startswith(("length_", "mbit_")):
        return "length_m" if column.startswith("length_") else "mbit"
    found = re.fullmatch("(.*)_(ns|us|ms|s|hz|khz)", column)
    if not found or section == "vl" and column.startswith("limit_"):
        return column
    if column.endswith("hz"):
        return "period_ns"
    return "bag_ms" if found[1] == "bag" else found[1] + "_ns"


@functools.cache
def unit_of(column: str, section: str) -> tuple[str, Callable[[Fraction], Fraction]] | None:
    """Of a column of times or rates the key for which it stands, and what makes of a number in its unit one in that of the
    key; None where it is no such column."""
    key = key_of(column, section)
    unit = column.rpartition("_")[2]
    if key not in [it.name for it in KEYS[section]] or unit not in (*NS, *HERTZ) or column == "bag_ms":
        return None
    if unit in HERTZ:
        # The period of a rate is cut to whole ns.
        return key, lambda rate: Fraction(NS["s"] // (rate * HERTZ[unit])) if rate else Fraction(0)
    return key, lambda number: number * Fraction(NS[unit], NS["ms"] if key == "bag_ms" else 1)


@functools.cache
def in_unit(column: str, section: str, word: str) -> str | None:
    """The column that a column of numbers is where a cell names a unit: `period_ms` is `rate_hz` for `50 Hz`. None where it has
    no such unit."""
    of = OF_COLUMN[section].get(column)
    if of is None:
        return None
    word = normal(word)
    others = [of, *(it for it in COLUMNS[section] if {of.name, it.name} == {"period", "rate"})]
    fitting = [with_unit(it, unit) for it in others for unit, words in it.units.items() if word in words]
    return fitting[0] if fitting else None


def nearest(name: str, section: str) -> str | None:
    """The column that is most like a heading which is not known, or None: by its own name, by one of its headings of which
    but a letter or two differ, or by the same words in another order."""
    own = {it: it for columns in FORMS[section].values() for it in columns}
    found = description_faults.nearest(name, list(own))
    if found:
        return found
    words = sorted(name.split("_"))
    close = difflib.get_close_matches(name, FORMS[section], 1, 0.85)
    close = close or [it for it in FORMS[section] if sorted(it.split("_")) == words]
    return FORMS[section][close[0]][0] if close else None


def is_known(text: str) -> bool:
    """Whether some section has a column of this name."""
    return any(len(columns_of(normal(text), section)) == 1 for section in COLUMNS)
