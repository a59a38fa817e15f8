"""Reads docs/keys.toml: versions, kinds and keys, and which of them a document has, in which ranges.

A row of `uses`, `ranges` or `shifts` fits a kind and a version by its `kinds`, `versions` and `since`, as the head of the file says.
"""
import re
import tomllib
from collections.abc import Iterator
from dataclasses import dataclass
from functools import cache, cached_property
from pathlib import Path
from typing import Any

TOP = Path(__file__).resolve().parent.parent.parent.parent
PATH = TOP / "docs/keys.toml"
Row = dict[str, Any]
Ends = tuple[int, int]
# What a row of `ranges` may limit.
LIMITS = ("range", "length", "each", "bytes", "least", "odd_parts")


def fits(row: Row, kind: str | None, version: int) -> bool:
    """Whether a row is of a kind and a version; one of some kinds is of no unknown kind."""
    return kind in row.get("kinds", [kind]) and version in row.get("versions", [version]) and version >= row.get("since", 1)


def evaluated(formula: str, values: dict[str, Any]) -> int | None:
    """A sum of keys with whole factors, as `lsb - 2 out_lsb`; none if one of them is no whole number."""
    total = 0
    for sign, factor, key in re.findall(r"(-?) ?(\d* ?)(\w+)", formula):
        if type(values.get(key)) is not int:
            return None
        total += (-1 if sign else 1) * int(factor or 1) * values[key]
    return total


def holds(row: Row, values: dict[str, Any]) -> bool:
    """Whether the key that a row names is there, with the value that the row names."""
    found = values.get(row.get("beside", ""))
    return "beside" not in row or found is not None and ("is" not in row or type(found) is type(row["is"]) and found == row["is"])


def is_unmade(row: Row, value: Any, values: dict[str, Any]) -> bool:
    """Whether a row says of a value, none of an absent key, that no circuit is made of it yet."""
    if value is None:
        return row.get("needed", False)
    if "most" in row:
        return isinstance(value, list) and len(value) > row["most"]
    if "above" in row:
        other = values.get(row["above"])
        return type(value) is type(other) is int and value > other
    return value not in row.get("but", [])


@dataclass(frozen=True)
class Limits:
    """The ends of a number, of an array's length and of its elements, of a text's bytes, and the most odd parts; none without a limit."""

    range: Ends | None = None
    length: Ends | None = None
    each: Ends | None = None
    bytes: Ends | None = None
    odd_parts: int | None = None

    def narrowed(self, row: Row) -> "Limits":
        """These and those of a row."""
        both = {}
        for name in ("range", "length", "each", "bytes"):
            held, more = getattr(self, name), row.get(name)
            both[name] = (max(held[0], more[0]), min(held[1], more[1])) if held and more else held or more and tuple(more)
        if "least" in row and both["range"]:
            both["range"] = max(both["range"][0], row["least"]), both["range"][1]
        return Limits(**both, odd_parts=row.get("odd_parts", self.odd_parts))


@dataclass(frozen=True)
class Kind:
    """A kind of operators, by its row of the table."""

    row: Row

    @property
    def name(self) -> str:
        return self.row["name"]

    @property
    def since(self) -> int:
        return self.row.get("since", 1)

    def shift_ends(self, version: int, name: str = "shifts") -> Ends | None:
        """The least and the most shift in a version, none of a kind without a limit."""
        found = [row["range"] for row in self.row.get(name, []) if fits(row, self.name, version)]
        return tuple(found[-1]) if found else None


@dataclass(frozen=True)
class Key:
    """A key of a document, or of the tables of an array, by its row of the table."""

    row: Row

    @property
    def name(self) -> str:
        return self.row["name"]

    @property
    def array(self) -> str:
        """The array in whose tables the key is, empty for a key of the document."""
        return self.row.get("of", "")

    @property
    def type(self) -> str:
        return self.row["type"]

    @property
    def ranges(self) -> list[Row]:
        return self.row.get("ranges", [])

    def use(self, kind: str | None, version: int) -> Row | None:
        """How the key is in a document of a kind and version: the last row that fits, none if it is unknown there."""
        return next((row for row in reversed(self.row["uses"]) if fits(row, kind, version)), None)

    def is_of_all(self) -> bool:
        """Whether documents of every kind and version have it."""
        return any(not row.keys() & {"kinds", "versions", "since"} for row in self.row["uses"])

    def rows(self, kind: str | None, version: int, values: dict[str, Any]) -> Iterator[Row]:
        """The rows of its ranges that hold, but for those with a fault of their own."""
        return (row for row in self.ranges if fits(row, kind, version) and holds(row, values) and "fault" not in row)

    def limits(self, kind: str | None, version: int, values: dict[str, Any]) -> Limits:
        """What its value is within, beside other values."""
        found = Limits()
        for row in self.rows(kind, version, values):
            found = found.narrowed(row)
        return found

    def example(self, kind: str | None) -> Any:
        return self.row.get("examples", {}).get(kind, self.row["example"])

    @property
    def unmade(self) -> list[Row]:
        return self.row.get("unmade", [])

    def is_unmade(self, kind: str | None, version: int, values: dict[str, Any]) -> bool:
        """Whether no circuit is made yet of a document, for the value of this key or since it lacks the key."""
        return any(fits(row, kind, version) and is_unmade(row, values.get(self.name), values) for row in self.unmade)

    def made(self, kind: str | None, version: int) -> list | None:
        """The values of which circuits are made, none where a row lists no values."""
        return next((row["but"] for row in self.unmade if fits(row, kind, version) and "but" in row), None)


@dataclass(frozen=True)
class Table:
    """The whole table."""

    rows: dict[str, Any]

    @cached_property
    def versions(self) -> list[int]:
        return [row["number"] for row in self.rows["version"]]

    @cached_property
    def kinds(self) -> dict[str, Kind]:
        return {row["name"]: Kind(row) for row in self.rows["kind"]}

    @cached_property
    def all_keys(self) -> list[Key]:
        return [Key(row) for row in self.rows["key"]]

    @cached_property
    def keys(self) -> dict[str, Key]:
        """The keys of a document."""
        return {key.name: key for key in self.all_keys if not key.array}

    @cached_property
    def arrays(self) -> dict[str, dict[str, Key]]:
        """The arrays of tables, in the order in which their faults are judged, with the keys of their tables."""
        arrays = [key.name for key in self.keys.values() if key.type == "tables"]
        return {array: {key.name: key for key in self.all_keys if key.array == array} for array in arrays}

    def named_in(self, version: int) -> list[str]:
        """The kinds that documents of a version can name, those that it has among them."""
        return [name for name, kind in self.kinds.items() if kind.row.get("named_since", kind.since) <= version]

    def kinds_in(self, version: int) -> list[str]:
        return [name for name, kind in self.kinds.items() if kind.since <= version]

    def versions_of(self, kind: str) -> list[int]:
        return [version for version in self.versions if version >= self.kinds[kind].since]

    def known(self, kind: str | None, version: int) -> list[Key]:
        """The keys that a document of a kind and version may have; of an unknown kind all keys, some from a version on."""
        if kind is None:
            return [key for key in self.keys.values() if version >= key.row.get("known_since", 1)]
        return [key for key in self.keys.values() if key.use(kind, version) is not None]

    def needed(self, kind: str | None, version: int) -> list[Key]:
        """The keys that a document of a kind and version needs; of no kind, those that all need."""
        uses = ((key, key.use(kind, version)) for key in self.keys.values())
        return [key for key, use in uses if use is not None and "optional" not in use]

    def most_signal(self, version: int) -> int:
        """The most bits of a signal."""
        return next(row["signal"] for row in self.rows["version"] if row["number"] == version)

    def words(self, key: Key, version: int) -> list[str] | None:
        """The words that a text may be, none if it may be any."""
        words = key.row.get("words")
        if words == "kinds":
            return self.kinds_in(version)
        since = key.row.get("words_since", {})
        return [word for word in words if version >= since.get(word, 1)] if isinstance(words, dict) else None

    def refused(self, names: str, version: int) -> list[str]:
        """The names that a rule of names refuses in a version."""
        rule = self.rows["names"][names]
        newer = self.rows["names"]["newer_words"] if version >= rule["newer_since"] else []
        return rule["refused"] + self.rows["names"]["words"] + newer

    def unmade(self, kind: str | None, version: int, values: dict[str, Any]) -> Key | None:
        """The first key for which no circuit is made yet of a document."""
        return next((key for key in self.known(kind, version) if key.is_unmade(kind, version, values)), None)


@cache
def read() -> Table:
    return Table(tomllib.loads(PATH.read_text(encoding="utf-8")))
