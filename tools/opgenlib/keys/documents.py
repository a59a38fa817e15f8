"""Makes documents from the table of keys: of each kind and version each key at both ends of its ranges and one beyond, of wrong types,
absent, and where it is unknown. What is expected of each is worked out by `faults`."""
from collections.abc import Iterator
from dataclasses import dataclass
from itertools import cycle, islice
from typing import Any

from ..writing import document as written
from .faults import first_fault
from .table import Key, Limits, Row, Table, fits

Values = dict[str, Any]
# A value of each type, and an array with an element of another type than any.
SAMPLES = {"number": 1, "text": "1", "flag": True, "float": 0.5, "numbers": [1], "table": {"one": 1}, "floats": [0.5]}
# Which of them have a key's type.
ALSO = {"coefficients": ("numbers",), "numbers": ("numbers",)}
UNKNOWN = "colour"
# Values of the type of a key that are in no range.
WRONG_WORDS = {"text": "none", "number": 99}


@dataclass(frozen=True)
class Document:
    """A document with what was done to it, and its first fault, none if it makes a circuit."""

    title: str
    values: Values
    fault: str | None

    @property
    def text(self) -> str:
        return written(self.values)

    @property
    def line(self) -> str:
        """What the program prints. The period is the longest, or cells take no time, so no circuit needs a register."""
        name = self.values.get("name")
        return f"specification: {self.fault}" if self.fault else f"wrote {name}.vhd and {name}.rpt, latency 0"


def filled(items: list, count: int) -> list:
    """The items again and again, as many as asked for; tables with names get different ones."""
    found = enumerate(islice(cycle(items), count))
    return [one | {"name": f"{one['name']}{at or ''}"} if isinstance(one, dict) and "name" in one else one for at, one in found]


def around(ends: tuple[int, int] | None) -> list[int]:
    """Both ends, and one beyond each."""
    return sorted({ends[0] - 1, ends[0], ends[1], ends[1] + 1}) if ends else []


def texts(key: Key, limits: Limits, table: Table, version: int) -> Iterator[str]:
    words = table.words(key, version)
    yield from [*words, f"{words[0]}x", words[0].upper()] if words else []
    letter = str(key.row["example"])[0]
    yield from (letter * length for length in around(limits.bytes) if length >= 0)
    if rule := table.rows["names"].get(key.row.get("names")):
        yield from (rule["refused"][0], rule["refused"][-1], table.rows["names"]["words"][0])
        yield from ("s1", "s_1", "A", "1a", "a_", "a__b", "default")
    if key.row.get("names") == "input":
        yield from ("", "none")


def arrays(key: Key, limits: Limits, example: list) -> Iterator[list]:
    yield from (filled(example, length) for length in around(limits.length) if length >= 0)
    yield from ([number, *example[1:]] for number in around(limits.each))
    if limits.odd_parts:
        yield from ([*range(1, 2 * most, 2)] for most in (limits.odd_parts, limits.odd_parts + 1))
    if key.type == "coefficients":
        yield from ([text, *map(str, example[1:])] for text in ("-0.12345678", "123456789", "1234567890", "+1", ".5", "1e3"))


def values_of(key: Key, limits: Limits, table: Table, kind: str | None, version: int) -> Iterator[Any]:
    """The values of a key at both ends of its ranges and one beyond."""
    match key.type:
        case "number":
            ends = (table.versions[0], table.versions[-1]) if key.row.get("words") == "versions" else limits.range
            yield from around(ends)
        case "text":
            yield from texts(key, limits, table, version)
        case "flag":
            yield from (False, True)
        case _:
            yield from arrays(key, limits, key.example(kind))


def wrong(key: Key) -> list[Any]:
    """Values of two other types than that of a key, and of an array an element of another type."""
    held = {name: sample for name, sample in SAMPLES.items() if name != key.type and name not in ALSO.get(key.type, ())}
    is_array = key.type in ("numbers", "coefficients", "tables")
    others = [held["number" if "number" in held else "text"], held["flag" if "flag" in held else "table"]]
    return others + ([held["floats"]] if is_array else [])


class Maker:
    """The documents of one kind in one version; keys that all kinds have are tried in the first kind alone, but for flags."""

    def __init__(self, kind: str, version: int, table: Table) -> None:
        self.kind, self.version, self.table = kind, version, table
        self.is_first = kind == next(iter(table.kinds))
        self.known = {key.name: key for key in table.known(kind, version)}
        needed = {key.name: key.example(kind) for key in table.needed(kind, version)}
        one_of = table.kinds[kind].row.get("one_of", [])[:1]
        self.base = needed | {"version": version, "kind": kind} | {name: table.keys[name].example(kind) for name in one_of}
        # Keys without which no circuit is made yet.
        self.base |= {key.name: made[0] for key in self.known.values() if (made := key.made(kind, version)) and self.is_unmade(key)}

    def is_unmade(self, key: Key) -> bool:
        return key.is_unmade(self.kind, self.version, self.base)

    def document(self, title: str, values: Values) -> Document:
        return Document(f"{self.kind}, version {self.version}, {title}", values, first_fault(values, self.table))

    def needs(self, key: Key) -> Values:
        """The keys without which a key may not be."""
        needs = key.row.get("needs")
        return {needs: self.table.keys[needs].example(self.kind)} if needs else {}

    def settings(self, key: Key, held: dict[str, Key]) -> Iterator[Values]:
        """Other values beside which a key has a range of its own or may not be: none, and those that its rows name."""
        common = key.row.get("with", {}) | self.needs(key)
        yield common
        for row in key.ranges + key.row.get("not_beside", []):
            other = held.get(row.get("beside", ""))
            if other and fits(row, self.kind, self.version):
                yield common | {other.name: self.beside(other, row)}

    def beside(self, other: Key, row: Row) -> Any:
        return row["is"] if "is" in row else other.example(self.kind)

    def of_key(self, key: Key, known: dict[str, Key]) -> Iterator[tuple[str, Values]]:
        """What is said of a key that the kind has: how, and the values of the document or table."""
        for beside in self.settings(key, known):
            said = "".join(f" beside {name}" for name in beside)
            for value in values_of(key, key.limits(self.kind, self.version, beside), self.table, self.kind, self.version):
                yield f"{key.name} = {value!r:.40}{said}", beside | {key.name: value}
        for value in wrong(key):
            yield f"{key.name} = {value!r}", self.needs(key) | {key.name: value}
        if "needs" in key.row:
            yield f"{key.name} without {key.row['needs']}", {key.name: key.example(self.kind)}

    def around_keys(self) -> Iterator[Document]:
        """The documents with a change in one key: there, absent, unknown."""
        yield self.document("as it is", self.base)
        yield self.document(f"with {UNKNOWN}", self.base | {UNKNOWN: 1})
        for name, key in self.table.keys.items():
            if name not in self.known:
                yield self.document(f"with {name}", self.base | {name: key.example(self.kind)})
                continue
            if not self.is_first and key.is_of_all() and key.type != "flag":
                continue
            yield self.document(f"without {name}", {other: value for other, value in self.base.items() if other != name})
            for said, values in self.of_key(key, self.known):
                yield self.document(said, self.base | values)

    def unmade_value(self, key: Key, row: Row) -> Any:
        """A value of which a row says that no circuit is made yet."""
        if "most" in row:
            return filled(key.example(self.kind), row["most"] + 1)
        return self.base[row["above"]] + 1 if "above" in row else WRONG_WORDS.get(key.type, key.example(self.kind))

    def of_unmade(self) -> Iterator[Document]:
        """Documents of which no circuit is made yet, with a fault that comes before that, and with others that come after."""
        for key in self.known.values():
            for row in (row for row in key.unmade if fits(row, self.kind, self.version)):
                value = self.unmade_value(key, row)
                values = self.base | self.needs(key) | {key.name: value}
                for said, more in (("", {}), (" and a bad name", {"name": "A"}), (" and a bad period", {"period": 0}),
                                   (f" and {UNKNOWN}", {UNKNOWN: 1}), (" and a wrong type", {"period": "1"})):
                    yield self.document(f"{key.name} = {value!r:.40}{said}", values | more)

    def documents(self) -> Iterator[Document]:
        yield from self.around_keys()
        yield from self.of_unmade()
        for array, keys in self.table.arrays.items():
            if array in self.known and (self.is_first or not self.table.keys[array].is_of_all()):
                yield from self.of_tables(array, keys)

    def of_tables(self, array: str, keys: dict[str, Key]) -> Iterator[Document]:
        """The documents with a change in the first of the tables of an array; of a class of cells the last holds."""
        first, *others = self.base.get(array, self.table.keys[array].example(self.kind))
        changes = [(f"with {UNKNOWN}", first | {UNKNOWN: 1})]
        for name, key in keys.items():
            changes.append((f"without {name}", {other: value for other, value in first.items() if other != name}))
            changes += [(said, first | values) for said, values in self.of_key(key, keys)]
        for said, line in changes:
            yield self.document(f"{array} {said}", self.base | {array: [line, *others]})


def of_versions(table: Table) -> Iterator[Document]:
    """Documents of each version and kind, known or not there, with and without each key that all have."""
    for version in [table.versions[0] - 1, *table.versions, table.versions[-1] + 1]:
        for kind in [*table.kinds, "none"]:
            known = kind if kind in table.kinds else next(iter(table.kinds))
            base = Maker(known, version if version in table.versions_of(known) else table.versions[-1], table).base
            values = base | {"version": version, "kind": kind}
            yield Document(f"{kind}, version {version}", values, first_fault(values, table))
            for gone in ("version", "kind", "name") if kind in table.kinds_in(version) else values:
                rest = {name: value for name, value in values.items() if name != gone}
                yield Document(f"{kind}, version {version}, without {gone}", rest, first_fault(rest, table))


def of_unknown_kind(table: Table) -> Iterator[Document]:
    """Documents whose kind is no kind word, with each key that not all kinds have."""
    base = {key.name: key.example(None) for key in table.needed(None, table.versions[-1])} | {"kind": "none"}
    for key in (key for key in table.keys.values() if not key.is_of_all()):
        for number in (*table.versions, table.versions[-1] + 1):
            values = base | {"version": number, key.name: key.example(None)}
            yield Document(f"none, version {number}, with {key.name}", values, first_fault(values, table))
            values = values | {"exact": True}
            yield Document(f"none, version {number}, with {key.name} and exact", values, first_fault(values, table))


def documents(table: Table) -> list[Document]:
    """All documents of the table, each once."""
    made = [*of_versions(table), *of_unknown_kind(table)]
    for kind in table.kinds:
        for version in table.versions_of(kind):
            made += Maker(kind, version, table).documents()
    return list({document.text: document for document in reversed(made)}.values())[::-1]
