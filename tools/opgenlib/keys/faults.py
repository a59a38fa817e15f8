"""The first fault of a document by the table of keys, in the order of faults that docs/SPECIFICATION.md states.

What is expected of the program comes from here, and nothing here comes from the program. Documents of a table of keys have no fault
of other things: of exact values of terms and coefficients, of signals' widths, of the period and of the size.
"""
import re
from collections.abc import Iterator
from functools import cached_property
from typing import Any

from .table import Ends, Key, Table, evaluated, fits, holds

Values = dict[str, Any]


def is_text(value: Any) -> bool:
    return type(value) is str


def is_number(value: Any) -> bool:
    return type(value) is int


def is_all(values: Any, test) -> bool:
    return type(values) is list and all(map(test, values))


def is_outside(value: int, ends: Ends | None) -> bool:
    return ends is not None and not ends[0] <= value <= ends[1]


def odd_parts(numbers: list[int]) -> set[int]:
    """The different odd parts of those that are not 0, 1 counted."""
    return {1} | {abs(number) // (number & -number) for number in numbers if number}


def numerators(items: list) -> list[int]:
    """The elements as numbers: decimal texts over their common denominator."""
    if not items or not is_text(items[0]):
        return items
    places = max(len(text.partition(".")[2]) for text in items)
    return [int(text.replace(".", "")) * 10 ** (places - len(text.partition(".")[2])) for text in items]


class Judge:
    """A document with what the table says of its kind and version; each method has the faults of one name, in their order."""

    def __init__(self, values: Values, table: Table) -> None:
        self.values, self.table = values, table
        found = values.get("version")
        self.version = found if is_number(found) and found in table.versions else table.versions[-1]
        kind = values.get("kind")
        self.kind = kind if is_text(kind) and kind in table.named_in(self.version) else None

    @cached_property
    def known(self) -> dict[str, Key]:
        return {key.name: key for key in self.table.known(self.kind, self.version)}

    def present(self) -> Iterator[Key]:
        return (key for key in self.known.values() if key.name in self.values)

    def lines(self) -> Iterator[tuple[dict[str, Key], int, Values]]:
        """The tables of all arrays: their keys, their number in the array, and what they hold."""
        for array, keys in self.table.arrays.items():
            held = self.values.get(array)
            for at, line in enumerate(held if is_all(held, lambda one: type(one) is dict) else [], 1):
                yield keys, at, line

    def unknown(self) -> Iterator[str]:
        tables = [(self.known, self.values), *((keys, line) for keys, _, line in self.lines())]
        for at, (keys, held) in enumerate(tables):
            names = sorted(held, key=str.encode)
            yield from (f"UnknownKey {at} {place}" for place, name in enumerate(names) if name not in keys)

    def missing(self) -> Iterator[str]:
        needed = self.table.needed(self.kind, self.version)
        yield from (f"MissingKey {key.name}" for key in needed if key.name not in self.values)
        for keys, at, line in self.lines():
            needed = (key for key in keys.values() if "optional" not in key.use(self.kind, self.version))
            yield from (f"MissingKey {key.name} {at}" for key in needed if key.name not in line)

    def is_of_type(self, key: Key, value: Any) -> bool:
        decimal = self.table.rows["names"]["decimal"].replace("$", r"\Z")
        match key.type:
            case "number":
                return is_number(value)
            case "text":
                return is_text(value)
            case "flag":
                return type(value) is bool
            case "numbers":
                return is_all(value, is_number)
            case "coefficients":
                return is_all(value, is_number) or is_all(value, lambda one: is_text(one) and bool(re.search(decimal, one)))
            case _:
                return is_all(value, lambda one: type(one) is dict)

    def is_beside_texts(self, key: Key) -> bool:
        """Whether a key is beside decimal texts and may not be."""
        held = self.values.get(key.row.get("not_beside_texts", ""))
        return type(held) is list and bool(held) and is_text(held[0])

    def clashes(self, key: Key) -> bool:
        """Whether a key may not be beside another one with the value that it has."""
        return any(fits(row, self.kind, self.version) and holds(row, self.values) for row in key.row.get("not_beside", []))

    def wrong_type(self) -> Iterator[str]:
        for key in self.present():
            lacks = "needs" in key.row and key.row["needs"] not in self.values
            if not self.is_of_type(key, self.values[key.name]) or self.is_beside_texts(key) or self.clashes(key) or lacks:
                yield f"WrongType {key.name}"
        for keys, at, line in self.lines():
            wrong = (name for name, key in keys.items() if name in line and not self.is_of_type(key, line[name]))
            yield from (f"WrongType {name} {at}" for name in wrong)

    def is_refused(self, name: str, rule: str) -> bool:
        """Whether a rule of names refuses a name."""
        names = self.table.rows["names"]
        patterns = re.search(names["pattern"].replace("$", r"\Z"), name), re.search(names[rule]["signals"].replace("$", r"\Z"), name)
        return not 1 <= len(name) <= 32 or not patterns[0] or bool(patterns[1]) or name in self.table.refused(rule, self.version)

    def bad(self) -> Iterator[str]:
        if self.values["version"] not in self.table.versions or self.table.unmade(self.kind, self.version, self.values):
            yield f"BadVersion {self.values['version']}"
        if self.is_refused(self.values["name"], "document"):
            yield "BadName"
        if self.kind not in self.table.kinds_in(self.version):
            yield "BadKind"

    def outside(self, key: Key, value: Any, beside: Values) -> Iterator[int]:
        """The numbers of a value that are outside their ranges, in their order."""
        limits = key.limits(self.kind, self.version, beside)
        if is_number(value) and is_outside(value, limits.range):
            yield value
        if is_text(value) and is_outside(len(value.encode()), limits.bytes):
            yield len(value.encode())
        if type(value) is not list:
            return
        if is_outside(len(value), limits.length):
            yield len(value)
        if limits.each:
            yield from (number for number in numerators(value) if is_outside(number, limits.each))
        if limits.odd_parts and len(odd_parts(value)) > limits.odd_parts:
            yield len(odd_parts(value))

    def is_no_word(self, key: Key, value: Any) -> bool:
        words = self.table.words(key, self.version)
        return words is not None and value not in words

    def lacks_tables(self, key: Key) -> bool:
        """Whether this is the first of arrays of which one at least has a table, and none has."""
        arrays = self.table.kinds[self.kind].row.get("one_of", [])
        return key.name in arrays[:1] and not any(self.values.get(array) for array in arrays)

    def out_of_range(self) -> Iterator[str]:
        for key in self.known.values():
            if self.lacks_tables(key):
                yield f"OutOfRange {key.name} 0"
            value = self.values.get(key.name)
            if value is None or key.row.get("fault") in ("BadVersion", "BadName", "BadKind"):
                continue
            yield from (f"OutOfRange {key.name} {found}" for found in self.outside(key, value, self.values))
            if self.is_no_word(key, value) and "fault" not in key.row:
                yield f"OutOfRange {key.name} {len(value.encode())}"
        for keys, at, line in self.lines():
            yield from (f"OutOfRange {name} {at} {found}" for name, key in keys.items() for found in self.outside_in(key, at, line))

    def outside_in(self, key: Key, at: int, line: Values) -> Iterator[int]:
        """The same of a key of a table; of a text it is the table's number."""
        value = line.get(key.name)
        if not is_text(value):
            yield from () if value is None else self.outside(key, value, line)
            return
        ports = [one["name"] for one in self.values.get("input", [])]
        match key.row.get("names"):
            case "port":
                is_wrong = self.is_refused(value, "port") or value in [*ports[: at - 1], self.values["name"]]
            case "input":
                is_wrong = value not in ports
            case _:
                is_wrong = self.is_no_word(key, value)
        if is_wrong:
            yield at

    def not_exact(self) -> Iterator[str]:
        if self.values["exact"] and self.table.kinds[self.kind].row.get("never_exact", False):
            yield "NotExact 0"

    def shifts(self) -> Iterator[int]:
        """The shift, or those of the terms in their order."""
        row = self.table.kinds[self.kind].row
        if "shift" in row:
            shift = evaluated(row["shift"], self.values)
            yield from () if shift is None else (shift,)
        lsb = {one["name"]: one["lsb"] for one in self.values.get("input", [])}
        for array, formula in row.get("term_shift", {}).items():
            for line in self.values.get(array) or [] if array != "offset" else [{}][: bool(self.values.get("offset", 0))]:
                places = {"lsb": lsb.get(line.get("input")), "lsb_a": lsb.get(line.get("a")), "lsb_b": lsb.get(line.get("b"))}
                yield evaluated(formula, self.values | places)

    def coarse(self) -> Iterator[str]:
        kind = self.table.kinds[self.kind]
        ends = kind.shift_ends(self.version) or kind.shift_ends(self.version, "term_shifts")
        yield from (f"Coarse {shift}" for shift in self.shifts() if is_outside(shift, ends))

    def of_target(self) -> Iterator[str]:
        target = self.known["target"]
        if self.is_no_word(target, self.values["target"]):
            yield target.row["fault"]
        for key in self.present():
            rows = (row for row in key.ranges if row.get("beside") == "target" and row["is"] == self.values["target"])
            yield from (row["fault"] for row in rows if is_outside(len(self.values[key.name]), row["length"]))

    def faults(self) -> Iterator[str]:
        yield from self.unknown()
        yield from self.missing()
        yield from self.wrong_type()
        yield from self.bad()
        yield from self.out_of_range()
        yield from self.not_exact()
        yield from self.coarse()
        yield from self.of_target()


def first_fault(values: Values, table: Table) -> str | None:
    """The first fault of a document, with its fields as the program prints them; none if it makes a circuit."""
    return next(Judge(values, table).faults(), None)
