"""Reads a specification with the places of its keys and values.

The values are those of Python's `tomllib`, which reads TOML 1.0. The places are found by a scan of the text as TOML 1.1,
as the program reads it. A path is a tuple of keys and of indices from 0: ("delay", 1, "base").
"""
import re
import tomllib
from dataclasses import dataclass, field
from functools import cached_property
from pathlib import Path
from typing import Any

from .keys import table as keys
from .keys.table import evaluated
from .places import Lines, Place

BARE = re.compile(r"[A-Za-z0-9_-]+")
BLANK = re.compile(r"[ \t]*")
GAP = re.compile(r"(?:[ \t\r\n]+|#[^\n]*)*")
REST = re.compile(r"[ \t]*(?:#[^\r\n]*)?(?:\r?\n|\Z)")
DIGITS = r"[0-9](?:_?[0-9])*"
INTEGER = rf"[+-]?(?:0|[1-9](?:_?[0-9])*)|0x[0-9A-Fa-f](?:_?[0-9A-Fa-f])*|0o[0-7](?:_?[0-7])*|0b[01](?:_?[01])*"
FLOAT = rf"[+-]?(?:inf|nan|(?:0|[1-9](?:_?[0-9])*)(?:\.{DIGITS})?(?:[eE][+-]?{DIGITS})?)"
TIME = r"[0-9]{2}:[0-9]{2}(?::[0-9]{2}(?:\.[0-9]+)?)?"
DATE = rf"[0-9]{{4}}-[0-9]{{2}}-[0-9]{{2}}(?:[Tt ]{TIME}(?:[Zz]|[+-][0-9]{{2}}:[0-9]{{2}})?)?"
SCALAR = re.compile(rf"(?:true|false|{DATE}|{TIME}|{INTEGER}|{FLOAT})\Z")
WORD = re.compile(r"[^\s,\]}#=]+(?: [0-9]{2}:[0-9:.Zz+-]*)?")
ESCAPE = re.compile(r'\\(?:["\\bfnrte]|x[0-9A-Fa-f]{2}|u[0-9A-Fa-f]{4}|U[0-9A-Fa-f]{8})')
LETTERS = re.compile(r"[^\"'\\\r\n]+")
ENDED_LINE = re.compile(r"\\[ \t]*\r?\n\s*")
# What TOML 1.0 does not have: `tomllib` refuses it, and the program takes it.
NEWER = re.compile(r"\\[ex]")
Path_ = tuple[str | int, ...]
# The most parts of a path, keys and indices: no specification has more than three. Each costs its length.
MOST_PARTS = 16
MOST_WRITTEN = 40


class NotToml(Exception):
    """The text is no TOML document: what is wrong, and where."""

    def __init__(self, what: str, place: Place | None) -> None:
        super().__init__(what)
        self.what, self.place = what, place


class TooDeep(NotToml):
    """Keys or brackets are deeper than any specification has them, and the text is not looked at."""

    def __init__(self, place: Place) -> None:
        super().__init__(f"more than {MOST_PARTS} keys or brackets in one another", place)


def short(text: str) -> str:
    """What is written, on one line and not too long."""
    line = text[: MOST_WRITTEN + 1].split("\n")[0]
    return line if line == text and len(line) <= MOST_WRITTEN else f"{line[:MOST_WRITTEN]}.."


@dataclass(frozen=True)
class Spot:
    """Where a value is: its key, or of an element nothing, the value and the text that is written there."""

    key: Place
    value: Place
    written: str


# Where a value is in a text: the offsets of its key, its begin and its end.
Offsets = tuple[int, int, int]


@dataclass
class Specification:
    """A document with the places of its keys and values."""

    table: dict[str, Any]
    text: str
    offsets: dict[Path_, Offsets] = field(default_factory=dict)

    @cached_property
    def lines(self) -> Lines:
        return Lines(self.text)

    def spot(self, *path: str | int) -> Spot | None:
        if path not in self.offsets:
            return None
        key, value, end = self.offsets[path]
        return Spot(self.lines.place(key), self.lines.place(value), self.text[value:end])

    def key_place(self, *path: str | int) -> Place | None:
        spot = self.spot(*path)
        return spot.key if spot else None

    def value_place(self, *path: str | int) -> Place | None:
        spot = self.spot(*path)
        return spot.value if spot else None


class Scanner:
    """The places of a text, read from its begin."""

    def __init__(self, text: str) -> None:
        self.text, self.at = text, 0
        self.lines = Lines(text)
        self.offsets: dict[Path_, Offsets] = {}
        self.counts: dict[Path_, int] = {}
        self.headers: set[Path_] = set()
        self.is_newer = False

    def place(self, at: int | None = None) -> Place:
        return self.lines.place(self.at if at is None else at)

    def fail(self, what: str, at: int | None = None) -> NotToml:
        return NotToml(what, self.place(at))

    def peek(self, count: int = 1) -> str:
        return self.text[self.at : self.at + count]

    def skip(self, pattern: re.Pattern[str]) -> str:
        """Takes what a pattern finds here, maybe nothing."""
        found = pattern.match(self.text, self.at)
        self.at = found.end() if found else self.at
        return found[0] if found else ""

    def took(self, mark: str) -> bool:
        if self.text.startswith(mark, self.at):
            self.at += len(mark)
            return True
        return False

    def document(self) -> None:
        prefix: Path_ = ()
        while True:
            self.skip(GAP)
            if self.at >= len(self.text):
                return
            if self.peek() == "[":
                prefix = self.header()
            else:
                self.pair(prefix)
            if not self.skip(REST) and self.at < len(self.text):
                self.skip(BLANK)
                raise self.fail("nothing but a comment may be behind this on its line")

    def header(self) -> Path_:
        """The path of the table that a header opens."""
        at = self.at
        is_array = self.took("[[")
        if not is_array:
            self.at += 1
        self.skip(BLANK)
        path = self.within(self.keys()[0])
        if not self.took("]]" if is_array else "]"):
            raise self.fail(f"`{']]' if is_array else ']'}` is missing behind the table's name")
        if is_array:
            self.counts[path] = self.counts.get(path, 0) + 1
            self.note(path, at, at) if self.counts[path] == 1 else None
            path = (*path, self.counts[path] - 1)
        elif path in self.headers:
            raise self.fail(f"table {shown(path)} is there twice", at)
        self.headers.add(path)
        self.note(path, at, at)
        return path

    def within(self, keys: Path_) -> Path_:
        """The path of keys, with the last element of each array of tables on the way."""
        path: Path_ = ()
        for place, key in enumerate(keys):
            path = (*path, key)
            if path in self.counts and place + 1 < len(keys):
                path = (*path, self.counts[path] - 1)
        return path

    def note(self, path: Path_, key_at: int, value_at: int) -> None:
        self.offsets[path] = (key_at, value_at, self.at)

    def keys(self) -> tuple[Path_, int]:
        """A key with its parts between points, and where it begins."""
        at, path = self.at, ()
        while True:
            path = (*path, self.key())
            self.skip(BLANK)
            if not self.took("."):
                return path, at
            if len(path) == MOST_PARTS:
                raise TooDeep(self.place(at))
            self.skip(BLANK)

    def key(self) -> str:
        if self.peek() in ('"', "'"):
            return self.string(can_be_long=False)
        if found := self.skip(BARE):
            return found
        raise self.fail("a key is expected")

    def pair(self, prefix: Path_) -> None:
        """A key with its value."""
        path, at = self.keys()
        path = (*prefix, *path)
        if not self.took("="):
            raise self.fail(f"`=` and a value are expected behind the key {shown(path)}")
        self.skip(BLANK)
        if path in self.offsets:
            first = self.place(self.offsets[path][0])
            raise self.fail(f"key {shown(path)} is there twice, first in line {first.line}", at)
        value_at = self.at
        self.value(path)
        self.note(path, at, value_at)
        for end in range(len(prefix) + 1, len(path)):
            self.offsets.setdefault(path[:end], (at, at, at))

    def value(self, path: Path_) -> None:
        if len(path) > MOST_PARTS:
            raise TooDeep(self.place())
        match self.peek():
            case "[":
                self.array(path)
            case "{":
                self.inline(path)
            case '"' | "'":
                self.string(can_be_long=True)
            case _:
                self.scalar()

    def scalar(self) -> None:
        at = self.at
        word = self.skip(WORD)
        if not word:
            raise self.fail("a value is expected")
        if word.lower() in ("true", "false") and word != word.lower():
            raise self.fail(f"{word} is no value of TOML; write {word.lower()}", at)
        if not SCALAR.match(word):
            raise self.fail(f"{short(word)} is no value of TOML; a text is written between double quotes", at)
        if re.fullmatch(INTEGER, word) and not is_of_64_bits(word):
            raise self.fail(f"{short(word)} has more than 64 bits", at)

    def array(self, path: Path_) -> None:
        start, count = self.at, 0
        self.at += 1
        while True:
            self.skip(GAP)
            if self.took("]"):
                return
            if self.at >= len(self.text):
                raise self.fail("`[` is never closed by `]`", start)
            at = self.at
            self.value((*path, count))
            self.note((*path, count), at, at)
            count += 1
            self.skip(GAP)
            if not self.took(",") and self.peek() != "]":
                raise self.fail(*(("`,` or `]` is expected",) if self.peek() else ("`[` is never closed by `]`", start)))

    def inline(self, path: Path_) -> None:
        start = self.at
        self.at += 1
        has_comma = False
        while True:
            gap = self.skip(GAP)
            self.is_newer |= "\n" in gap
            if self.took("}"):
                self.is_newer |= has_comma
                return
            if self.at >= len(self.text):
                raise self.fail("`{` is never closed by `}`", start)
            self.pair(path)
            self.is_newer |= "\n" in self.skip(GAP)
            has_comma = self.took(",")
            if not has_comma and self.peek() != "}":
                raise self.fail(*(("`,` or `}` is expected",) if self.peek() else ("`{` is never closed by `}`", start)))

    def string(self, can_be_long: bool) -> str:
        """The text that a string says, but for escapes, which stay as they are written."""
        start, quote = self.at, self.peek()
        if can_be_long and self.peek(3) == quote * 3:
            return self.long_string(quote, start)
        self.at += 1
        while self.peek() != quote:
            if self.peek() in ("", "\n") or self.peek(2) == "\r\n":
                raise self.fail(f"`{quote}` is never closed on its line", start)
            self.skip(LETTERS) or self.letter(quote)
        self.at += 1
        return self.text[start + 1 : self.at - 1]

    def long_string(self, quote: str, start: int) -> str:
        self.at += 3
        while not self.took(quote * 3):
            if self.at >= len(self.text):
                raise self.fail(f"`{quote * 3}` is never closed", start)
            if not (quote == '"' and self.skip(ENDED_LINE)) and not self.skip(LETTERS):
                self.letter(quote)
        while self.peek() == quote:
            self.at += 1
        return self.text[start + 3 : self.at - 3]

    def letter(self, quote: str) -> None:
        """Takes a letter of a string, or an escape."""
        if self.peek() == "\\" and quote == '"':
            if not (escape := self.skip(ESCAPE)):
                raise self.fail(f"`{self.peek(2)}` is no escape of TOML")
            self.is_newer |= bool(NEWER.match(escape))
        else:
            self.at += 1


def is_of_64_bits(word: str) -> bool:
    """Whether a whole number, as TOML writes it, has at most 64 bits. Decimal ones have no zeros before them."""
    digits = word.lstrip("+-").replace("_", "")
    return (digits[:2] in ("0x", "0o", "0b") or len(digits) <= 20) and -(1 << 63) <= int(word, 0) < 1 << 63


def shown(path: Path_) -> str:
    """A path as it is spoken of."""
    return ".".join(short(part) if isinstance(part, str) else f"{part + 1}" for part in path)


def text_of(source: bytes) -> str:
    """The text of a specification; a byte order mark is skipped, as the program does."""
    try:
        text = source.decode("utf-8")
    except UnicodeDecodeError as fault:
        lines = Lines(source)
        raise NotToml(f"byte {source[fault.start]:#04x} is no UTF-8", lines.place(fault.start)) from fault
    return text.removeprefix("\ufeff")


def parse(source: bytes) -> Specification:
    """The specification in a file's bytes."""
    text = text_of(source)
    scanner = Scanner(text)
    scanner.document()
    try:
        return Specification(tomllib.loads(text), text, scanner.offsets)
    except (tomllib.TOMLDecodeError, RecursionError) as fault:
        at = re.search(r" \(at line (\d+), column (\d+)\)", str(fault))
        if scanner.is_newer or not at:
            raise NotToml("", None) from fault
        raise NotToml(str(fault).replace(at[0], ""), Place(int(at[1]), int(at[2]))) from fault


def load(path: Path | str) -> Specification:
    return parse(Path(path).read_bytes())


def shift_of(table: dict[str, Any]) -> int | None:
    """The shift of a document, from the input's to the output's last place; none where its kind has none or a number is missing."""
    kind = keys.read().kinds.get(table.get("kind", ""))
    return evaluated(kind.row["shift"], table) if kind and "shift" in kind.row else None


def is_always_exact(table: dict[str, Any]) -> bool:
    """Whether outputs are equal whatever `exact` says: sums of whole constants of which nothing is cut."""
    return keys.read().kinds[table["kind"]].row.get("always_exact", False) and not shift_of(table)
