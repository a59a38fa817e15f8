"""Explains the faults of a file of rows: what is wrong with a line, by the ports of the design."""
import re
from itertools import islice
from pathlib import Path

from ..vhdl import NotRead, Port, entity_of

MOST_ROWS = 100000
MOST_BYTES = 8 << 20


def line_of(path: Path, number: int) -> bytes | None:
    """A line of a file, from 1, with its line feed."""
    with path.open("rb") as lines:
        return next(islice(lines, number - 1, None), None)


def inputs_of(path: Path) -> list[Port] | None:
    """The input ports of a design."""
    if path.stat().st_size > MOST_BYTES:
        return None
    try:
        return [port for port in entity_of(path.read_bytes().decode("latin-1"))[1] if port.is_input]
    except NotRead:
        return None


def word_fault(word: str, port: Port) -> str:
    """What is wrong with a word for a port."""
    digits = -(-port.width // 4)
    bits = f"{port.width} bit{'s' if port.width > 1 else ''}"
    wanted = f"{digits} hexadecimal digit{'s' if digits > 1 else ''}"
    if word[:2].lower() == "0x":
        return f'hexadecimal digits have no 0x before them; found "{word}"'
    if not re.fullmatch(r"[0-9A-Fa-f]*", word):
        return f'{port.name} has {bits}, so {wanted} are expected; found "{word}"'
    if len(word) != digits:
        are = "are" if digits > 1 else "is"
        return f'{port.name} has {bits}, so {wanted} {are} expected; found "{word}"'
    if int(word, 16) >= 1 << port.width:
        return f'{port.name} has {bits}, so at most {(1 << port.width) - 1:0{digits}x} is expected; found "{word}"'
    return ""


def row_fault(line: bytes, ports: list[Port]) -> tuple[int, str]:
    """The column and what is wrong with a row."""
    has_feed = line.endswith(b"\n")
    text = (line[:-1].removesuffix(b"\r") if has_feed else line).decode("latin-1")
    names = " ".join(port.name for port in ports)
    if text.endswith("\r") and not has_feed:
        return len(text), "a carriage return ends the file; expected a line feed behind it"
    if (colon := text.find(" :")) >= 0:
        return colon + 1, "the row has outputs; only inputs are expected: sed 's/ : .*//'"
    if not ports:
        return 1, "the design has no input, so an empty line is expected" if text else ""
    if not text:
        return 1, f"the line is empty; expected a word for each input: {names}"
    if found := re.search(r"^ | $|  |\t", text):
        return found.start() + 1, "a space or tab too many; expected one space between two words"
    words = text.split(" ")
    for word, port, column in zip(words, ports, columns(words)):
        if fault := word_fault(word, port):
            return column, fault
    if len(words) != len(ports):
        column = columns(words)[len(ports)] if len(words) > len(ports) else len(text) + 1
        return column, f"the row has {len(words)} word{'s' if len(words) > 1 else ''}; expected {len(ports)}: {names}"
    return 1, ""


def columns(words: list[str]) -> list[int]:
    """The column at which each word begins."""
    starts, at = [], 1
    for word in words:
        starts.append(at)
        at += len(word) + 1
    return starts


def explain(file: str, fault: list[str], vhdl: str) -> list[str]:
    """What a fault with its number means in a file of rows for a design."""
    if fault[0] == "TooMany":
        return [f"{file}: more than {MOST_ROWS:,} rows", "  split the file"]
    number = int(fault[1])
    ports, line = inputs_of(Path(vhdl)), line_of(Path(file), number)
    if ports is None or line is None:
        return [f"{file}:{number}: this line is no row of inputs"]
    column, said = row_fault(line, ports)
    if not said:
        return [f"{file}:{number}: this line is no row of inputs"]
    return [f"{file}:{number}:{column}: {said}"]
