"""The parts of documents that are made from the table of keys: tables of SPECIFICATION, the manual page, help and templates.

Each function takes the text of a document and returns it with its part as the table has it; words beside that part stay.
"""
import re
import textwrap
from collections.abc import Callable

from .phrases import capital, kind_text, optional_text, range_text, sentence, template_comment, type_text, uses_text
from .table import Key, Kind, Table

WIDEST = 120
KEYS_HEAD = "| key | kinds | value | range |\n|---|---|---|---|\n"
ARRAYS_HEAD = "| table | key | value | range |\n|---|---|---|---|\n"
COMMENT_COLUMN = 25
HELP_HEAD = "Kinds of operators, the key kind of a specification"
PAGE_KINDS = "The key \\fBkind\\fR of a specification says what is computed.\n"
PAGE_KEYS = "A specification is a TOML file with these keys, in the order in which faults are judged.\n"
KEYS_PAGE = """\
opgen help keys

The keys of a specification, a TOML file, in the order in which faults are judged. `opgen help` lists the kinds;
templates/ has a specification of each, with a comment at each key.
"""


class NoPlace(Exception):
    """A document has no place for what the table makes."""


def replaced(text: str, pattern: str, part: str) -> str:
    """A text with the one place of a pattern replaced."""
    made, count = re.subn(pattern, lambda _: part, text, flags=re.MULTILINE | re.DOTALL)
    if count != 1:
        raise NoPlace(f"{count} places of {pattern}")
    return made


def table_row(first: list[str], key: Key, table: Table) -> str:
    """A row of a table of SPECIFICATION."""
    value = "; ".join(text for text in (type_text(key), optional_text(key, table)) if text)
    return f"| {' | '.join([*first, value])} | {range_text(key, table)} |\n".replace("|  |", "| |")


def specification(text: str, table: Table) -> str:
    """SPECIFICATION with its table of keys and that of the keys of tables."""
    keys = "".join(table_row([f"`{key.name}`", uses_text(key, table)], key, table) for key in table.keys.values())
    lines = [(array, key) for array, its in table.arrays.items() for key in its.values()]
    arrays = "".join(table_row([f"`{array}`", f"`{key.name}`"], key, table) for array, key in lines)
    for head, rows in ((KEYS_HEAD, keys), (ARRAYS_HEAD, arrays)):
        text = replaced(text, f"^{re.escape(head)}(?:[|][^\\n]*\\n)*", head + rows)
    return text


def roff(text: str) -> str:
    return text.replace("\\", "\\\\").replace("-", "\\-")


def described(key: Key, table: Table) -> str:
    """What a key is, and which kinds have it; of the kind itself there is a list."""
    said = uses_text(key, table)
    head = "" if said.startswith(("in ", "from ")) else "of "
    kinds = "" if said == "all" else f" {capital(head + said)}."
    return ("One of the kinds." if key.row.get("words") == "kinds" else sentence(key, table)) + kinds


def page_entry(key: Key, table: Table) -> str:
    """A key of the manual page, and the keys of its tables."""
    entry = f".TP\n.B {key.name}\n{roff(described(key, table))}\n"
    inner = "".join(page_entry(one, table) for one in table.arrays.get(key.name, {}).values())
    return entry + (f"Each is a table \\fB[[{key.name}]]\\fR with\n.RS\n{inner}.RE\n" if inner else "")


def manual_page(text: str, table: Table) -> str:
    """The manual page with its kinds and keys."""
    kinds = "".join(f".TP\n.B {kind.name}\n{roff(kind_text(kind, table))}.\n" for kind in table.kinds.values())
    keys = "".join(page_entry(key, table) for key in table.keys.values())
    made = f".SH KINDS\n{PAGE_KINDS}{kinds}.SH KEYS\n{PAGE_KEYS}{keys}.SH EXIT STATUS\n"
    return replaced(text, r"^\.SH KINDS\n.*^\.SH EXIT STATUS\n", made)


def general_help(text: str, table: Table) -> str:
    """The help with its kinds, a line each."""
    column = max(map(len, table.kinds)) + 3
    lines = "".join(f"  {kind.name:<{column}}{kind_text(kind, table)}\n" for kind in table.kinds.values())
    return replaced(text, f"^{HELP_HEAD}\\n(?:  [^\\n]+\\n)*", f"{HELP_HEAD}\n{lines}")


def help_entry(key: Key, table: Table, column: int) -> str:
    """A key in the help of keys: its sentence behind its name."""
    indent = "    " if key.array else "  "
    return textwrap.fill(described(key, table), WIDEST, initial_indent=f"{indent}{key.name}".ljust(column), subsequent_indent=" " * column,
                         break_on_hyphens=False, break_long_words=False) + "\n"


def keys_help(table: Table) -> str:
    """The help of all keys."""
    column = max(len(key.name) for key in table.all_keys) + 4
    parts = []
    for name, key in table.keys.items():
        parts.append(help_entry(key, table, column))
        parts += [help_entry(one, table, column) for one in table.arrays.get(name, {}).values()]
    return f"{KEYS_PAGE}\n{''.join(parts)}"


def comment_of(array: str, name: str, kind: Kind, version: int, table: Table) -> str | None:
    """The comment of a key of a template, none if there is no such key."""
    key = table.arrays[array].get(name) if array else table.keys.get(name)
    return key and template_comment(key, kind, version, table)


def template(text: str, table: Table) -> str:
    """A template of a kind with the comments behind its values; comments on lines of their own are written by hand."""
    kind = table.kinds[re.search(r'^kind = "(\w+)"', text, re.MULTILINE)[1]]
    version = int(re.search(r"^version = (\d+)", text, re.MULTILINE)[1])
    lines, array = [], ""
    for line in text.splitlines():
        header = re.fullmatch(r"(?:# )?\[\[(\w+)\]\]", line)
        array = header[1] if header else array
        found = re.fullmatch(r"((?:# )?(\w+) = (?:\[[^]]*\]|\"[^\"]*\"|\S+)) +# .*", line)
        said = found and comment_of(array, found[2], kind, version, table)
        lines.append(f"{found[1]:<{COMMENT_COLUMN - 1}} # {said}" if said else line)
    return "\n".join(lines) + "\n"


Page = Callable[[str, Table], str]
# The documents of which a part is made from the table.
PAGES: dict[str, Page] = {
    "docs/SPECIFICATION.md": specification,
    "docs/opgen.1": manual_page,
    "docs/help/opgen.txt": general_help,
}
