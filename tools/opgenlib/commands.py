"""The program's commands: which files and options each takes, and why words are none of them."""
import re
from dataclasses import dataclass, field

from .nearest import meant

MOST_SPECIFICATION, MOST_TEXT = 1 << 20, 1 << 26
# What a word is, by its name in the list of a command: the most bytes of a file that is read, none of one that is stored.
FILES: dict[str, int | None] = {
    "SPEC": MOST_SPECIFICATION,
    "VHDL": MOST_TEXT,
    "VECTORS": MOST_TEXT,
    "OUT": None,
}
NUMBERS: dict[str, tuple[int, int]] = {"N": (1, 32), "LATENCY": (0, 100000)}


@dataclass(frozen=True)
class Command:
    """The words of a command behind its name, and its options with their ranges, none for one without a value."""

    words: tuple[str, ...]
    options: dict[str, tuple[int, int] | None] = field(default_factory=dict)

    def usage(self, name: str) -> str:
        options = [f"[{option} N]" if range_ else f"[{option}]" for option, range_ in self.options.items()]
        return " ".join(["opgen", name, *self.words, *options])


COMMANDS: dict[str, Command] = {
    "generate": Command(("SPEC",), {"--workers": (1, 32), "--enable": None}),
    "vectors": Command(("SPEC",), {"--seed": (0, 4294967295), "--cycles": (1, 100000)}),
    "simulate": Command(("VHDL", "VECTORS", "OUT")),
    "workload": Command(("N",)),
    "check": Command(("SPEC", "VHDL", "VECTORS", "LATENCY")),
}


STORES = ("generate", "vectors", "simulate")
# What bin/opgen answers itself.
OTHERS = ("help", "install", "prove", "tool", "uninstall")


class BadWords(Exception):
    """The words are none of a command: why."""


@dataclass(frozen=True)
class Call:
    """A command with its words by their names, and its options as they were written."""

    command: str
    words: dict[str, str]
    options: list[str]
    # The folder of `-o`, in which files are stored.
    folder: str = ""

    @property
    def inputs(self) -> list[tuple[str, str]]:
        """The files that are read, in order: what each is, and its name."""
        return [(what, word) for what, word in self.words.items() if FILES.get(what)]


def in_range(what: str, text: str, least: int, most: int) -> None:
    if not re.fullmatch(r"[+-]?[0-9]+", text):
        raise BadWords(f"{what} is {text!r}; expected a whole number, {least} to {most}")
    if not least <= int(text) <= most:
        raise BadWords(f"{what} is {text}; expected {least} to {most}")


def option_of(name: str, word: str, behind: list[str], met: set[str]) -> list[str]:
    """The words of an option, of which the second may be taken from those behind it."""
    command = COMMANDS[name]
    option, equals, value = word.partition("=")
    numbers = [what for what in command.words if what in NUMBERS]
    if re.fullmatch(r"-[0-9]+", word) and numbers:
        in_range(numbers[0], word, *NUMBERS[numbers[0]])
    if option not in command.options:
        known = ", ".join([*command.options, *(["-o"] if name in STORES else [])])
        near = meant(option, command.options)
        raise BadWords(f"{name} has no option {option};{near} " + (f"its options are {known}" if known else "it has none"))
    if option in met:
        raise BadWords(f"option {option} is there twice")
    met.add(option)
    range_ = command.options[option]
    if range_ is None:
        if equals:
            raise BadWords(f"option {option} has no value")
        return [option]
    if not equals and not behind:
        raise BadWords(f"option {option} has no value; expected a whole number, {range_[0]} to {range_[1]}")
    value = value if equals else behind.pop(0)
    in_range(option, value, *range_)
    return [option, value]


def folder_of(name: str, behind: list[str], met: set[str]) -> str:
    """The folder behind `-o`, which bin/opgen takes from the words before it runs the program."""
    if name not in STORES:
        raise BadWords(f"{name} stores no file, and has no option -o")
    if "-o" in met:
        raise BadWords("option -o is there twice")
    met.add("-o")
    if not behind or not behind[0] or behind[0].startswith("-"):
        raise BadWords("option -o has no folder; expected one, as -o out or -o ./-out")
    return behind.pop(0)


def check_out(out: str) -> None:
    """Refuses a place of rows that -o has no say in."""
    if out.startswith("/") or ".." in out.split("/") or not out:
        raise BadWords(f"OUT is {out!r} beside -o; expected a name within that folder")


def call_of(words: list[str]) -> Call:
    """The command that words are."""
    if not words:
        raise BadWords("no command is given")
    name, behind = words[0], list(words[1:])
    if name not in COMMANDS:
        near = meant(name, [*COMMANDS, *OTHERS])
        raise BadWords(f"there is no command {name!r}" + (f";{near}" if near else ""))
    options: list[str] = []
    found: list[str] = []
    met: set[str] = set()
    has_options, folder = True, ""
    while behind:
        word = behind.pop(0)
        if has_options and word == "--":
            has_options = False
        elif has_options and word == "-o":
            folder = folder_of(name, behind, met)
        elif has_options and word.startswith("-") and word != "-":
            options += option_of(name, word, behind, met)
        else:
            found.append(word)
    wanted = COMMANDS[name].words
    if len(found) != len(wanted):
        how = "few" if len(found) < len(wanted) else "many"
        raise BadWords(f"too {how} words behind {name}: found {len(found)}, expected {len(wanted)}, {' '.join(wanted)}")
    for what, word in zip(wanted, found):
        if what in NUMBERS:
            in_range(what, word, *NUMBERS[what])
    if folder and name == "simulate":
        check_out(found[-1])
    return Call(name, dict(zip(wanted, found)), options, folder)
