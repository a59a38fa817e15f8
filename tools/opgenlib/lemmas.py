"""Reads the lemmas of proofs with their statements, in a form in which statements that say the same in other words of the prover's
grammar are equal: other names of bound variables, other white space, parameters of a module or binders of the lemma itself, braces or
parentheses, and, by `unordered`, another order of the leading binders."""
import hashlib
import re
from collections.abc import Iterator
from dataclasses import dataclass, field
from pathlib import Path

TOKEN = re.compile(r'"[^"\n]*"|[(){}\[\],;]|(?<=\S)\.[^\s(){}\[\],;.]+|[^\s(){}\[\],;.]+|\.')
ITEM = re.compile(r"(?P<marks>(?:(?:abbrev|unfoldable|pub|record|data|ruleset) )*)(?P<name>[^\s:(){]+) (?::|\(|\{|=)")
PATHS = re.compile(r"^use (\S+)\.\{([^}]*)\}", re.MULTILINE)
WHOLE = re.compile(r"^use ([^\s{]+)(?: as (\w+))?$", re.MULTILINE)
OPENING, CLOSING = "({[", ")}]"
# What marks a variable of a leading binder, and one that is bound further in: no token of a file begins so.
LEADING, INNER = "\0", "\1"
ROUNDS = 3

Tokens = list[str]


@dataclass(frozen=True)
class Part:
    """A leading binder or premise: its variable, empty where nothing speaks of it, and its type."""

    variable: str
    type: tuple[str, ...]


@dataclass(frozen=True)
class Lemma:
    """A lemma: its place, its name, its statement as written, below the parameters of its modules, and the same as leading parts and what
    follows from them."""

    path: Path
    line: int
    name: str
    written: str
    parts: tuple[Part, ...]
    conclusion: tuple[str, ...]

    def ordered(self) -> str:
        """The statement, with its leading binders in their order."""
        return statement(self.parts, self.conclusion)

    def unordered(self) -> str:
        """The same for statements that differ in the order of their leading binders."""
        colors = colors_of(self.parts, self.conclusion)
        return statement(sorted(self.parts, key=lambda part: (colors.get(part.variable, ""), shown(part.type, colors))), self.conclusion)


def shown(tokens: tuple[str, ...], names: dict[str, str]) -> str:
    return " ".join(names.get(token, token) for token in tokens)


def statement(parts: tuple[Part, ...] | list[Part], conclusion: tuple[str, ...]) -> str:
    """A statement as a text, its leading variables numbered in their order."""
    named = [part.variable for part in parts if part.variable]
    names = {variable: f"x{at}" for at, variable in enumerate(named, 1)}
    heads = [f"({names[part.variable]} : {shown(part.type, names)})" if part.variable else shown(part.type, names) for part in parts]
    return " → ".join([*heads, shown(conclusion, names)]).replace(INNER, "y")


def colors_of(parts: tuple[Part, ...], conclusion: tuple[str, ...]) -> dict[str, str]:
    """A mark for each leading variable, by its type and its uses, whatever the order of the parts is."""
    variables = {part.variable: part for part in parts if part.variable}
    colors = dict.fromkeys(variables, "x")
    for _ in range(ROUNDS):
        colors = {variable: color_of(variable, variables[variable], parts, conclusion, colors) for variable in variables}
    return colors


def color_of(variable: str, part: Part, parts: tuple[Part, ...], conclusion: tuple[str, ...], colors: dict[str, str]) -> str:
    marked = {**colors, variable: "*"}
    uses = sorted(colors.get(each.variable, "") + ":" + shown(each.type, marked) for each in parts if variable in each.type)
    text = "\n".join([shown(part.type, colors), *uses, shown(conclusion, marked)])
    return hashlib.sha256(text.encode()).hexdigest()


def end_of(tokens: Tokens, at: int) -> int:
    """Where the bracket that opens at a place closes."""
    depth = 0
    for place in range(at, len(tokens)):
        depth += (tokens[place] in OPENING) - (tokens[place] in CLOSING)
        if depth == 0:
            return place
    return len(tokens) - 1


def binders_of(tokens: Tokens, at: int) -> Tokens:
    """The variables of a binder `(a b : T)` that opens at a place; none where there is no binder."""
    if tokens[at] not in ("(", "{"):
        return []
    end = at + 1
    while end < len(tokens) and re.match(r"[^\W\d]", tokens[end]):
        end += 1
    return tokens[at + 1 : end] if end < len(tokens) and tokens[end] == ":" else []


def split(tokens: Tokens) -> tuple[list[tuple[str, Tokens]], Tokens]:
    """The leading binders and premises of a statement, and what follows from them."""
    parts: list[tuple[str, Tokens]] = []
    start = 0
    while start < len(tokens):
        at = start
        groups: list[tuple[str, Tokens]] = []
        while at < len(tokens) and (names := binders_of(tokens, at)):
            end = end_of(tokens, at)
            groups += [(name, tokens[at + len(names) + 2 : end]) for name in names]
            at = end + 1
        if at < len(tokens) and tokens[at] == "→" and groups:
            parts += groups
        elif groups and at == len(tokens):  # the parameters of a module
            return parts + groups, []
        elif groups or (arrow := arrow_from(tokens, start)) == len(tokens):
            return parts, tokens[start:]
        else:
            parts.append(("", tokens[start:arrow]))
            at = arrow
        start = at + 1
    return parts, []


def arrow_from(tokens: Tokens, at: int) -> int:
    """Where the next arrow outside brackets is, or the end."""
    while at < len(tokens) and tokens[at] != "→":
        at = end_of(tokens, at) + 1
    return at


class Resolver:
    """Replaces the names in a part of a statement: bound ones by marks, others by what the file means by them."""

    def __init__(self, meanings: dict[str, str]) -> None:
        self.meanings = meanings
        self.count = 0

    def fresh(self) -> str:
        self.count += 1
        return f"{INNER}{self.count}"

    def resolved(self, tokens: Tokens, scope: dict[str, str]) -> Iterator[str]:
        """The tokens with their names replaced; a binder counts to the end of the bracket around it."""
        scope, at = dict(scope), 0
        while at < len(tokens):
            token = tokens[at]
            if token == "λ":
                yield token
                while (at := at + 1) < len(tokens) and tokens[at] not in (".", "(", "{"):
                    scope[tokens[at]] = self.fresh()
                    yield scope[tokens[at]]
            elif token in OPENING:
                end, names = end_of(tokens, at), binders_of(tokens, at)
                yield "(" if token == "{" and names else token
                inside = dict(scope)
                inside.update({name: self.fresh() for name in names})
                yield from self.resolved(tokens[at + 1 : end], inside)
                yield ")" if token == "{" and names else tokens[end]
                scope = {**scope, **{name: inside[name] for name in names}}
                at = end + 1
            else:
                is_named = tokens[at + 1 : at + 2] == ["="]  # an argument by its name
                yield token if is_named else scope.get(token) or self.meanings.get(token, token)
                at += 1


@dataclass
class File:
    """A file of proofs as it is read: what its names mean, and the parameters of the modules that are open."""

    path: Path
    meanings: dict[str, str]
    modules: list[tuple[str, Tokens, dict[str, str]]] = field(default_factory=list)

    def lemma(self, line: int, name: str, text: str) -> Lemma:
        """A lemma below the modules that are open."""
        given = [part for _, parameters, _ in self.modules for part in split(parameters)[0]]
        own, conclusion = split(TOKEN.findall(text))
        meanings = dict(self.meanings)
        for _, _, names in self.modules:
            meanings.update(names)
        scope: dict[str, str] = {}
        found: list[Part] = []
        for at, (variable, tokens) in enumerate(given + own):
            found.append(Part(f"{LEADING}{at}" if variable else "", tuple(Resolver(meanings).resolved(tokens, scope))))
            if variable:
                scope[variable] = f"{LEADING}{at}"
        rest = tuple(Resolver(meanings).resolved(conclusion, scope))
        used = {token for part in found for token in part.type} | set(rest)
        parts = tuple(Part(part.variable if part.variable in used else "", part.type) for part in found)
        return Lemma(self.path, line, name, self.written(text), parts, rest)

    def written(self, text: str) -> str:
        """A statement as written, below the parameters of the modules that are open."""
        return " → ".join([*(header for header, _, _ in self.modules), text.strip()])


def meanings_of(text: str) -> dict[str, str]:
    """What the names that a file imports mean: their name in the module that they are of. Names of `std` are one for each name, from
    whichever of its modules: some are in several."""
    found = {}
    for path, names in PATHS.findall(text):
        home = "std" if path.startswith("Rattle.std.") else path.removeprefix("Rattle.")
        for each in names.split(","):
            name, _, other = each.strip().partition(" as ")
            if name and "◌" not in name:
                found[other or name] = f"{home}.{name}"
    found.update({other or path.rpartition(".")[2]: path for path, other in WHOLE.findall(text)})
    return found


def indent(line: str) -> int:
    return len(line) - len(line.lstrip())


def blocks(text: str) -> Iterator[tuple[int, int, str]]:
    """Each line of a file that is no comment, with the lines below it that continue it: its number, how far in it is, and its text. A line
    that continues another is further in by four at least; where a body begins, it is by two."""
    lines = text.splitlines()
    for at, line in enumerate(lines):
        if line.strip() and not line.lstrip().startswith("--"):
            end = at + 1
            while end < len(lines) and lines[end].strip() and indent(lines[end]) >= indent(line) + 4:
                end += 1
            yield at + 1, indent(line), " ".join(part.strip() for part in lines[at:end])


def lemmas_of(path: Path) -> Iterator[Lemma]:
    """The lemmas of a file at the left or in a module there, in their order."""
    text = path.read_text()
    file = File(path, meanings_of(text))
    level = 0
    for number, left, block in blocks(text):
        while left < level:
            file.modules.pop()
            level -= 2
        if left != level:
            continue
        if block.startswith("module _ "):
            header = block.removeprefix("module _ ").removesuffix(" where")
            file.modules.append((header, TOKEN.findall(header), {}))
            level += 2
        elif item := ITEM.match(block):
            names = file.modules[-1][2] if file.modules else file.meanings
            names.setdefault(item["name"], f"{path}:{number}")
            if item["marks"] in ("", "pub ") and block[item.end() - 1] == ":":
                yield file.lemma(number, item["name"], block[item.end() :])
