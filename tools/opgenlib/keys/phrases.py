"""What the table of keys says, in words: who has a key, of which type, in which range.

A text has backquotes about what a document writes; `plain` takes them off.
"""
from collections.abc import Sequence

from .table import LIMITS, Key, Kind, Row, Table, fits

LARGE = {1 << power: f"2^{power}" for power in range(24, 64)}
TYPES = {
    "number": "a whole number",
    "text": "a text",
    "flag": "a truth value",
    "numbers": "an array of whole numbers",
    "coefficients": "an array of whole numbers, or of decimal texts",
    "tables": "an array of tables",
}


def plain(text: str) -> str:
    return text.replace("`", "")


def capital(text: str) -> str:
    return text[:1].upper() + text[1:]


def number(value: int) -> str:
    """A number, as a power of two if it is a large one."""
    return ("-" if value < 0 else "") + LARGE.get(abs(value), str(abs(value)))


def ends(pair: Sequence[int]) -> str:
    return number(pair[0]) if pair[0] == pair[1] else f"{number(pair[0])} to {number(pair[1])}"


def listed(words: list[str], last: str) -> str:
    """Words with one before the last."""
    return f" {last} ".join([", ".join(words[:-1]), words[-1]] if len(words) > 1 else words)


def limit(row: Row) -> str:
    """What a row of `ranges` says."""
    texts = {
        "range": ends,
        "length": ends,
        "each": lambda held: f"each {ends(held)}",
        "bytes": lambda held: f"{ends(held)} bytes",
        "least": lambda held: f"{number(held)} or more",
        "odd_parts": lambda held: f"at most {held} different odd parts of those that are not 0, 1 counted",
    }
    return ", ".join(texts[name](row[name]) for name in LIMITS if name in row)


def versions(row: Row, table: Table) -> str:
    """The versions of a row."""
    if "versions" in row:
        return f"in version{'s' if len(row['versions']) > 1 else ''} {listed(list(map(str, row['versions'])), 'and')}"
    if row.get("since", 1) == 1:
        return ""
    return f"in version {row['since']}" if row["since"] == table.versions[-1] else f"from version {row['since']} on"


def conditioned(row: Row, said: str, table: Table) -> str:
    """What a row of `ranges` says, with its conditions."""
    parts = [f"of {', '.join(row['kinds'])}" if "kinds" in row else "", said]
    if "is" in row:
        parts.append(f"where `{row['beside']}`" + ("" if row["is"] is True else f" is `{row['is']}`"))
    elif "beside" in row:
        parts.insert(0, f"beside `{row['beside']}`")
    return " ".join(part for part in [*parts, versions(row, table)] if part)


def words_of(key: Key, table: Table) -> list[str]:
    """The words that a text may be."""
    words = key.row.get("words")
    if words == "versions":
        return [listed(list(map(str, table.versions)), "or")]
    if words == "kinds":
        return [kinds_by_version(table)]
    since = key.row.get("words_since", {})
    later = [f"`{word}` {versions({'since': first}, table)}" for word, first in since.items()]
    return [listed([f"`{word}`" for word in words or [] if word not in since], "or"), *later] if words else []


def kinds_by_version(table: Table) -> str:
    parts = []
    for version in table.versions:
        names = ", ".join(f"`{kind.name}`" for kind in table.kinds.values() if kind.since == version)
        when = versions({"since": version}, table)
        parts += [f"{when} also {names}" if when else names] if names else []
    return "; ".join(parts)


def unmade_text(row: Row) -> str:
    """What a row says of documents whose circuits are not made yet."""
    if "above" in row:
        return f"so far not above `{row['above']}`"
    if "most" in row:
        return f"so far at most {row['most']}"
    if "but" not in row:
        return "not made yet"
    made = listed([f"`{value}`" if isinstance(value, str) else str(value) for value in row["but"]], "or")
    return f"so far only {made}" + (", and needed," if row.get("needed") else "")


def unmade_texts(key: Key, table: Table) -> list[str]:
    """What is not made yet of a key, with the version if earlier ones have it."""
    first = min(use.get("since", 1) for use in key.row["uses"])
    rows = (row | {"since": 1} if row["since"] <= first else row for row in key.unmade)
    return [conditioned(row, unmade_text(row), table) for row in rows]


def range_text(key: Key, table: Table) -> str:
    """In which range a key is: all rows."""
    rows = [conditioned(row, limit(row), table) for row in key.ranges if "fault" not in row]
    names = {"document": ["by the rule of names"], "port": ["by the rule of port names"], "input": ["the name of an input"]}
    needs = [f"not without `{key.row['needs']}`"] if "needs" in key.row else []
    texts = [f"not beside decimal texts in `{key.row['not_beside_texts']}`"] if "not_beside_texts" in key.row else []
    clashes = [conditioned(row, "not", table) for row in key.row.get("not_beside", [])]
    rule = [key.row["rule"]] if "rule" in key.row else []
    said = [*words_of(key, table), *rows, *names.get(key.row.get("names", ""), []), *needs, *texts, *clashes]
    return "; ".join([*said, *rule, *unmade_texts(key, table)])


def type_text(key: Key) -> str:
    return TYPES[key.type] + (f" of {key.row['unit']}" if "unit" in key.row else "")


def uses_text(key: Key, table: Table) -> str:
    """The kinds that have a key."""
    if key.is_of_all():
        return "all"
    met: list[str] = []
    parts = []
    for row in key.row["uses"]:
        new = [kind for kind in row["kinds"] if kind not in met]
        met += new
        parts += [" ".join(part for part in (versions(row, table), ", ".join(new)) if part)] if new else []
    return "; ".join(parts)


def optional_text(key: Key, table: Table) -> str:
    """For whom a key is optional, and what holds without it."""
    uses = key.row["uses"]
    if len({row.get("optional") for row in uses}) == 1:
        return f"optional, {uses[0]['optional']}" if "optional" in uses[0] else ""
    kinds = {kind for row in uses for kind in row.get("kinds", table.kinds)}
    parts = []
    for at, row in enumerate(uses):
        if "optional" not in row:
            continue
        of = "" if set(row.get("kinds", table.kinds)) == kinds else f"of {', '.join(row['kinds'])} "
        is_later = any(set(row.get("kinds", [])) & set(earlier.get("kinds", [])) for earlier in uses[:at])
        when = f"{versions(row, table)} " if is_later else ""
        parts.append(f"{of}{when}optional, {row['optional']}")
    return "; ".join(parts)


def versions_text(table: Table) -> str:
    """What each version has."""
    return "; ".join(f"{row['number']}: {row['says']}" for row in table.rows["version"])


def kind_text(kind: Kind, table: Table) -> str:
    """What a kind computes, and from which version on."""
    when = versions({"since": kind.since}, table)
    return kind.row["says"] + (f"; {when}" if when else "")


def kinds_text(table: Table) -> str:
    """What each kind computes."""
    return "; ".join(f"{kind.name}: {kind_text(kind, table)}" for kind in table.kinds.values())


def within_text(key: Key, table: Table) -> str:
    """What a key may be: its words with what each means, or its range."""
    words = key.row.get("words")
    if words == "versions":
        return versions_text(table)
    if words == "kinds":
        return kinds_text(table)
    if words:
        return "; ".join([*(f"{word}: {meaning}" for word, meaning in words.items()), *unmade_texts(key, table)])
    return "" if key.row.get("names") == "input" else capital(range_text(key, table))


def sentence(key: Key, table: Table) -> str:
    """What a key is, what it may be, and what holds without it."""
    says, optional = key.row["says"], optional_text(key, table)
    if "absent" in says or optional == "optional, none":
        optional = "optional" if optional else ""
    parts = [says, within_text(key, table), capital(optional)]
    return plain(". ".join(part for part in parts if part)) + "."


def beside_text(row: Row, table: Table) -> str:
    """What a row with a condition on another key says, of one kind and version."""
    return conditioned({name: held for name, held in row.items() if name in (*LIMITS, "beside", "is")}, limit(row), table)


def template_comment(key: Key, kind: Kind, version: int, table: Table) -> str:
    """What a template of a kind says of a key: its words, its range in that version, and what holds without it."""
    said = key.row.get("comment", key.row["says"])
    said = said if key.array else kind.row["comments"].get(key.name, said)
    if key.row.get("words") in ("versions", "kinds") or key.name in ("exact", "target"):
        return said
    known = {one.name for one in (table.arrays[key.array].values() if key.array else table.known(kind.name, version))}
    words = [listed([f"`{word}`" for word in table.words(key, version) or []], "or")]
    held = key.limits(kind.name, version, {})
    within = limit({name: getattr(held, name) for name in LIMITS if getattr(held, name, None) and name != "bytes"})
    beside = [row for row in key.ranges if fits(row, kind.name, version) and row.get("beside") in known and "fault" not in row]
    use = key.use(kind.name, version) or {}
    absent = [f"{use['optional']} where absent"] if use.get("optional", "none") != "none" and "absent" not in said else []
    unmade = [unmade_text(row).rstrip(",") for row in key.unmade if fits(row, kind.name, version)]
    texts = [said, within, *words, *(beside_text(row, table) for row in beside), *absent, *unmade]
    return plain("; ".join(text for text in texts if text))
