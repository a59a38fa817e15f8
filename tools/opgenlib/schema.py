"""Judges documents by docs/opgen.schema.json, and says which keys, types and ranges it has for a document.

Only the schema's own keywords are known here; another is an error. A TOML float is no whole number here, as in the
program; JSON takes 3.0 for one, and so may an editor.
"""
import json
import re
from collections.abc import Iterable, Iterator
from pathlib import Path
from typing import Any

TOP = Path(__file__).resolve().parent.parent.parent
SCHEMA = json.loads((TOP / "docs/opgen.schema.json").read_text(encoding="utf-8"))
# The arrays of tables of a document, in the order in which their faults are judged, and what a table of each may have.
TABLES = {name: SCHEMA["$defs"][name] for name in SCHEMA["properties"] if name in SCHEMA["$defs"]}
KNOWN = "type const enum minimum maximum minItems maxItems maxLength pattern anyOf not if".split()


def shown(file: str) -> str:
    """The name of a file beside the tools: in a checkout from its folder, and otherwise from the root."""
    return file if (TOP / "crates").is_dir() else str(TOP / file)


def command(tool: str) -> str:
    """How a tool is called: in a checkout from its folder, and otherwise by the installed program."""
    return f"tools/{tool}" if (TOP / "crates").is_dir() else f"opgen tool {tool}"


def same(found: Any, wanted: Any) -> bool:
    return type(found) is type(wanted) and found == wanted


def is_type(value: Any, name: str) -> bool:
    kinds = {"object": dict, "array": list, "string": str, "boolean": bool, "integer": int}
    return isinstance(value, kinds[name]) and not (name == "integer" and isinstance(value, bool))


def each(values: Iterable[tuple], schema: dict, place: str) -> Iterator[str]:
    """The faults of the values under one schema, by their keys or indices."""
    for key, value in values:
        yield from faults(value, schema, f"{place}.{key}" if isinstance(key, str) else f"{place}[{key}]")


def keyword_faults(word: str, rule: Any, value: Any, schema: dict, place: str) -> Iterator[str]:
    """The faults of a value by one keyword."""
    table = value if isinstance(value, dict) else {}
    items = value if isinstance(value, list) else []
    text = value if isinstance(value, str) else None
    number = value if is_type(value, "integer") else None
    match word:
        case "$schema" | "$defs" | "title" | "description" | "then":
            return
        case "$ref":
            yield from faults(value, resolved({"$ref": rule}), place)
        case "type" if not is_type(value, rule):
            yield f"{place} is no {rule}"
        case "const" if not same(value, rule):
            yield f"{place} is not {rule!r}"
        case "enum" if not any(same(value, one) for one in rule):
            yield f"{place} is {value!r}, none of {', '.join(map(str, rule))}"
        case "minimum" if number is not None and number < rule:
            yield f"{place} is {number}, below {rule}"
        case "maximum" if number is not None and number > rule:
            yield f"{place} is {number}, above {rule}"
        case "minItems" if isinstance(value, list) and len(items) < rule:
            yield f"{place} has {len(items)} elements, fewer than {rule}"
        case "maxItems" if len(items) > rule:
            yield f"{place} has {len(items)} elements, more than {rule}"
        case "maxLength" if text is not None and len(text) > rule:
            yield f"{place} is longer than {rule}"
        case "pattern" if text is not None and not re.search(rule.replace("$", r"\Z"), text):
            yield f"{place} is {text!r}, not of its form"
        case "required":
            yield from (f"{place} lacks {key}" for key in rule if isinstance(value, dict) and key not in table)
        case "additionalProperties":
            yield from (f"{place} has the unknown key {key}" for key in table if key not in schema["properties"])
        case "propertyNames":
            yield from (f"{place} has the key {key}, which is none of its kind" for key in table if key not in rule["enum"])
        case "properties":
            for key in rule.keys() & table.keys():
                yield from faults(table[key], rule[key], f"{place}.{key}")
        case "items":
            yield from each(enumerate(items), rule, place)
        case "allOf":
            for part in rule:
                yield from faults(value, part, place)
        case "anyOf" if all(any(faults(value, part, place)) for part in rule):
            yield f"{place} fits none of {len(rule)} forms"
        case "not" if not any(faults(value, rule, place)):
            yield f"{place} is one that may not be"
        case "if" if not any(faults(value, rule, place)):
            yield from faults(value, schema["then"], place)
        case _ if word not in KNOWN:
            raise ValueError(f"the schema has the keyword {word}, which is not known here")


def faults(value: Any, schema: dict, place: str = "document") -> Iterator[str]:
    """What is wrong with a value by a schema."""
    for word, rule in schema.items():
        yield from keyword_faults(word, rule, value, schema, place)


def first_fault(document: dict) -> str | None:
    return next(faults(document, SCHEMA), None)


def resolved(schema: dict) -> dict:
    """A schema with what its `$ref` names."""
    if "$ref" not in schema:
        return schema
    return SCHEMA["$defs"][schema["$ref"].removeprefix("#/$defs/")] | {k: v for k, v in schema.items() if k != "$ref"}


def holding(document: dict) -> Iterator[dict]:
    """The parts of the schema that hold for a document: itself, and each `then` whose `if` it meets."""
    yield SCHEMA
    for part in SCHEMA["allOf"]:
        if "if" in part and not any(faults(document, part["if"])):
            yield part["then"]


def kinds() -> list[str]:
    return SCHEMA["properties"]["kind"]["enum"]


def has_kind(document: dict) -> bool:
    return document.get("kind") in kinds()


def keys_of(document: dict) -> list[str]:
    """The keys that a document of its kind may have, all where it has no kind."""
    parts = list(holding(document))
    keys = list(SCHEMA["properties"])
    for part in parts:
        keys = [key for key in keys if "propertyNames" not in part or key in part["propertyNames"]["enum"]]
    return keys


def is_needed(key: str, document: dict) -> bool:
    """Whether a document of its kind and version needs a key."""
    return any(key in part.get("required", []) for part in holding(document))


def versions() -> list[int]:
    return SCHEMA["properties"]["version"]["enum"]


def kinds_with(key: str) -> list[str]:
    """The kinds that have a key."""
    return [kind for kind in kinds() if key in keys_of({"kind": kind, "version": versions()[-1]})]


def narrowed(rules: dict, more: dict) -> dict:
    """Two rules of one value: the least and the most are the narrower ones of a number, a length and an array's elements."""
    both = dict(rules)
    for word, rule in resolved(more).items():
        if word in ("maximum", "maxItems", "maxLength"):
            both[word] = min(rule, both.get(word, rule))
        elif word in ("minimum", "minItems"):
            both[word] = max(rule, both.get(word, rule))
        elif word == "enum":
            both[word] = [one for one in both.get(word, rule) if one in rule]
        elif word == "items":
            both[word] = narrowed(resolved(both.get(word, rule)), rule)
        else:
            both.setdefault(word, rule)
    return both


def rules_of(key: str, document: dict) -> dict:
    """What the schema says of a key's value in a document: the narrowest rules that hold."""
    rules: dict = {}
    for part in holding(document):
        rules = narrowed(rules, part.get("properties", {}).get(key, {}))
    return rules


def array_with(key: str) -> str:
    """The array whose tables have a key."""
    return next(array for array, table in TABLES.items() if key in table["properties"])


def line_rules_of(key: str, held: dict) -> dict:
    """What the schema says of a key of a table of an array, the narrowest rules that hold beside its other values."""
    table = TABLES[array_with(key)]
    rules = resolved(table["properties"][key])
    for part in table.get("allOf", []):
        if not any(faults(held, part["if"])):
            rules = narrowed(rules, part["then"].get("properties", {}).get(key, {}))
    return rules


def bounds(rules: dict) -> str:
    """The range of a whole number, or of an array's length, in words."""
    for least, most in (("minimum", "maximum"), ("minItems", "maxItems")):
        if least in rules and most in rules:
            return f"{rules[least]} to {rules[most]}" if rules[least] != rules[most] else f"{rules[least]}"
        if most in rules:
            return f"at most {rules[most]}"
    return ""


def forms_of(rules: dict) -> list[dict]:
    """The rules of an array's elements, one for each form that it may have."""
    if "items" in rules:
        return [resolved(rules["items"])]
    return [resolved(form["items"]) for form in rules.get("anyOf", []) if "items" in form]


def expected(rules: dict) -> str:
    """What a value has to be, in words."""
    words = ", ".join(map(str, rules.get("enum", [])))
    match rules.get("type"):
        case "integer" if words:
            return " or ".join(words.rsplit(", ", 1))
        case "integer":
            return f"a whole number, {bounds(rules)}" if bounds(rules) else "a whole number"
        case "string":
            return f"one of {words}" if words else "a text between double quotes"
        case "boolean":
            return "true or false"
        case "array":
            return f"an array of {' or of '.join(map(plural, forms_of(rules)))}"
        case _:
            return ""


def plural(rules: dict) -> str:
    """What the elements of an array are, in words."""
    match rules.get("type"):
        case "integer":
            return f"whole numbers, {bounds(rules)}" if bounds(rules) else "whole numbers"
        case "string":
            return 'decimal texts, as "0.25"' if "pattern" in rules else "texts"
        case _:
            return "tables"
