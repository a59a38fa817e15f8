"""Makes the JSON Schema of specifications, docs/opgen.schema.json, from the table of keys."""
import json
from typing import Any

from .phrases import sentence
from .table import Key, Kind, Limits, Row, Table

WIDEST = 120
TITLE = "A specification of opgen"
SAYS = (
    "What can be said of keys, types and ranges. Whether decimal texts over their common denominator are in range, whether an exact "
    "output is possible, whether the widths fit and whether the period is long enough is for `opgen generate` to say. "
    "tools/gather-keys writes this file from docs/keys.toml."
)
# The types of JSON.
TYPES = {"number": "integer", "text": "string", "flag": "boolean"}
Schema = dict[str, Any]


def bounds(low: str, high: str, ends: tuple[int, int] | None) -> Schema:
    """A least and a most."""
    return {low: ends[0], high: ends[1]} if ends else {}


def rules_of(limits: Limits) -> Schema:
    """What limits say of a value."""
    rules = bounds("minimum", "maximum", limits.range) | bounds("minItems", "maxItems", limits.length)
    if rules.get("minItems") == 0:
        del rules["minItems"]
    if limits.each:
        rules["items"] = bounds("minimum", "maximum", limits.each)
    return rules


def names_rule(key: Key, table: Table) -> Schema:
    """The rule of a name, none of the name of an input, which the document says."""
    rule = table.rows["names"].get(key.row["names"])
    if not rule:
        return {}
    refused = [{"pattern": rule["signals"]}, {"enum": table.refused(key.row["names"], table.versions[0])}]
    most = key.limits(None, table.versions[-1], {}).bytes[1]
    return {"maxLength": most, "pattern": table.rows["names"]["pattern"], "not": {"anyOf": refused}}


def is_plain(row: Row) -> bool:
    """Whether a row holds for every document."""
    return not row.keys() & {"kinds", "versions", "since", "beside"}


def value_of(key: Key, table: Table) -> Schema:
    """What every document may have as the value of a key."""
    says: Schema = {"description": sentence(key, table)}
    limits = Limits()
    for row in filter(is_plain, key.ranges):
        limits = limits.narrowed(row)
    rules = rules_of(limits)
    items = {"type": "integer"} | rules.get("items", {})
    match key.type:
        case "numbers":
            return says | {"type": "array"} | rules | {"items": items}
        case "coefficients":
            rules.pop("items", None)
            return says | {"type": "array"} | rules | {"anyOf": [{"items": items}, {"items": {"$ref": "#/$defs/decimal"}}]}
        case "tables":
            return says | {"type": "array"} | rules | {"items": {"$ref": f"#/$defs/{key.name}"}}
    if "names" in key.row:
        rules = names_rule(key, table)
    elif "words" in key.row:
        rules = {"enum": table.versions if key.row["words"] == "versions" else table.words(key, table.versions[-1])}
    return says | {"type": TYPES[key.type]} | rules


def one_or_some(values: list) -> Schema:
    return {"const": values[0]} if len(values) == 1 else {"enum": values}


def condition(row: Row, table: Table) -> Schema:
    """The condition of a row, as an `if`."""
    properties, required = {}, []
    if "kinds" in row:
        properties["kind"] = one_or_some(row["kinds"])
        required.append("kind")
    if "versions" in row:
        properties["version"] = one_or_some(row["versions"])
        required.append("version")
    if earlier := [version for version in table.versions if version < row.get("since", 1)]:
        properties["version"] = {"not": {"enum": earlier}}
    if "beside" in row:
        properties |= {row["beside"]: {"const": row["is"]}} if "is" in row else {}
        required.append(row["beside"])
    return ({"properties": properties} if properties else {}) | ({"required": required} if required else {})


def conditional(keys: list[Key], table: Table) -> list[Schema]:
    """The ranges that hold for some documents, those of one condition together."""
    found: dict[str, tuple[Schema, Schema]] = {}
    for key in keys:
        for row in (row for row in key.ranges if not is_plain(row)):
            rules = rules_of(Limits().narrowed(row)) | ({"minimum": row["least"]} if "least" in row else {})
            under = condition(row, table)
            found.setdefault(json.dumps(under), (under, {}))[1][key.name] = rules
        for version in (one for one in table.versions if one < max(key.row.get("words_since", {}).values(), default=1)):
            under = condition({"versions": [version]}, table)
            found.setdefault(json.dumps(under), (under, {}))[1][key.name] = {"enum": table.words(key, version)}
    return [{"if": under, "then": {"properties": rules}} for under, rules in found.values()]


def kind_parts(kind: Kind, table: Table) -> list[Schema]:
    """The keys that documents of a kind may have and need, by versions that agree in them."""
    groups: dict[str, list[int]] = {}
    for version in table.versions_of(kind.name):
        names = [key.name for key in table.known(kind.name, version)]
        shared = {key.name for key in table.keys.values() if key.is_of_all()}
        needed = [key.name for key in table.needed(kind.name, version) if key.name not in shared]
        groups.setdefault(json.dumps((names, needed)), []).append(version)
    parts = []
    for said, held in groups.items():
        names, needed = json.loads(said)
        others = [version for version in table.versions_of(kind.name) if version not in held]
        # Earlier versions, which lack the kind, are judged as its first.
        held = [version for version in table.versions if version < kind.since and held[0] == kind.since] + held
        row: Row = {"kinds": [kind.name]}
        row |= {"since": held[0]} if held[-1] == table.versions[-1] and others else {"versions": held} if others else {}
        parts.append({"if": condition(row, table), "then": {"propertyNames": {"enum": names}, "required": needed}})
        if "one_of" in kind.row:
            ways = [{"properties": {array: {"minItems": 1}}, "required": [array]} for array in kind.row["one_of"]]
            parts[-1]["then"]["anyOf"] = ways
    return parts


def version_parts(table: Table) -> list[Schema]:
    """The keys and kinds of each version but the last."""
    parts = []
    for version in table.versions[:-1]:
        kinds = table.kinds_in(version)
        names = [key.name for key in table.keys.values() if any(key.use(kind, version) is not None for kind in kinds)]
        then = {"propertyNames": {"enum": names}, "properties": {"kind": {"enum": kinds}}}
        parts.append({"if": condition({"versions": [version]}, table), "then": then})
    return parts


def other_parts(table: Table) -> list[Schema]:
    """Keys that may not be without another, or not beside decimal texts."""
    parts: list[Schema] = []
    for key in table.keys.values():
        if "needs" in key.row:
            parts.append({"if": {"required": [key.name]}, "then": {"required": [key.row["needs"]]}})
        without = {"not": {"required": [key.name]}}
        if other := key.row.get("not_beside_texts"):
            texts = {"properties": {other: {"items": {"type": "string"}}}, "required": [other]}
            parts.append({"if": texts, "then": without})
        parts += [{"if": condition(row, table), "then": without} for row in key.row.get("not_beside", [])]
    return parts


def unmade_parts(table: Table) -> list[Schema]:
    """Keys and values of which no circuit is made yet, but for those that another key's value decides."""
    parts = []
    for key in table.keys.values():
        for row in (row for row in key.unmade if "above" not in row):
            rules: Schema = ({"enum": row["but"]} if "but" in row else {}) | ({"maxItems": row["most"]} if "most" in row else {})
            then: Schema = {"properties": {key.name: rules}} if rules else {"not": {"required": [key.name]}}
            parts.append({"if": condition(row, table), "then": then | ({"required": [key.name]} if row.get("needed") else {})})
    return parts


def newer_names(table: Table) -> list[Schema]:
    """The names of documents that later versions alone refuse."""
    since = table.rows["names"]["document"]["newer_since"]
    then = {"properties": {"name": {"not": {"enum": table.rows["names"]["newer_words"]}}}}
    return [{"if": condition({"since": since}, table), "then": then}]


def table_of(array: str, table: Table) -> Schema:
    """What a table of an array may be."""
    keys = table.arrays[array]
    needed = [key.name for key in keys.values() if all("optional" not in use for use in key.row["uses"])]
    found = {"type": "object", "additionalProperties": False, "required": needed,
             "properties": {name: value_of(key, table) for name, key in keys.items()}}
    parts = conditional(list(keys.values()), table)
    return found | ({"allOf": parts} if parts else {})


def schema_of(table: Table) -> Schema:
    """The schema of the table's specifications."""
    keys = list(table.keys.values())
    kinds = [part for kind in table.kinds.values() for part in kind_parts(kind, table)]
    says = "An optional -, digits, and optionally a point and digits: one to nine digits in all"
    decimal = {"description": says, "type": "string", "pattern": table.rows["names"]["decimal"]}
    return {
        "$schema": "https://json-schema.org/draft/2020-12/schema",
        "title": TITLE,
        "description": SAYS,
        "type": "object",
        "additionalProperties": False,
        "allOf": [*kinds, *version_parts(table), *conditional(keys, table), *other_parts(table), *newer_names(table), *unmade_parts(table)],
        "required": [key.name for key in keys if key.is_of_all() and "optional" not in key.row["uses"][0]],
        "properties": {key.name: value_of(key, table) for key in keys},
        "$defs": {"decimal": decimal} | {array: table_of(array, table) for array in table.arrays},
    }


def filled(words: list[str], indent: str) -> str:
    """Words on as few lines as they need."""
    lines = [indent]
    for at, word in enumerate(words):
        word += "," if at + 1 < len(words) else ""
        if len(lines[-1]) + len(word) + 1 > WIDEST and lines[-1] != indent:
            lines.append(indent)
        lines[-1] += word if lines[-1] == indent else " " + word
    return "\n".join(lines)


def laid_out(value: Any, indent: str = "", before: int = 0) -> str:
    """JSON in which what fits on a line is on one."""
    line = json.dumps(value, ensure_ascii=False)
    if len(indent) + before + len(line) <= WIDEST or not isinstance(value, (dict, list)):
        return line
    inner = indent + "  "
    if isinstance(value, list):
        if not any(isinstance(one, (dict, list)) for one in value):
            return f"[\n{filled([json.dumps(one) for one in value], inner)}\n{indent}]"
        return "[\n" + ",\n".join(inner + laid_out(one, inner) for one in value) + f"\n{indent}]"
    lines = [f'{inner}{json.dumps(name)}: {laid_out(one, inner, len(name) + 5)}' for name, one in value.items()]
    return "{\n" + ",\n".join(lines) + f"\n{indent}}}"


def schema_text(table: Table) -> str:
    return laid_out(schema_of(table)) + "\n"
