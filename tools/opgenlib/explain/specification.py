"""Explains the faults of a specification: what is where, what is expected there and what to do."""
import re
from collections.abc import Callable, Iterator
from fractions import Fraction
from pathlib import Path
from typing import Any

from .. import schema
from ..keys import table as keys
from ..keys.faults import first_fault
from ..keys.phrases import ends
from ..nearest import meant
from ..places import Place
from ..specification import NotToml, Specification, TooDeep, load, shift_of, short
from ..target import MOST_OF_A_PIECE, cells_of, sum_of
from ..terms import Term, terms_of, total_bits
from ..writing import written as in_toml
from .instead import instead_of_divisor, instead_of_kind

NAME_RULE = f"{ends(keys.read().keys['name'].ranges[0]['bytes'])} of small letters, digits and single _, a letter first"
# The first version that cuts sums to the period.
CUTS_SINCE = 4
# Of a decimal text.
MOST_DIGITS = 9
# Periods below are likely to be meant in nanoseconds.
MOST_NS = 100
# No longer text is taken for a number.
MOST_LETTERS = 1000
# The units of keys that are times.
UNITS = {key.name: key.row["unit"] for key in keys.read().all_keys if key.row.get("unit") == "picoseconds"}
# What a key is called elsewhere, of which no operator has any.
NO_KEYS = {
    "reset": "no operator has a reset: its registers begin with the words of inputs of 0, and none depends on itself",
    "enable": "a clock enable is an option: opgen generate SPEC --enable",
}
TYPES = {bool: "a truth value", int: "a whole number", float: "a float", str: "a text", list: "an array", dict: "a table"}


def type_name(value: Any) -> str:
    return TYPES.get(type(value), "a date or time")


def line_name(array: str, line: int) -> str:
    """A table of an array, in words."""
    return f"delay line {line}" if array == "delay" else f"table {line} of {array}"


def key_name(key: str, line: int) -> str:
    """A key of the document, or of a table of an array."""
    return f"{key} of {line_name(schema.array_with(key), line)}" if line else key


class Explainer:
    """The explanations of one specification's faults: a method for each, named as the fault."""

    def __init__(self, file: str, specification: Specification) -> None:
        self.file, self.spec, self.table = file, specification, specification.table
        self.keys = keys.read()

    def at(self, place: Place | None) -> str:
        """The file, with the place if that is known."""
        return f"{self.file}:{place}" if place else self.file

    @property
    def of_kind(self) -> str:
        return f" of kind {self.table['kind']}" if schema.has_kind(self.table) else ""

    @property
    def for_kind(self) -> str:
        return f" for kind {self.table['kind']}" if schema.has_kind(self.table) else ""

    @property
    def version(self) -> int:
        return self.table["version"] if self.is_version() else schema.versions()[-1]

    def is_version(self) -> bool:
        return any(schema.same(self.table.get("version"), one) for one in schema.versions())

    def newer(self) -> Iterator[dict[str, Any]]:
        """The document with each later version."""
        return (self.table | {"version": version} for version in schema.versions() if version > self.version)

    def line_table(self, key: str, line: int) -> dict[str, Any]:
        """The document, or the table by its number in the array whose tables have a key."""
        return self.table[schema.array_with(key)][line - 1] if line else self.table

    def path(self, key: str, line: int) -> tuple[str | int, ...]:
        return (schema.array_with(key), line - 1, key) if line else (key,)

    def rules(self, key: str, line: int) -> dict:
        return schema.line_rules_of(key, self.line_table(key, line)) if line else schema.rules_of(key, self.table)

    def counted(self, line: int) -> tuple[str, int]:
        """The array, and the place in it from 0, of a table by its number among those of all arrays."""
        for array in schema.TABLES:
            items = self.table.get(array)
            count = len(items) if isinstance(items, list) else 0
            if line <= count:
                return array, line - 1
            line -= count
        raise IndexError(line)

    def written(self, *path: str | int) -> str:
        """What is written at a path, or else the value."""
        spot = self.spec.spot(*path)
        return short(spot.written) if spot and spot.written else ""

    def unknown_key(self, line: int, at: int) -> Iterator[str]:
        if line:
            yield self.unknown_in(*self.counted(line), at)
            return
        key = sorted(self.table, key=str.encode)[at]
        place = self.spec.key_place(key)
        known = [one for one in schema.keys_of(self.table) if one != key]
        its = "its keys" if self.of_kind else "the keys"
        near = "" if key in NO_KEYS or key in schema.SCHEMA["properties"] else meant(key, known)
        yield f'{self.at(place)}: unknown key "{short(key)}"{self.of_kind};{near} {its} are {", ".join(known)}'
        if key in NO_KEYS:
            yield f"  {NO_KEYS[key]}"
        elif later := next((table for table in self.newer() if key in schema.keys_of(table)), None):
            yield f"  {key} is a key of version {later['version']}{self.ways_to(key, later)}"
        elif others := schema.kinds_with(key):
            yield f"  {key} is a key of {', '.join(others)}: take it out, or change kind"

    def unknown_in(self, array: str, line: int, at: int) -> str:
        """An unknown key of a table of an array, both by their places from 0."""
        key = sorted(self.table[array][line], key=str.encode)[at]
        place = self.spec.key_place(array, line, key)
        known = list(schema.TABLES[array]["properties"])
        found = f'unknown key "{short(key)}" of {line_name(array, line + 1)}'
        return f"{self.at(place)}: {found};{meant(key, known)} its keys are {', '.join(known)}"

    def missing_key(self, key: str, line: int = 0) -> Iterator[str]:
        if line:
            array = schema.array_with(key)
            place = self.spec.key_place(array, line - 1)
            yield f'{self.at(place)}: {line_name(array, line)} has no key "{key}"'
        else:
            yield f'{self.file}: the key "{key}"{self.of_kind} is missing'
        if example := self.example(key, line):
            yield f"  add {'it' if line else 'a line'} as: {example}"
        later = (table["version"] for table in self.newer() if not line and not schema.is_needed(key, table))
        if version := next(later, None):
            yield f"  or write version = {version}, in which it is optional"

    def example(self, key: str, line: int) -> str:
        """How a template writes a key, with its comment."""
        kind = self.table["kind"] if self.of_kind else "scale"
        if line:
            kind = "delay" if schema.array_with(key) == "delay" else "sop"
        path = schema.TOP / "templates" / f"{kind}.toml"
        try:
            place = load(path).key_place(*self.path(key, 1 if line else 0))
            return path.read_text(encoding="utf-8").splitlines()[place.line - 1] if place else ""
        except (OSError, NotToml):
            return ""

    @property
    def kind(self) -> str | None:
        return self.table["kind"] if schema.has_kind(self.table) else None

    def ways_to(self, key: str, later: dict[str, Any]) -> str:
        """What to do about a key of a later version, by the document with that version."""
        version = later["version"]
        lacking = self.keys.unmade(self.kind, version, later)
        if lacking is None:
            return f": take it out, or write version = {version}"
        if lacking.name == key or not (made := lacking.made(self.kind, version)):
            return ", of which no circuit is made yet: take it out"
        return f": take it out, or write version = {version} and {lacking.name} = {in_toml(made[0])}"

    def clash(self, key: str, value: Any) -> Iterator[str]:
        """Why a value of the right type is refused: the key may not be there without another, or beside one."""
        place, found = self.spec.key_place(key), self.keys.keys[key]
        other = found.row.get("needs", "")
        if other and other not in self.table:
            yield f"{self.at(place)}: {key} is there without {other}"
            yield f"  write {other} too, {schema.bounds(schema.rules_of(other, self.table))}, or take {key} out"
            return
        rows = (row for row in found.row.get("not_beside", []) if keys.fits(row, self.kind, self.version) and keys.holds(row, self.table))
        for row in rows:
            yield f"{self.at(place)}: {key} is beside {row['beside']} = {self.written(row['beside'])}"
            instead = f", or write {row['beside']} = {in_toml(not row['is'])}"
            yield f"  take {key} out{'' if found.is_unmade(self.kind, self.version, self.table) else instead}"

    def wrong_type(self, key: str, line: int = 0) -> Iterator[str]:
        if not line and (said := list(self.clash(key, self.table[key]))) and not any(schema.faults(self.table[key], self.type_of(key))):
            yield from said
            return
        path, rules = self.path(key, line), self.rules(key, line)
        value = self.line_table(key, line)[key]
        if key == "denominator" and type(value) is int:
            yield f"{self.at(self.spec.key_place(*path))}: denominator is beside decimal texts, which have their own"
            yield "  take the denominator out, or write the coefficients as whole numbers"
            return
        expected = schema.expected(rules)
        if isinstance(value, list) and (index := self.wrong_element(value, rules)) is not None:
            path, value = (*path, index), value[index]
            name, hint = f"element {index + 1} of {key}", ""
        else:
            name = key_name(key, line)
            hint = self.instead(value, rules, self.written(*path))
        written = self.written(*path)
        found = f"{written}, {type_name(value)}" if written else type_name(value)
        if key in UNITS:
            expected = expected.replace("number", f"number of {UNITS[key]}", 1)
        yield f"{self.at(self.spec.value_place(*path))}: {name} is {found}; expected {expected}{hint}"
        if key == "coefficients" and isinstance(value, str):
            yield from decimal_fault(value)
        if key in ("coefficients", "taps", "constants") and isinstance(value, float):
            option = "" if key == "coefficients" else f" --key {key}"
            yield f"  {schema.command('rows')} coefficients{option} FILE.csv writes real numbers as whole ones"

    def wrong_element(self, items: list, rules: dict) -> int | None:
        """The first element that is not of the form which the first has, or of none."""
        forms = schema.forms_of(rules)
        form = next((form for form in forms if items and schema.is_type(items[0], form["type"])), None)
        if form is None:
            return 0 if items else None
        return next((index for index, one in enumerate(items) if not is_of(one, form)), None)

    def instead(self, value: Any, rules: dict, written: str) -> str:
        """How the same may be written in the right type, where that is plain."""
        match rules.get("type"), value:
            case "integer", float() if value.is_integer():
                return f", as {int(value)}"
            case "integer", str() if re.fullmatch(r"[+-]?(0|[1-9][0-9]*)", value):
                return f", as {value}"
            case "boolean", ("true" | "false"):
                return f", as {value}"
            case "string", (int() | float()) if written:
                return f', as "{written}"'
            case "array", (int() | str()) if written:
                return f", as [{written}]"
        return ""

    def type_of(self, key: str) -> dict[str, Any]:
        """The schema of a key's type alone."""
        return {"type": schema.SCHEMA["properties"][key]["type"]}

    def unmade(self, key: keys.Key) -> Iterator[str]:
        """Which key asks for a circuit that is not made yet, and what to do."""
        row = next(row for row in key.unmade if keys.fits(row, self.kind, self.version) and keys.is_unmade(row, self.table.get(key.name), self.table))
        if key.name in self.table:
            found = f"{key.name} has {len(self.table[key.name])} tables" if "most" in row else f"{key.name} is {self.written(key.name)}"
            yield f"{self.at(self.spec.value_place(key.name))}: {found}, of which no circuit{self.of_kind} is made yet in version {self.version}"
        else:
            absent = key.use(self.kind, self.version)["optional"].replace("`", "")
            yield f"{self.file}: there is no {key.name}, which stands for {absent}; no circuit{self.of_kind} is made of {absent} yet"
        yield f"  {', or '.join(self.made_instead(key, row))}"

    def made_instead(self, key: keys.Key, row: keys.Row) -> Iterator[str]:
        """What to write in place of what is not made yet."""
        if "but" in row:
            yield f"write {key.name} = {' or '.join(map(in_toml, row['but']))}"
        elif "above" in row:
            yield f"write {key.name} = {self.table[row['above']]} or less"
        elif "most" in row:
            yield f"write at most {row['most']} tables of {key.name}"
        else:
            yield f"take {key.name} out"
        earlier = self.table | {"version": self.version - 1}
        if first_fault(earlier, self.keys) is None:
            yield f"version = {self.version - 1}"

    def bad_version(self, found: int) -> Iterator[str]:
        if self.is_version() and (key := self.keys.unmade(self.kind, self.version, self.table)):
            yield from self.unmade(key)
            return
        expected = schema.expected(schema.SCHEMA["properties"]["version"])
        yield f"{self.at(self.spec.value_place('version'))}: version is {found}; expected {expected}"
        *earlier, newest = (f"{row['number']}: {row['says']}" for row in self.keys.rows["version"])
        yield f"  {'; '.join(earlier)}"
        yield f"  {newest}"

    def bad_name(self) -> Iterator[str]:
        name = self.table["name"]
        newer = self.keys.refused("document", self.version)
        why = why_bad(name, schema.SCHEMA["properties"]["name"], newer, "or a name of a port of some operator")
        found = self.written("name") or repr(name)
        yield f"{self.at(self.spec.value_place('name'))}: name is {found}" + (f": {why}" if why else "")
        yield f"  expected {NAME_RULE}, and no word of VHDL or port"

    def bad_kind(self) -> Iterator[str]:
        kinds = schema.rules_of("kind", self.table).get("enum", schema.kinds())
        kind = self.table["kind"]
        first = next((table["version"] for table in self.newer() if kind in schema.rules_of("kind", table)["enum"]), None)
        near = meant(kind, schema.kinds()) if not first else ""
        found = f"kind is {self.written('kind')}"
        yield f"{self.at(self.spec.value_place('kind'))}: {found};{near} expected one of {', '.join(kinds)}"
        if first:
            yield f"  kind {kind} asks for version = {first}"
        elif instead := instead_of_kind(kind):
            yield f"  {instead}"

    def out_of_range(self, key: str, *numbers: int) -> Iterator[str]:
        line, found = numbers if len(numbers) == 2 else (0, numbers[0])
        if key == "scaled" and not line and not self.table.get("scaled"):
            yield f"{self.at(self.spec.key_place('scaled'))}: there is no table of scaled or product; expected at least one"
            yield "  write [[product]] with a and b, or [[scaled]] with input and coefficient"
            return
        value, rules = self.line_table(key, line)[key], self.rules(key, line)
        name = key_name(key, line)
        if isinstance(value, list):
            yield from self.array_out_of_range(key, value, rules, found)
            return
        spot = self.spec.value_place(*self.path(key, line))
        if isinstance(value, str) and line and key != "class":
            yield from self.port_out_of_range(key, line, value)
            return
        if isinstance(value, str):
            yield from self.text_out_of_range(name, value, rules, found, spot)
            return
        expected = schema.bounds(rules)
        unit = f" {UNITS[key]}" if key in UNITS else ""
        wanted = f"; expected {expected}{unit}{self.later_bounds(key, expected)}" if expected else ""
        yield f"{self.at(spot)}: {name} is {found}{wanted}"
        if not line and is_lsb(key):
            yield from way_round(self.table)
        if key == "divisor" and (instead := instead_of_divisor(found, rules["maximum"])):
            yield f"  {instead}"
        if "maximum" in rules and key.startswith("width") and self.version == 1 and found > rules["maximum"]:
            most = schema.rules_of(key, self.table | {"version": 2})["maximum"]
            if found <= most:
                yield f"  version = 2 takes inputs of up to {most} bits"
        if "minimum" in rules and key.startswith("width") and found == 1 and self.line_table(key, line).get("signed") is True:
            yield "  a signed input has two bits or more"

    def later_bounds(self, key: str, now: str) -> str:
        """Where a later version has a wider range of a lowest bit: which, and from where to where."""
        if is_lsb(key):
            for table in self.newer():
                if (bounds := schema.bounds(schema.rules_of(key, table))) != now:
                    return f", in version {table['version']} from {bounds}"
        return ""

    def text_out_of_range(self, name: str, value: str, rules: dict, found: int, place: Place | None) -> Iterator[str]:
        words = ", ".join(rules.get("enum", []))
        length = len(value.encode())
        if words:
            yield f'{self.at(place)}: {name} is "{short(value)}"; expected one of {words}'
        least, most = self.keys.keys["target"].limits(None, self.version, {}).bytes
        if length == found and not least <= length <= most:
            yield f"{'  ' if words else self.at(place) + ': '}{name} has {length} bytes; expected {least} to {most}"

    def port_out_of_range(self, key: str, line: int, name: str) -> Iterator[str]:
        """A name of an input that is refused, or a name that no input has."""
        path = self.path(key, line)
        head = f"{self.at(self.spec.value_place(*path))}: {key_name(key, line)} is {self.written(*path) or repr(name)}"
        names = [one["name"] for one in self.table["input"]]
        if key != "name":
            yield f"{head}, the name of no input; expected one of {', '.join(names)}"
            return
        if name in names[: line - 1]:
            yield f"{head}, as is that of {line_name('input', names.index(name) + 1)}; expected another name"
        elif name == self.table["name"]:
            yield f"{head}, as is that of the operator; expected another name"
        else:
            why = why_bad(name, schema.TABLES["input"]["properties"]["name"], self.keys.refused("port", self.version), "or rtl, clk, ce or y")
            yield head + (f": {why}" if why else "")
            yield f"  expected {NAME_RULE}, and no word of VHDL, rtl, clk, ce or y"

    def array_out_of_range(self, key: str, items: list, rules: dict, found: int) -> Iterator[str]:
        least, most = rules.get("minItems", 0), rules.get("maxItems", len(items))
        place = self.spec.value_place(key)
        if found == len(items) and not least <= len(items) <= most:
            yield f"{self.at(place)}: found {found} {key}; expected {schema.bounds(length_rules(rules))}{self.for_kind}"
            yield from self.without_search(key, items)
            return
        numerators, form = numerators_of(items), schema.forms_of(rules)[0]
        low, high = form.get("minimum"), form.get("maximum")
        for index, number in enumerate(numerators):
            if number == found and low is not None and not low <= number <= high:
                place = self.spec.value_place(key, index)
                over = f", {number} over the common denominator" if isinstance(items[index], str) else ""
                written = self.written(key, index) or items[index]
                yield f"{self.at(place)}: element {index + 1} of {key} is {written}{over}; expected {low} to {high}"
                yield from self.without_search(key, items)
                return
        if key == "taps" and found == len(odd_parts(items)):
            most = self.keys.keys[key].limits(self.table.get("kind"), self.version, self.table).odd_parts
            yield f"{self.at(place)}: taps have {found} different odd parts; expected at most {most}"
            yield from self.without_search(key, items)
            return
        yield f"{self.at(place)}: {key} is out of range: {found}"

    def without_search(self, key: str, items: list) -> Iterator[str]:
        """That the numbers would be in range without `extra`, where that is so."""
        rest = {name: value for name, value in self.table.items() if name != "extra"}
        tables = [rest | {"version": version} for version in schema.versions() if version >= self.version]
        table = next(one for one in tables if not schema.is_needed("extra", one))
        rules = schema.rules_of(key, table)
        if "extra" not in self.table or any(schema.faults(items, rules)):
            return
        version = "" if self.version == table["version"] else f"write version = {table['version']} and "
        length, numbers = schema.bounds(length_rules(rules)), schema.bounds(schema.forms_of(rules)[0])
        yield f"  {version}take extra out: without a search there may be {length} {key}, each {numbers}"

    def not_exact(self, index: int) -> Iterator[str]:
        if "coefficients" in self.table and self.table.get("kind") in ("scale", "fir"):
            yield from self.coefficient_not_exact(index)
        elif self.table.get("kind") == "multiply":
            least = self.table["lsb_a"] + self.table["lsb_b"]
            out = self.table["out_lsb"]
            place = self.spec.value_place("out_lsb")
            most = f"at most lsb_a + lsb_b = {least}"
            yield f"{self.at(place)}: out_lsb is {out}, so the exact product does not fit; expected {most}"
            yield f"  write {f'out_lsb = {least}, or ' if is_out_lsb(self.table, least) else ''}exact = false"
            if not is_out_lsb(self.table, least):
                yield from way_round(self.table | {"out_lsb": least})
        elif self.table.get("kind") == "tfir":
            yield from self.tap_not_exact(index)
        elif self.table.get("kind") == "sop":
            yield from self.term_not_exact(index)
        else:
            place = self.spec.value_place("exact")
            yield f"{self.at(place)}: exact outputs are not possible{self.for_kind}; write exact = false"

    def coefficient_not_exact(self, index: int) -> Iterator[str]:
        items, out = self.table["coefficients"], self.table["out_lsb"]
        texts = isinstance(items[index], str)
        value = Fraction(items[index]) if texts else Fraction(items[index], self.table.get("denominator", 1))
        place = self.spec.value_place("coefficients", index)
        below = "" if texts or value.denominator == 1 else f" / {self.table['denominator']}"
        found = f"coefficient {index}, from 0, is {self.written('coefficients', index)}{below}"
        yield f"{self.at(place)}: {found}, not whole in units of the output's last place, 2^{out}"
        power = value.denominator.bit_length() - 1
        least = self.table["lsb"] - power
        if value.denominator == 1 << power and is_out_lsb(self.table, least):
            yield f"  write out_lsb = {least} or less, or exact = false"
        elif value.denominator == 1 << power:
            yield "  write exact = false, or move both places up"
            yield from way_round(self.table | {"out_lsb": least})
        else:
            yield "  write exact = false: no out_lsb makes it whole"

    def tap_not_exact(self, index: int) -> Iterator[str]:
        taps, out = self.table["taps"], self.table["out_lsb"]
        found = f"tap {index}, from 0, is {taps[index]}, not whole in units of the output's last place, 2^{out}"
        yield f"{self.at(self.spec.value_place('taps', index))}: {found}"
        # The most that leaves each tap whole.
        most = self.table["lsb"] + min((tap & -tap).bit_length() - 1 for tap in taps if tap)
        yield f"  write out_lsb = {most}, or exact = false"

    def term_place(self, term: Term) -> Place | None:
        """Where a term of a sum of products is."""
        key = {"scaled": ("scaled", term.line - 1, "coefficient"), "product": ("product", term.line - 1), "offset": ("offset",)}
        return self.spec.value_place(*key[term.key])

    def term_not_exact(self, index: int) -> Iterator[str]:
        terms, out = terms_of(self.table), self.table["out_lsb"]
        found = f"term {index}, from 0, is {terms[index].words}"
        yield f"{self.at(self.term_place(terms[index]))}: {found}: its factor is not whole in units of the output's last place, 2^{out}"
        over = max(term.factor.denominator for term in terms)
        least = out - (over.bit_length() - 1)
        if any(over % term.factor.denominator for term in terms) or over & (over - 1):
            yield "  write exact = false: no out_lsb makes every term whole"
        elif is_out_lsb(self.table, least):
            yield f"  write out_lsb = {least} or less, or exact = false"
        else:
            yield "  write exact = false, or move the places of all inputs up"

    def term_coarse(self, shift: int) -> Iterator[str]:
        """The first term of a sum of products that is too far from the output's last place."""
        term = next(term for term in terms_of(self.table) if term.shift == shift)
        sop = self.keys.kinds["sop"]
        formula = re.sub(r"lsb_([ab])", r"lsb of \1", sop.row["term_shift"][term.key])
        least, most = sop.shift_ends(self.version, "term_shifts")
        yield f"{self.at(self.term_place(term))}: {formula} is {shift} for the term {term.words}; expected {least} to {most}"
        yield f"  {'raise' if shift > 0 else 'lower'} out_lsb, now {self.table['out_lsb']}, or bring the lsb of the inputs nearer to it"

    def coarse(self, shift: int) -> Iterator[str]:
        if self.table.get("kind") == "sop":
            yield from self.term_coarse(shift)
            return
        place = self.spec.value_place("out_lsb")
        kind = self.keys.kinds.get(self.table.get("kind", ""))
        if shift_of(self.table) != shift or not self.is_version():
            yield f"{self.at(place)}: the places of input and output are too far apart: the shift is {shift}"
            return
        least, most = kind.shift_ends(self.version)
        now = self.table["out_lsb"]
        yield f"{self.at(place)}: {kind.row['shift']} is {shift}; expected {least} to {most}{self.for_kind}"
        yield f"  {'raise' if shift > most else 'lower'} out_lsb, now {now}, or bring the lsb of the input nearer to it"

    def too_wide(self, need: int) -> Iterator[str]:
        most_total = self.keys.kinds["sop"].row["most_total"]
        if self.table.get("kind") == "sop" and need > most_total and need == total_bits(self.table):
            yield f"{self.file}: a term and its places would need {need} bits; expected at most {most_total}"
            yield "  fewer bits of input, lowest bits nearer to each other, or smaller coefficients"
            return
        most = self.keys.most_signal(self.version)
        yield f"{self.file}: a signal would need {need} bits; expected at most {most} in version {self.version}"
        parts = "terms" if self.table.get("kind") == "sop" else "coefficients"
        ways = f"fewer bits of input, fewer {parts}, or a higher out_lsb"
        wider = next((one for one in self.keys.versions if one > self.version and need <= self.keys.most_signal(one) > most), None)
        more = f"version = {wider}, which has {self.keys.most_signal(wider)}; or " if wider else ""
        yield f"  {more}{ways}"

    def unknown_target(self) -> Iterator[str]:
        place = self.spec.value_place("target")
        targets = schema.SCHEMA["properties"]["target"]["enum"]
        found = f"target is {self.written('target')};{meant(self.table['target'], targets)}"
        yield f"{self.at(place)}: {found} expected one of {', '.join(targets)}"
        lines = schema.shown("templates/delay.toml")
        yield f'  for a device write target = "plain" and its delays as [[delay]] lines, as {lines} has them'

    def not_adjustable(self) -> Iterator[str]:
        place = self.spec.key_place("delay", 0)
        yield f"{self.at(place)}: target {self.written('target')} takes no delay lines"
        yield '  write target = "plain", or take the delay lines out'

    def period_too_short(self, need: int) -> Iterator[str]:
        place, period = self.spec.value_place("period"), self.table["period"]
        yield f"{self.at(place)}: period {period} is too short: the slowest cell and the setup time need {need} ps"
        ns = f" (in picoseconds: {period} ns is period = {period}000)" if period < MOST_NS else ""
        if self.version < CUTS_SINCE:
            yield f"  write period = {need} or more{ns}, or make the operator narrower"
            yield from self.cut_instead(need)
            return
        width = sum_of(self.table, need)
        slow = [f"a sum of {width} bits"] if width and width <= MOST_OF_A_PIECE else []
        what = " or ".join(slow + cells_of(self.table, need)) or "a cell that is no sum"
        yield f"  write period = {need} or more{ns}: sums are cut to the period, so what is too slow is {what}"

    def cut_instead(self, need: int) -> Iterator[str]:
        """That a later version cuts sums, where a sum alone is as slow as this."""
        width = sum_of(self.table, need)
        if width and width > MOST_OF_A_PIECE and not cells_of(self.table, need):
            later = self.table | {"version": CUTS_SINCE}
            lacking = self.keys.unmade(self.kind, CUTS_SINCE, later)
            made = lacking and lacking.made(self.kind, CUTS_SINCE)
            if made or not lacking:
                more = f" and {lacking.name} = {in_toml(made[0])}" if lacking and made else ""
                yield f"  or write version = {CUTS_SINCE}{more}, which cuts this sum of {width} bits into pieces"

    def too_large(self) -> Iterator[str]:
        yield f"{self.file}: the design would have more than 65,536 signals"
        parts = "products" if self.table.get("kind") == "sop" else "coefficients"
        yield f"  fewer {parts} or bits, a longer period (fewer registers), or a higher out_lsb"


def is_lsb(key: str) -> bool:
    return bool(re.fullmatch("(out_)?lsb(_a|_b)?", key))


def is_out_lsb(table: dict[str, Any], out_lsb: int) -> bool:
    """Whether this place of the output is in the range of a document's kind and version."""
    rules = schema.rules_of("out_lsb", table)
    return rules["minimum"] <= out_lsb <= rules["maximum"]


def way_round(table: dict[str, Any]) -> Iterator[str]:
    """The same operator with its lowest bits at 0, as only the differences of their places count."""
    keys = [key for key in ("lsb", "lsb_a", "lsb_b") if key in table]
    zeros = ", ".join(f"{key} = 0" for key in keys)
    if "out_lsb" not in table:
        yield f"  write {zeros}: the numbers are the same, and the places are yours to count"
        return
    shift = shift_of(table)
    if not keys or shift is None:
        return
    lsb, out_lsb = (shift % 2, -(shift // 2)) if table["kind"] == "root" else (0, -shift)
    if is_out_lsb(table, out_lsb):
        inputs = zeros if lsb == 0 else f"lsb = {lsb}"
        yield f"  write {inputs} and out_lsb = {out_lsb}: only the difference counts, and the places are yours to count"


def decimal_fault(text: str) -> Iterator[str]:
    """Which limit of decimal texts a text breaks, and how the number is written within them."""
    if len(text) > MOST_LETTERS or not re.fullmatch(r"[+-]?([0-9]+\.?[0-9]*|\.[0-9]+)([eE][+-]?[0-9]{1,3})?", text):
        yield "  a decimal text is an optional -, digits, and optionally a point and digits"
        return
    digits = sum(map(str.isdigit, re.split("[eE]", text)[0]))
    has_exponent = re.search("[eE]", text)
    why = "it has an exponent" if has_exponent else f"it has {digits} digits" if digits > MOST_DIGITS else "it has another form"
    near = nearest_decimal(Fraction(text))
    instead = f'write "{near}"' if near else "write whole numbers over a denominator"
    exactly = "" if near and Fraction(near) == Fraction(text) else ", which is near it" if near else ""
    yield f"  a decimal text has one to {MOST_DIGITS} digits, and no exponent or +; {why}: {instead}{exactly}"


def nearest_decimal(value: Fraction) -> str:
    """The decimal text that is nearest to a number, empty where none is near."""
    whole = len(str(abs(int(value))))
    places = MOST_DIGITS - whole
    if places < 0:
        return ""
    units = round(abs(value) * 10**places)
    if not units and value:
        return ""
    before, after = divmod(units, 10**places)
    point = f"{after:0{places}d}".rstrip("0") if places else ""
    return ("-" if value < 0 else "") + str(before) + (f".{point}" if point else "")


def is_of(value: Any, form: dict) -> bool:
    """Whether an element has a form's type and, of a text, its pattern."""
    return schema.is_type(value, form["type"]) and not (isinstance(value, str) and any(schema.faults(value, form)))


def odd_parts(items: list) -> set[int]:
    return {abs(item) // (item & -item) for item in items if isinstance(item, int) and item}


def length_rules(rules: dict) -> dict:
    return {word: rule for word, rule in rules.items() if word in ("minItems", "maxItems")}


def numerators_of(items: list) -> list[int]:
    """The elements as numbers: decimal texts over their common denominator."""
    if not items or not isinstance(items[0], str):
        return [item for item in items if isinstance(item, int)]
    places = max(len(text.partition(".")[2]) for text in items)
    return [int(Fraction(text) * 10**places) for text in items]


def why_bad(name: str, rule: dict, refused: list[str], others: str) -> str:
    """Which part of the rule of names a name breaks; `others` are those that are refused and no words of VHDL."""
    if name in refused:
        return f"a word of VHDL, {others}"
    for pattern, why in (
        (r"\Z", "it is empty"),
        (r"(?s:.{33})", "it is longer than 32"),
        (r".*[A-Z]", "it has a capital letter"),
        (r"(?s:.*)[^a-z0-9_]", "it has another letter than a to z, 0 to 9 and _"),
        (r"[^a-z]", "it does not begin with a letter"),
        (r".*__", "it has two _ in a row"),
        (r".*_\Z", "it ends with _"),
        (rule["not"]["anyOf"][0]["pattern"].replace("$", r"\Z"), "signals are called s and a number"),
    ):
        if re.match(pattern, name):
            return why
    return ""


def explain_not_toml(file: str, path: Path) -> list[str]:
    try:
        load(path)
    except TooDeep as fault:
        return [f"{file}:{fault.place}: no TOML, or {fault.what}"]
    except NotToml as fault:
        where = f"{file}:{fault.place}" if fault.place else file
        if fault.what:
            return [f"{where}: no TOML: {fault.what}"]
    except RecursionError:
        return [f"{file}: no TOML: too many brackets in one another"]
    return [f"{file}: no TOML document as opgen reads it"]


FAULTS: dict[str, Callable[..., Iterator[str]]] = {
    "UnknownKey": Explainer.unknown_key,
    "MissingKey": Explainer.missing_key,
    "WrongType": Explainer.wrong_type,
    "BadVersion": Explainer.bad_version,
    "BadName": Explainer.bad_name,
    "BadKind": Explainer.bad_kind,
    "OutOfRange": Explainer.out_of_range,
    "NotExact": Explainer.not_exact,
    "Coarse": Explainer.coarse,
    "TooWide": Explainer.too_wide,
    "UnknownTarget": Explainer.unknown_target,
    "NotAdjustable": Explainer.not_adjustable,
    "PeriodTooShort": Explainer.period_too_short,
    "TooLarge": Explainer.too_large,
}


def explain(file: str, fault: list[str]) -> list[str]:
    """What a fault with its fields means in a file."""
    path = Path(file)
    if fault == ["NotToml"]:
        return explain_not_toml(file, path)
    fields = [int(word) if re.fullmatch(r"-?[0-9]+", word) else word for word in fault[1:]]
    try:
        specification = load(path)
    except TooDeep as fault:
        return [f"{file}:{fault.place}: {fault.what}"]
    except NotToml:
        return [f"{file}: no closer look, as Python reads TOML 1.0 and this document has what TOML 1.1 alone has"]
    return list(FAULTS[fault[0]](Explainer(file, specification), *fields))
