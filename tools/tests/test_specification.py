"""Tests of specifications with the places of their keys, and of what the schema says of a document."""
import re
import subprocess
import tempfile
import tomllib
import unittest
from collections.abc import Iterator
from pathlib import Path
from typing import Any

from opgenlib import schema
from opgenlib.explain.specification import FAULTS, Explainer
from opgenlib.places import Place
from opgenlib.keys import table
from opgenlib.specification import NotToml, parse, shift_of


def leaves(value: Any, path: tuple = ()) -> Iterator[tuple[tuple, Any]]:
    """Each value of a document with its path, tables and arrays too."""
    if path:
        yield path, value
    pairs = value.items() if isinstance(value, dict) else enumerate(value) if isinstance(value, list) else ()
    for key, inner in pairs:
        yield from leaves(inner, (*path, key))


class Places(unittest.TestCase):
    def test_examples(self) -> None:
        """Each value has its place, and what is written there is that value."""
        for path in sorted(schema.TOP.glob("examples/*.toml")) + sorted(schema.TOP.glob("t*/*.toml")):
            with self.subTest(path.name):
                found = parse(path.read_bytes())
                wanted = dict(leaves(tomllib.loads(path.read_text())))
                self.assertEqual(set(found.offsets), set(wanted))
                for at, value in wanted.items():
                    written = found.spot(*at).written
                    if not written.startswith("[["):
                        self.assertEqual(tomllib.loads(f"v = {written}")["v"], value)

    def test_places(self) -> None:
        first = b'# first\n  a.b = [1,\n 22]\n"c d" = \'x\'\n'
        found = parse(first + b"[[delay]]\nbase = 1\n[[delay]]\n base= 0x2 # second\n[t]\nu = {v = 1, w = true}\n")
        self.assertEqual((found.key_place("a", "b"), found.value_place("a", "b", 1)), (Place(2, 3), Place(3, 2)))
        self.assertEqual(found.spot("c d").written, "'x'")
        self.assertEqual((found.key_place("delay", 0), found.key_place("delay", 1)), (Place(5, 1), Place(7, 1)))
        self.assertEqual((found.key_place("delay", 1, "base"), found.value_place("delay", 1, "base")),
                         (Place(8, 2), Place(8, 8)))
        self.assertEqual((found.key_place("t", "u", "w"), found.value_place("t", "u", "w")), (Place(10, 13), Place(10, 17)))
        self.assertIsNone(found.spot("b"))

    def test_texts(self) -> None:
        source = 'a = """x\n"y" \\\n   z"""\nb = \'\'\'\n\'\'\'\nc = "\\u00e9\\"" # "\n'
        found = parse(f"{source}d = 1979-05-27 07:32:00\ne = [ # one\n 1, ]\nf = -inf\n".encode())
        self.assertEqual([str(found.key_place(key)) for key in "abcdef"], ["1:1", "4:1", "6:1", "7:1", "8:1", "10:1"])

    def test_carriage_returns_and_mark(self) -> None:
        found = parse("\ufeffa = 1\r\nb = 'x'\r\n".encode())
        self.assertEqual((found.value_place("a"), found.value_place("b")), (Place(1, 5), Place(2, 5)))

    def test_no_toml(self) -> None:
        cases = {
            "a = 1\nb\n": Place(2, 2), "a = 1 2\n": Place(1, 7), "a = 'x\n": Place(1, 5), "[a\nb = 1\n": Place(1, 3),
            "a = 1\na = 2\n": Place(2, 1),
            "a = [1 2]\n": Place(1, 8), "a = {b = 1\n": Place(1, 5), 'a = "\\q"\n': Place(1, 6), "a = 01\n": Place(1, 5),
            "= 1\n": Place(1, 1),
            "a = \n": Place(1, 5), "[t]\n[t]\n": Place(2, 1), '"""a""" = 1\n': Place(1, 3),
        }
        for text, place in cases.items():
            with self.subTest(text), self.assertRaises(NotToml) as raised:
                parse(text.encode())
            with self.subTest(text):
                self.assertEqual(raised.exception.place, place)

    def test_newer_toml(self) -> None:
        """What `tomllib` does not read, as the program does, gets no place."""
        for text in ("a = {b = 1,\n}\n", 'a = "\\e"\n', "a = {\nb = 1}\n"):
            with self.subTest(text), self.assertRaises(NotToml) as raised:
                parse(text.encode())
            self.assertEqual((raised.exception.what, raised.exception.place), ("", None))

    def test_shifts(self) -> None:
        self.assertEqual(shift_of({"kind": "root", "lsb": 1, "out_lsb": -3}), 7)
        self.assertEqual(shift_of({"kind": "divide", "lsb_a": 1, "lsb_b": 4, "out_lsb": -8}), 5)
        self.assertIsNone(shift_of({"kind": "mcm", "lsb": 1}))
        self.assertIsNone(shift_of({"kind": "root", "lsb": 1}))

    def test_shifts_of_the_document(self) -> None:
        """Formulas and limits are those of docs/SPECIFICATION.md."""
        text = (schema.TOP / "docs/SPECIFICATION.md").read_text()
        rows = re.findall(r"^\| (\w+) \| ([\w +-]+) \| [^|]* \| (-?\d+) to (\d+)(?:; from version 2 on to (\d+))? \|$",
                          text, re.MULTILINE)
        found = {kind: (formula, {1: (int(low), int(high))} | dict.fromkeys((2, 3), (int(low), int(newer or high))))
                 for kind, formula, low, high, newer in rows}
        kinds = [kind for kind in table.read().kinds.values() if "shift" in kind.row]
        self.assertEqual(found, {kind.name: (kind.row["shift"], {one: kind.shift_ends(one) for one in (1, 2, 3)}) for kind in kinds})


class Schema(unittest.TestCase):
    def test_keys_of_the_document(self) -> None:
        """Keys stand in the order of docs/SPECIFICATION.md."""
        table = (schema.TOP / "docs/SPECIFICATION.md").read_text().partition("\n\nA document's own version")[0]
        rows = [re.findall(r"`(\w+)`", row.split("|")[1]) for row in table.splitlines() if row.startswith("| `")]
        self.assertEqual([key for row in rows for key in row], list(schema.SCHEMA["properties"]))

    def test_ranges(self) -> None:
        of = lambda key, **table: schema.bounds(schema.rules_of(key, table))
        self.assertEqual(of("width", version=1, kind="fir", signed=True), "2 to 32")
        self.assertEqual(of("width", version=2, kind="fir", signed=False), "1 to 48")
        self.assertEqual(of("period"), "1 to 1000000")
        self.assertEqual(of("coefficients", kind="scale"), "1")
        self.assertEqual(of("coefficients", kind="fir"), "1 to 256")

    def test_kinds_with(self) -> None:
        self.assertLessEqual({"multiply", "divide"}, set(schema.kinds_with("width_a")))
        self.assertEqual(schema.kinds_with("widht"), [])
        self.assertEqual(schema.kinds_with("period"), schema.kinds())

    def test_kinds_of_version_2(self) -> None:
        said = lambda text, fault, *fields: list(FAULTS[fault](Explainer("s.toml", parse(text.encode())), *fields))
        self.assertEqual(said('version = 1\nkind = "poly"\n', "BadKind")[1], "  kind poly asks for version = 2")
        self.assertEqual(said('version = 2\nkind = "poly"\nwidth = 17\n', "OutOfRange", "width", 17),
                         ["s.toml:3:9: width is 17; expected 1 to 16"])
        self.assertEqual(said('version = 2\nkind = "poly"\ncoefficients = [1]\n', "OutOfRange", "coefficients", 1),
                         ["s.toml:3:16: found 1 coefficients; expected 2 to 5 for kind poly"])
        self.assertEqual(said('version = 2\nkind = "poly"\nexact = true\n', "NotExact", 0),
                         ["s.toml:3:9: exact outputs are not possible for kind poly; write exact = false"])
        self.assertEqual(said('version = 2\nkind = "poly"\ndivisor = 3\n', "UnknownKey", 0, 0)[1],
                         "  divisor is a key of constdiv: take it out, or change kind")


class CheckSchema(unittest.TestCase):
    def test_places(self) -> None:
        lines = (schema.TOP / "templates/delay.toml").read_text()
        texts = {
            "a.toml": lines.replace("width = 10", "widht = 10"), "b.toml": lines.replace("per_bit = 40", "per_bit = 40000"),
            "c.toml": lines.replace("period = 5000 ", ""), "d.toml": "a = [\n", "e.toml": lines,
        }
        with tempfile.TemporaryDirectory() as folder:
            for name, text in texts.items():
                (Path(folder) / name).write_text(text)
            done = subprocess.run([schema.TOP / "tools/check-schema", *texts, "f.toml"], cwd=folder, capture_output=True,
                                  text=True)
        self.assertEqual(done.returncode, 1)
        self.assertEqual(done.stdout.splitlines(), [
            "a.toml:10:1: document has the unknown key widht",
            "b.toml:39:11: document.delay[4].per_bit is 40000, above 10000",
            "c.toml: document lacks period", "d.toml:1:5: `[` is never closed by `]`", "f.toml: no such file or directory",
        ])


if __name__ == "__main__":
    unittest.main()
