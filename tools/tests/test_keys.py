"""The table of keys: what is made from it, faults that are worked out by hand, and a version that is added as data alone."""
import copy
import os
import re
import shutil
import subprocess
import tempfile
import tomllib
import unittest
from pathlib import Path

from opgenlib import schema
from opgenlib.commands import COMMANDS
from opgenlib.keys import completion, documents, faults, pages, schemas, table
from tests.loading import tool_of

TOP = table.TOP
TABLE = table.read()
SCALE = {"version": 3, "name": "made", "kind": "scale", "exact": False, "target": "plain", "period": 5000, "signed": False, "width": 4,
         "lsb": 0, "out_lsb": 0, "coefficients": [3]}
SUM = {"version": 3, "name": "made", "kind": "sop", "exact": False, "target": "plain", "period": 5000, "out_lsb": 0,
       "input": [{"name": "u", "signed": False, "width": 4, "lsb": 0}], "product": [{"a": "u", "b": "u"}]}
TAPS = SCALE | {"kind": "tfir", "extra": 0, "taps": [3]}
del TAPS["coefficients"], TAPS["out_lsb"]
# A version with a new key of some kinds, whose value is one of some words, another with a range by version, and a new kind.
VERSION_5 = """
[[version]]
number = 5
signal = 96
says = "damping, and the kind mean"

[[kind]]
name = "mean"
since = 5
says = "the mean of the last samples"

[kind.comments]
kind = "y = the mean"

[[key]]
name = "damping"
known_since = 5
type = "text"
says = "How the output is damped"
example = "low"
uses = [{ kinds = ["scale", "fir"], since = 5, optional = "`high`" }]
words = { low = "a little", high = "much" }

[[key]]
name = "depth"
known_since = 5
type = "number"
says = "How many samples"
example = 2
uses = [{ kinds = ["mean"] }]
ranges = [{ range = [2, 64] }]
"""


def with_version_5() -> table.Table:
    """The table with a further version as data; a range of an old key is wider there, and another has a word more."""
    rows = copy.deepcopy(TABLE.rows)
    more = tomllib.loads(VERSION_5)
    for name in ("version", "kind"):
        rows[name] += more[name]
    last = next(at for at, row in enumerate(rows["key"]) if row["name"] == "delay")
    rows["key"][last:last] = more["key"]
    period = next(row for row in rows["key"] if row["name"] == "period")
    compressor = next(row for row in rows["key"] if row["name"] == "compressor")
    compressor["words"] |= {"wallace": "rows by threes"}
    compressor["words_since"] |= {"wallace": 5}
    compressor["unmade"] = []
    period["ranges"] = [{"range": [1, 2000000]}, {"versions": [1, 2, 3, 4], "range": [1, 1000000]}]
    return table.Table(rows)


class Faults(unittest.TestCase):
    """First faults that are worked out by hand from docs/SPECIFICATION.md."""

    def test_one(self) -> None:
        for change, fault in (
            ({}, None), ({"width": 48}, None), ({"width": 49}, "OutOfRange width 49"),
            ({"width": 33, "version": 1}, "OutOfRange width 33"),
            ({"width": 1, "signed": True}, "OutOfRange width 1"), ({"width": "4"}, "WrongType width"), ({"version": 5}, "BadVersion 5"),
            ({"name": "signal"}, "BadName"), ({"name": "s_1"}, None), ({"name": "s1"}, "BadName"),
            ({"coefficients": [1, 2]}, "OutOfRange coefficients 2"), ({"coefficients": ["0.5"], "denominator": 1}, "WrongType denominator"),
            ({"out_signed": True}, "WrongType out_signed"), ({"out_signed": True, "out_width": 97}, "OutOfRange out_width 97"),
            ({"lsb": 33}, "Coarse 33"), ({"lsb": 32}, None), ({"compressor": "wallace"}, "OutOfRange compressor 7"),
            ({"target": "other"}, "UnknownTarget"), ({"target": ""}, "OutOfRange target 0"),
            ({"target": "fixed", "delay": [{"class": "add", "base": 1, "per_bit": 1}]}, "NotAdjustable"),
            ({"delay": [{"class": "adder", "base": 1, "per_bit": 1}]}, "OutOfRange class 1 1"),
            ({"divisor": 3}, "UnknownKey 0 1"), ({"colour": 1, "divisor": 3}, "UnknownKey 0 1"),
            ({"period": 0, "width": 0}, "OutOfRange period 0"), ({"period": "1", "width": 0}, "WrongType period"),
        ):
            with self.subTest(change):
                self.assertEqual(faults.first_fault(SCALE | change, TABLE), fault)

    def test_version_4(self) -> None:
        """Documents of version 4, some of which no circuit is made yet."""
        scale = SCALE | {"version": 4, "compressor": "dadda"}
        quotient = {name: scale[name] for name in ("version", "name", "exact", "target", "period", "out_lsb")} | {"kind": "divide"}
        quotient |= {"width_a": 4, "lsb_a": 0, "width_b": 4, "lsb_b": 0}
        filter_ = TAPS | {"version": 4}
        root = {"version": 4, "name": "made", "kind": "root", "exact": False, "target": "plain", "period": 5000, "width": 4, "lsb": 0, "out_lsb": 0}
        many = SUM | {"version": 4, "compressor": "dadda", "product": SUM["product"] * 16}
        for values, fault in (
            (scale, None), (scale | {"compressor": "counters"}, None), (scale | {"compressor": "rows"}, "BadVersion 4"),
            (SCALE | {"version": 4}, "BadVersion 4"), (scale | {"compressor": "poor", "period": 0}, "BadVersion 4"),
            (SCALE | {"compressor": "rows"}, "OutOfRange compressor 4"), (scale | {"rounding": "down"}, "BadVersion 4"),
            (SCALE | {"rounding": "down"}, "UnknownKey 0 7"), (scale | {"rounding": 1}, "WrongType rounding"),
            (scale | {"rounding": "down", "exact": True}, "WrongType rounding"), (scale | {"lut": 6}, None), (scale | {"lut": 5}, "BadVersion 4"),
            (scale | {"overflow": "wrap"}, "WrongType overflow"), (scale | {"overflow": "wrap", "out_width": 4}, None),
            (scale | {"overflow": "wraps", "out_width": 4}, "OutOfRange overflow 5"), (scale | {"name": "context"}, "BadName"),
            (SCALE | {"name": "context"}, None), (scale | {"name": "context", "lut": 4}, "BadVersion 4"),
            (quotient, None), (quotient | {"recurrence": "restoring"}, None), (quotient | {"recurrence": "other"}, "OutOfRange recurrence 5"),
            (quotient | {"out_width": 4}, "BadVersion 4"), (quotient | {"out_width": 4, "exact": True}, "WrongType out_width"),
            (quotient | {"out_signed": True}, "WrongType out_signed"), (quotient | {"version": 3, "recurrence": "restoring"}, "UnknownKey 0 7"),
            (root, None), (filter_, None), (filter_ | {"out_lsb": 0}, None), (filter_ | {"out_lsb": 1}, "BadVersion 4"),
            (filter_ | {"out_lsb": -1}, "Coarse 1"), (filter_ | {"out_lsb": 65}, "BadVersion 4"),
            (many, None), (many | {"product": SUM["product"] * 17}, "BadVersion 4"), (many | {"version": 3, "product": SUM["product"] * 17},
                                                                                   "OutOfRange product 17"),
            (scale | {"kind": "none"}, "BadKind"), (scale | {"kind": "none", "lut": 5}, "BadVersion 4"),
            (scale | {"kind": "none", "compressor": "rows"}, "BadKind"), (scale | {"version": 6, "lut": 5}, "BadVersion 6"),
        ):
            with self.subTest(values):
                self.assertEqual(faults.first_fault(values, TABLE), fault)

    def test_absent(self) -> None:
        for gone, fault in (("width", "MissingKey width"), ("version", "MissingKey version"), ("kind", "MissingKey kind")):
            rest = {name: value for name, value in SCALE.items() if name != gone}
            self.assertEqual(faults.first_fault(rest, TABLE), fault)

    def test_taps(self) -> None:
        odd = [1, 3, 5, 7, 9, 11, 13, 15]
        for taps, fault in ((odd, None), ([0, *odd], None), ([*odd, -17], "OutOfRange taps 9"), ([2048], "OutOfRange taps 2048"),
                            ([6, 12, 24], None), ([3] * 33, "OutOfRange taps 33")):
            with self.subTest(taps):
                self.assertEqual(faults.first_fault(TAPS | {"taps": taps}, TABLE), fault)
        without = {name: value for name, value in TAPS.items() if name != "extra"} | {"taps": [*odd, 17, 2048]}
        self.assertIsNone(faults.first_fault(without, TABLE))
        self.assertEqual(faults.first_fault(without | {"version": 2}, TABLE), "MissingKey extra")

    def test_tables(self) -> None:
        two = [*SUM["input"], {"name": "v", "signed": True, "width": 1, "lsb": 0}]
        for change, fault in (
            ({}, None), ({"product": []}, "OutOfRange scaled 0"), ({"input": two}, "OutOfRange width 2 1"),
            ({"product": [{"a": "u", "b": "w"}]}, "OutOfRange b 1 1"), ({"product": [{"a": "u"}]}, "MissingKey b 1"),
            ({"input": [{**two[0], "colour": 1}]}, "UnknownKey 1 0"), ({"product": [{"a": "u", "b": "u", "colour": 1}]}, "UnknownKey 2 2"),
            ({"offset": 1, "out_lsb": 64}, "Coarse -64"), ({"input": [{**two[0], "name": "made"}]}, "OutOfRange name 1 1"),
        ):
            with self.subTest(change):
                self.assertEqual(faults.first_fault(SUM | change, TABLE), fault)


class Documents(unittest.TestCase):
    def test_what_is_tried(self) -> None:
        """Each key of each kind and version at both ends and beyond, in a wrong type and absent, and each other key as unknown."""
        made = documents.documents(TABLE)
        self.assertGreater(len(made), 1500)
        self.assertEqual(len({one.text for one in made}), len(made))
        faulted = {one.fault for one in made}
        for fault in ("OutOfRange width 0", "OutOfRange width 49", "OutOfRange width 33", "OutOfRange width 17", "OutOfRange width 1",
                      "OutOfRange taps 33", "OutOfRange taps 257", "OutOfRange taps 9", "OutOfRange lsb 33", "OutOfRange lsb 65",
                      "OutOfRange coefficients 1", "OutOfRange per_bit 1 10001", "MissingKey out_lsb", "BadVersion 4", "BadKind", None):
            self.assertIn(fault, faulted)
        for kind in TABLE.kinds:
            for version in TABLE.versions_of(kind):
                base = documents.Maker(kind, version, TABLE).base
                self.assertIsNone(faults.first_fault(base, TABLE), (kind, version))

    def test_the_schema_agrees(self) -> None:
        """The schema refuses no document that has no fault, and takes none with a fault that it can state."""
        unstated = re.compile("Coarse|NotExact|OutOfRange (taps 9|name|input|a|b) ?")
        cut = re.compile("tfir, version 4, out_lsb = [0-9]+$")
        for one in documents.documents(TABLE):
            found = schema.first_fault(one.values)
            if one.fault is None:
                self.assertIsNone(found, one.title)
            elif not unstated.match(one.fault) and not cut.match(one.title):
                self.assertIsNotNone(found, one.title)


class FurtherVersion(unittest.TestCase):
    """A version 5 is data: all that is made from the table takes it."""

    def setUp(self) -> None:
        self.table = with_version_5()

    def test_faults(self) -> None:
        five = SCALE | {"version": 5}
        for values, fault in (
            (five | {"damping": "low"}, None), (five | {"damping": "up"}, "OutOfRange damping 2"),
            (five | {"damping": 1}, "WrongType damping"), (SCALE | {"damping": "low"}, "UnknownKey 0 1"),
            (five | {"period": 2000000}, None), (SCALE | {"period": 2000000}, "OutOfRange period 2000000"),
            (five | {"version": 6}, "BadVersion 6"), (five | {"compressor": "wallace"}, None),
            (SCALE | {"compressor": "wallace"}, "OutOfRange compressor 7"),
        ):
            self.assertEqual(faults.first_fault(values, self.table), fault)

    def test_documents(self) -> None:
        made = documents.documents(self.table)
        found = {one.fault for one in made if "version 5" in one.title}
        wanted = {"OutOfRange depth 1", "OutOfRange depth 65", "OutOfRange damping 4", "MissingKey depth", "WrongType damping"}
        self.assertLessEqual(wanted, found)

    def test_texts(self) -> None:
        text = schemas.schema_text(self.table)
        for part in ('"enum": [1, 2, 3, 4, 5]', '"enum": ["low", "high"]', '"then": {"properties": {"compressor": {"enum": ["dadda", "counters"]}'):
            self.assertTrue(part in text, part)
        document = pages.specification((TOP / "docs/SPECIFICATION.md").read_text(), self.table)
        for line in ("| `damping` | in version 5 scale, fir | a text; optional, `high` | `low` or `high` |\n",
                     "| `dadda` or `counters`; `rows` from version 4 on; `wallace` in version 5 |\n",
                     "| 1 to 2000000; 1 to 1000000 in versions 1, 2, 3 and 4 |\n"):
            self.assertTrue(line in document, line)
        page = pages.manual_page((TOP / "docs/opgen.1").read_text(), self.table)
        self.assertTrue(".TP\n.B mean\nthe mean of the last samples; in version 5.\n" in page)
        self.assertTrue("damping=*) " in completion.script("bash", self.table))


class Gathered(unittest.TestCase):
    def test_lost_place(self) -> None:
        with self.assertRaises(pages.NoPlace):
            pages.specification("no table\n", TABLE)

    def test_words_stay(self) -> None:
        """What is written by hand in a template stays, and comments behind values are made."""
        text = (TOP / "templates/scale.toml").read_text()
        changed = text.replace("# bits of x; 1 to 48; 2 or more where signed", "# wrong") + "# a line by hand\n"
        self.assertNotEqual(changed, text + "# a line by hand\n")
        self.assertEqual(pages.template(changed, TABLE), text + "# a line by hand\n")

    def test_check(self) -> None:
        """A file that differs is named, and nothing is written."""
        tool = tool_of("gather-keys")
        found = dict(tool.made(TABLE))
        wanted = {"docs/opgen.schema.json", "docs/SPECIFICATION.md", "docs/opgen.1", "docs/help/keys.txt", "templates/sop.toml"}
        self.assertLessEqual(wanted, found.keys())
        for name in wanted:
            self.assertEqual((TOP / name).read_text(), found[name], name)
        with tempfile.TemporaryDirectory() as folder:
            for name in ("tools", "docs", "templates"):
                shutil.copytree(TOP / name, Path(folder) / name, ignore=shutil.ignore_patterns("tests", "__pycache__"))
            wide = (Path(folder) / "docs/keys.toml").read_text().replace("range = [1, 1000000] }", "range = [1, 2000000] }", 1)
            (Path(folder) / "docs/keys.toml").write_text(wide)
            call = [Path(folder) / "tools/gather-keys"]
            stale = subprocess.run([*call, "--check"], capture_output=True, text=True)
            self.assertEqual((stale.returncode, stale.stdout.splitlines()[0]), (1, "docs/opgen.schema.json: not what tools/gather-keys writes"))
            self.assertIn("docs/SPECIFICATION.md: not what tools/gather-keys writes", stale.stdout.splitlines())
            self.assertEqual(subprocess.run(call, capture_output=True).returncode, 0)
            self.assertEqual(subprocess.run([*call, "--check"], capture_output=True).returncode, 0)
            self.assertIn("| `period` | all | a whole number of picoseconds | 1 to 2000000 |", (Path(folder) / "docs/SPECIFICATION.md").read_text())
        self.assertEqual(subprocess.run([TOP / "tools/gather-keys", "--chekc"], capture_output=True).returncode, 2)


class Completion(unittest.TestCase):
    def complete(self, *words: str) -> list[str]:
        """What bash completes for the last word."""
        script = 'eval "$("$0" complete bash)"; COMP_LINE=$1 COMP_POINT=${#1}; _opgen; printf "%s\\n" "${COMPREPLY[@]}"'
        with tempfile.TemporaryDirectory() as folder:
            for name in ("first.toml", "first.vhd", "first.in"):
                (Path(folder) / name).touch()
            done = subprocess.run(["bash", "-c", script, TOP / "bin/opgen", " ".join(("opgen", *words))], cwd=folder, capture_output=True, text=True)
        self.assertEqual(done.returncode, 0, done.stderr)
        return done.stdout.split()

    def test_words(self) -> None:
        self.assertLessEqual({*COMMANDS, "help", "tool", "prove", "install", "complete"}, set(self.complete("")))
        self.assertEqual(self.complete("gen"), ["generate"])
        self.assertEqual(sorted(self.complete("generate", "--")), ["--enable", "--workers"])
        self.assertEqual(self.complete("generate", ""), ["first.toml"])
        self.assertEqual(self.complete("check", "first.toml", ""), ["first.vhd"])
        self.assertEqual(self.complete("simulate", "first.vhd", ""), ["first.in"])
        self.assertEqual(self.complete("help", "k"), ["keys"])
        self.assertEqual(self.complete("tool", "swe"), ["sweep"])

    def test_keys(self) -> None:
        self.assertEqual(self.complete("tool", "sweep", "first.toml", "out_w"), ["out_width="])
        # bash replaces what is behind the equals sign alone
        self.assertEqual(self.complete("tool", "sweep", "first.toml", "compressor=d"), ["dadda"])
        self.assertEqual(self.complete("tool", "sweep", "first.toml", "exact="), ["true", "false"])
        self.assertEqual(self.complete("tool", "sweep", "first.toml", "lsb=0", "version="), ["1", "2", "3", "4"])

    @unittest.skipUnless(shutil.which("zsh"), "zsh is not installed")
    def test_zsh(self) -> None:
        """What zsh offers, or which files."""
        stubs = "compdef() { : }; compadd() { print -r -- $@ }; _files() { print -r -- files $@ }"
        for line, offered in (
            ("gen", f"-- {' '.join([*COMMANDS, *completion.OTHERS])}"), ("generate|", "files -g *.toml(-.)"),
            ("check|first.toml|", "files -g *.vhd(-.)"), ("generate|-o|", "files -/"), ("generate|-", "-- --workers --enable -o"),
            ("complete|", "-- bash zsh"), ("tool|sweep|first.toml|compressor=", "-- compressor=dadda compressor=counters"),
        ):
            script = f'{stubs}; eval "$("$1" complete zsh)"; words=(opgen "${{(@s:|:)2}}"); CURRENT=$#words; _opgen'
            done = subprocess.run(["zsh", "-fc", script, "zsh", TOP / "bin/opgen", line], capture_output=True, text=True)
            self.assertEqual((done.stdout, done.stderr), (f"{offered}\n", ""), line)

    def test_other_shells(self) -> None:
        done = subprocess.run([TOP / "bin/opgen", "complete", "fish"], capture_output=True, text=True, env=os.environ)
        self.assertEqual((done.returncode, done.stdout), (2, ""))
        for shell in completion.SHELLS:
            done = subprocess.run([TOP / "bin/opgen", "complete", shell], capture_output=True, text=True)
            self.assertEqual(done.stdout, completion.script(shell, TABLE))


if __name__ == "__main__":
    unittest.main()
