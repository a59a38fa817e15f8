"""Tests that an explanation takes little time and memory whatever the file, ends with its caller, and prints short lines that
have no control character."""
import os
import resource
import signal
import subprocess
import sys
import time
import unittest


from opgenlib.explain import limits
from opgenlib.explain import explain as explain_with
from tests.faulty import CONSTDIV, FIR, SCALE, VHDL
from tests.loading import has_ended
from tests.test_explain import NO_PROGRAM, OPGEN, PROGRAM, TOP, folder_of, run, stub

# What the begin of Python may add to the two seconds of a processor.
BEGIN = 1
HEAD = VHDL.partition("  signal")[0]


def explain(words: list[str], status: int, line: str) -> list[str]:
    return explain_with(words, status, None, line)


def seconds_of_children() -> float:
    """The seconds of a processor that ended processes took, however long they waited for it."""
    used = resource.getrusage(resource.RUSAGE_CHILDREN)
    return used.ru_utime + used.ru_stime


def chain_of(count: int, last: str) -> str:
    """A design of so many signals, each of which reads the next, and the last something else."""
    signals = "".join(f"  signal s{number} : unsigned(9 downto 0);\n" for number in range(count))
    sources = [*(f"s{number + 1}" for number in range(count - 1)), last]
    drivers = "".join(f"  s{number} <= {source};\n" for number, source in enumerate(sources))
    return f"{HEAD}{signals}begin\n{drivers}  y <= std_logic_vector(s0);\nend architecture;\n"


# Runs a tool, and prints a line if Python then takes down what it has read.
TAKEN_DOWN = """
import atexit, os, runpy, sys
sys.argv = sys.argv[1:]
sys.path.insert(0, os.path.dirname(sys.argv[0]))
atexit.register(print, "taken down")
runpy.run_path(sys.argv[0], run_name="__main__")
"""


class Limited(unittest.TestCase):
    """What tools/explain takes over hostile files."""

    def said(self, files: dict[str, str | bytes], words: list[str], status: int, line: str) -> list[str]:
        """What it says where a program prints a line, with its time and memory checked."""
        with folder_of(files) as folder:
            program = stub(folder, f"echo '{line}'; exit {status}")
            began = seconds_of_children()
            done = subprocess.run([sys.executable, "-E", "-s", TOP / "tools/explain", str(status), program, *words],
                                  capture_output=True, text=True, check=True)
            self.assertLess(seconds_of_children() - began, limits.MOST_SECONDS + BEGIN)
        self.assertLess(resource.getrusage(resource.RUSAGE_CHILDREN).ru_maxrss << 10, limits.MOST_MEMORY)
        self.assertEqual(done.stdout, "")
        lines = done.stderr.splitlines()
        self.assertTrue(1 <= len(lines) <= limits.MOST_LINES, done.stderr[:1000])
        self.assertLessEqual(max(map(len, lines)), limits.MOST_LETTERS)
        return lines

    def generated(self, text: str, line: str) -> list[str]:
        return self.said({"first.toml": text}, ["generate", "first.toml"], 1, f"specification: {line}")

    def test_keys_and_brackets(self) -> None:
        for name, more in (
            ("dotted keys", "a" + ".a" * 20_000 + " = 1\n"),
            ("a dotted header", "[a" + ".a" * 20_000 + "]\n"),
            ("brackets", "x = " + "[" * 100_000 + "]" * 100_000 + "\n"),
            ("tables", "x = " + "{a=" * 100_000),
        ):
            with self.subTest(name):
                said = self.generated(SCALE + more, "UnknownKey 0 11")
                self.assertRegex(said[0], rf"^first\.toml:12:\d+: more than 16 keys or brackets in one another$|{limits.NO_CLOSER_LOOK}")

    def test_long_words(self) -> None:
        for name, text, line, place in (
            ("a key", SCALE + "w" * 1_000_000 + " = 1\n", "UnknownKey 0 11", "12:1"),
            ("a text", SCALE.replace('"scale"', f'"{"s" * 1_000_000}"'), "BadKind", "3:8"),
            ("a number", SCALE.replace("10000", "9" * 900_000), "NotToml", "6:10"),
        ):
            with self.subTest(name):
                self.assertRegex(self.generated(text, line)[0], rf"first\.toml:{place}: |{limits.NO_CLOSER_LOOK}")

    def test_nothing_is_taken_down_after_the_explanation(self) -> None:
        with folder_of({"first.toml": SCALE + "more = 1\n"}) as folder:
            program = stub(folder, "echo 'specification: UnknownKey 0 4'; exit 1")
            done = subprocess.run([sys.executable, "-E", "-s", "-c", TAKEN_DOWN, TOP / "tools/explain", "1", program,
                                   "generate", "first.toml"], capture_output=True, text=True, check=True)
        self.assertIn('unknown key "more"', done.stderr)
        self.assertEqual(done.stdout, "")

    def test_many_headers(self) -> None:
        self.generated(SCALE + "".join(f"[h{number}]\n" for number in range(100_000)), "UnknownKey 0 2")

    def test_a_long_cycle(self) -> None:
        said = self.said({"my.vhd": chain_of(60_000, "s0"), "h.in": ""}, ["simulate", "my.vhd", "h.in", "h.out"], 6, "vhdl: Unsound 6 60003")
        self.assertIn(said[0][-20:], (" s59998 <- s59999 <- s0"[-20:], limits.NO_CLOSER_LOOK[-20:]))

    def test_a_large_text(self) -> None:
        text = HEAD + "begin\n" + "  y <= std_logic_vector(unsigned(x));\n" * 200_000
        self.said({"my.vhd": text, "h.in": ""}, ["simulate", "my.vhd", "h.in", "h.out"], 6, "vhdl: Syntax 200009")

    def test_a_program_that_does_not_end(self) -> None:
        with folder_of({"first.toml": SCALE}) as folder:
            program = stub(folder, f"echo $$ >{folder}/again; exec sleep 1000")
            done = subprocess.run([TOP / "tools/explain", "1", program, "generate", "first.toml"], capture_output=True, text=True)
            self.assertEqual((done.returncode, done.stderr), (0, f"opgen: {limits.NO_CLOSER_LOOK}\n"))
            self.assertTrue(has_ended(int((folder / "again").read_text())))


class Shown(unittest.TestCase):
    """What is printed of lines."""

    def test_control_characters(self) -> None:
        lines = limits.shortened(["a\x1b[31m\x07\x9b\u202e\tb\nc", "\udc80é"])
        self.assertEqual(lines, [r"a\x1b[31m\x07\x9b\u202e\tb\nc", r"\udc80é"])

    def test_lines(self) -> None:
        self.assertEqual(limits.shortened(["a" * 300, "b" * 301, *["c"] * 30]), ["a" * 300, "b" * 298 + "..", *["c"] * 18])

    def test_names_of_files(self) -> None:
        with folder_of({}):
            done = run(["generate", "no\x1b[2Jsuch"], program=PROGRAM)
        self.assertEqual(done.stderr, "cannot open no\\x1b[2Jsuch: no such file\n") if PROGRAM.exists() else self.skipTest(NO_PROGRAM)

    def test_a_way_is_the_shortest(self) -> None:
        for count, way in ((3, "s0 <- s1 <- s2 <- s0"), (1, "s0 <- s0"),
                           (20, "s0 <- s1 <- s2 <- s3 <- (13 more) <- s17 <- s18 <- s19 <- s0")):
            with folder_of({"my.vhd": chain_of(count, "s0"), "h.in": ""}):
                said = explain(["simulate", "my.vhd", "h.in", "out"], 6, f"vhdl: Unsound 6 {2 + count + 1}")
            self.assertTrue(said[0].endswith(f"without a register between: {way}"), said[0])


class Ends(unittest.TestCase):
    """An explanation ends with its caller."""

    def test_signals(self) -> None:
        for number in (signal.SIGTERM, signal.SIGINT, signal.SIGHUP):
            with self.subTest(number), folder_of({"first.toml": SCALE}) as folder:
                again = folder / "again"
                text = f"[ -e {folder}/once ] || {{ touch {folder}/once; exit 1; }}\necho $$ >{again}.new; mv {again}.new {again}; exec sleep 1000"
                started = subprocess.Popen([OPGEN, "generate", "first.toml"], stdout=subprocess.PIPE, stderr=subprocess.PIPE, text=True,
                                           preexec_fn=lambda: signal.signal(number, signal.SIG_DFL),
                                           env=os.environ | {"OPGEN_PROGRAM": str(stub(folder, text)), "TMPDIR": str(folder), limits.SECONDS: "600"})
                while not again.exists() and started.poll() is None:
                    time.sleep(0.01)
                started.send_signal(number)
                _, said = started.communicate(timeout=120)
                self.assertEqual((started.returncode, said), (-number, ""))
                self.assertTrue(has_ended(int(again.read_text())))
                self.assertEqual([path.name for path in folder.glob("opgen-explain-*")], [])


class Hints(unittest.TestCase):
    """What is said to do where a word is near, or what is asked for is not there."""

    def said(self, text: str, line: str) -> list[str]:
        with folder_of({"first.toml": text}):
            return explain(["generate", "first.toml"], 1, f"specification: {line}")

    def test_nearest_words(self) -> None:
        self.assertIn('unknown key "perod" of kind scale; did you mean period?',
                      self.said(SCALE.replace("period", "perod"), "UnknownKey 0 6")[0])
        self.assertIn('kind is "FIR"; did you mean fir?', self.said(SCALE.replace('"scale"', '"FIR"'), "BadKind")[0])
        self.assertIn('target is "plian"; did you mean plain?', self.said(SCALE.replace('"plain"', '"plian"'), "UnknownTarget")[0])
        said = explain(["generate", "first.toml", "--worker", "2"], 2, "")
        self.assertEqual(said[0], "opgen: generate has no option --worker; did you mean --workers? its options are --workers, --enable, -o")

    def test_a_period_in_nanoseconds(self) -> None:
        said = self.said(SCALE.replace("10000", "5"), "PeriodTooShort 900")
        self.assertEqual(said[1], "  write period = 900 or more (in picoseconds: 5 ns is period = 5000), or make the operator narrower")
        self.assertNotIn("ns", self.said(SCALE.replace("10000", "800"), "PeriodTooShort 900")[1])

    def test_no_reset(self) -> None:
        said = self.said(SCALE + "reset = true\n", "UnknownKey 0 7")
        self.assertIn('unknown key "reset"', said[0])
        self.assertEqual(said[1], "  no operator has a reset: its registers begin with the words of inputs of 0, and none depends on itself")

    def test_real_numbers(self) -> None:
        text = FIR.replace("coefficients = [3]", "taps = [0.5]\nextra = 0").replace('"fir"', '"tfir"').replace("version = 1", "version = 2")
        said = self.said(text.replace("out_lsb = 0\n", ""), "WrongType taps")
        self.assertEqual(said[1], "  tools/rows coefficients --key taps FILE.csv writes real numbers as whole ones")

    def test_divisors(self) -> None:
        for divisor, words in ((60, "divide by 6, then q by 10: the last q is that of 60"),
                               (1000, "divide by 10, then q by 10, then q by 10: the last q is that of 1000"),
                               (37, "take kind divide with 37 as b, or scale with coefficients = [1] and denominator = 37, which is faithful")):
            said = self.said(CONSTDIV.replace("divisor = 3", f"divisor = {divisor}"), f"OutOfRange divisor {divisor}")
            self.assertEqual(said[1], f"  {words}")
        self.assertEqual(len(self.said(CONSTDIV.replace("divisor = 3", "divisor = 1"), "OutOfRange divisor 1")), 1)

    def test_kinds_that_are_not_there(self) -> None:
        said = self.said(SCALE.replace('"scale"', '"cordic"'), "BadKind")
        self.assertEqual(said[1], "  a sine or an angle is a poly, a magnitude a root of a sop of two squares")

    def test_verilog(self) -> None:
        verilog = "// a filter\n`timescale 1ns/1ps\nmodule first(input clk, output y);\nendmodule\n"
        words = ["first.toml", "my.vhd", "h.in", "0"]
        with folder_of({"first.toml": SCALE, "my.vhd": verilog, "h.in": ""}):
            said = explain(["check", *words], 6, "vhdl: Lexical 13")
        self.assertTrue(said[0].startswith("my.vhd: this is Verilog, and `check` reads VHDL"), said)
        self.assertIn("tools/rows judge SPEC ROWS --latency L", said[1])
        with folder_of({"first.toml": SCALE, "my.vhd": "-- module m (\n" + VHDL.replace("entity", "x"), "h.in": ""}):
            self.assertNotIn("Verilog", "".join(explain(["check", *words], 6, "vhdl: Syntax 4")))

    def test_a_line_as_a_file(self) -> None:
        with folder_of({}):
            self.assertEqual(explain(["generate", "-"], 3, "read fault"),
                             ["cannot open -: no such file; - is no standard input here: write /dev/stdin"])


@unittest.skipUnless(PROGRAM.exists(), NO_PROGRAM)
class Told(unittest.TestCase):
    """What bin/opgen says by itself."""

    def test_no_row_judged(self) -> None:
        files = {"first.toml": SCALE, "h.in": "3\n4", "none.in": ""}
        for rows, latency, count in (("h.in", "2", 0), ("h.in", "+02", 0), ("h.in", "0", 2), ("none.in", "0", 0)):
            with folder_of(files):
                run(["generate", "first.toml"])
                done = run(["check", "first.toml", "first.vhd", rows, latency])
            self.assertEqual((done.returncode, done.stdout), (0, f"good {count}\n"))
            self.assertEqual(done.stderr.startswith(f"opgen: no row was judged: {rows} has no more than {latency} rows"), count == 0, done.stderr)

    def test_a_closed_pipe(self) -> None:
        reader, writer = os.pipe()
        os.close(reader)
        with folder_of({"first.toml": SCALE}):
            done = subprocess.run([OPGEN, "generate", "first.toml"], stdout=writer, stderr=subprocess.PIPE, text=True)
        os.close(writer)
        self.assertEqual((done.returncode, done.stderr.splitlines()[:1]),
                         (4, ["cannot write the line: what reads standard output has closed the pipe"]))


if __name__ == "__main__":
    unittest.main()
