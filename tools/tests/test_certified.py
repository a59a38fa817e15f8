"""Tests of what is said after `check` has found all rows good: whether the circuit is good for every input, for ever."""
import os
import random
import resource
import subprocess
import sys
import unittest
from collections.abc import Iterator
from unittest import mock

from opgenlib import aligned, report, vhdl
from opgenlib.explain import certified, explain, limits
from opgenlib.schema import SCHEMA
from tests.faulty import DIVIDE, FIR, SCALE, VHDL
from tests.loading import EXAMPLES
from tests.test_explain import NO_PROGRAM, PROGRAM, TOP, folder_of, run, stub, without_python
from tests.test_limits import BEGIN, chain_of, seconds_of_children

HEAD = VHDL.partition("entity")[0]
ALONE = "opgen: good for these rows alone"
# The rows 0 to f, and one more.
ROWS = "".join(f"{row:x}\n" for row in range(16))
AND_ONE = ROWS + "0\n"


def good_text(registers: str, given: str = "") -> str:
    """The line of a circuit of the file d.vhd."""
    return (f"opgen: d.vhd is good for every input{given}, for ever: the rows hold each input, and each path from an input to an output "
            f"passes {registers}, by a test that is not proved")


def design(signals: str, drivers: str, registers: str = "", x: int = 4, y: int = 6, enable: str = "") -> str:
    """The text of a design with the input x and the output y, of so many bits: `NAME WIDTH INITIAL` of each signal, and its statements."""
    declared = [line.split() for line in signals.split(";")]
    ports = f"x : in std_logic_vector({x - 1} downto 0); y : out std_logic_vector({y - 1} downto 0)"
    lines = [f"{HEAD}entity d is port (clk : in std_logic; {ports}); end entity;", "architecture rtl of d is"]
    lines += [f"signal {name} : unsigned({int(width) - 1} downto 0){' := ' if more else ''}{''.join(more)};" for name, width, *more in declared]
    inner = f'if {enable} = "1" then {registers} end if;' if enable else registers
    process = f"process (clk) begin if rising_edge(clk) then {inner} end if; end process;" if registers else ""
    return "\n".join([*lines, "begin", drivers, process, "end architecture;\n"])


SUM = 'y <= std_logic_vector(("00" & {0}) + ("00" & {1}) + ("00" & {2}));'
# Three times x, a row later.
TIMES3 = design('u 4; held 4 "0000"', "u <= unsigned(x); " + SUM.format("held", "held", "held"), "held <= u;")
# The same where each row is one more than the row before: what is one row too late has 1 added.
LATE = design('u 4; held 4 "1111"; late 4 "0000"; more 4',
              'u <= unsigned(x); more <= late + "0001"; ' + SUM.format("held", "held", "more"), "held <= u; late <= held;")
# The same at latency 2 where each row is one more than the row before: a path has one register fewer than the others, and 1 taken off.
EARLY = design('u 4; held 4 "0000"; late 4 "0000"; less 4',
               'u <= unsigned(x); less <= held - "0001"; ' + SUM.format("late", "late", "less"), "held <= u; late <= held;")
# Three times the number of the row, at latency 0, whatever x is.
COUNTER = design('count 4 "0000"; more 4', 'more <= count + "0001"; ' + SUM.format("count", "count", "count"), "count <= more;")
# Three times a bit where it is 1 in each second row alone, by a register that holds while it is 0.
ENABLED = design('u 1; held 2 "00"', "u <= unsigned(x); y <= std_logic_vector(held);", "held <= u & u;", 1, 2, "x")
# Three times x at latency 0, beside a register of constants.
CONSTANT = design('u 4; one 4 "0001"; zero 4', 'u <= unsigned(x); zero <= one - "0001"; ' + SUM.format("u + zero", "u", "u").replace("u + zero", "(u + zero)"),
                  'one <= "0001";')
# Three times x a row later; what no output reads mixes rows, or counts.
MIXED = design('u 4; held 4 "0000"; both 4', "u <= unsigned(x); both <= u xor held; " + SUM.format("held", "held", "held"), "held <= u;")
COUNTED = design('u 4; held 4 "0000"; count 4 "0000"', "u <= unsigned(x); " + SUM.format("held", "held", "held"),
                 'held <= u; count <= count + "0001";')


class Said(unittest.TestCase):
    """The line, where the program has said that all rows are good."""

    def said(self, text: str, rows: str, latency: int, spec: str = SCALE) -> list[str]:
        names = ["s.toml", "d.vhd", "r.in"]
        with folder_of(dict(zip(names, (spec, text, rows)))):
            seen = "\n".join(map(certified.state_of, names))
            with mock.patch.dict(os.environ, {certified.SEEN: seen}):
                return explain(["check", *names, str(latency)], 0, None)

    def test_applies(self) -> None:
        self.assertEqual(self.said(TIMES3, AND_ONE, 1), [good_text("1 register")])
        self.assertEqual(self.said(MIXED, AND_ONE, 1), [good_text("1 register")])
        for rows in (AND_ONE.upper(), AND_ONE.replace("\n", "\r\n"), AND_ONE[:-1], "".join(reversed(ROWS)).strip() + "\n3\n3\n3\n"):
            self.assertEqual(self.said(TIMES3, rows, 1), [good_text("1 register")], rows)

    def test_no_register(self) -> None:
        text = design("u 4", "u <= unsigned(x); " + SUM.format("u", "u", "u"))
        self.assertEqual(self.said(text, ROWS, 0), [good_text("no register")])
        direct = design("u 4", "u <= unsigned(x); " + SUM.format("u", "unsigned(x)", "u"))
        self.assertEqual(self.said(direct, ROWS, 0), [good_text("no register")])

    def test_a_faithful_specification(self) -> None:
        text = (EXAMPLES / "third.vhd").read_text()
        self.assertEqual(self.said(text, AND_ONE, 1, (EXAMPLES / "third.toml").read_text()), [good_text("1 register")])

    def test_a_divisor(self) -> None:
        """Rows with a divisor of 0 are rows too."""
        text = (EXAMPLES / "quotient.vhd").read_text()
        latency = report.read_report(EXAMPLES / "quotient.rpt").latency
        spec = (EXAMPLES / "quotient.toml").read_text()
        cells = [f"{a:02x} {b}\n" for a in range(128) for b in range(8)]
        rows = "".join(cells) + "00 0\n" * latency
        self.assertEqual(self.said(text, rows, latency, spec), [good_text(aligned.registers_text(latency), " with b other than 0")])
        without = "".join(cell for cell in cells if cell != "05 0\n") + "00 1\n" * latency
        self.assertEqual(self.said(text, without, latency, spec), [f"{ALONE}: 1 of 1024 inputs is missing, the first 05 0"])
        self.assertEqual(self.said(text, "".join(cell for cell in cells if cell[3] != "0"), latency, DIVIDE), [])

    def test_a_missing_row(self) -> None:
        self.assertEqual(self.said(TIMES3, AND_ONE.replace("b\n", "a\n"), 1), [f"{ALONE}: 1 of 16 inputs is missing, the first b"])
        self.assertEqual(self.said(TIMES3, AND_ONE.replace("b\n", "a\n").replace("c\n", "a\n"), 1), [])
        self.assertEqual(self.said(TIMES3, ROWS, 1), [f"{ALONE}: they hold every input, but outputs come 1 row later: add 1 behind them"])
        self.assertEqual(self.said(TIMES3, ROWS + "0\n", 2), [f"{ALONE}: they hold every input, but outputs come 2 rows later: add 2 behind them"])

    def test_registers(self) -> None:
        for text, rows, latency, words in (
            (LATE, AND_ONE, 1, "d.vhd:12:42: a path from an input to y passes 2 registers, not 1"),
            (EARLY, AND_ONE + "0\n", 2, "d.vhd:12:42: a path from an input to y passes 1 register, not 2"),
            (TIMES3, AND_ONE, 0, "a path from an input to y passes 1 register, not 0"),
            (COUNTER, ROWS, 0, "the register count depends on itself"),
            (COUNTED, AND_ONE, 1, "the register count depends on itself"),
            (CONSTANT, ROWS, 0, "a path to y passes 1 register, more than 0"),
            (design("u 4", "u <= unsigned(x); " + SUM.format("u", "u", "unsigned(x)")), AND_ONE, 1, "passes no register, not 1"),
        ):
            with self.subTest(words):
                (line,) = self.said(text, rows, latency)
                self.assertTrue(line.startswith(f"{ALONE}, though they hold every input: d.vhd:"), line)
                self.assertTrue(line.endswith(words), line)

    def test_an_enable(self) -> None:
        spec = SCALE.replace("width = 4", "width = 1")
        (line,) = self.said(ENABLED, "0\n1\n0\n", 1, spec)
        self.assertTrue(line.endswith(": its registers hold while x is 0"), line)

    def test_memory(self) -> None:
        filter_ = FIR.replace("[3]", "[3, 1]")
        self.assertEqual(self.said(TIMES3, AND_ONE, 1, filter_), [])
        self.assertEqual(self.said(TIMES3, AND_ONE, 1, FIR), [good_text("1 register")])
        self.assertEqual(self.said(TIMES3, AND_ONE, 1, FIR.replace('"fir"', '"tfir"').replace("coefficients = [3]", "taps = [3, 0]")), [])
        self.assertEqual(set(SCHEMA["properties"]["kind"]["enum"]), certified.WITHOUT_MEMORY | set(certified.LISTS))
        self.assertEqual(self.said(TIMES3, AND_ONE, 1, SCALE.replace('"scale"', '"average"')), [])

    def test_many_bits(self) -> None:
        text = design("u 17", "u <= unsigned(x); y <= std_logic_vector(u(5 downto 0));", "", 17)
        self.assertEqual(self.said(text, "00000\n" * 100_000, 0, SCALE.replace("width = 4", "width = 17")), [])

    def test_nothing_is_sure(self) -> None:
        names = ["s.toml", "d.vhd", "r.in"]
        with folder_of(dict(zip(names, (SCALE, TIMES3, AND_ONE)))) as folder:
            seen = list(map(certified.state_of, names))
            for state in ("", "\n".join(seen[:2]), "\n".join([seen[0], seen[2], seen[1]])):
                with mock.patch.dict(os.environ, {certified.SEEN: state}):
                    self.assertEqual(explain(["check", *names, "1"], 0, None), [])
            with mock.patch.dict(os.environ, {certified.SEEN: "\n".join(seen)}):
                self.assertEqual(explain(["simulate", "d.vhd", "r.in", "out"], 0, None), [])
                (folder / "d.vhd").write_text(LATE)
                self.assertEqual(explain(["check", *names, "1"], 0, None), [])
        self.assertEqual(self.said("none", AND_ONE, 1), [])
        self.assertEqual(self.said(TIMES3, AND_ONE, 1, "none"), [])


def ways(drivers: dict[str, vhdl.Driver], name: str, met: tuple[str, ...] = ()) -> Iterator[tuple[int, bool, bool]]:
    """The ways to a signal: how many registers each passes, whether it begins at an input, and whether it meets itself."""
    own = int(drivers[name].kind == "register")
    if name in met:
        yield 0, False, True
        return
    yield own, False, False
    for use in drivers[name].uses:
        if use.is_port:
            yield own, True, False
        else:
            yield from ((count + own, begins, meets) for count, begins, meets in ways(drivers, use.name, (*met, name)))


def is_one_row(found: vhdl.Design, latency: int) -> bool:
    """The definitions, by each way of a small design on its own."""
    drivers = {driver.to: driver for driver in found.drivers if driver.kind != "output"}
    if found.enable or any(meets for name in drivers for _, _, meets in ways(drivers, name)):
        return False
    for output in (driver for driver in found.drivers if driver.kind == "output"):
        if latency and any(use.is_port for use in output.uses):
            return False
        for use in output.uses:
            if not use.is_port and any(count > latency or begins and count != latency for count, begins, _ in ways(drivers, use.name)):
                return False
    return True


def drawn_design(draw: random.Random) -> str:
    """A sound design of bits with up to six signals, drawn."""
    count = draw.randint(1, 6)
    kinds = [draw.choice(("register", "register", "assign", "choice", "table")) for _ in range(count)]
    lines, registers, initials = [], [], []
    for to, kind in enumerate(kinds):
        # what is no register reads signals before it, and registers anywhere
        read = [f"s{at}" for at in range(count) if at < to or kinds[at] == "register" and draw.random() < 0.2]
        if kind == "register":
            read = [f"s{at}" for at in range(count) if at < to or draw.random() < 0.1]
        leaves = [*read, *read, "unsigned(x)", '"1"']
        pair = f"{draw.choice(leaves)} {draw.choice(('xor', 'and'))} {draw.choice(leaves)}"
        value = draw.choice((pair, draw.choice(leaves)))
        if kind == "register":
            registers.append(f"s{to} <= {value};")
        elif kind == "choice" and read:
            lines.append(f's{to} <= {value} when {draw.choice(read)} = "1" else {draw.choice(leaves)};')
        elif kind == "table" and read:
            lines.append(f'with {draw.choice(read)} select s{to} <= "0" when "1", "1" when others;')
        else:
            lines.append(f"s{to} <= {value};")
        initials.append(f's{to} 1 "{draw.randint(0, 1)}"')
    signals = [f"s{at}" for at in range(count)]
    lines.append(f"y <= std_logic_vector({draw.choice((*signals[-2:], 'unsigned(x)'))} xor {draw.choice(signals[-2:])});")
    return design(";".join(initials), "\n".join(lines), " ".join(registers), 1, 1)


class Aligned(unittest.TestCase):
    """What is decided of a design."""

    def test_as_defined(self) -> None:
        draw, counts = random.Random(1), {True: 0, False: 0}
        for _ in range(1500):
            found = vhdl.design_of(drawn_design(draw))
            for latency in range(4):
                is_good = aligned.fault_of(found, latency) is None
                self.assertEqual(is_good, is_one_row(found, latency), (found, latency))
                counts[is_good] += 1
        self.assertGreater(min(counts.values()), 400)

    def test_uses_are_what_is_read(self) -> None:
        for path in sorted(EXAMPLES.glob("*.vhd")):
            for driver in vhdl.design_of(path.read_text()).drivers:
                names = [name for expr in driver.exprs for name in vhdl.names_in(expr)]
                self.assertEqual(sorted(names), sorted(use.name for use in driver.uses if not use.is_port), path.name)

    def test_examples(self) -> None:
        """Each circuit of a kind without memory shows one row, at its own latency alone."""
        for path in sorted(EXAMPLES.glob("*.rpt")):
            facts = report.read_report(path)
            found = vhdl.design_of(path.with_suffix(".vhd").read_text())
            if facts.kind in certified.LISTS:
                self.assertIsNotNone(aligned.fault_of(found, facts.latency), path.name)
            elif found.enable:
                self.assertEqual(aligned.fault_of(found, facts.latency).words, "its registers hold while ce is 0")
            else:
                good = [latency for latency in range(facts.latency + 3) if aligned.fault_of(found, latency) is None]
                self.assertEqual(good, [facts.latency], path.name)

    @unittest.skipUnless(PROGRAM.exists(), NO_PROGRAM)
    def test_outputs_are_of_one_row(self) -> None:
        """In runs of drawn designs that are said to show one row, the output is a function of that row's input."""
        draw, count = random.Random(2), 0
        while count < 40:
            text = drawn_design(draw)
            found = vhdl.design_of(text)
            latency = next((one for one in range(4) if aligned.fault_of(found, one) is None), None)
            if latency is None or len(found.signals) < 3:
                continue
            count += 1
            with folder_of({"d.vhd": text, "r.in": "".join(f"{draw.randint(0, 1)}\n" for _ in range(60))}) as folder:
                subprocess.run([PROGRAM, "simulate", "d.vhd", "r.in", "out"], check=True, capture_output=True)
                rows = [line.split(" : ") for line in (folder / "out").read_text().splitlines()]
            pairs = {(entered, left) for (entered, _), (_, left) in zip(rows, rows[latency:])}
            self.assertEqual(len(pairs), 2, text)


@unittest.skipUnless(PROGRAM.exists(), NO_PROGRAM)
class Told(unittest.TestCase):
    """What bin/opgen prints after `check`."""

    def checked(self, text: str, rows: str, latency: int, spec: str = SCALE, **how) -> subprocess.CompletedProcess:
        with folder_of({"s.toml": spec, "d.vhd": text, "r.in": rows}):
            return run(["check", "s.toml", "d.vhd", "r.in", str(latency)], **how)

    def test_applies(self) -> None:
        done = self.checked(TIMES3, AND_ONE, 1)
        self.assertEqual((done.returncode, done.stdout, done.stderr), (0, "good 16\n", good_text("1 register") + "\n"))

    def test_rows_in_one_order(self) -> None:
        """Each is good over all inputs in their order, and not over the same rows in another."""
        for text, latency, spec, rows in ((LATE, 1, SCALE, AND_ONE), (EARLY, 2, SCALE, AND_ONE + "1\n"), (COUNTER, 0, SCALE, ROWS),
                                          (ENABLED, 1, SCALE.replace("width = 4", "width = 1"), "0\n1\n0\n")):
            done = self.checked(text, rows, latency, spec)
            self.assertEqual((done.returncode, done.stdout), (0, f"good {len(rows.splitlines()) - latency}\n"), text)
            self.assertTrue(done.stderr.startswith(f"{ALONE}, though they hold every input: "), done.stderr)
            other = "1\n0\n0\n" if text is ENABLED else "".join(reversed(rows.splitlines(True)))
            self.assertEqual(self.checked(text, other, latency, spec).returncode, 8, text)

    def test_nothing_is_said(self) -> None:
        for text, rows, latency, spec in ((TIMES3, "3\n4\n5\n", 1, SCALE), ((EXAMPLES / "lowpass.vhd").read_text(), "000\n" * 4000, 2,
                                          (EXAMPLES / "lowpass.toml").read_text())):
            done = self.checked(text, rows, latency, spec)
            self.assertEqual((done.returncode, done.stderr), (0, ""))

    def test_a_file_that_changes(self) -> None:
        for change, count in ((":", 1), ("echo >>d.vhd", 0), ("cp s.toml t; mv t s.toml", 0), ("sleep 0.1; touch r.in", 0)):
            with folder_of({"s.toml": SCALE, "d.vhd": TIMES3, "r.in": AND_ONE}) as folder:
                done = run(["check", "s.toml", "d.vhd", "r.in", "1"], program=stub(folder, f"{change}; echo good 16"))
            self.assertEqual((done.stdout, done.stderr.count(", for ever:")), ("good 16\n", count), change)

    def test_without_python(self) -> None:
        with folder_of({"s.toml": SCALE, "d.vhd": TIMES3, "r.in": AND_ONE}) as folder:
            path = without_python(folder)
            for name in ("awk", "stat"):
                found = subprocess.run(["sh", "-c", f"command -v {name}"], capture_output=True, text=True, check=True)
                (folder / "tools" / name).symlink_to(found.stdout.strip())
            done = run(["check", "s.toml", "d.vhd", "r.in", "1"], env={"PATH": path})
        self.assertEqual((done.returncode, done.stdout, done.stderr), (0, "good 16\n", ""))

    def test_words(self) -> None:
        """Files behind `--`, and rows from a pipe."""
        with folder_of({"s.toml": SCALE, "-d.vhd": TIMES3, "r.in": AND_ONE}):
            done = run(["check", "--", "s.toml", "-d.vhd", "r.in", "+01"])
            self.assertEqual(done.stderr, good_text("1 register").replace("d.vhd", "-d.vhd") + "\n")
            done = run(["check", "--", "s.toml", "-d.vhd", "/dev/stdin", "1"], input=AND_ONE)
        self.assertEqual((done.stdout, done.stderr), ("good 16\n", ""))


class Limited(unittest.TestCase):
    """What a line may take."""

    def test_a_large_design(self) -> None:
        """Of 60,000 signals in a row nothing is said, or the line, in time."""
        rows = "".join(f"{row:03x}\n" for row in range(1 << 10))
        names = ["s.toml", "d.vhd", "r.in"]
        for count in (3000, 60_000):
            with folder_of(dict(zip(names, (SCALE, chain_of(count, "unsigned(x)"), rows)))):
                environment = os.environ | {certified.SEEN: "\n".join(map(certified.state_of, names))}
                began = seconds_of_children()
                done = subprocess.run([sys.executable, "-E", "-s", TOP / "tools/explain", "0", "none", "check", *names, "0"],
                                      capture_output=True, text=True, check=True, env=environment)
                self.assertLess(seconds_of_children() - began, limits.MOST_SECONDS + BEGIN)
            self.assertLess(resource.getrusage(resource.RUSAGE_CHILDREN).ru_maxrss << 10, limits.MOST_MEMORY)
            self.assertIn(done.stderr, ("", good_text("no register") + "\n"))


if __name__ == "__main__":
    unittest.main()
