"""The program is asked for the ports of a specification by the plainest document that has them."""
import tomllib
import unittest
from pathlib import Path
from typing import Any

from opgenlib import asking, program
from opgenlib.report import Port
from tests.faulty import MCM, REPORT, SCALE, TIMES_ONE
from tests.test_explain import NO_PROGRAM, PROGRAM

PLAIN = tomllib.loads(SCALE)


def at_most(table: dict[str, Any]) -> dict[str, Any]:
    """The document that asks for the most: another target, the shortest period and slow cells."""
    return table | {"target": "mine", "period": 1, "delay": [{"class": "add", "base": 1000000, "per_bit": 0}]}


class Asking(unittest.TestCase):
    def test_plainest(self) -> None:
        """All that is of the values stays; the circuit has all the time that a period can give, 1,000,000 ps."""
        self.assertEqual(asking.plainest(at_most(PLAIN)), PLAIN | {"target": "plain", "period": 1000000})
        several = tomllib.loads(MCM)
        self.assertEqual(asking.plainest(several | {"extra": 2}), several | {"period": 1000000})

    def test_ports(self) -> None:
        """Those of the report, of a circuit made in a folder that is gone then."""
        specs: list[Path] = []

        def generate(spec: Path) -> str:
            self.assertEqual(tomllib.loads(spec.read_text()), asking.plainest(tomllib.loads(TIMES_ONE)))
            specs.append(spec)
            return REPORT

        ports = asking.ports_of(tomllib.loads(TIMES_ONE), generate)
        self.assertEqual(ports, (Port("x", True, False, 4, 0), Port("y", False, False, 4, 0)))
        self.assertEqual([spec.parent.exists() for spec in specs], [False])

    def test_refused_by_the_schema(self) -> None:
        """The program is not asked, and what the plainest document has in place of it is judged too."""
        for wrong in ({"period": 0}, {"width": 33}, {"delay": [{}]}, {"extra": 0}):
            with self.assertRaises(asking.NoPorts):
                asking.ports_of(PLAIN | wrong, self.fail)


@unittest.skipUnless(PROGRAM.exists(), NO_PROGRAM)
class Asked(unittest.TestCase):
    """The program that bin/opgen runs."""

    def test_ports(self) -> None:
        found = program.ports_by(program.program_of(PROGRAM), at_most(PLAIN))
        self.assertEqual(found, (Port("x", True, False, 4, 0), Port("y", False, False, 6, 0)))

    def test_refused(self) -> None:
        with self.assertRaisesRegex(asking.NoPorts, "^the specification is refused: NotExact 0$"):
            program.ports_by(program.program_of(PROGRAM), PLAIN | {"out_lsb": 1})


if __name__ == "__main__":
    unittest.main()
