"""Tests that help, manual page and the tools' table of commands have what docs/COMMANDS.md and the schema have."""
import os
import re
import shutil
import subprocess
import tempfile
import unittest
from pathlib import Path

from opgenlib import schema
from opgenlib.commands import COMMANDS
from opgenlib.keys import completion

TOP = schema.TOP
HELP = TOP / "docs/help"
DOCUMENT = (TOP / "docs/COMMANDS.md").read_text()
PAGE = (TOP / "docs/opgen.1").read_text()


def commands() -> dict[str, str]:
    """The commands of the document, with their usage."""
    return {usage.split(" ")[1]: usage for usage in re.findall(r"^\| `(opgen .*?)` \|", DOCUMENT, re.MULTILINE)}


def options() -> list[tuple[str, str, str, str]]:
    """The options of the document: name, command, range and default."""
    rows = re.findall(r"^\| `(--\w+)[^`]*` \| `(\w+)` \| (.*?) \| (.*?) \|", DOCUMENT, re.MULTILINE)
    return [tuple(row) for row in rows]


def run(folder: Path, *words: str) -> subprocess.CompletedProcess:
    environment = {name: value for name, value in os.environ.items() if name != "OPGEN_PROGRAM"}
    return subprocess.run([folder / "bin/opgen", *words], capture_output=True, text=True, env=environment)


class Texts(unittest.TestCase):
    def test_commands(self) -> None:
        general = (HELP / "opgen.txt").read_text()
        self.assertGreater(len(commands()), 3)
        for name, usage in commands().items():
            self.assertEqual((HELP / f"{name}.txt").read_text().splitlines()[0], usage)
            self.assertIn("\n  " + usage.partition(" [")[0], general)
            self.assertEqual(COMMANDS[name].usage(name), usage)

    def test_options(self) -> None:
        general = (HELP / "opgen.txt").read_text()
        self.assertGreater(len(options()), 3)
        for option, command, range_, default in options():
            own = (HELP / f"{command}.txt").read_text()
            for text in (general, own):
                line = next(line for line in text.splitlines() if line.startswith(f"  {option} "))
                if range_ != "none":
                    self.assertIn(f"{range_}, by default {default}", line)
            known = COMMANDS[command].options[option]
            self.assertEqual("none" if known is None else f"{known[0]} to {known[1]}", range_)

    def test_kinds(self) -> None:
        general = (HELP / "opgen.txt").read_text().partition("Kinds of operators")[2]
        page = PAGE.partition(".SH KINDS")[2].partition(".SH ")[0]
        for kind in schema.kinds():
            self.assertRegex(general, rf"(?m)^  {kind} ")
            self.assertIn(f".B {kind}\n", page)

    def test_keys(self) -> None:
        page = PAGE.partition(".SH KEYS")[2].partition(".SH ")[0]
        tables = (table["properties"] for table in schema.TABLES.values())
        for key in [*schema.SCHEMA["properties"], *(key for table in tables for key in table)]:
            self.assertRegex(page, rf'(?m)^\.BR? (.*[ "])?{key}([ "]|$)')

    def test_width(self) -> None:
        for text in HELP.glob("*.txt"):
            self.assertLessEqual(max(map(len, text.read_text().splitlines())), 125, text.name)


class Tools(unittest.TestCase):
    def test_help(self) -> None:
        """Each tool and each bench says what it does."""
        paths = [*sorted((TOP / "tools").iterdir()), *sorted((TOP / "bench").iterdir())]
        tools = [path for path in paths if path.is_file() and os.access(path, os.X_OK)]
        self.assertGreater(len(tools), 10)
        for tool in tools:
            with self.subTest(tool.name):
                done = subprocess.run([tool, "--help"], capture_output=True, text=True, stdin=subprocess.DEVNULL)
                self.assertEqual((done.returncode, done.stderr), (0, ""))
                self.assertIn(f"{tool.parent.name}/{tool.name}", done.stdout)


    def test_list(self) -> None:
        """`opgen help` lists the tools that are for designers, each with a sentence, and `opgen tool` runs them."""
        listed = run(TOP, "help").stdout.partition("\nTools,")[2].partition("\n\n")[0]
        names = re.findall(r"^  (\S+) +[A-Z]", listed, re.MULTILINE)
        tools = [path for path in (TOP / "tools").iterdir() if path.is_file() and os.access(path, os.X_OK)]
        hidden = set(completion.HIDDEN)
        self.assertEqual(sorted(names), sorted({path.name.removesuffix(".py") for path in tools} - hidden))
        for name in names:
            done = run(TOP, "tool", name, "--help")
            self.assertEqual((done.returncode, done.stderr), (0, ""))
            self.assertIn(f"tools/{name}", done.stdout)
        for name in ("none", "../bin/opgen", "explain", ""):
            done = run(TOP, "tool", name)
            self.assertEqual(done.returncode, 2 if name else 0)
            self.assertIn("\nTools, as opgen tool NAME ..", done.stderr or done.stdout)


class WithoutABuild(unittest.TestCase):
    """What bin/opgen answers in a checkout that has nothing built and no kit."""

    @classmethod
    def setUpClass(cls) -> None:
        cls.folder = Path(tempfile.mkdtemp())
        for name in ("bin", "docs"):
            shutil.copytree(TOP / name, cls.folder / name)
        (cls.folder / "crates").mkdir()
        for name in ("CHANGELOG.md", "crates.txt", "HANDLES"):
            shutil.copy(TOP / name, cls.folder)

    @classmethod
    def tearDownClass(cls) -> None:
        shutil.rmtree(cls.folder)

    def answers(self, text: str, *words: str) -> None:
        done = run(self.folder, *words)
        self.assertEqual((done.returncode, done.stdout, done.stderr), (0, text, ""), words)

    def test_help(self) -> None:
        examples = f"{self.folder}/examples/times3"
        general = (HELP / "opgen.txt").read_text().replace("examples/times3", examples)
        last = f"\nTools, as opgen tool NAME ..; each answers --help\n\nExamples, templates and documents are in {self.folder}\n"
        for words in ((), ("help",), ("--help",), ("-h",)):
            self.answers(general + last, *words)
        self.answers((HELP / "keys.txt").read_text(), "help", "keys")
        for shell in ("bash", "zsh"):
            self.answers((TOP / f"docs/completion/opgen.{shell}").read_text(), "complete", shell)
        for name in [*commands(), "install", "prove", "uninstall"]:
            own = (HELP / f"{name}.txt").read_text().replace("examples/times3", examples)
            for words in ((name, "--help"), ("help", name), (name, "-h"), (name, "first.toml", "--help")):
                self.answers(own, *words)
        self.answers((HELP / "complete.txt").read_text(), "complete", "--help")

    def test_version(self) -> None:
        version = re.search(r"^## ([\d.]+)", (TOP / "CHANGELOG.md").read_text(), re.MULTILINE)[1]
        done = run(self.folder, "--version")
        self.assertEqual((done.returncode, done.stderr), (0, ""))
        self.assertRegex(done.stdout, rf"^opgen {re.escape(version)}, not built here, sources [0-9a-f]{{16}}\n$")

    def test_too_many_words(self) -> None:
        for words in (("prove", "it"), ("install", "one", "two"), ("install", "--unproved", "one", "two"), ("uninstall", "one", "two")):
            done = run(self.folder, *words)
            self.assertEqual((done.returncode, done.stdout), (2, ""))
            self.assertTrue(done.stderr.startswith(f"opgen: too many words behind {words[0]}\n"))

    def test_help_of_no_command(self) -> None:
        done = run(self.folder, "help", "genrate")
        self.assertEqual((done.returncode, done.stdout), (2, ""))
        self.assertTrue(done.stderr.startswith("opgen: there is no command genrate\nCommands\n"))

    def test_a_file_called_help(self) -> None:
        """Behind `--` no word is an option: the program is asked."""
        stub = self.folder / "stub"
        stub.write_text('#!/bin/sh\necho "$@"\n')
        stub.chmod(0o755)
        environment = os.environ | {"OPGEN_PROGRAM": str(stub)}
        done = subprocess.run([TOP / "bin/opgen", "generate", "--", "--help"], capture_output=True, text=True,
                              env=environment)
        self.assertEqual((done.returncode, done.stdout), (0, "generate -- --help\n"))


if __name__ == "__main__":
    unittest.main()
