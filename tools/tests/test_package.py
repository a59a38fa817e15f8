"""Tests that what `bin/opgen install` and `tools/package` make runs without this checkout, and in a root of its own."""
import io
import os
import re
import shutil
import subprocess
import sys
import tarfile
import tempfile
import unittest
from pathlib import Path

from tests.faulty import SCALE
from tests.loading import module_of
from tests.test_explain import NO_PROGRAM, NO_PYTHON, PROGRAM, TOP

# What bin/opgen calls besides the program, if there is no Python.
COMMANDS = ("sh", "dirname", "readlink", "sed", "cat", "head")


def clean() -> dict[str, str]:
    """The environment without what names a program."""
    return {name: value for name, value in os.environ.items() if name != "OPGEN_PROGRAM"}


def copy_with_libraries(command: str, root: Path) -> None:
    """Puts a command and the libraries that it is linked with into a root."""
    path = Path(shutil.which(command))
    said = subprocess.run(["ldd", path], capture_output=True, text=True).stdout
    (root / "bin").mkdir(exist_ok=True)
    shutil.copy(path.resolve(), root / "bin" / path.name)
    for library in re.findall(r"(/\S+) \(0x", said):
        place = root / library.lstrip("/")
        place.parent.mkdir(parents=True, exist_ok=True)
        shutil.copy(Path(library).resolve(), place)


def in_root(root: Path, *words: str) -> subprocess.CompletedProcess:
    """Runs words in a root as its only files."""
    change = [] if os.geteuid() == 0 else ["unshare", "--map-root-user"]
    environment = {"PATH": "/usr/bin:/bin"}
    chroot = shutil.which("chroot", path=f"{os.environ['PATH']}:/usr/sbin")
    return subprocess.run([*change, chroot, root, *words], capture_output=True, text=True, env=environment)


def members(deb: bytes) -> dict[str, bytes]:
    """The members of an archive of `ar`."""
    found, at = {}, len(b"!<arch>\n")
    while at < len(deb):
        name, size = deb[at : at + 16].decode().strip(), int(deb[at + 48 : at + 58])
        found[name] = deb[at + 60 : at + 60 + size]
        at += 60 + size + size % 2
    return found


@unittest.skipUnless(PROGRAM.exists(), NO_PROGRAM)
class Installed(unittest.TestCase):
    @classmethod
    def setUpClass(cls) -> None:
        cls.folder = Path(tempfile.mkdtemp())
        environment = os.environ | {"OPGEN_PROGRAM": str(PROGRAM)}
        words = [TOP / "tools/package", "--unproved", cls.folder]
        subprocess.run(words, check=True, env=environment, stdout=subprocess.DEVNULL)
        cls.tar = next(cls.folder.glob("*.tar.gz"))
        cls.deb = next(cls.folder.glob("*.deb"))
        with tarfile.open(cls.tar) as packed:
            # Python 3.11.3 and older have no filters.
            packed.extractall(cls.folder / "unpacked", **({"filter": "fully_trusted"} if hasattr(tarfile, "fully_trusted_filter") else {}))
        cls.prefix = cls.folder / "unpacked" / cls.tar.name.removesuffix(".tar.gz")

    @classmethod
    def tearDownClass(cls) -> None:
        shutil.rmtree(cls.folder)

    def run_in(self, folder: Path, *words: str) -> subprocess.CompletedProcess:
        return subprocess.run([self.prefix / "bin/opgen", *words], cwd=folder, capture_output=True, text=True, env=clean())

    def test_runs(self) -> None:
        folder = self.folder / "try"
        folder.mkdir()
        (folder / "first.toml").write_text(SCALE)
        done = self.run_in(folder, "generate", "first.toml")
        self.assertEqual((done.returncode, done.stdout, done.stderr), (0, "wrote first.vhd and first.rpt, latency 0\n", ""))
        done = self.run_in(folder, "generate", "no.toml")
        self.assertEqual((done.returncode, done.stdout, done.stderr),
                         (3, "read fault\n", "cannot open no.toml: no such file\n"))

    def test_begin(self) -> None:
        """What help begins with runs as it is printed, and so do a tool and -o."""
        folder = self.folder / "begin"
        (folder / "out").mkdir(parents=True)
        said = self.run_in(folder, "help").stdout
        library = self.prefix / "lib/opgen"
        self.assertIn(f"  opgen generate {library}/examples/times3.toml\n", said)
        self.assertTrue(said.endswith(f"\nExamples, templates and documents are in {library}\n"))
        self.assertIn("\n".join(f"  {line}" for line in (library / "examples/times3.toml").read_text().splitlines()), said)
        done = self.run_in(folder, "generate", f"{library}/examples/times3.toml", "-o", "out")
        self.assertEqual((done.returncode, done.stdout), (0, "wrote times3.vhd and times3.rpt, latency 0\n"))
        shutil.copy(library / "examples/times3.toml", folder / "out")
        done = self.run_in(folder, "tool", "wrap", "out/times3", "-o", "out")
        self.assertEqual((done.returncode, done.stdout, done.stderr), (0, "wrote times3_wrap.vhd\n", ""))
        self.assertEqual(self.run_in(folder, "tool", "package").returncode, 2)

    def test_links(self) -> None:
        """Each link of an installed document leads to an installed file."""
        checker = module_of(TOP / ".ci/docs")
        documents = sorted((self.prefix / "lib/opgen").rglob("*.md"))
        self.assertIn("README.md", [path.name for path in documents])
        self.assertEqual([fault for path in documents for fault in checker.broken_links(path)], [])

    def test_schema(self) -> None:
        """The first line of an installed template names the schema from anywhere, that of an unpacked one from its folder."""
        other = self.folder / "with & space"
        self.run_in(self.folder, "install", "--unproved", str(other))
        for path in sorted((other / "lib/opgen/templates").glob("*.toml")):
            named = path.read_text().splitlines()[0].removeprefix("#:schema ")
            self.assertEqual(Path(named), other / "lib/opgen/docs/opgen.schema.json")
            self.assertTrue(Path(named).is_file())
        for path in sorted((self.prefix / "lib/opgen/templates").glob("*.toml")):
            self.assertTrue((path.parent / path.read_text().splitlines()[0].removeprefix("#:schema ")).is_file(), path.name)

    def test_version(self) -> None:
        said = self.run_in(self.folder, "--version").stdout
        version = re.search(r"^## ([\d.]+)", (TOP / "CHANGELOG.md").read_text(), re.MULTILINE)[1]
        self.assertRegex(said, rf"^opgen {re.escape(version)}, (not )?proved \({os.uname().machine}, sources [0-9a-f]{{16}}\)\n$")

    def test_tools(self) -> None:
        library = self.prefix / "lib/opgen"
        done = subprocess.run([library / "tools/check-schema", *sorted(library.glob("templates/*.toml"))],
                              capture_output=True, text=True)
        self.assertEqual((done.returncode, done.stdout, done.stderr), (0, "", ""))
        self.assertFalse((library / "tools/tests").exists())
        self.assertTrue((self.prefix / "share/man/man1/opgen.1").exists())

    def test_module(self) -> None:
        """The installed module is imported from its folder, and by itself where the user's own packages are under the prefix."""
        library, base = self.prefix / "lib/opgen", self.folder / "base"
        text = "import opgen, pathlib; print(opgen.Operator(pathlib.Path(opgen.__file__).parents[2] / 'examples/times3.toml').run([5], raw=True)[0])"
        done = subprocess.run([sys.executable, "-c", text], capture_output=True, text=True, env=clean() | {"PYTHONPATH": str(library / "python")})
        self.assertEqual((done.returncode, done.stdout, done.stderr), (0, "15\n", ""))
        environment = clean() | {"PYTHONUSERBASE": str(base)}
        words = [self.prefix / "bin/opgen", "install", "--unproved", base]
        self.assertEqual(subprocess.run(words, capture_output=True, env=environment).returncode, 0)
        done = subprocess.run([sys.executable, "-c", text], capture_output=True, text=True, env=environment, cwd=self.folder)
        self.assertEqual((done.returncode, done.stdout, done.stderr), (0, "15\n", ""))

    def test_installed_again(self) -> None:
        """An installed program installs itself elsewhere, and over an older one, but over nothing else."""
        other = self.folder / "other place"
        for _ in range(2):
            done = self.run_in(self.folder, "install", "--unproved", str(other))
            self.assertEqual((done.returncode, done.stderr), (0, ""))
        self.assertEqual((other / "lib/opgen/VERSION").read_text(), (self.prefix / "lib/opgen/VERSION").read_text())
        (other / "lib/opgen/VERSION").unlink()
        done = self.run_in(self.folder, "install", "--unproved", str(other))
        self.assertEqual((done.returncode, done.stdout), (4, ""))
        self.assertTrue((other / "lib/opgen/program").exists())

    def test_deb(self) -> None:
        found = members(self.deb.read_bytes())
        self.assertEqual(list(found), ["debian-binary", "control.tar.gz", "data.tar.gz"])
        with tarfile.open(fileobj=io.BytesIO(found["control.tar.gz"])) as control:
            text = control.extractfile("./control").read().decode()
        proof, digest = re.search(r", (.*) \(.*, sources (\w+)", (self.prefix / "lib/opgen/VERSION").read_text()).groups()
        self.assertIn(f" The program was {proof} on the machine that built it from the sources\n of the digest {digest}.", text)
        self.assertRegex(text, r"(?m)^Depends: libc6 \(>= [\d.]+\)$")
        with tarfile.open(fileobj=io.BytesIO(found["data.tar.gz"])) as data:
            names = set(data.getnames())
            template = data.extractfile("./usr/lib/opgen/templates/fir.toml").read().decode()
        self.assertTrue(template.startswith("#:schema /usr/lib/opgen/docs/opgen.schema.json\n"))
        self.assertLessEqual({"./usr/bin/opgen", "./usr/lib/opgen/program", "./usr/share/man/man1/opgen.1"}, names)

    def test_an_empty_root(self) -> None:
        root = self.folder / "root"
        shutil.copytree(self.prefix, root / "usr", symlinks=True)
        for command in (*COMMANDS, str(PROGRAM)):
            copy_with_libraries(command, root)
        (root / "bin" / PROGRAM.name).unlink()
        for folder in ("work", "dev"):
            (root / folder).mkdir()
        (root / "dev/null").touch()
        (root / "work/first.toml").write_text(SCALE)
        done = in_root(root, "/bin/sh", "-c", "cd /work && opgen generate first.toml && opgen generate no.toml")
        if "Operation not permitted" in done.stderr:
            print("package: not tried in a root of its own, which is not allowed here", file=sys.stderr)
            self.skipTest("no root of its own is allowed")
        self.assertEqual((done.returncode, done.stderr), (3, NO_PYTHON))
        self.assertEqual(done.stdout, "wrote first.vhd and first.rpt, latency 0\nread fault\n")
        self.assertTrue((root / "work/first.rpt").read_text().startswith("operator first\nkind scale\n"))
        self.assertEqual(in_root(root, "/usr/bin/opgen", "--version").stdout,
                         (self.prefix / "lib/opgen/VERSION").read_text())


class Places(unittest.TestCase):
    """Where a program is installed, and what is removed: with a stub in place of the program, which is never run."""

    def setUp(self) -> None:
        place = tempfile.TemporaryDirectory()
        self.addCleanup(place.cleanup)
        self.folder = Path(place.name)
        self.prefix = self.folder / "here"
        self.program = self.folder / "program"
        self.program.write_text("#!/bin/sh\nexit 9\n")
        self.program.chmod(0o755)

    def opgen(self, *words: object, top: Path = TOP, **other: str) -> tuple[int, str, str]:
        """The status, the output and the first line on standard error."""
        environment = clean() | {"OPGEN_PROGRAM": str(self.program), "HOME": str(self.folder / "home")} | other
        done = subprocess.run([top / "bin/opgen", *map(str, words)], cwd=self.folder, capture_output=True, text=True, stdin=subprocess.DEVNULL,
                              env={name: value for name, value in environment.items() if value is not None})
        return done.returncode, done.stdout, (done.stderr.splitlines() or [""])[0]

    def installed(self) -> None:
        self.assertEqual(self.opgen("install", "--unproved", self.prefix)[::2], (0, ""))

    def test_wrong_words(self) -> None:
        """They are refused at once, with nothing proved or built."""
        for words, said in ((["-x"], "opgen: install has no option -x; a folder of this name is ./-x"),
                            (["--unproved", "-x"], "opgen: install has no option -x; a folder of this name is ./-x"),
                            ([""], "opgen: the folder behind install has no name")):
            self.assertEqual(self.opgen("install", *words, PATH="/usr/bin:/bin"), (2, "", said))
        for home in (None, ""):
            self.assertEqual(self.opgen("install", HOME=home), (2, "", "opgen: HOME is not set: name the folder, as opgen install /usr/local"))
        self.assertEqual(self.opgen("uninstall", "-x")[0], 2)
        self.assertEqual(sorted(path.name for path in self.folder.iterdir()), ["program"])

    def test_a_foreign_command(self) -> None:
        (self.prefix / "bin").mkdir(parents=True)
        foreign = self.prefix / "bin/opgen"
        foreign.write_text("another")
        said = f"opgen: {foreign} is there, and is not of an installation of opgen: remove it, or name another folder"
        self.assertEqual(self.opgen("install", "--unproved", self.prefix), (4, "", said))
        self.assertEqual(sorted(path.name for path in self.prefix.rglob("*")), ["bin", "opgen"])
        foreign.unlink()
        self.installed()
        foreign.unlink()
        foreign.symlink_to("/bin/true")
        self.assertEqual(self.opgen("uninstall", self.prefix)[0], 0)
        self.assertEqual(os.readlink(foreign), "/bin/true")

    def test_asked(self) -> None:
        """On a terminal the answer counts."""
        script = shutil.which("script")
        if not script:
            self.skipTest("there is no command script, which makes a terminal")
        for answer, status, is_link in (("n", 4, False), ("y", 0, True)):
            foreign = self.prefix / "bin/opgen"
            foreign.parent.mkdir(parents=True, exist_ok=True)
            foreign.write_text("another")
            command = f"OPGEN_PROGRAM={self.program} {TOP}/bin/opgen install --unproved {self.prefix}"
            done = subprocess.run([script, "-qec", command, "/dev/null"], input=f"{answer}\n", capture_output=True, text=True)
            self.assertEqual((done.returncode, foreign.is_symlink()), (status, is_link), done.stdout)

    def test_leftovers(self) -> None:
        ended = subprocess.Popen(["true"])
        ended.wait()
        library = self.prefix / "lib"
        for name in (f"opgen.new.{ended.pid}", f"opgen.old.{ended.pid}", f"opgen.new.{os.getpid()}", "opgen.new.kept"):
            (library / name / "bin").mkdir(parents=True)
        self.installed()
        self.assertEqual(sorted(path.name for path in library.iterdir()), sorted(["opgen", "opgen.new.kept", f"opgen.new.{os.getpid()}"]))

    def test_module(self) -> None:
        """The name of the module in a user's packages goes with its installation, and no other name does."""
        status = self.opgen("install", "--unproved", self.prefix, PYTHONUSERBASE=str(self.prefix))[0]
        named = list(self.prefix.glob("lib/python*/site-packages/opgen.pth"))
        self.assertEqual((status, [path.read_text() for path in named]), (0, [f"{self.prefix}/lib/opgen/python\n"]))
        other = self.prefix / "lib/python3.0/site-packages/opgen.pth"
        other.parent.mkdir(parents=True)
        other.write_text("/elsewhere/python\n")
        self.assertEqual(self.opgen("uninstall", self.prefix)[0], 0)
        self.assertEqual((named[0].exists(), other.exists()), (False, True))

    def test_uninstall(self) -> None:
        self.installed()
        (self.prefix / "bin/other").write_text("another")
        status, said, _ = self.opgen("uninstall", top=self.prefix / "lib/opgen")
        self.assertEqual(status, 0)
        self.assertRegex(said, rf"^removed opgen .* from {re.escape(str(self.prefix))}\n$")
        self.assertEqual([path.name for path in self.prefix.rglob("*") if not path.is_dir()], ["other"])
        self.assertEqual(self.opgen("uninstall", self.prefix), (4, "", f"opgen: there is no installation of opgen in {self.prefix}"))
        (self.prefix / "lib/opgen").mkdir()
        self.assertEqual(self.opgen("uninstall", self.prefix)[0], 4)

    def test_home(self) -> None:
        self.assertEqual(self.opgen("install", "--unproved")[0], 0)
        self.assertTrue((self.folder / "home/.local/lib/opgen/VERSION").is_file())
        self.assertEqual(self.opgen("uninstall")[0], 0)
        self.assertFalse((self.folder / "home/.local/lib/opgen").exists())


if __name__ == "__main__":
    unittest.main()
