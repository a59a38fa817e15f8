"""Loads a tool as a module and runs it in this process, as a shell would."""
import contextlib
import io
import os
import sys
import time
from importlib.machinery import SourceFileLoader
from importlib.util import module_from_spec, spec_from_loader
from pathlib import Path
from types import ModuleType
from unittest import mock

sys.dont_write_bytecode = True
TOOLS = Path(__file__).resolve().parent.parent
EXAMPLES = TOOLS.parent / "examples"
sys.path.insert(0, str(TOOLS))


def tool_of(name: str) -> ModuleType:
    """A tool as a module."""
    return module_of(TOOLS / name)


def module_of(path: Path) -> ModuleType:
    """A script without an ending as a module."""
    loader = SourceFileLoader(f"tool_{path.name}", str(path))
    module = module_from_spec(spec_from_loader(loader.name, loader))
    sys.modules[loader.name] = module
    loader.exec_module(module)
    return module


def run(tool: ModuleType, *words: object, text: str = "") -> tuple[int, str, str]:
    """The status, the output and the error output of a tool over words and standard input."""
    out, said = io.StringIO(), io.StringIO()
    with (
        mock.patch("sys.argv", [tool.__name__, *map(str, words)]),
        mock.patch("sys.stdin", io.StringIO(text)),
        contextlib.redirect_stdout(out),
        contextlib.redirect_stderr(said),
    ):
        try:
            status = tool.main()
        except SystemExit as end:
            status = end.code or 0
    return status, out.getvalue(), said.getvalue()


def is_zombie(pid: int) -> bool:
    """Whether a process has ended and nothing has waited for it, as in a container without an init."""
    try:
        return "\nState:\tZ" in Path(f"/proc/{pid}/status").read_text()
    except OSError:
        return False


def has_ended(pid: int) -> bool:
    """Whether a process ends within some seconds, or has."""
    for _ in range(500):
        try:
            os.kill(pid, 0)
        except ProcessLookupError:
            return True
        if is_zombie(pid):
            return True
        time.sleep(0.01)
    return False
