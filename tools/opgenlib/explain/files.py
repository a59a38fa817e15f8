"""Explains why a file cannot be read or written, is too long, or takes too much memory."""
import os
import resource
import select
import stat
from pathlib import Path

from ..commands import FILES, Call
from ..specification import NotToml, load


def cannot_open(file: str) -> str:
    """Why a file cannot be read, nothing where it can."""
    try:
        with open(file, "rb") as opened:
            opened.read(1)
    except FileNotFoundError:
        return "no such file"
    except OSError as fault:
        return (os.strerror(fault.errno) if fault.errno else str(fault)).lower()
    except ValueError:
        return "no such name is possible"
    return ""


def read_fault(call: Call) -> list[str]:
    for _, file in call.inputs:
        if why := cannot_open(file):
            hint = "; - is no standard input here: write /dev/stdin" if file == "-" else ""
            return [f"cannot open {file}: {why}{hint}"]
    names = ", ".join(file for _, file in call.inputs)
    return [f"cannot read {names}: each can be opened now; try again"]


def too_long(call: Call) -> list[str]:
    for what, file in call.inputs:
        try:
            size = os.stat(file).st_size
        except OSError:
            continue
        if size > FILES[what]:
            way = "; split the rows" if what == "VECTORS" else ""
            return [f"{file} has {size:,} bytes; expected at most {FILES[what]:,}{way}"]
    return []


def stored(call: Call) -> list[str]:
    """The files that a command stores, as far as they are known."""
    if "OUT" in call.words:
        return [os.path.join(call.folder, call.words["OUT"])]
    try:
        name = load(Path(call.words["SPEC"])).table["name"]
    except (OSError, NotToml, KeyError):
        return []
    endings = {"generate": ["vhd", "rpt"], "vectors": ["vec"]}.get(call.command, [])
    return [os.path.join(call.folder, f"{name}.{ending}") for ending in endings]


def cannot_write(file: str) -> str:
    """Why a file cannot be written, nothing where it can."""
    path = Path(file)
    folder = path.parent
    if path.is_dir():
        return "a folder has this name"
    if not folder.is_dir():
        return f"there is no folder {folder}"
    if os.statvfs(folder).f_blocks == 0:
        return f"{folder} is on no disk: files cannot be made there"
    if not os.access(path if path.exists() else folder, os.W_OK):
        return "permission denied"
    if path.exists() and not stat.S_ISREG(path.stat().st_mode):
        return "it takes no more" if path.resolve() == Path("/dev/full") else ""
    if os.statvfs(folder).f_flag & os.ST_RDONLY:
        return "the disk is read only"
    if os.statvfs(folder).f_bavail == 0:
        return "the disk is full"
    if why := no_free_name(path):
        return why
    limit = resource.getrlimit(resource.RLIMIT_FSIZE)[0]
    return f"files are limited to {limit:,} bytes (ulimit -f)" if limit != resource.RLIM_INFINITY else ""


def no_free_name(path: Path) -> str:
    """Whether each name that a store gives its new file is taken, as by runs that were killed; nothing where one is free."""
    target = Path(os.path.realpath(path))
    new = "." + target.name.encode()[:240].decode(errors="ignore") + ".opgen-"
    if all(os.path.lexists(target.with_name(f"{new}{number}")) for number in range(1, 101)):
        return f"its new file has no free name: remove {new}1 to {new}100 in {target.parent}, which killed runs have left"
    return ""


def write_fault(call: Call) -> list[str]:
    names = stored(call)
    for file in names:
        if why := cannot_write(file):
            here = " in this folder" if Path(file).parent == Path(".") else ""
            return [f"cannot write {file}{here}: {why}"]
    line = output_fault()
    if line:
        return [line, *([f"  {' and '.join(names)} may be complete"] if names else [])]
    said = "no cause is left to be seen; look at folder and disk, then try again"
    return [f"cannot write {' or '.join([*names, 'the line'])}: {said}"]


def is_left_pipe() -> bool:
    """Whether standard output is a pipe that nothing reads any more."""
    poll = select.poll()
    poll.register(1, 0)
    return any(event & select.POLLERR for _, event in poll.poll(0))


def output_fault() -> str:
    """Why the line cannot be written."""
    try:
        found = os.fstat(1)
    except OSError:
        return "cannot write the line: standard output is closed"
    if stat.S_ISFIFO(found.st_mode) and is_left_pipe():
        return "cannot write the line: what reads standard output has closed the pipe"
    if stat.S_ISCHR(found.st_mode) and found.st_rdev == os.makedev(1, 7):
        return "cannot write the line: standard output is /dev/full"
    if stat.S_ISREG(found.st_mode) and os.fstatvfs(1).f_bavail == 0:
        return "cannot write the line: the disk of standard output is full"
    return ""


def out_of_memory(call: Call) -> list[str]:
    said = []
    for _, file in call.inputs:
        try:
            said.append(f"{file} with {os.stat(file).st_size:,} bytes")
        except OSError:
            continue
    limit = resource.getrlimit(resource.RLIMIT_AS)[0]
    limited = f"; memory is limited to {limit >> 20:,} MiB (ulimit -v)" if limit != resource.RLIM_INFINITY else ""
    return [f"out of memory over {' and '.join(said) or call.command}{limited}", "  give it more memory, or a smaller file"]
