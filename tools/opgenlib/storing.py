"""Writes files so that a write that fails, or is ended, leaves the old file."""
import errno
import os
import stat
import tempfile
from pathlib import Path

# Open files by their numbers have names here.
OPEN_FILES = ("/dev/", "/proc/")


def is_replaced(path: Path) -> bool:
    """Whether a new file is put in place of a path; a pipe, a device and an open file are written to."""
    if os.path.abspath(path).startswith(OPEN_FILES):
        return False
    try:
        mode = path.stat().st_mode
    except FileNotFoundError:
        return True
    if stat.S_ISDIR(mode):
        raise IsADirectoryError(errno.EISDIR, os.strerror(errno.EISDIR))
    return stat.S_ISREG(mode)


def mode_of(place: Path) -> int:
    """The rights of a file that is replaced, which has to be writable, or those of a new one."""
    if place.exists():
        if not os.access(place, os.W_OK):
            raise PermissionError(errno.EACCES, os.strerror(errno.EACCES))
        return stat.S_IMODE(place.stat().st_mode)
    mask = os.umask(0)
    os.umask(mask)
    return 0o666 & ~mask


def replace(place: Path, content: bytes) -> None:
    """Writes a new file beside a place and puts it there."""
    mode = mode_of(place)
    number, name = tempfile.mkstemp(prefix=f".{place.name[:200]}.", suffix=".new", dir=place.parent)
    try:
        with open(number, "wb") as file:
            file.write(content)
            file.flush()
            os.fchmod(number, mode)
        os.replace(name, place)
    except BaseException:
        os.unlink(name)
        raise


def store_bytes(path: Path | str, content: bytes) -> None:
    """Writes a file whole, or fails with its name and leaves what was there."""
    path = Path(path)
    try:
        if is_replaced(path):
            replace(Path(os.path.realpath(path)), content)
        else:
            with open(path, "ab") as file:
                file.write(content)
    except OSError as fault:
        raise type(fault)(fault.errno, fault.strerror, str(path)) from None


def store(path: Path | str, text: str) -> None:
    """Writes a text whole, or fails with the name of its file and leaves what was there."""
    store_bytes(path, text.encode())
