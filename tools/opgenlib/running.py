"""Runs processes so that they end with what started them, and a tool so that it ends cleanly: after a signal without a trace, with
its temporary files gone and the processes that it started ended, and with status 1 where its output cannot be written."""
from __future__ import annotations

import errno
import os
import signal
import subprocess
import sys
from collections.abc import Callable, Sequence
from types import FrameType
from typing import Any, NoReturn

# What may be wrong with a standard output.
OF_OUTPUT = (errno.EPIPE, errno.EBADF, errno.EFBIG, errno.ENOSPC, errno.EDQUOT, errno.EIO)
SIGNALS = (signal.SIGHUP, signal.SIGINT, signal.SIGTERM)
# The processes that run, each the first of its group, how many are being started, and the signal that ends this tool, once it has come.
started: set[subprocess.Popen] = set()
starting: list[None] = []
came: list[int] = []


class Ended(BaseException):
    """A signal ends this tool."""


def end_group(process: subprocess.Popen) -> None:
    """Ends a process with those that it started."""
    try:
        os.killpg(process.pid, signal.SIGKILL)
    except ProcessLookupError:
        pass


def end(number: int, _frame: FrameType | None) -> None:
    """Ends this tool once: what it does then, as removing its temporary files, is not broken by a second signal."""
    came.append(number)
    for other in SIGNALS:
        signal.signal(other, signal.SIG_IGN)
    for process in list(started):
        end_group(process)
    if not starting:
        raise Ended


def begun(words: Sequence[str | os.PathLike], how: dict[str, Any]) -> subprocess.Popen:
    """Starts a process as the first of a group. A signal that comes meanwhile ends this tool once the process is known."""
    starting.append(None)
    try:
        one = subprocess.Popen(words, encoding="utf-8", errors="replace", start_new_session=True, **how)
        started.add(one)
        return one
    finally:
        starting.pop()


def process(words: Sequence[str | os.PathLike], timeout: float | None = None, **how: Any) -> subprocess.CompletedProcess:
    """Runs a process, whose outputs are captured as texts unless they are sent elsewhere. It ends with those that it started if this
    call ends by an exception, as after a signal, and after so many seconds by `TimeoutExpired`."""
    streams = {"stdin": subprocess.DEVNULL, "stdout": subprocess.PIPE, "stderr": subprocess.PIPE}
    with begun(words, {**streams, **how}) as one:
        try:
            if came:
                raise Ended
            said = one.communicate(timeout=timeout)
        except BaseException:
            end_group(one)
            raise
        finally:
            started.discard(one)
    if came:
        raise Ended
    return subprocess.CompletedProcess(words, one.returncode, *said)


def told(tool: str, fault: OSError) -> int:
    """Says which file failed, with status 1. A fault of the output, which has no file, is reported by `run`."""
    if is_of_output(fault):
        raise fault
    print(": ".join(map(str, filter(None, [tool, fault.filename, fault.strerror]))), file=sys.stderr)
    return 1


def is_of_output(fault: OSError) -> bool:
    """Whether a fault may be one of the standard output: files that tools write have their names in it."""
    return fault.filename is None and fault.errno in OF_OUTPUT


def show_progress(tool: str, said: str) -> None:
    """A line on standard error that says where long work is, whole beside those of other threads."""
    sys.stderr.write(f"{tool}: {said}\n")
    sys.stderr.flush()


def open_outputs() -> None:
    """In place of outputs that are closed: a standard output to which nothing can be written, and nothing for errors."""
    if sys.stdout is None:
        sys.stdout = open(os.open(os.devnull, os.O_RDONLY), "w")
    if sys.stderr is None:
        sys.stderr = open(os.devnull, "w")


def drop_output() -> None:
    """Sends what is left of the output nowhere, so that its fault is not reported once more at the end."""
    nowhere = os.open(os.devnull, os.O_WRONLY)
    os.dup2(nowhere, sys.stdout.fileno())
    os.close(nowhere)


def status_of(main: Callable[[], int]) -> int:
    """The status of a tool, whose help and wrong words end it by `SystemExit`."""
    try:
        return main()
    except SystemExit as ended:
        if ended.code is None or isinstance(ended.code, int):
            return ended.code or 0
        print(ended.code, file=sys.stderr)
        return 1


def checked_status(main: Callable[[], int]) -> int:
    """The status of a tool if its output is written completely, else 1."""
    try:
        status = status_of(main)
        sys.stdout.flush()
        return status
    except OSError as fault:
        if not is_of_output(fault):
            raise
        drop_output()
        if not isinstance(fault, BrokenPipeError):
            print(f"{os.path.basename(sys.argv[0])}: cannot write standard output: {fault.strerror}", file=sys.stderr)
        return 1


def run(main: Callable[[], int]) -> NoReturn:
    """Runs a tool and ends this process with its status, or by the signal that ended it."""
    for number in SIGNALS:
        if signal.getsignal(number) is not signal.SIG_IGN:
            signal.signal(number, end)
    open_outputs()
    try:
        status = checked_status(main)
    except Ended:
        drop_output()
        signal.signal(came[0], signal.SIG_DFL)
        os.kill(os.getpid(), came[0])
        status = 128 + came[0]
    sys.exit(status)
