"""Whether each output of a design shows the one row of inputs a latency before: what the law `good_rows_serve` asks of a design.

It decides the definitions `LooksBack` (crates/opgen_design/specs/Depth.antt) and `IsAligned` (crates/opgen_part_laws/specs/Aligned.antt)
by the text of a design that `opgen check` has accepted, which is sound and has the ports of the specification. It is tested, not proved.
A driver reads each signal and port that is written behind its `<=` or `with`: operands, conditions and addresses, also where no value
depends on them, as in `s xor s`. Bits of a signal are that signal. Each part of the definitions:

- `no_enable`: the process has no second `if`. One makes the answer no, whatever port it names, also an input of the specification.
- `ranks`: signals have numbers, a register one more than what it reads and at least 1, any other signal as many as what it reads. There
  are some exactly if no signal depends on itself, through registers too. Signals that no output reads count as well.
- `shown`: the least such numbers of the signals that an output reads are at most the latency. So a register that reads constants alone,
  and shows its initial value first, counts 1. What the initial value is has no part in the answer.
- `through`: each path from an input to a signal that an output reads passes as many registers as the latency. A signal that no
  input reaches has no path; one that no output reads may have paths that differ.
- `direct`: an output reads an input itself only at latency 0.
"""
from collections import defaultdict
from collections.abc import Iterator
from dataclasses import dataclass

from .vhdl import Design, Driver


@dataclass(frozen=True)
class Fault:
    """Why outputs may depend on more than one row of inputs, and the offset in the text of what is meant."""

    words: str
    at: int


@dataclass(frozen=True, slots=True)
class Reach:
    """Of a signal: the most registers on a path to it from anywhere, and on paths from inputs the fewest and the most, none without one."""

    most: int
    from_inputs: tuple[int, int] | None


def registers_text(count: int) -> str:
    return f"{count or 'no'} register{'s' if count > 1 else ''}"


def signals_read(driver: Driver) -> set[str]:
    return {use.name for use in driver.uses if not use.is_port}


def ports_read(driver: Driver) -> set[str]:
    return {use.name for use in driver.uses if use.is_port}


def reach_of(driver: Driver, known: dict[str, Reach]) -> Reach:
    """The reach of what a driver drives, by that of the signals that it reads."""
    own = int(driver.kind == "register")
    read = [known[name] for name in signals_read(driver)]
    ends = [one.from_inputs for one in read if one.from_inputs]
    if ports_read(driver):
        ends.append((0, 0))
    from_inputs = (min(low for low, _ in ends) + own, max(high for _, high in ends) + own) if ends else None
    return Reach(max((one.most for one in read), default=0) + own, from_inputs)


def reaches(drivers: dict[str, Driver]) -> dict[str, Reach]:
    """The reach of each signal, by its driver; of those that depend on themselves, and of what reads them, there is none."""
    waits: dict[str, int] = {}
    readers: dict[str, list[str]] = defaultdict(list)
    for name, driver in drivers.items():
        read = signals_read(driver)
        waits[name] = len(read)
        for one in read:
            readers[one].append(name)
    ready = [name for name, count in waits.items() if count == 0]
    known: dict[str, Reach] = {}
    for name in ready:  # which grows
        known[name] = reach_of(drivers[name], known)
        for reader in readers[name]:
            waits[reader] -= 1
            if waits[reader] == 0:
                ready.append(reader)
    return known


def register_in_loop(drivers: dict[str, Driver], known: dict[str, Reach]) -> Driver:
    """A register that depends on itself, where the reach of some signals is not known."""
    name = next(name for name in drivers if name not in known)
    met: dict[str, int] = {}
    while name not in met:
        met[name] = len(met)
        name = min(read for read in signals_read(drivers[name]) if read not in known)
    loop = [drivers[one] for one in list(met)[met[name] :]]
    return next((driver for driver in loop if driver.kind == "register"), loop[0])


def output_faults(output: Driver, known: dict[str, Reach], latency: int) -> Iterator[Fault]:
    """Why an output may not show the row of inputs so many before."""
    reach = reach_of(output, known)
    for count in reach.from_inputs or ():
        if count != latency:
            yield Fault(f"a path from an input to {output.to} passes {registers_text(count)}, not {latency}", output.at)
    if reach.most > latency:
        yield Fault(f"a path to {output.to} passes {registers_text(reach.most)}, more than {latency}", output.at)


def fault_of(design: Design, latency: int) -> Fault | None:
    """The first reason why outputs of a sound design may depend on more than the inputs so many rows before; none if there is none."""
    if design.enable:
        return Fault(f"its registers hold while {design.enable} is 0", design.enable_at)
    drivers = {driver.to: driver for driver in design.drivers if driver.kind != "output"}
    known = reaches(drivers)
    if len(known) < len(drivers):
        register = register_in_loop(drivers, known)
        return Fault(f"the register {register.to} depends on itself", register.at)
    outputs = (driver for driver in design.drivers if driver.kind == "output")
    return next((fault for output in outputs for fault in output_faults(output, known, latency)), None)
