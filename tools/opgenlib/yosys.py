"""What Yosys makes of a text of Verilog."""
import json
import os
import re
import shutil
import subprocess
import tempfile
from collections import Counter
from dataclasses import dataclass, replace
from pathlib import Path

from .running import process
from .storing import store

MOST_SECONDS = 1200
# To tables of six inputs without carry chains; and to the cells of a Xilinx series 7 device, carry chains and no DSP blocks.
TABLES = "synth -lut 6 -flatten -top {top}; tee -o cells stat; tee -o levels ltp -noff"
CHAINS = "synth_xilinx -flatten -family xc7 -nodsp -nosrl -noiopad -noclkbuf -top {top}; tee -o cells stat"
# To the cells of a Lattice iCE40 device, with carry chains and without memories, each module by itself where there are several.
ICE40 = "synth_ice40 -nobram -top {top}{more}; "
# Devices on which several texts are measured beside each other, each by its own cells.
DEVICES = {
    "tables": "synth -lut 6 -top {top}",
    "series7": "synth_xilinx -family xc7 -nodsp -nosrl -noiopad -noclkbuf -top {top}",
    "ice40": "synth_ice40 -nobram -noflatten -top {top}",
    "ecp5": "synth_ecp5 -nodsp -noflatten -top {top}",
}
# A text in one module by the name of its file, and all of them below one that keeps them.
READ = "read_verilog {file}.v; hierarchy -check -top {top}; proc; flatten; opt_clean; rename {top} {file}; design -stash {file}; "
TAKE = "design -import {file} -as {file} {file}; "
ALL = "all_of_them"
# Around what was mapped a module is put as it is.
AROUND = "read_verilog {file}.v; hierarchy -check -top {around}; flatten; clean; tee -o {file}.cells stat; write_json {file}.json; "


class NotMapped(Exception):
    """Yosys does not map a text."""


def is_installed() -> bool:
    return shutil.which("yosys") is not None


def ran(verilog: str, script: str, folder: Path, seconds: int = MOST_SECONDS) -> None:
    """Runs Yosys in the folder, for at most so many seconds."""
    store(folder / "design.v", verilog)
    words = ["yosys", "-q", "-p", f"read_verilog design.v; {script}"]
    try:
        done = process(words, seconds, cwd=folder, env=os.environ | {"TMPDIR": str(folder)})
    except subprocess.TimeoutExpired:
        raise NotMapped(f"Yosys takes over {seconds} seconds") from None
    if done.returncode:
        raise NotMapped(f"Yosys: {(done.stdout + done.stderr).strip().splitlines()[-1]}")


def cells_of(text: str) -> dict[str, int]:
    """How many cells of each type the last table of `stat` has."""
    return {cell: int(number) for cell, number in re.findall(r"^ +(\$?\w+) +(\d+)$", text, re.MULTILINE)}


def in_tables(verilog: str, top: str) -> dict[str, int]:
    """Tables of six inputs, flip-flops and levels, without carry chains."""
    with tempfile.TemporaryDirectory(prefix="opgen-yosys-") as name:
        folder = Path(name)
        ran(verilog, TABLES.format(top=top), folder)
        cells = cells_of((folder / "cells").read_text())
        levels = re.search(r"length=(\d+)", (folder / "levels").read_text())
    flops = sum(number for cell, number in cells.items() if "DFF" in cell)
    return {"lut6": cells.get("$lut", 0), "ff": flops, "levels": int(levels[1]) if levels else 0}


def in_chains(verilog: str, top: str) -> dict[str, int]:
    """Tables of up to six inputs, flip-flops and carry cells of four bits, of a Xilinx series 7 device."""
    with tempfile.TemporaryDirectory(prefix="opgen-yosys-") as name:
        folder = Path(name)
        ran(verilog, CHAINS.format(top=top), folder)
        cells = cells_of((folder / "cells").read_text())
    tables = sum(number for cell, number in cells.items() if re.fullmatch(r"LUT\d", cell))
    flops = sum(number for cell, number in cells.items() if re.fullmatch(r"FD[RSCP]E", cell))
    return {"lut": tables, "ff": flops, "carry4": cells.get("CARRY4", 0)}


def in_ice40(verilog: str, top: str, around: tuple[str, str], is_retimed: bool, folder: Path) -> dict[str, int]:
    """The cells of an iCE40 device by type, of a text inside of a module, which is a name and a text; the netlist is left in the
    folder as `around.json`. If asked, Yosys moves the registers of the text."""
    store(folder / "around.v", around[1])
    ran(verilog, ICE40.format(top=top, more=" -retime" if is_retimed else "") + AROUND.format(file="around", around=around[0]), folder)
    return cells_of((folder / "around.cells").read_text())


def each_in_ice40(texts: dict[str, str], around: tuple[str, dict[str, str]], folder: Path) -> None:
    """Maps modules side by side, each inside of a module, which is a name and for each of them a text; NAME.json are the netlists."""
    instances = "\n".join(f"  (* keep *) {name} {name}_ ();" for name in texts)
    verilog = "\n".join([*texts.values(), f"module all_of_them;\n{instances}\nendmodule\n"])
    script = ICE40.format(top="all_of_them", more=" -noflatten") + "design -save mapped; "
    for name, text in around[1].items():
        store(folder / f"{name}.v", text)
        script += "design -load mapped; " + AROUND.format(file=name, around=around[0])
    ran(verilog, script, folder)


@dataclass(frozen=True)
class Size:
    """What a text takes on a device: tables, carry cells, flip-flops, levels of tables where no carries are, and the places that
    tables and carries fill: on an iCE40 logic cells, in which a carry or a flip-flop may share the place of a table, on an ECP5 two
    for each carry cell beside the tables."""

    tables: int
    carries: int
    flops: int
    places: int
    levels: int = 0


def by_type(module: dict) -> Counter:
    """How many cells of each type a module of a netlist has."""
    return Counter(cell["type"] for cell in module["cells"].values())


def cells_in_ice40(module: dict) -> int:
    """The logic cells of a module: a carry shares the cell of a table that reads its operands at the middle inputs and its carry in at
    the last, and a flip-flop that of a table that drives nothing else."""
    cells, readers = module["cells"].values(), Counter()
    for cell in cells:
        readers.update(bit for port, bits in cell["connections"].items() for bit in bits if cell["port_directions"][port] == "input")
    readers.update(bit for port in module["ports"].values() if port["direction"] == "output" for bit in port["bits"])
    wires = [{port: bits[0] for port, bits in cell["connections"].items() if bits} | {"type": cell["type"]} for cell in cells]
    tables = [wire for wire in wires if wire["type"] == "SB_LUT4"]
    sums = Counter((table["I1"], table["I2"], table["I3"]) for table in tables)
    alone = {table["O"] for table in tables if readers[table["O"]] == 1}
    count = len(tables)
    for wire in wires:
        if wire["type"] == "SB_CARRY":
            key = wire["I0"], wire["I1"], wire["CI"]
            count += not sums[key]
            sums[key] -= bool(sums[key])
        elif wire["type"].startswith("SB_DFF"):
            count += wire["D"] not in alone
            alone.discard(wire["D"])
    return count


def size_on(device: str, module: dict) -> Size:
    """The size of a module that was mapped to a device."""
    types = by_type(module)
    named = {"tables": "$lut", "ice40": "SB_LUT4", "ecp5": "LUT4"}
    tables = types[named[device]] if device in named else sum(number for cell, number in types.items() if re.fullmatch(r"LUT\d", cell))
    flops = sum(number for cell, number in types.items() if re.search(r"DFF|TRELLIS_FF|FD[RSCP]E", cell))
    carries = types[{"series7": "CARRY4", "ice40": "SB_CARRY", "ecp5": "CCU2C"}.get(device, "")]
    places = {"ice40": lambda: cells_in_ice40(module), "ecp5": lambda: tables + 2 * carries}.get(device, lambda: tables)()
    return Size(tables, carries, flops, places)


def sizes(texts: list[str], top: str, device: str) -> list[Size]:
    """The sizes of texts on a device, by one run of Yosys; the top module of each has the same name."""
    files = [f"text{number}" for number in range(len(texts))]
    with tempfile.TemporaryDirectory(prefix="opgen-yosys-") as name:
        folder = Path(name)
        for file, text in zip(files, texts):
            store(folder / f"{file}.v", text)
        instances = "\n".join(f"  (* keep *) {file} {file}_ ();" for file in files)
        store(folder / f"{ALL}.v", f"module {ALL};\n{instances}\nendmodule\n")
        script = "".join(READ.format(file=file, top=top) for file in files) + "design -reset; "
        script += "".join(TAKE.format(file=file) for file in files)
        script += f"read_verilog {ALL}.v; {DEVICES[device].format(top=ALL)}; write_json all.json; "
        if device == "tables":
            script += "".join(f"tee -o {file}.levels ltp -noff {file}; " for file in files)
        ran("", "design -reset; " + script, folder, MOST_SECONDS * len(texts))
        modules = json.loads((folder / "all.json").read_text())["modules"]
        found = [size_on(device, modules[file]) for file in files]
        if device == "tables":
            lengths = [re.search(r"length=(\d+)", (folder / f"{file}.levels").read_text()) for file in files]
            found = [replace(size, levels=int(length[1]) if length else 0) for size, length in zip(found, lengths)]
    return found


def version() -> str:
    """The line by which Yosys names itself."""
    return " ".join(process(["yosys", "-V"]).stdout.split()[:2])
