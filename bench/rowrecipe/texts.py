"""The text of a net, as the program writes it: each node is a signal."""
from opgenlib import verilog
from opgenlib.vhdl import Design, Driver, Port, Signal

from .net import Net, Node, name_of


def design_of(net: Net, name: str = "circuit") -> Design:
    """The text's design: each node is a signal."""
    ports = [Port(node.port, True, node.width) for node in net.nodes if node.kind == "input"]
    ports += [Port(port, False, net.nodes[node].width) for port, node in net.outputs]
    signals, drivers = [], []
    for at, node in enumerate(net.nodes):
        signals.append(Signal(name_of(at), node.width, "0" * node.width if node.kind == "delay" else None))
        drivers.append(driver_of(at, node))
    drivers += [Driver("output", port, [("name", name_of(node))]) for port, node in net.outputs]
    return Design(name, ports, signals, drivers, None)


def driver_of(at: int, node: Node) -> Driver:
    """What drives a node's signal."""
    if node.kind == "input":
        return Driver("assign", name_of(at), [("port", node.port)])
    if node.kind == "delay":
        return Driver("register", name_of(at), [node.tree])
    if node.kind == "table":
        size = len(node.rows).bit_length() - 1
        rows = [(f"{address:0{size}b}", f"{row:0{node.width}b}") for address, row in enumerate(node.rows)]
        return Driver("table", name_of(at), [node.tree], [*rows[:-1], (None, rows[-1][1])])
    return Driver("assign", name_of(at), [node.tree])


def verilog_of(net: Net) -> str:
    """The text as Verilog."""
    return verilog.text_of(design_of(net))
