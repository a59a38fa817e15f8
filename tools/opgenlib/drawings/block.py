"""The entity of a circuit as a box, with its ports and their widths."""
from opgenlib.report import Port, Report
from opgenlib.svg import LETTER, Picture

ROW, TOP, LEG = 26, 36, 46


def draw_port(picture: Picture, port: Port, left: float, right: float, y: float) -> None:
    """A port with its bits, on the left an input and on the right an output."""
    x, end, middle = (left - LEG, left, left - LEG / 2) if port.is_input else (right, right + LEG, right + LEG / 2)
    picture.arrow([(x, y), (end, y)])
    picture.line(middle - 4, y + 4, middle + 4, y - 4, "black")
    picture.text(middle, y - 7, str(port.width), "middle", 11)
    picture.text(left + 6 if port.is_input else right - 6, y + 4, port.name, "start" if port.is_input else "end")


def block(facts: Report, has_enable: bool) -> Picture:
    wires = ["clk", *(["ce"] if has_enable else [])]
    longest = max(len(port.name) for port in facts.ports)
    wide = max(LETTER * len(facts.name) * 1.25 + 24, 2 * LETTER * longest + 60, 120)
    rows = max(len(facts.inputs) + len(wires), len(facts.outputs))
    left, high = LEG + 10, rows * ROW + 14
    picture = Picture(wide + 2 * left, TOP + high + 8)
    picture.text(left + wide / 2, TOP - 12, facts.name, "middle", 14)
    picture.box(left, TOP, wide, high, "#f4f7fb")
    for row, name in enumerate(wires):
        y = TOP + 20 + row * ROW
        picture.arrow([(left - LEG, y), (left, y)])
        picture.text(left + 6, y + 4, name)
    for row, port in enumerate(facts.inputs, len(wires)):
        draw_port(picture, port, left, left + wide, TOP + 20 + row * ROW)
    for row, port in enumerate(facts.outputs):
        draw_port(picture, port, left, left + wide, TOP + 20 + row * ROW)
    return picture
