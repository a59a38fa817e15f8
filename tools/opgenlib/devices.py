"""Delay lines of devices that were measured, templates/devices/NAME.toml."""
import tomllib
from pathlib import Path
from typing import Any

TOP = Path(__file__).resolve().parent.parent.parent
FOLDER = TOP / "templates/devices"
# The device that each file was measured on.
FILES = {"hx8k": "ice40-hx.toml", "up5k": "ice40-up.toml"}


class NotMeasured(Exception):
    """A device without delay lines."""


def delay_lines(device: str) -> list[dict[str, Any]]:
    """The delay lines of a device."""
    if device not in FILES:
        raise NotMeasured(f"there are delay lines of {' and '.join(FILES)}; tools/delays --device {device} measures others")
    return tomllib.loads((FOLDER / FILES[device]).read_text())["delay"]


def on_device(table: dict[str, Any], device: str) -> dict[str, Any]:
    """A specification with the delay lines of a device in place of its own, on the target that takes them."""
    return table | {"target": "plain", "delay": delay_lines(device)}
