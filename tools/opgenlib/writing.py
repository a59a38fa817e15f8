"""Writes specifications in TOML."""
from __future__ import annotations

import json
from typing import Any


def written(value: Any) -> str:
    """A value in TOML."""
    if isinstance(value, bool):
        return str(value).lower()
    if isinstance(value, str):
        return json.dumps(value, ensure_ascii=False)
    if isinstance(value, list):
        return "[" + ", ".join(map(written, value)) + "]"
    if isinstance(value, dict):
        return "{" + ", ".join(f"{key} = {written(one)}" for key, one in value.items()) + "}"
    return str(value)


def document(table: dict[str, Any]) -> str:
    """A specification, its arrays of tables last."""
    tables = [key for key, value in table.items() if isinstance(value, list) and value and all(isinstance(one, dict) for one in value)]
    lines = [f"{key} = {written(value)}" for key, value in table.items() if key not in tables]
    for key in tables:
        for line in table[key]:
            lines += ["", f"[[{key}]]", *(f"{name} = {written(value)}" for name, value in line.items())]
    return "\n".join(lines) + "\n"
