"""Specifications as dicts: in values of Python alone, read from TOML, and real coefficients as whole numbers."""
from __future__ import annotations

from collections.abc import Iterable, Mapping
from typing import Any

from .numbers import plain


def plain_value(key: str, value: Any) -> Any:
    """A value of a specification with numbers, lists and dicts of Python, without those that no key takes."""
    value = plain(value)
    if isinstance(value, (bool, int, str)):
        return value
    if isinstance(value, (list, tuple)):
        return [plain_value(key, one) for one in value]
    if isinstance(value, Mapping):
        return plain_table(value)
    how = "; `opgen.rounded` makes whole numbers over a power of two" if isinstance(value, float) else ""
    raise TypeError(f"{key} has {value!r}, which no key of a specification takes{how}")


def plain_table(document: Mapping[str, Any]) -> dict[str, Any]:
    """A document of its own, in values of Python alone."""
    return {key: plain_value(key, value) for key, value in document.items()}


def table_of(text: str) -> dict[str, Any]:
    """The dict of a document that the program accepts."""
    try:
        import tomllib
    except ImportError:
        try:
            import tomli as tomllib  # the same module, for an older Python
        except ImportError:
            raise ImportError("to read TOML, Python 3.11 or the package tomli is needed; or give the specification as a dict") from None
    return tomllib.loads(text.lstrip("\ufeff"))


def rounded(values: Iterable[float], power: int) -> dict[str, Any]:
    """The keys `coefficients` and `denominator` for real coefficients, each rounded to the nearest whole number over 2^power, and halves to
    the even one."""
    return {"coefficients": [round(plain(value) * (1 << power)) for value in values], "denominator": 1 << power}
