"""Which sort of wrapper an operator has."""
from dataclasses import dataclass


@dataclass(frozen=True)
class Sort:
    """The ports of a wrapper beside data and clock: whether the circuit has a clock enable, and the wrapper a valid bit; and whether
    the operator is a filter, whose outputs depend on earlier inputs too."""

    has_enable: bool
    has_valid: bool = False
    is_filter: bool = False

    @property
    def is_gated(self) -> bool:
        """Whether the valid bit is the clock enable, so that a filter takes valid inputs alone."""
        return self.has_valid and self.is_filter

    @property
    def has_ce(self) -> bool:
        """Whether the wrapper has a port for the clock enable."""
        return self.has_enable and not self.is_gated
