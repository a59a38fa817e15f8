"""Where the module is, and what it takes of the tools beside it."""
from __future__ import annotations

import importlib.util
import sys
from pathlib import Path

# The checkout or the installation that this module is part of.
TOP = Path(__file__).resolve().parent.parent.parent


def share_tools() -> None:
    """Makes tools/opgenlib the package `opgenlib`, without the rest of tools/ among the modules."""
    if "opgenlib" not in sys.modules:
        place = TOP / "tools/opgenlib"
        found = importlib.util.spec_from_file_location("opgenlib", place / "__init__.py", submodule_search_locations=[str(place)])
        assert found and found.loader
        sys.modules["opgenlib"] = importlib.util.module_from_spec(found)
        found.loader.exec_module(sys.modules["opgenlib"])


share_tools()
