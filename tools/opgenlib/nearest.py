"""The word that somebody may have meant."""
from collections.abc import Iterable
from difflib import get_close_matches

# No word that is meant is longer.
MOST_LETTERS = 64


def nearest(word: str, known: Iterable[str]) -> str:
    """The known word that is most like another, empty where none is like it."""
    found = get_close_matches(word.lower(), list(known), 1) if len(word) <= MOST_LETTERS else []
    return found[0] if found else ""


def meant(word: str, known: Iterable[str]) -> str:
    """The question whether a known word was meant, before what may follow it; empty where none is like it."""
    near = nearest(word, known)
    return f" did you mean {near}?" if near else ""
