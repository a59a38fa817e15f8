"""Explains why words are no command."""
from ..commands import COMMANDS, BadWords, call_of


def explain(words: list[str]) -> list[str]:
    try:
        call = call_of(words)
    except BadWords as fault:
        said = [f"opgen: {fault}"]
        if words and words[0] in COMMANDS:
            said.append(f"  {COMMANDS[words[0]].usage(words[0])}")
        return said
    return [f"opgen: this program has no command {call.command!r}"]
