"""Makes the words that a shell completes, docs/completion/, from the table of keys and the table of commands."""
from pathlib import Path

from ..commands import COMMANDS, STORES
from .table import TOP, Key, Table

# The commands of bin/opgen beside those of the program, with their words.
SHELLS = ("bash", "zsh")
HIDDEN = ("explain", "gather-counts", "gather-crates", "gather-keys", "gather-lemmas", "package", "read-promise")
OTHERS = ("prove", "install", "tool", "help", "complete", "--version")
# What the name of a file ends with, by the word of a command.
ENDS = {"SPEC": "toml", "VHDL": "vhd", "VECTORS": "in", "OUT": "out"}

BASH = """\
# What bash completes behind opgen: . <(opgen complete bash). tools/gather-keys writes this file.
_opgen_files() {
  compopt -o filenames 2>/dev/null
  mapfile -t COMPREPLY < <(compgen -f -X "!*.$1" -- "$2"; compgen -d -- "$2")
}
_opgen_words() {
  mapfile -t COMPREPLY < <(compgen -W "$1" -- "$2")
}
# The words of the line, which bash itself would cut at equals signs too.
_opgen() {
  local line=${COMP_LINE:0:COMP_POINT} at word
  local -a typed
  read -ra typed <<<"$line"
  [[ $line != *" " ]] || typed+=("")
  at=$((${#typed[@]} - 1))
  word=${typed[at]}
  COMPREPLY=()
  _opgen_at
  [[ $word != *=* || $COMP_WORDBREAKS != *=* ]] || COMPREPLY=("${COMPREPLY[@]#"${word%%=*}="}")
}
_opgen_at() {
  if [ "$at" = 1 ]; then
    _opgen_words "@commands@" "$word"
    return
  fi
  if [ "${typed[at - 1]}" = -o ]; then
    mapfile -t COMPREPLY < <(compgen -d -- "$word")
    return
  fi
  case ${typed[1]}:$at:$word in
@options@
  help:2:*) _opgen_words "@pages@" "$word" ;;
  complete:2:*) _opgen_words "@shells@" "$word" ;;
  tool:2:*) _opgen_words "@tools@" "$word" ;;
@files@
  tool:*)
    if [ "${typed[2]}" = sweep ] && [ "$at" -gt 3 ]; then
      _opgen_sweep "$word"
    else
      _opgen_files "*" "$word"
    fi
    ;;
  install:*) mapfile -t COMPREPLY < <(compgen -d -- "$word") ;;
  esac
}
# A key of a specification, or one of the words that it may be.
_opgen_sweep() {
  compopt -o nospace 2>/dev/null
  case $1 in
@values@
  *=*) ;;
  *) _opgen_words "@keys@" "$1" ;;
  esac
}
complete -F _opgen opgen
"""

ZSH = """\
#compdef opgen
# What zsh completes behind opgen: . <(opgen complete zsh). tools/gather-keys writes this file.
_opgen() {
  local word=$words[CURRENT]
  if (( CURRENT == 2 )); then
    compadd -- @commands@
    return
  fi
  if [[ $words[CURRENT-1] == -o ]]; then
    _files -/
    return
  fi
  case $words[2]:$(( CURRENT - 1 )):$word in
@options@
  help:2:*) compadd -- @pages@ ;;
  complete:2:*) compadd -- @shells@ ;;
  tool:2:*) compadd -- @tools@ ;;
@files@
  tool:*)
    if [[ $words[3] == sweep ]] && (( CURRENT > 4 )); then
      _opgen_sweep "$word"
    else
      _files
    fi
    ;;
  install:*) _files -/ ;;
  esac
}
# A key of a specification, or one of the words that it may be.
_opgen_sweep() {
  case $1 in
@values@
  *=*) ;;
  *) compadd -S '' -- @keys@ ;;
  esac
}
compdef _opgen opgen
"""


def tools() -> list[str]:
    """The tools that designers use, as `opgen tool` lists them."""
    paths = (path for path in sorted((TOP / "tools").iterdir()) if path.is_file() and path.stat().st_mode & 0o100)
    return [path.name.removesuffix(".py") for path in paths if path.name not in HIDDEN]


def pages() -> list[str]:
    """What `opgen help` has a page of."""
    return sorted({path.stem for path in (TOP / "docs/help").glob("*.txt")} - {"opgen"} | {"keys"})


def options(command: str) -> list[str]:
    return [*COMMANDS[command].options, *(["-o"] if command in STORES else [])]


def made_words(key: Key, table: Table) -> list[str]:
    """The words that a key may be in the last version, but for those of which no circuit is made yet."""
    words = table.words(key, table.versions[-1]) or []
    return [word for word in words if not key.unmade or any(word in row.get("but", []) for row in key.unmade)]


def values(table: Table) -> dict[str, list[str]]:
    """The keys whose values are some words, with those words."""
    version = table.versions[-1]
    found = {key.name: made_words(key, table) for key in table.keys.values()}
    found |= {key.name: ["true", "false"] for key in table.keys.values() if key.type == "flag"}
    found |= {"version": list(map(str, table.versions))}
    return {name: held for name, held in found.items() if held}


def swept(table: Table) -> list[str]:
    """The keys whose values a sweep lists, with their equals sign; none of which no circuit is made yet."""
    made = (key for key in table.keys.values() if not any(row.keys() <= {"since"} for row in key.unmade))
    return [f"{key.name}=" for key in made if key.type != "tables"]


def files(call: str) -> list[str]:
    """The cases that complete the files of a command, by the place of a word among those of the command."""
    cases = []
    for command, held in COMMANDS.items():
        cases += [f"  {command}:{at}:*) {call.format(ENDS[word])} ;;" for at, word in enumerate(held.words, 2) if word in ENDS]
    return cases


def filled(text: str, parts: dict[str, str]) -> str:
    for name, part in parts.items():
        text = text.replace(f"@{name}@", part)
    return text


def script(shell: str, table: Table) -> str:
    """The script of a shell."""
    is_bash = shell == "bash"
    word = '_opgen_words "{0}" "$word"' if is_bash else "compadd -- {0}"
    value = '_opgen_words "{0}" "$1"' if is_bash else "compadd -- {0}"
    call = '_opgen_files {0} "$word"' if is_bash else "_files -g '*.{0}(-.)'"
    optional = [f"  {command}:*:-*) {word.format(' '.join(options(command)))} ;;" for command in COMMANDS if options(command)]
    optional += [f"  install:*:-*) {word.format('--unproved')} ;;"]
    listed = [f"  {key}=*) {value.format(' '.join(f'{key}={one}' for one in held))} ;;" for key, held in values(table).items()]
    return filled(BASH if is_bash else ZSH, {
        "commands": " ".join([*COMMANDS, *OTHERS]), "options": "\n".join(optional), "pages": " ".join(pages()),
        "shells": " ".join(SHELLS), "tools": " ".join(tools()), "files": "\n".join(files(call)), "values": "\n".join(listed),
        "keys": " ".join(swept(table)),
    })


def scripts(table: Table) -> dict[str, str]:
    """The scripts by their files."""
    return {str(Path("docs/completion") / f"opgen.{shell}"): script(shell, table) for shell in SHELLS}
