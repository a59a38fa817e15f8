# What bash completes behind opgen: . <(opgen complete bash). tools/gather-keys writes this file.
_opgen_files() {
  compopt -o filenames 2>/dev/null
  mapfile -t COMPREPLY < <(compgen -f -X "!*.$1" -- "$2"; compgen -d -- "$2")
}
_opgen_words() {
  mapfile -t COMPREPLY < <(compgen -W "$1" -- "$2")
}
# The words of the line, which bash itself would cut at equals signs too.
_opgen() {
  local line=${COMP_LINE:0:COMP_POINT} at word
  local -a typed
  read -ra typed <<<"$line"
  [[ $line != *" " ]] || typed+=("")
  at=$((${#typed[@]} - 1))
  word=${typed[at]}
  COMPREPLY=()
  _opgen_at
  [[ $word != *=* || $COMP_WORDBREAKS != *=* ]] || COMPREPLY=("${COMPREPLY[@]#"${word%%=*}="}")
}
_opgen_at() {
  if [ "$at" = 1 ]; then
    _opgen_words "generate vectors simulate workload check prove install tool help complete --version" "$word"
    return
  fi
  if [ "${typed[at - 1]}" = -o ]; then
    mapfile -t COMPREPLY < <(compgen -d -- "$word")
    return
  fi
  case ${typed[1]}:$at:$word in
  generate:*:-*) _opgen_words "--workers --enable -o" "$word" ;;
  vectors:*:-*) _opgen_words "--seed --cycles -o" "$word" ;;
  simulate:*:-*) _opgen_words "-o" "$word" ;;
  install:*:-*) _opgen_words "--unproved" "$word" ;;
  help:2:*) _opgen_words "check complete generate install keys prove simulate tool uninstall vectors workload" "$word" ;;
  complete:2:*) _opgen_words "bash zsh" "$word" ;;
  tool:2:*) _opgen_words "check-schema delays judge pictures place report rows sheet sweep verilog wrap" "$word" ;;
  generate:2:*) _opgen_files toml "$word" ;;
  vectors:2:*) _opgen_files toml "$word" ;;
  simulate:2:*) _opgen_files vhd "$word" ;;
  simulate:3:*) _opgen_files in "$word" ;;
  simulate:4:*) _opgen_files out "$word" ;;
  check:2:*) _opgen_files toml "$word" ;;
  check:3:*) _opgen_files vhd "$word" ;;
  check:4:*) _opgen_files in "$word" ;;
  tool:*)
    if [ "${typed[2]}" = sweep ] && [ "$at" -gt 3 ]; then
      _opgen_sweep "$word"
    else
      _opgen_files "*" "$word"
    fi
    ;;
  install:*) mapfile -t COMPREPLY < <(compgen -d -- "$word") ;;
  esac
}
# A key of a specification, or one of the words that it may be.
_opgen_sweep() {
  compopt -o nospace 2>/dev/null
  case $1 in
  version=*) _opgen_words "version=1 version=2 version=3 version=4" "$1" ;;
  kind=*) _opgen_words "kind=scale kind=fir kind=multiply kind=divide kind=root kind=mcm kind=constdiv kind=poly kind=tfir kind=sop" "$1" ;;
  exact=*) _opgen_words "exact=true exact=false" "$1" ;;
  target=*) _opgen_words "target=plain target=fixed" "$1" ;;
  signed=*) _opgen_words "signed=true signed=false" "$1" ;;
  out_signed=*) _opgen_words "out_signed=true out_signed=false" "$1" ;;
  overflow=*) _opgen_words "overflow=saturate overflow=wrap" "$1" ;;
  compressor=*) _opgen_words "compressor=dadda compressor=counters" "$1" ;;
  recurrence=*) _opgen_words "recurrence=restoring recurrence=nonrestoring" "$1" ;;
  *=*) ;;
  *) _opgen_words "version= name= kind= exact= target= period= signed= width= lsb= width_a= lsb_a= width_b= lsb_b= out_lsb= out_width= out_signed= overflow= coefficients= denominator= constants= extra= divisor= taps= compressor= recurrence= lut= offset=" "$1" ;;
  esac
}
complete -F _opgen opgen
