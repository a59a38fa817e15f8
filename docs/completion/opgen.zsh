#compdef opgen
# What zsh completes behind opgen: . <(opgen complete zsh). tools/gather-keys writes this file.
_opgen() {
  local word=$words[CURRENT]
  if (( CURRENT == 2 )); then
    compadd -- generate vectors simulate workload check prove install tool help complete --version
    return
  fi
  if [[ $words[CURRENT-1] == -o ]]; then
    _files -/
    return
  fi
  case $words[2]:$(( CURRENT - 1 )):$word in
  generate:*:-*) compadd -- --workers --enable -o ;;
  vectors:*:-*) compadd -- --seed --cycles -o ;;
  simulate:*:-*) compadd -- -o ;;
  install:*:-*) compadd -- --unproved ;;
  help:2:*) compadd -- check complete generate install keys prove simulate tool uninstall vectors workload ;;
  complete:2:*) compadd -- bash zsh ;;
  tool:2:*) compadd -- check-schema delays judge pictures place report rows sheet sweep verilog wrap ;;
  generate:2:*) _files -g '*.toml(-.)' ;;
  vectors:2:*) _files -g '*.toml(-.)' ;;
  simulate:2:*) _files -g '*.vhd(-.)' ;;
  simulate:3:*) _files -g '*.in(-.)' ;;
  simulate:4:*) _files -g '*.out(-.)' ;;
  check:2:*) _files -g '*.toml(-.)' ;;
  check:3:*) _files -g '*.vhd(-.)' ;;
  check:4:*) _files -g '*.in(-.)' ;;
  tool:*)
    if [[ $words[3] == sweep ]] && (( CURRENT > 4 )); then
      _opgen_sweep "$word"
    else
      _files
    fi
    ;;
  install:*) _files -/ ;;
  esac
}
# A key of a specification, or one of the words that it may be.
_opgen_sweep() {
  case $1 in
  version=*) compadd -- version=1 version=2 version=3 version=4 ;;
  kind=*) compadd -- kind=scale kind=fir kind=multiply kind=divide kind=root kind=mcm kind=constdiv kind=poly kind=tfir kind=sop ;;
  exact=*) compadd -- exact=true exact=false ;;
  target=*) compadd -- target=plain target=fixed ;;
  signed=*) compadd -- signed=true signed=false ;;
  out_signed=*) compadd -- out_signed=true out_signed=false ;;
  overflow=*) compadd -- overflow=saturate overflow=wrap ;;
  compressor=*) compadd -- compressor=dadda compressor=counters ;;
  recurrence=*) compadd -- recurrence=restoring recurrence=nonrestoring ;;
  *=*) ;;
  *) compadd -S '' -- version= name= kind= exact= target= period= signed= width= lsb= width_a= lsb_a= width_b= lsb_b= out_lsb= out_width= out_signed= overflow= coefficients= denominator= constants= extra= divisor= taps= compressor= recurrence= lut= offset= ;;
  esac
}
compdef _opgen opgen
