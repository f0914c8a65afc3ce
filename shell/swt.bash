# Completion for bash: source this file. Written by `shell/words write`.
_swt() {
  local word="${COMP_WORDS[COMP_CWORD]}" before="${COMP_WORDS[COMP_CWORD - 1]}" command="" it words=""
  for it in "${COMP_WORDS[@]:1:COMP_CWORD-1}"; do
    [[ $it == --fresh || $it == --plain || $it == --unproved ]] || { command="$it"; break; }
  done
  case $command in
    "") words="check mean code run replay help explain install --version --fresh --plain --unproved" ;;
    help) words="check mean code run replay" ;;
    explain) words="L1 L2 L3 L4 L5 P2 P3 P4 Y1 Y2 Y3 Y4 Y5 Y6 S1 S2 S3 S4 S5 S6 F1 F2 F3 F4 F5 F6 F7 F8 V1 V2 V3 V4 V5 V6 V7 V8 V9 V10 V11 V12 V13 V14 V15 V16 T1 T2 T3 R1 U1 W1 foreach if wait arrays keys functions types printing warnings blocked faults limits traces while for break continue return def app float bool const switch elif and or not append length sprintf sum max min join repeat count" ;;
    check) words="--explain --explain=all --json --deny-warnings" ;;
    mean) words="--rounds --explain --explain=all --progress" ;;
    code) words="--after --dot --draw --explain --explain=all" ;;
    run) words="--engines --workers --steps --trace --explain --explain=all --progress" ;;
    replay) words="--explain --explain=all" ;;
  esac
  case $before in --rounds|--engines|--workers|--steps) return ;; --trace) words="" ;; --after) words="parse types fold lower merge emit" ;; esac
  if [[ -z $command || $command == help || $command == explain || $before == --after || $word == -* ]]; then
    mapfile -t COMPREPLY < <(compgen -W "$words" -- "$word")
  else
    mapfile -t COMPREPLY < <(compgen -f -- "$word")
  fi
}
complete -o filenames -F _swt swt
