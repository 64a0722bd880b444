# bash completion for healthd; made by packaging/pages.py
_healthd() {
  local word=${COMP_WORDS[COMP_CWORD]} last=${COMP_WORDS[COMP_CWORD-1]} command=${COMP_WORDS[1]}
  COMPREPLY=()
  if ((COMP_CWORD == 1)); then
    mapfile -t COMPREPLY < <(compgen -W "body replay serve run ask tell stop status history journal observe help --help --version" -- "$word")
    return
  fi
  case "$command $last" in
    "ask --expect") mapfile -t COMPREPLY < <(compgen -W "UNKNOWN SERVING NOT_SERVING SERVICE_UNKNOWN" -- "$word") && return ;;
    "run --control" | "run --report" | "run --script" | "run --journal" | "tell --control" | "stop --control" | "status --control" | "history --control" | "observe --control") compopt -o filenames 2>/dev/null; mapfile -t COMPREPLY < <(compgen -f -- "$word") && return ;;
    "serve --port" | "serve --workers" | "serve --calls" | "run --listen" | "run --plain" | "run --threads" | "run --connections" | "run --watches" | "ask --port" | "ask --host" | "ask --name" | "ask --timeout" | "tell --timeout" | "stop --timeout" | "status --timeout" | "history --timeout" | "history --last" | "observe --every" | "observe --timeout") return ;;
  esac
  case $command in
    body) mapfile -t COMPREPLY < <(compgen -W "--help" -- "$word") ;;
    replay) mapfile -t COMPREPLY < <(compgen -W "--help" -- "$word") ;;
    serve) mapfile -t COMPREPLY < <(compgen -W "--port --workers --calls --help" -- "$word") ;;
    run) mapfile -t COMPREPLY < <(compgen -W "--listen --plain --control --report --script --journal --threads --connections --watches --quiet --check --help" -- "$word") ;;
    ask) mapfile -t COMPREPLY < <(compgen -W "--port --host --name --watch --timeout --expect --help" -- "$word") ;;
    tell) mapfile -t COMPREPLY < <(compgen -W "--control --timeout --help" -- "$word") ;;
    stop) mapfile -t COMPREPLY < <(compgen -W "--control --timeout --help" -- "$word") ;;
    status) mapfile -t COMPREPLY < <(compgen -W "--control --timeout --json --help" -- "$word") ;;
    history) mapfile -t COMPREPLY < <(compgen -W "--control --timeout --last --follow --json --help" -- "$word") ;;
    journal) mapfile -t COMPREPLY < <(compgen -W "--json --help" -- "$word") ;;
    observe) mapfile -t COMPREPLY < <(compgen -W "--control --every --timeout --once --verbose --help" -- "$word") ;;
    help) mapfile -t COMPREPLY < <(compgen -W "body replay serve run ask tell stop status history journal observe help" -- "$word") ;;
  esac
  case $command in journal) [[ $word == -* ]] || { compopt -o filenames 2>/dev/null; mapfile -t COMPREPLY < <(compgen -f -- "$word"); } ;; esac
}
complete -F _healthd healthd
