# shellcheck shell=sh disable=SC2154
# What the examples share: a server of their own, and commands that are shown. `here` is the folder of the example.
set -eu
# shellcheck source=examples/program.sh
. "${here:?}/../program.sh"
work=$(mktemp -d "${TMPDIR:-/tmp}/healthd.XXXXXX")
server=
trap 'status=$?; [ -z "$server" ] || kill "$server" 2>/dev/null || true; rm -rf "$work"; exit "$status"' EXIT

start() { # OPTION..: starts a server, and waits until it serves
  : >"$work/out"
  "$HEALTHD" run --listen 127.0.0.1:0 --control "$work/control" --report "$work/report" --script "$here/services" --quiet "$@" \
    >"$work/out" </dev/null &
  server=$!
  until grep -q '^report ' "$work/out"; do
    kill -0 "$server" || exit 1
    sleep 0.05
  done
  port=$(sed -n 's/^listening 127.0.0.1://p' "$work/out")
}

# A command of healthd with its answer, as it would be with the places of the units in packaging/systemd. `report` is `tell` at the report place.
show() { # COMMAND WORD..
  command=$1
  shift
  case $command in
    ask) echo "$ healthd ask --port 8080 $*" && set -- ask --port "$port" "$@" ;;
    report) echo "$ healthd tell --control /run/healthd/report $*" && set -- tell --control "$work/report" "$@" ;;
    *) echo "$ healthd $command --control /run/healthd/control${*:+ $*}" && set -- "$command" --control "$work/control" "$@" ;;
  esac
  "$HEALTHD" "$@" || echo "exit status $?"
}

stop() { # stops the server, which has to end well
  show stop
  wait "$server"
  server=
}
