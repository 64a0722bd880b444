# shellcheck shell=sh
# Finds the program for an example in the folder `here`: HEALTHD, or that of the package or the checkout, or the installed one.
if [ -z "${HEALTHD-}" ]; then
  top=${here:?}/../..
  for HEALTHD in "$top/bin/healthd" "$top/out/healthd" "$top/out/try/program/healthd" "$(command -v healthd || true)"; do
    [ ! -x "$HEALTHD" ] || break
  done
  [ -x "$HEALTHD" ] || { echo "no program healthd: in a checkout 'make try' compiles one" >&2 && exit 1; }
  case $HEALTHD in */out/try/*) echo "healthd is unproved here, and slower: 'make' proves and builds out/healthd" >&2 ;; esac
fi
HEALTHD=$(readlink -f "$HEALTHD")
