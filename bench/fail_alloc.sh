#!/usr/bin/env bash
# Refuses each allocation of a run of the built program in turn: the status has to be 6, with the line `out of memory` and nothing
# written, or, past the last allocation, 0 with the whole text. Without words it does so for two jobs, of which the second has
# tables of names, comments and paths. It needs a C compiler (`cc`) for refuse.c; JSGEN may name another program.
set -u
top=$(cd "$(dirname "$0")/.." && pwd)
if [ $# -eq 0 ]; then
  "$0" "$top/examples/first.json" && "$0" "$top/examples/renamed.json"
  exit
fi
job=$(realpath "$1")
program=${JSGEN:-$top/crates/jsgen_cli/out/jsgen_cli}
work=$(mktemp -d)
trap 'rm -r "$work"' EXIT
cc -shared -fPIC -O1 -o "$work/refuse.so" "$top/bench/refuse.c" -ldl || exit 1
"$program" print <"$job" >"$work/whole" || exit 1
for number in $(seq 1 "${2:-100000}"); do
  REFUSE=$number LD_PRELOAD=$work/refuse.so "$program" print <"$job" >"$work/out" 2>"$work/err"
  status=$?
  case "$status" in
    6) [ ! -s "$work/out" ] && [ "$(cat "$work/err")" = "out of memory" ] || { echo "allocation $number: status 6, and written: $(cat "$work/out" "$work/err")"; exit 1; } ;;
    0) cmp -s "$work/out" "$work/whole" || { echo "allocation $number: status 0 with another text"; exit 1; }
       echo "$(basename "$job"): every allocation up to $((number - 1)) was refused in turn: status 6, nothing written; then status 0"; exit 0 ;;
    *) echo "allocation $number: status $status"; exit 1 ;;
  esac
done
echo "more than ${2:-100000} allocations"
exit 1
