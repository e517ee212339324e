#!/bin/sh
# Runs a command once for each allocation that it asks for, with that allocation failing, and counts what it answers:
# its status with the first line on the error stream, or `as before` where status and output are those of the whole run.
#   bench/fail_each.sh crates/affc/out/affc run examples/blur.c examples/blur.data
# A file for its standard input may be named in INPUT.
set -e
cd "$(dirname "$0")/.."
place=$(mktemp -d)
trap 'rm -r "$place"' EXIT
gcc -shared -fPIC -O2 -o "$place/fail_nth.so" bench/fail_nth.c -ldl
input=${INPUT:-/dev/null}
FAIL_COUNT="$place/count" LD_PRELOAD="$place/fail_nth.so" "$@" <"$input" >"$place/whole" 2>"$place/said" && whole=0 || whole=$?
count=$(cat "$place/count")
echo "$count allocations, status $whole"
i=1
while [ "$i" -le "$count" ]; do
  FAIL_NTH=$i LD_PRELOAD="$place/fail_nth.so" "$@" <"$input" >"$place/out" 2>"$place/err" && status=0 || status=$?
  if [ "$status" = "$whole" ] && cmp -s "$place/out" "$place/whole"; then
    echo "as before"
  else
    echo "status $status: $(head -n 1 "$place/err")"
  fi
  i=$((i + 1))
done | sort | uniq -c
