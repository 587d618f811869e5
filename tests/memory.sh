#!/usr/bin/env bash
# office2 and C's allocator: what no contract can say, so it is run.
#   1. under valgrind on the whole script: no error, no leak, as many frees as allocations;
#   2. with little address space, so that C itself refuses: the office answers, and ends well.
# Run from the repository's root after `rt run` in crates/office2, which leaves the program in its out folder.
set -u
office=crates/office2/out/office2
script=crates/office2/stdin
log=$(mktemp)
out=$(mktemp)
trap 'rm -f "$log" "$out"' EXIT
bad=0

valgrind --leak-check=full --error-exitcode=9 "$office" < "$script" > "$out" 2> "$log"
status=$?
grep -E 'total heap usage|in use at exit|ERROR SUMMARY' "$log"
[ $status -eq 0 ] || { echo "valgrind: status $status"; bad=1; }
usage=$(grep 'total heap usage' "$log" | tr -d ,)
allocs=$(echo "$usage" | sed -E 's/.*usage: ([0-9]+) allocs.*/\1/')
frees=$(echo "$usage" | sed -E 's/.* ([0-9]+) frees.*/\1/')
[ "$allocs" = "$frees" ] || { echo "valgrind: $allocs allocations, $frees frees"; bad=1; }
cmp -s "$out" crates/office2/stdout || { echo "valgrind: the answers differ from crates/office2/stdout"; bad=1; }

# the smallest address space in which the program starts at all, and a little more
least=0
for kib in $(seq 2000 100 12000); do
  if (ulimit -v "$kib"; echo held | "$office") > /dev/null 2>&1; then least=$kib; break; fi
done
[ "$least" -gt 0 ] || { echo "little memory: it doesn't start with 12 MB"; bad=1; }
for more in 0 100 200 400; do
  (ulimit -v $((least + more)); "$office" < "$script") > "$out" 2> /dev/null
  status=$?
  echo "$((least + more)) KiB: status $status, $(grep -c '^full$' "$out") full, $(tail -n 1 "$out")"
  [ $status -eq 0 ] || bad=1
  python3 tests/account.py --quiet --scarce "$script" "$out" || bad=1
done
exit $bad
