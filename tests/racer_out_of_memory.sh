#!/usr/bin/env bash
# Runs the tests of a racing run on several processors (crates/thread_racer_tests) with one of a test's allocations failing: each of the first
# ones, and then fewer and fewer of those that come later, until all tests pass, since they make fewer. With arguments it tries the
# allocations with these numbers. Each test has to pass or to end with the error that memory ran out: a crash, a hang or another answer is
# refused. Prints how often each ended so, or what went wrong, and ends with 1 then.
# The gate doesn't run this. A number takes ten seconds on an idle machine, and all of them half an hour.
set -u
cd "$(dirname "$0")/../crates/thread_racer_tests" || exit 1
numbers=("$@")
if (($# == 0)); then
  for ((n = 1; n <= 100000; n += 1 + n / 16)); do numbers+=("$n"); done
fi
declare -A failed
for n in "${numbers[@]}"; do
  output=$(rt try --test --fail-alloc "$n" 2>&1)
  tests=$(sed -n 's/^tests: //p' <<<"$output")
  names=$(sed -n 's/^test \([a-z_]*::[a-z_]*\) \.\.\..*/\1/p' <<<"$output")
  if [[ -z $tests || $(wc -w <<<"$names") != "$tests" ]]; then
    echo "FAILED: at allocation $n not all tests were run"
    echo "$output"
    exit 1
  fi
  passed=0
  for name in $names; do
    # What the runner says of this test, up to the next one.
    said=$(sed -n "/^test $name \.\.\./,/^test [a-z_]*::[a-z_]* \.\.\.\|^test result/p" <<<"$output" | sed '$d')
    case $said in
      *"... ok"*) passed=$((passed + 1)) ;;
      # The second is what an allocation of the test's own gives.
      *"error: OutOfMemory"*"status 1"* | *"error: AllocError"*"status 1"*) failed[$name]=$((${failed[$name]:-0} + 1)) ;;
      *)
        echo "FAILED: $name, at allocation $n"
        echo "$said"
        exit 1
        ;;
    esac
  done
  [[ $passed == "$tests" ]] && break
done
for name in "${!failed[@]}"; do
  echo "$name: ${failed[$name]}"
done | sort
