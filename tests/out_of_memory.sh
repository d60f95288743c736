#!/usr/bin/env bash
# Runs the tests of first stores to shared pages (crates/cow_pages_tests/src/out_of_memory_tests.rt) with the first allocation of each
# test failing, then with the second, and so on until all of them pass, since they make fewer. Each test has to answer `OutOfMemory`
# from its store at least once, with both tables as they were. Prints how often each did so, or what went wrong, and ends with 1 then.
# The gate doesn't run this. It takes about six minutes.
set -u
cd "$(dirname "$0")/../crates/cow_pages_tests" || exit 1
tests=$(sed -n '/^#\[test\]/{n;s/^fn \([a-z_]*\).*/\1/p}' src/out_of_memory_tests.rt)
declare -A kept
for ((n = 1; n <= 60; n++)); do
  output=$(rt try --test --fail-alloc "$n" 2>&1)
  passed=0
  for test in $tests; do
    # What the runner says of this test, up to the next one.
    said=$(sed -n "/^test out_of_memory_tests::$test \.\.\./,/^test [a-z_]*::[a-z_]* \.\.\.\|^test result/p" <<<"$output" | sed '$d')
    case $said in
      *"... ok"*) passed=$((passed + 1)) ;;
      *"left: KeptOutOfMemory"*) kept[$test]=$((${kept[$test]:-0} + 1)) ;;
      *"error: OutOfMemory"*) ;; # before its store
      *)
        echo "FAILED: $test, at allocation $n"
        echo "$said"
        exit 1
        ;;
    esac
  done
  [[ $passed == $(wc -w <<<"$tests") ]] && break
done
status=0
for test in $tests; do
  echo "$test: ${kept[$test]:-0}"
  [[ ${kept[$test]:-0} == 0 ]] && status=1
done
exit $status
