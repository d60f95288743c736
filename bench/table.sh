#!/usr/bin/env bash
# Prints a table in Markdown of how fast recordings of this folder's guests are. Each figure is the median of some runs.
#   bench/table.sh [RUNS [GUEST..]]   RUNS: 5 if it isn't given. GUEST: private_4, say; all if none is given
#   DPCLI=PROGRAM                     another program than crates/dpcli/out/dpcli
#   FOLDER=FOLDER                     where the journals are; /dev/shm, where a sync costs next to nothing, if it isn't given
set -u
here=$(cd "$(dirname "${BASH_SOURCE[0]}")" && pwd)
dpcli=$(realpath -m "${DPCLI:-$here/../crates/dpcli/out/dpcli}")
runs=${1:-5}
shift
guests=("$@")
((${#guests[@]})) || guests=({private,large,locked,counter,reserved}_{1,2,4})
work=$(mktemp -d -p "${FOLDER:-/dev/shm}") || exit 1
trap 'rm -rf "$work"' EXIT

# Records a guest once. Leaves the microseconds in $micros, and of the report the fields in $epochs, $squashes and $steps.
record() {
  local guest=$1 from to report
  shift
  rm -f "$work/journal"
  from=${EPOCHREALTIME/[^0-9]/}
  "$dpcli" record "$here/$guest.elf" "$work/journal" --mark 0 "$@" >"$work/out" 2>"$work/report" </dev/null
  status=$?
  to=${EPOCHREALTIME/[^0-9]/}
  micros=$((to - from))
  read -r _ epochs _ squashes _ steps report <"$work/report"
  if ((status != 0)) || [[ $report != *" end exit 0 state "* ]] || ! cmp -s "$work/out" "$here/$guest.out"; then
    echo "record $guest $*: status $status, $(cat "$work/report" "$work/out")" >&2
    exit 1
  fi
}

# speed GUEST OPTIONS..: leaves the median in $speed, in tenths of a million steps a second. Adds to $all_epochs and $all_squashes.
speed() {
  local figures=() sorted run
  for ((run = 0; run < runs; run++)); do
    record "$@"
    figures+=("$((steps * 10 / micros))")
    all_epochs=$((all_epochs + epochs))
    all_squashes=$((all_squashes + squashes))
  done
  mapfile -t sorted < <(printf '%s\n' "${figures[@]}" | sort -n)
  speed=${sorted[runs / 2]}
}

# A number of tenths, with its point.
tenths() { echo "$(($1 / 10)).$(($1 % 10))"; }

echo "Million steps a second; $runs runs each, $(nproc) processors, $(date -u +%F)."
echo
echo "| guest | \`--epoch\` | million steps | epochs | \`--ahead 1\` | \`--workers 1\` | 2 | 4 | squashes in 1,000 epochs |"
echo "|---|---|---|---|---|---|---|---|---|"
for guest in "${guests[@]}"; do
  for epoch in 20000 200000; do
    all_epochs=0 all_squashes=0
    speed "$guest" --epoch "$epoch" --ahead 1
    row=$(tenths "$speed")
    all_epochs=0 all_squashes=0
    for workers in 1 2 4; do
      speed "$guest" --epoch "$epoch" --workers "$workers"
      row+=" | $(tenths "$speed")"
    done
    echo "| $guest | $epoch | $(tenths $((steps / 100000))) | $epochs | $row | $(tenths $((all_squashes * 10000 / all_epochs))) |"
  done
done
