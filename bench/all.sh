#!/usr/bin/env bash
# Prints all figures of speed, journals and memory in Markdown: what machine this is, a guest's steps on one processor, recordings by
# workers and epochs, what marks cost and buy, and how much memory commands take. It takes some minutes.
#   bench/all.sh [RUNS]      RUNS: how many runs each figure is the median of; 5 if it isn't given
#   DPCLI=PROGRAM            another program than crates/dpcli/out/dpcli
#   FOLDER=FOLDER            where the journals are; /dev/shm, where a sync costs next to nothing, if it isn't given
# Memory is what the system counts of a child of Python 3, so no figure is below 10 MiB or so.
set -u
here=$(cd "$(dirname "${BASH_SOURCE[0]}")" && pwd)
dpcli=$(realpath -m "${DPCLI:-$here/../crates/dpcli/out/dpcli}")
runs=${1:-5}
export DPCLI=$dpcli
work=$(mktemp -d -p "${FOLDER:-/dev/shm}") || exit 1
trap 'rm -rf "$work"' EXIT

# The median of some recordings of a guest on one processor, in tenths of a million steps a second.
one_processor() {
  local speeds=() sorted run from to steps
  for ((run = 0; run < runs; run++)); do
    rm -f "$work/journal"
    from=${EPOCHREALTIME/[^0-9]/}
    "$dpcli" record "$here/$1.elf" "$work/journal" --ahead 1 --workers 1 --epoch 1000000 --mark 0 >"$work/out" 2>"$work/note" </dev/null || exit 1
    to=${EPOCHREALTIME/[^0-9]/}
    read -r _ _ _ _ _ steps _ <"$work/note"
    speeds+=("$((steps * 10 / (to - from)))")
  done
  mapfile -t sorted < <(printf '%s\n' "${speeds[@]}" | sort -n)
  echo "${sorted[runs / 2]}"
}

# The most memory that a run of the program takes, in KiB.
memory() {
  python3 - "$dpcli" "$@" <<'PY'
import resource, subprocess, sys
ran = subprocess.run(sys.argv[1:], stdin=subprocess.DEVNULL, stdout=subprocess.DEVNULL, stderr=subprocess.DEVNULL)
if ran.returncode:
    sys.exit(f"{sys.argv[1:]}: status {ran.returncode}")
print(resource.getrusage(resource.RUSAGE_CHILDREN).ru_maxrss)
PY
}

# A number of tenths, with its point.
tenths() { echo "$(($1 / 10)).$(($1 % 10))"; }

echo "$(sed -n 's/^model name[^:]*: //p' /proc/cpuinfo | head -n 1), $(nproc) processors, $(date -u +%F); medians of $runs runs; load before: $(cut -d ' ' -f 1 /proc/loadavg)."
echo
echo "## One processor"
echo
echo "Million steps a second of a recording in which nothing races (\`--ahead 1\`), with the longest epochs and no marks."
echo
echo "| guest | million steps a second |"
echo "|---|---|"
for guest in private_1 private_4 large_1 large_4 locked_4 counter_4 reserved_4; do
  speed=$(one_processor "$guest") || exit 1
  echo "| $guest | $(tenths "$speed") |"
done
echo
echo "## Recordings"
echo
"$here/table.sh" "$runs" || exit 1
echo
echo "## Marks and replays"
echo
"$here/marks.sh" "$runs" || exit 1
echo
echo "## Memory"
echo
echo "MiB at most, at the other options' defaults."
echo
echo "| guest | record, \`--workers\` 1 | 4 | replay, \`--workers\` 1 | 4 | bytes of the journal |"
echo "|---|---|---|---|---|---|"
for guest in private_1 private_4 large_4; do
  row="| $guest"
  for workers in 1 4; do
    rm -f "$work/journal"
    kib=$(memory record "$here/$guest.elf" "$work/journal" --workers "$workers") || exit 1
    row+=" | $((kib / 1024))"
  done
  for workers in 1 4; do
    kib=$(memory replay "$work/journal" --workers "$workers") || exit 1
    row+=" | $((kib / 1024))"
  done
  echo "$row | $(stat -c %s "$work/journal") |"
done
