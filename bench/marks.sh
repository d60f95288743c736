#!/usr/bin/env bash
# Prints a table in Markdown of what marks cost and buy, for guests of this folder: bytes of journals, and milliseconds of recordings and
# of replays, each the median of some runs.
#   bench/marks.sh [RUNS [GUEST..]]   RUNS: 5 if it isn't given. GUEST: private_4, say; private_1, private_4, large_1 and large_4 if none is
#                                     given, or the path of an ELF file
#   DPCLI=PROGRAM                     another program than crates/dpcli/out/dpcli
#   FOLDER=FOLDER                     where the journals are; /dev/shm, where a sync costs next to nothing, if it isn't given
set -u
here=$(cd "$(dirname "${BASH_SOURCE[0]}")" && pwd)
dpcli=$(realpath -m "${DPCLI:-$here/../crates/dpcli/out/dpcli}")
runs=${1:-5}
shift
guests=("$@")
((${#guests[@]})) || guests=(private_1 private_4 large_1 large_4)
work=$(mktemp -d -p "${FOLDER:-/dev/shm}") || exit 1
trap 'rm -rf "$work"' EXIT

# timed WORDS..: runs the program some times, and leaves the median in $median, in milliseconds. A recording begins with a new journal.
timed() {
  local times=() sorted run from to
  for ((run = 0; run < runs; run++)); do
    [[ $1 == record ]] && rm -f "$3"
    from=${EPOCHREALTIME/[^0-9]/}
    if ! "$dpcli" "$@" >"$work/out" 2>"$work/note" </dev/null; then
      echo "$*: $(tail -n 1 "$work/note")" >&2
      exit 1
    fi
    to=${EPOCHREALTIME/[^0-9]/}
    times+=("$(((to - from + 500) / 1000))")
  done
  mapfile -t sorted < <(printf '%s\n' "${times[@]}" | sort -n)
  median=${sorted[runs / 2]}
}

# A number of tenths, with its point.
tenths() { echo "$(($1 / 10)).$(($1 % 10))"; }

echo "Milliseconds; $runs runs each, $(nproc) processors, $(date -u +%F)."
echo
echo "| guest | steps | \`--mark\` | marks | bytes of the journal | bytes a thousand steps | recorded | replayed by 1 | 2 | 4 workers |"
echo "|---|---|---|---|---|---|---|---|---|---|"
for guest in "${guests[@]}"; do
  elf=$guest
  [[ -e $elf ]] || elf=$here/$guest.elf
  for mark in 0 16; do
    journal=$work/journal$mark
    timed record "$elf" "$journal" --mark "$mark"
    recorded=$median
    read -r _ _ _ _ _ steps _ <"$work/note"
    bytes=$(stat -c %s "$journal")
    marks=$("$dpcli" inspect "$journal" | grep -c ' mark steps ')
    row="| $(basename "$guest" .elf) | $steps | $mark | $marks | $bytes | $(tenths "$((bytes * 10000 / steps))") | $recorded"
    for workers in 1 2 4; do
      timed replay "$journal" --workers "$workers"
      row+=" | $median"
    done
    echo "$row |"
  done
done
