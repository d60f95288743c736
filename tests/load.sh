#!/usr/bin/env bash
# Records each guest of guests/ many times, first alone and then beside twice as many busy processes as there are processors, and replays
# each recording with four workers. A recording has to end with status 0 within 60 seconds. Its replay has to send the same output and to
# print the same report but for the squashes, of which a replay has none. Prints a table: how many epochs were squashed in all recordings
# of a guest, and how long the longest took. Ends with 1 if something is wrong.
# `.ci/run` doesn't run this. A hundred recordings each take some minutes.
#   tests/load.sh [COUNT]                how many recordings of each guest; 100 if it isn't given
#   DPCLI=PROGRAM tests/load.sh [COUNT]  another program than crates/dpcli/out/dpcli
set -u
here=$(cd "$(dirname "$(readlink -f "${BASH_SOURCE[0]}")")" && pwd)
guests=$here/../guests
dpcli=$(realpath -m "${DPCLI:-$here/../crates/dpcli/out/dpcli}")
count=${1:-100}
[[ -x $dpcli ]] || { echo "no program: $dpcli"; exit 1; }
work=$(mktemp -d -p /dev/shm 2>/dev/null || mktemp -d) || exit 1
busy=()
stop_load() {
  ((${#busy[@]})) && kill "${busy[@]}" 2>/dev/null && wait "${busy[@]}" 2>/dev/null
  busy=()
}
trap 'stop_load; rm -rf "$work"' EXIT
cd "$work" || exit 1

wrong() {
  echo "FAILED: $*"
  head -n 3 note
  exit 1
}

without_squashes() { sed 's/ squashes [0-9]*//' "$1"; }

# once NAME INPUT: records and replays; adds to squashes and longest.
once() {
  local from to took
  rm -f journal
  from=${EPOCHREALTIME/[^0-9]/}
  timeout 60 "$dpcli" record "$guests/$1.elf" journal >recorded 2>note <"$2"
  status=$?
  to=${EPOCHREALTIME/[^0-9]/}
  ((status == 0)) || wrong "$1: the recording's status is $status"
  timeout 60 "$dpcli" replay journal --workers 4 >replayed 2>report </dev/null || wrong "$1: the replay's status is $?"
  cmp -s recorded replayed || wrong "$1: the replay sends another output"
  [[ $(without_squashes note) == "$(without_squashes report)" ]] || wrong "$1: the replay's report is another"
  read -r _ _ _ squashed _ <note
  squashes=$((squashes + squashed))
  took=$(((to - from) / 1000))
  ((took > longest)) && longest=$took
}

echo "| guest | recordings | squashes alone | longest, ms | squashes under load | longest, ms |"
echo "|---|---|---|---|---|---|"
for path in "$guests"/*.elf; do
  name=$(basename "$path" .elf)
  input=/dev/null
  [[ -e $guests/$name.in ]] && input=$guests/$name.in
  row="| $name | $count each |"
  for load in alone busy; do
    if [[ $load == busy ]]; then
      for ((i = 0; i < 2 * $(nproc); i++)); do
        while :; do :; done &
        busy+=($!)
      done
    fi
    squashes=0 longest=0
    for ((run = 0; run < count; run++)); do once "$name" "$input"; done
    stop_load
    row+=" $squashes | $longest |"
  done
  echo "$row"
done
