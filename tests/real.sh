#!/usr/bin/env bash
# Runs the built program on real files, pipes and kills. Prints a line for each check that fails and ends with 1 if one did, or if
# not all were made; else prints how many passed. Takes some minutes.
#
# A recording's threads race ahead of it on real threads. So where its epochs and slices end, how many squashes it has, and what a guest
# writes whose output depends on the schedule, differ from run to run. What is recorded with --ahead 1 has nothing that races, and is the
# same each time.
#   tests/real.sh               crates/dpcli/out/dpcli
#   DPCLI=PROGRAM tests/real.sh another program; not a script around it, which would be killed in its place
set -u
here=$(cd "$(dirname "$0")" && pwd)
guests=$here/../guests
lines=$here/lines.elf
dpcli=$(realpath -m "${DPCLI:-$here/../crates/dpcli/out/dpcli}")
if [[ ! -x $dpcli ]]; then
  echo "no program: $dpcli"
  exit 1
fi
work=$(mktemp -d) || exit 1
# Where thousands of recordings are written: where a sync costs little, if there is such a place.
many=$(mktemp -d -p /dev/shm 2>/dev/null || mktemp -d) || exit 1
trap 'rm -rf "$work" "$many"' EXIT
cd "$work" || exit 1

checks=1402 # how many there are below; one that isn't made must be missed
passed=0
failed=0

# check WHAT COMMAND..: the command must succeed.
check() {
  local what=$1
  shift
  if "$@"; then
    passed=$((passed + 1))
  else
    failed=$((failed + 1))
    echo "FAILED: $what"
  fi
}

# Runs the program. Leaves its status in $status, its output in the file out, what it says of itself in the file note.
run() {
  timeout 60 "$dpcli" "$@" >out 2>note
  status=$?
}

ended_with() { [[ $status == "$1" ]]; }
same() { cmp -s "$1" "$2"; }
is_empty() { [[ ! -s $1 ]]; }
is_missing() { [[ ! -e $1 ]]; }
note_has() { grep -q -F -- "$1" note; }

# report FILE: the report in it, without the squashes. last_of FILE: what it says of the guest's end.
report() { sed -E 's/^(epochs [0-9]+) squashes [0-9]+ /\1 /' "$1"; }
last_of() { sed -E 's/^epochs [0-9]+ squashes [0-9]+ //' "$1"; }
same_report() { [[ -s $1 && $(report "$1") == "$(report "$2")" ]]; }
same_last() { [[ -s $1 && $(last_of "$1") == "$(last_of "$2")" ]]; }

# of_each_schedule NAME FILE: what of the output of an example is the same in each schedule.
of_each_schedule() {
  case $1 in
    counter_racing) awk '{ if ($NF < 1 || $NF > 10000) print "another sum"; $NF = ""; print }' "$2" ;;
    producer_consumer) awk '/ tested / { numbers += $4; $4 = "" } { print } END { print numbers }' "$2" ;;
    deadlock) sort "$2" ;;
    *) cat "$2" ;;
  esac
}
is_output_of() {
  case $1 in
    clock) grep -q -x -E -f "$guests/clock.shape" "$2" && [[ $(wc -l <"$2") == 1 ]] ;;
    *) cmp -s <(of_each_schedule "$1" "$2") <(of_each_schedule "$1" "$guests/$1.out") ;;
  esac
}

# Lines in order from 1 on, each of thread 1 or 2.
is_of_lines() { awk '$0 != "line " NR " of thread 1" && $0 != "line " NR " of thread 2" { exit 1 }' "$1"; }

bytes_of() { stat -c %s "$1"; }
is_prefix() { cmp -s -n "$(bytes_of "$1")" "$1" "$2"; }
is_prefix_either_way() { is_prefix "$1" "$2" || is_prefix "$2" "$1"; }

# replays WHAT JOURNAL OUTPUT: a replay sends exactly this output, and leaves the journal as it is.
replays() {
  cp "$2" before
  run replay "$2" </dev/null
  check "$1: the replay's status is $status" ended_with 0
  check "$1: the replay sends another output" same out "$3"
  check "$1: the replay changes the journal" same "$2" before
}

# ---- the examples

# example NAME INPUT END: recorded and replayed, without a race and with one.
example() {
  local name=$1 input=$2 end=$3 workers
  check "$name: there is no $name.out" test -s "$guests/$name.out"
  run record "$guests/$name.elf" "$name.alone" --ahead 1 <"$input"
  check "$name, nothing races: the recording's status is $status" ended_with 0
  check "$name, nothing races: another output than $name.out" same out "$guests/$name.out"
  check "$name, nothing races: it doesn't end with $end" note_has " end $end state "
  check "$name, nothing races: a squash" note_has " squashes 0 "
  cp note alone.note
  replays "$name, nothing races" "$name.alone" "$guests/$name.out"
  check "$name, nothing races: the replay's report is another" same note alone.note
  run record "$guests/$name.elf" "$name.again" --ahead 1 --workers 1 <"$input"
  check "$name, nothing races: recorded again the journal is another" same "$name.alone" "$name.again"
  run record "$guests/$name.elf" "$name.dpj" <"$input"
  check "$name: the recording's status is $status" ended_with 0
  check "$name: another output than any of its schedules has" is_output_of "$name" out
  check "$name: it doesn't end with $end" note_has " end $end state "
  cp out recorded.out
  cp note recorded.note
  replays "$name" "$name.dpj" recorded.out
  check "$name: the replay's report is another" same_report note recorded.note
  for workers in 1 2 64; do
    run replay "$name.dpj" --workers "$workers" </dev/null
    check "$name: with $workers workers the replay sends another output" same out recorded.out
    check "$name: with $workers workers the replay's report is another" same_report note recorded.note
  done
}

example hello /dev/null "exit 0"
example filter "$guests/filter.in" "exit 0"
example words "$guests/words.in" "exit 0"
example counter_locked /dev/null "exit 0"
example counter_racing /dev/null "exit 0"
example producer_consumer /dev/null "exit 0"
example deadlock /dev/null "deadlock"

# of_one_thread NAME INPUT: a guest of one thread ends in the same state each time, with whatever --ahead, --workers and --slice.
of_one_thread() {
  local name=$1 input=$2 options
  rm -f one.dpj
  run record "$guests/$name.elf" one.dpj --ahead 1 --epoch 1000 <"$input"
  cp note one.note
  for options in "--ahead 2" "--ahead 64" "--workers 1" "--workers 64" "--slice 1" "--slice 100000"; do
    rm -f one.again
    # shellcheck disable=SC2086
    run record "$guests/$name.elf" one.again --epoch 1000 $options <"$input"
    check "$name with $options: the status is $status" ended_with 0
    check "$name with $options: another output" same out "$guests/$name.out"
    check "$name with $options: another last state" same_last note one.note
  done
}
of_one_thread hello /dev/null
of_one_thread filter "$guests/filter.in"

run record "$guests/clock.elf" clock.dpj </dev/null
check "clock: the recording's status is $status" ended_with 0
check "clock: another output than one line of the shape of clock.shape" is_output_of clock out
cp out clock.out
replays "clock" clock.dpj clock.out

# A guest's file isn't needed any more once it is recorded.
cp "$guests/hello.elf" gone.elf
run record gone.elf gone.dpj </dev/null
rm gone.elf
replays "without the guest's file" gone.dpj "$guests/hello.out"

# In each schedule the race has a sum of its own, which the replay has too; under the lock it is always the same.
: >sums
for slice in 1 7 100 333 900 5000; do
  run record "$guests/counter_racing.elf" "alone$slice.dpj" --slice "$slice" --epoch 7777 --ahead 1 </dev/null
  check "counting in slices of $slice, nothing races: the status is $status" ended_with 0
  cp out "alone$slice.out"
  cat out >>sums
  replays "counting in slices of $slice, nothing races" "alone$slice.dpj" "alone$slice.out"
  run record "$guests/counter_racing.elf" "race$slice.dpj" --slice "$slice" --epoch 7777 </dev/null
  check "racing in slices of $slice: the status is $status" ended_with 0
  check "racing in slices of $slice: no sum of a schedule" is_output_of counter_racing out
  cp out "race$slice.out"
  replays "racing in slices of $slice" "race$slice.dpj" "race$slice.out"
  for ahead in 1 16; do
    rm -f "lock$slice.dpj"
    run record "$guests/counter_locked.elf" "lock$slice.dpj" --slice "$slice" --ahead "$ahead" </dev/null
    check "locked in slices of $slice, $ahead ahead: another sum" same out "$guests/counter_locked.out"
  done
done
check "counting: the sum is the same in every schedule" test "$(sort -u sums | wc -l)" -gt 1

# ---- the input

yes 'some lines of small letters, 123' | head -c 300001 >long.in
LC_ALL=C tr a-z A-Z <long.in >long.out

run record "$guests/filter.elf" file.dpj <long.in
check "input from a file: the status is $status" ended_with 0
check "input from a file: another output" same out long.out
replays "input from a file" file.dpj long.out

# odd_pieces: the same input, slowly and in odd pieces.
odd_pieces() {
  local place=0 length
  for length in 1 7 4095 4097 13 65537 2 30000 8191 1 188057; do
    tail -c "+$((place + 1))" long.in | head -c "$length"
    place=$((place + length))
    sleep 0.05
  done
}
odd_pieces >pieces
check "the pieces aren't the input" same pieces long.in
run record "$guests/filter.elf" slow.dpj < <(odd_pieces)
check "input from a slow pipe: the status is $status" ended_with 0
check "input from a slow pipe: another output" same out long.out
replays "input from a slow pipe" slow.dpj long.out

: >nothing
run record "$guests/filter.elf" ended.dpj < <(true)
check "input from a pipe that is closed at once: the status is $status" ended_with 0
check "input from a pipe that is closed at once: some output" is_empty out
replays "input from a pipe that is closed at once" ended.dpj nothing

run record "$guests/filter.elf" closed.dpj <&-
check "no input at all: the status is $status, not InputFault" ended_with 5
replays "no input at all" closed.dpj nothing

run record "$guests/filter.elf" folder_in.dpj <"$work"
check "a folder as the input: the status is $status, not InputFault" ended_with 5
replays "a folder as the input" folder_in.dpj nothing

# A guest that doesn't read doesn't wait for a pipe into which nobody writes.
mkfifo silent
exec 8<>silent
run record "$guests/hello.elf" silent.dpj <silent
exec 8<&-
check "a guest that doesn't read waits for input: the status is $status" ended_with 0

# ---- the output

# into_closed_pipe WORDS..: into a pipe that nobody reads.
mkfifo broken
into_closed_pipe() {
  exec 7<>broken 9>broken 7>&-
  timeout 60 "$dpcli" "$@" >&9 2>note </dev/null
  status=$?
  exec 9>&-
}

into_closed_pipe record "$guests/hello.elf" closed_pipe.dpj
check "recorded into a closed pipe: the status is $status, not OutputFault" ended_with 7
replays "recorded into a closed pipe" closed_pipe.dpj "$guests/hello.out"
into_closed_pipe replay closed_pipe.dpj
check "replayed into a closed pipe: the status is $status, not OutputFault" ended_with 7

{ timeout 60 "$dpcli" record "$lines" head.dpj 2>note </dev/null; echo $? >pipe_status; } | head -n 3 >head.out
status=$(cat pipe_status)
check "recorded into head: the status is $status, not OutputFault" ended_with 7
run replay head.dpj
check "recorded into head: the replay's status is $status" ended_with 0
check "recorded into head: the replay doesn't begin with what head got" is_prefix head.out out

timeout 60 "$dpcli" record "$guests/hello.elf" full.dpj >/dev/full 2>note </dev/null
status=$?
check "recorded into a full device: the status is $status, not OutputFault" ended_with 7
check "recorded into a full device: another line" note_has "dpcli: output failed"
replays "recorded into a full device" full.dpj "$guests/hello.out"
timeout 60 "$dpcli" replay full.dpj >/dev/full 2>note
status=$?
check "replayed into a full device: the status is $status, not OutputFault" ended_with 7

timeout 60 "$dpcli" record "$guests/hello.elf" no_out.dpj >&- 2>note </dev/null
status=$?
check "no output at all: the status is $status, not OutputFault" ended_with 7
replays "no output at all" no_out.dpj "$guests/hello.out"

timeout 60 "$dpcli" record "$guests/hello.elf" no_note.dpj >out 2>/dev/full </dev/null
status=$?
check "a report into a full device: the status is $status, not OutputFault" ended_with 7
check "a report into a full device: another output" same out "$guests/hello.out"
replays "a report into a full device" no_note.dpj "$guests/hello.out"

# ---- files and words

cp hello.dpj in_use.dpj
run record "$guests/filter.elf" in_use.dpj </dev/null
check "a journal that exists already: the status is $status, not JournalInUse" ended_with 8
check "a journal that exists already: it is changed" same in_use.dpj hello.dpj

: >empty.dpj
run replay empty.dpj
check "the replay of an empty file: the status is $status, not NoJournal" ended_with 14
run record "$guests/hello.elf" empty.dpj </dev/null
check "recorded into an empty file: the status is $status" ended_with 0
replays "recorded into an empty file" empty.dpj "$guests/hello.out"

run record "$guests/hello.elf" nowhere/hello.dpj </dev/null
check "a journal in a folder that isn't there: the status is $status, not DiskFault" ended_with 6
check "a journal in a folder that isn't there: some output" is_empty out
check "a journal in a folder that isn't there: now it is" is_missing nowhere

run record "$guests/hello.elf" "$work" </dev/null
check "a folder as the journal: the status is $status, not DiskFault" ended_with 6

run record nobody.elf nobody.dpj </dev/null
check "a guest that isn't there: the status is $status, not GuestFault" ended_with 3
check "a guest that isn't there: a journal is left" is_missing nobody.dpj

run record "$guests" folder.dpj </dev/null
check "a folder as a guest: the status is $status, not GuestFault" ended_with 3
check "a folder as a guest: a journal is left" is_missing folder.dpj

run record "$guests/hello.c" text.dpj </dev/null
check "a text as a guest: the status is $status, not BadImage" ended_with 4
check "a text as a guest: another line" note_has "dpcli: guest refused: 2 NotElf"

# Devices and pipes as guests: their bytes count.
run record /dev/null device.dpj </dev/null
check "the null device as a guest: the status is $status, not BadImage" ended_with 4
check "the null device as a guest: another line" note_has "dpcli: guest refused: 2 NotElf"
run record /dev/zero device.dpj </dev/null
check "an endless device as a guest: the status is $status, not BadImage" ended_with 4
check "an endless device as a guest: another line" note_has "dpcli: guest refused: 1 TooLong"
check "devices as guests: a journal is left" is_missing device.dpj
mkfifo guest_pipe
cat "$guests/hello.elf" >guest_pipe &
run record guest_pipe guest_pipe.dpj </dev/null
wait $!
check "a pipe as a guest: the status is $status" ended_with 0
replays "a pipe as a guest" guest_pipe.dpj "$guests/hello.out"

# A folder that takes no file, and a device as the journal.
run record "$guests/hello.elf" /proc/hello.dpj </dev/null
check "a journal in a folder that takes none: the status is $status, not DiskFault" ended_with 6
check "a journal in a folder that takes none: some output" is_empty out
run record "$guests/hello.elf" /dev/null </dev/null
check "a device as the journal: the status is $status, not DiskFault" ended_with 6
check "a device as the journal: some output" is_empty out
run replay /dev/zero
check "the replay of a device: the status is $status, not DiskFault" ended_with 6

# Few file descriptors. A recording holds three streams, its journal, and for a moment the journal's folder.
few() { (ulimit -n "$1" && exec timeout 60 "$dpcli" record "$guests/hello.elf" "few$1.dpj") >out 2>note </dev/null; }
few 4
status=$?
check "four file descriptors: the status is $status, not DiskFault" ended_with 6
check "four file descriptors: some output" is_empty out
few 5
status=$?
check "five file descriptors: the status is $status" ended_with 0
replays "five file descriptors" few5.dpj "$guests/hello.out"

run replay nobody.dpj
check "the replay of no file: the status is $status, not DiskFault" ended_with 6
check "the replay of no file: one is left" is_missing nobody.dpj
run replay "$work"
check "the replay of a folder: the status is $status, not DiskFault" ended_with 6
run replay "$guests/hello.c"
check "the replay of a text: the status is $status, not NoJournal" ended_with 14
# A program that runs can't be opened for writing, and is read all the same.
run replay "$dpcli"
check "the replay of a file that may only be read: the status is $status, not NoJournal" ended_with 14

for words in "" "record" "record a" "replay" "replay a b" "play a" "record a b --slice 0" "record a b --epoch x"; do
  # shellcheck disable=SC2086
  run $words </dev/null
  check "the words '$words': the status is $status, not Usage" ended_with 2
  check "the words '$words': another line" note_has "usage: dpcli "
done

# Words that aren't text are no command either.
run replay $'\xff.dpj'
check "a word that isn't text: the status is $status, not Usage" ended_with 2
check "a word that isn't text: another line" note_has "usage: dpcli "

# ---- what is said of a mistake

# says WHAT LINE: this line follows the status's line.
says() { check "$1: it isn't told as '$2'" note_has "$2"; }

run record nobody.elf nobody.dpj </dev/null
says "a guest that isn't there" "dpcli: nobody.elf: open: No such file or directory"
run record "$guests" folder.dpj </dev/null
says "a folder as a guest" "dpcli: $guests: read: Is a directory"
run record "$guests/hello.elf" nowhere/hello.dpj </dev/null
says "a journal in a folder that isn't there" "dpcli: nowhere/hello.dpj: open: No such file or directory"
run record "$guests/hello.elf" "$work" </dev/null
says "a folder as the journal" "dpcli: $work: open: Is a directory"
run replay nobody.dpj
says "the replay of no file" "dpcli: nobody.dpj: open: No such file or directory"
run replay "$work"
says "the replay of a folder" "dpcli: $work: open: not a regular file"
run record "$guests/filter.elf" closed2.dpj <&-
says "no input at all" "dpcli: standard input: read: Bad file descriptor"
run record "$guests/filter.elf" folder_in2.dpj <"$work"
says "a folder as the input" "dpcli: standard input: read: Is a directory"
into_closed_pipe record "$guests/hello.elf" closed_pipe2.dpj
says "recorded into a closed pipe" "dpcli: standard output: write: Broken pipe"
timeout 60 "$dpcli" record "$guests/hello.elf" full2.dpj >/dev/full 2>note </dev/null
says "recorded into a full device" "dpcli: standard output: write: No space left on device"
run replay $'\xff.dpj'
says "a path that isn't UTF-8" "dpcli: an argument isn't UTF-8, and a path must be"

# usage WORDS.. -- LINE: the words are no command, and this line says why.
usage() {
  local words=()
  while [[ $1 != -- ]]; do
    words+=("$1")
    shift
  done
  run "${words[@]}" </dev/null
  check "the words '${words[*]}': the status is $status, not Usage" ended_with 2
  check "the words '${words[*]}': some output" is_empty out
  says "the words '${words[*]}'" "$2"
}
usage -- "error: 'dpcli' requires a subcommand"
usage play a -- "error: unrecognized subcommand 'play'"
usage record a -- "  <JOURNAL>"
usage record a b c -- "error: unexpected argument 'c' found"
usage record a b --slic 7 -- "error: unexpected argument '--slic' found"
usage record a b --epoch x -- "error: invalid value 'x' for '--epoch <N>'"
usage selftest -- "  <N>"
usage selftest x -- "error: invalid value 'x' for '<N>'"
usage selftest -1 -- "error: unexpected argument '-1' found"
usage selftest 1 2 -- "error: unexpected argument '2' found"
usage selftest 4294967296 -- "error: invalid value '4294967296' for '<N>': 4294967296 is not in 0..=4294967295"
usage selftest 1 --workers 4 -- "error: unexpected argument '--workers' found"

# option NAME LEAST MOST RANGE DEFAULT: an option of record takes exactly these numbers, and the help says so.
help=$here/help.txt
option() {
  local name=$1 least=$2 most=$3 number
  for number in "$least" "$most"; do
    run record nobody.elf nobody.dpj "--$name" "$number" </dev/null
    check "--$name $number: the status is $status, not GuestFault" ended_with 3
  done
  usage record a b "--$name" "$((most + 1))" -- "error: invalid value '$((most + 1))' for '--$name <N>': $((most + 1)) is not in $least..=$most"
  check "--$name: the help doesn't say $4 and $5" grep -q -- "--$name <N> .*$4.*\[default: $5\]" "$help"
}
option epoch 1 1000000 "1 to 1,000,000" 20000
option slice 1 100000 "1 to 100,000" 1000
option limit 1 1000000000000 "1 to 1,000,000,000,000" 1000000000
option mark 0 1000 "0 to 1,000" 16
option workers 1 64 "1 to 64" 4
option ahead 1 64 "1 to 64" 16

for words in --help -h help "record --help" "replay -h" "help record" "selftest -h"; do
  # shellcheck disable=SC2086
  run $words </dev/null
  check "$words: the status is $status, not Usage" ended_with 2
  check "$words: another text than the help's" same out "$help"
done
run --version
check "--version: the status is $status, not Usage" ended_with 2
check "--version: another line" grep -q -x 'dpcli 0\.1, proved by Rattle, logic [0-9a-f]*' out
if command -v rt >/dev/null; then
  checks=$((checks + 1))
  check "--version: another logic than this toolchain's" grep -q -F "proved by Rattle, $(rt version | grep -o 'logic .*')" out
fi

# ---- mistakes that would cost a recording

# A journal that is also a stream, by its own name or by another one.
for name in own.dpj linked.dpj; do
  rm -f own.dpj linked.dpj
  : >own.dpj
  ln own.dpj linked.dpj
  timeout 60 "$dpcli" record "$guests/hello.elf" $name >own.dpj 2>note </dev/null
  status=$?
  check "the output into its own journal $name: the status is $status, not DiskFault" ended_with 6
  check "the output into its own journal $name: the journal isn't empty" is_empty own.dpj
  check "the output into its own journal $name: no reason" note_has "dpcli: $name: open: the file is also standard output or standard error"
  timeout 60 "$dpcli" record "$guests/hello.elf" $name >out 2>own.dpj </dev/null
  status=$?
  check "the report into its own journal $name: the status is $status, not DiskFault" ended_with 6
done
cp hello.dpj own.dpj
timeout 60 "$dpcli" replay own.dpj >>own.dpj 2>note
status=$?
check "a replay into its own journal: the status is $status, not DiskFault" ended_with 6
check "a replay into its own journal: it is changed" same own.dpj hello.dpj

# begin_slow JOURNAL: records a guest that waits for input, until it has sent a line.
mkfifo slow_in
begin_slow() {
  rm -f "$1"
  : >slow_out
  "$dpcli" record "$guests/filter.elf" "$1" <slow_in >slow_out 2>slow_note &
  recorder=$!
  exec 6>slow_in
  echo first >&6
  while [[ ! -s slow_out ]] && kill -0 "$recorder" 2>/dev/null; do sleep 0.01; done
}
end_slow() {
  echo second >&6
  exec 6>&-
  wait "$recorder"
  status=$?
  cp slow_note note
}

begin_slow busy.dpj
run record "$guests/hello.elf" busy.dpj </dev/null
check "a second recording into one journal: the status is $status, not DiskFault" ended_with 6
check "a second recording into one journal: no reason" note_has "dpcli: busy.dpj: lock: another recording or replay has locked the file"
run replay busy.dpj
check "a replay during the recording: the status is $status, not DiskFault" ended_with 6
end_slow
check "a recording that others disturb: the status is $status" ended_with 0
printf 'FIRST\nSECOND\n' >twice.out
replays "a recording that others disturb" busy.dpj twice.out

begin_slow removed.dpj
rm removed.dpj
end_slow
check "a journal that is removed meanwhile: the status is $status, not DiskFault" ended_with 6
check "a journal that is removed meanwhile: no reason" note_has "another program removed the file"
printf 'FIRST\n' >once.out
check "a journal that is removed meanwhile: more is sent" same slow_out once.out

for length in 0 200; do
  begin_slow cut_off.dpj
  truncate -s "$length" cut_off.dpj
  end_slow
  check "a journal that is cut to $length bytes meanwhile: the status is $status, not DiskFault" ended_with 6
  check "a journal that is cut to $length bytes meanwhile: no reason" note_has "dpcli: cut_off.dpj: write: another program changed the file's length"
done

begin_slow replaced.dpj
mv replaced.dpj moved.dpj
end_slow
check "a journal that gets another name meanwhile: the status is $status" ended_with 0
replays "a journal that gets another name meanwhile" moved.dpj twice.out

# Streams that don't block: perl sets the flag, which the program then shares.
run_not_blocking() {
  perl -MFcntl -e 'for (\*STDIN, \*STDOUT) { fcntl($_, F_SETFL, O_NONBLOCK) if -p $_ } exec @ARGV' timeout 60 "$dpcli" "$@" 2>note
}
{ sleep 0.3; echo late; sleep 0.3; echo later; } | run_not_blocking record "$guests/filter.elf" waits.dpj >out
status=${PIPESTATUS[1]}
printf 'LATE\nLATER\n' >late.out
check "an input that would block: the status is $status" ended_with 0
check "an input that would block: another output" same out late.out
replays "an input that would block" waits.dpj late.out
run_not_blocking record "$guests/filter.elf" waits2.dpj <long.in | { sleep 0.5; cat >out; }
status=${PIPESTATUS[0]}
check "an output that would block: the status is $status" ended_with 0
check "an output that would block: another output" same out long.out

# Where the signal of a file that grows too large is ignored, the write fails.
(
  trap '' XFSZ
  ulimit -f 100 # in KiB
  timeout 60 "$dpcli" record "$lines" large.dpj --slice 10 >out 2>note </dev/null
)
status=$?
check "a file that may not grow: the status is $status, not DiskFault" ended_with 6
check "a file that may not grow: no reason" note_has "dpcli: large.dpj: write: File too large"
cp out sent
run replay large.dpj
check "a file that may not grow: the replay's status is $status" ended_with 0
check "a file that may not grow: the replay doesn't begin with what was sent" is_prefix sent out
# The script ignores it.
if [[ -z ${DPCLI:-} ]]; then
  checks=$((checks + 1))
  (
    ulimit -f 100
    timeout 60 "$here/../dpcli" record "$lines" large2.dpj --slice 10 >out 2>note </dev/null
  )
  status=$?
  check "the script and a file that may not grow: the status is $status, not DiskFault" ended_with 6
fi

# ---- marks

# Twenty epochs of 30,000 steps. With a mark after every so many of them the journal is longer by as many marks, and replays the same by
# any number of workers. The guest has 28 pages, and stores to fewer than ten of them: a mark has at least 6 bytes of each page, and far from all.
run record "$lines" unmarked.dpj --epoch 30000 --limit 600000 --mark 0 --ahead 1 </dev/null
check "without marks: the status is $status, not StepLimit" ended_with 11
cp out unmarked.out
for mark in 1 3 7 16 21; do
  run record "$lines" "marked$mark.dpj" --epoch 30000 --limit 600000 --mark "$mark" --ahead 1 </dev/null
  check "a mark after each $mark epochs: the status is $status, not StepLimit" ended_with 11
  check "a mark after each $mark epochs: another output" same out unmarked.out
  more=$(($(bytes_of "marked$mark.dpj") - $(bytes_of unmarked.dpj)))
  run inspect "marked$mark.dpj" </dev/null
  check "a mark after each $mark epochs: another number of marks" test "$(grep -c ' mark steps ' out)" -eq "$((20 / mark))"
  check "a mark after each $mark epochs: marks that are too short" test "$more" -ge "$((20 / mark * (168 + 28 * 6)))"
  check "a mark after each $mark epochs: marks that hold what didn't change" test "$more" -le "$((20 / mark * (168 + 28 * 6 + 10 * 4096)))"
  for workers in 1 2 4 64; do
    run replay "marked$mark.dpj" --workers "$workers" </dev/null
    check "a mark after each $mark epochs, replayed by $workers workers: the status is $status" ended_with 0
    check "a mark after each $mark epochs, replayed by $workers workers: another output" same out unmarked.out
    check "a mark after each $mark epochs, replayed by $workers workers: another report" note_has "epochs 20 squashes 0 steps 600000 sent $(bytes_of out) end none"
  done
  run record "$lines" "raced$mark.dpj" --epoch 30000 --limit 600000 --mark "$mark" </dev/null
  check "racing, a mark after each $mark epochs: the status is $status, not StepLimit" ended_with 11
  check "racing, a mark after each $mark epochs: other lines" is_of_lines out
  cp out raced.out
  for workers in 1 2 4 64; do
    run replay "raced$mark.dpj" --workers "$workers" </dev/null
    check "racing, a mark after each $mark epochs, replayed by $workers workers: the status is $status" ended_with 0
    check "racing, a mark after each $mark epochs, replayed by $workers workers: another output" same out raced.out
    check "racing, a mark after each $mark epochs, replayed by $workers workers: another report" note_has " squashes 0 steps 600000 sent $(bytes_of out) end none"
  done
done

# Two guests of a few instructions, whose journals' lengths follow from the format. One writes `hi` in nine steps and stores nothing. With epochs
# of a step it has a header of 133 bytes, nine epochs of 20, eight marks of 270, and a closed gate. The other reads twice, to its stack, in
# epochs of three, two and three steps. Its header has 125 bytes, and its epochs 69 in all. The first mark has 270 bytes; the
# second one has a page's 4,096 bytes more.
elf_start='\x7fELF\1\1\1\0\0\0\0\0\0\0\0\0\2\0\xf3\0\1\0\0\0\x54\0\1\0\x34\0\0\0\0\0\0\0\0\0\0\0\x34\0\x20\0\1\0\0\0\0\0\0\0\1\0\0\0\0\0\0\0\0\0\1\0\0\0\1\0'
flags='\5\0\0\0\0\x10\0\0'
writes='\x13\5\x10\0\xb7\5\1\0\x93\x85\x85\7\x13\6\x30\0\x93\x08\x20\0\x73\0\0\0\x13\5\0\0\x93\x08\x10\0\x73\0\0\0hi\n\0'
reads='\x93\5\1\0\x13\6\xa0\0\x93\x08\x30\0\x73\0\0\0\x13\5\0\0\x73\0\0\0\x93\x08\x10\0\x73\0\0\0'
printf "$elf_start"'\x7c\0\0\0\x7c\0\0\0'"$flags$writes" >writes.elf
printf "$elf_start"'\x74\0\0\0\x74\0\0\0'"$flags$reads" >reads.elf
run record writes.elf writes.dpj --epoch 1 --mark 1 </dev/null
check "nine epochs of one step with marks: the status is $status" ended_with 0
check "nine epochs of one step with marks: $(bytes_of writes.dpj) bytes, not 2,474" test "$(bytes_of writes.dpj)" -eq 2474
printf 'hi\n' >hi.out
replays "nine epochs of one step with marks" writes.dpj hi.out
# spoilt OFFSET BYTE STATUS REASON: the journal with a byte replaced, by one worker and by two.
spoilt() {
  cp writes.dpj spoilt.dpj
  printf "$2" | dd of=spoilt.dpj bs=1 seek="$1" conv=notrunc 2>/dev/null
  for workers in 1 2; do
    run replay spoilt.dpj --workers "$workers" </dev/null
    check "byte $1 of a journal with marks, $workers workers: the status is $status, not $3" ended_with "$3"
    check "byte $1 of a journal with marks, $workers workers: no reason" note_has "dpcli: $4"
    check "byte $1 of a journal with marks, $workers workers: some output" is_empty out
  done
}
spoilt 159 '\2' 15 "record 2 is a wrong mark"
spoilt 422 '\1' 9 "record 2 is malformed"
printf abc >abc
run record reads.elf reads.dpj --mark 1 <abc
check "two reads with marks: the status is $status" ended_with 0
check "two reads with marks: $(bytes_of reads.dpj) bytes, not 4,831" test "$(bytes_of reads.dpj)" -eq 4831
replays "two reads with marks" reads.dpj nothing

# ---- what a journal holds

# lists NAME INPUT: a line for the guest, one for each record in order, with the steps of the report in all, and one for the list's end.
lists() {
  local name=$1 input=$2 steps
  rm -f listed.dpj
  run record "$guests/$name.elf" listed.dpj --epoch 3000 --mark 2 <"$input"
  read -r _ _ _ _ _ steps _ <note
  run inspect listed.dpj
  check "$name listed: the status is $status" ended_with 0
  check "$name listed: another first line" test "$(head -n 1 out)" = "guest $(bytes_of "$guests/$name.elf")"
  check "$name listed: another last line" test "$(tail -n 1 out)" = "end $(($(bytes_of listed.dpj) - 1))"
  check "$name listed: records out of order" awk '/ (epoch|mark) /{ if ($1 != ++number) exit 1 } END { exit number < 2 }' out
  check "$name listed: other steps" test "$(awk '$2 == "epoch" { steps += $6 } END { print steps }' out)" = "$steps"
  check "$name listed: something on standard error" is_empty note
}
lists filter "$guests/filter.in"
lists producer_consumer /dev/null
: >nothing.dpj
run inspect nothing.dpj
check "nothing listed: the status is $status" ended_with 14
check "nothing listed: another line" note_has "dpcli: no journal"
printf '\1DPJ1\0\0\0\0\1\1\0\0\0?\0' >bad.dpj
run inspect bad.dpj
check "a malformed record listed: the status is $status" ended_with 9
check "a malformed record listed: another listing" test "$(cat out)" = "guest 0"

# ---- self-tests

# Each line of selftest.txt, twice. They come from a model of the machine, the racer and the schedule, which is a script of its own.
mkdir empty
while read -r line; do
  number=${line#selftest }
  number=${number%%:*}
  for time in first second; do
    status=$(cd empty && timeout 60 "$dpcli" selftest "$number" >../out 2>../note <&-; echo $?)
    check "selftest $number, the $time time: the status is $status" ended_with 0
    check "selftest $number, the $time time: another line" test "$(cat out)" = "$line"
    check "selftest $number, the $time time: something on standard error" is_empty note
  done
done <"$here/selftest.txt"
check "self-tests: they leave a file" rmdir empty
timeout 60 "$dpcli" selftest 0 >/dev/full 2>note
status=$?
check "a self-test into a full device: the status is $status, not OutputFault" ended_with 7
check "a self-test into a full device: another line" note_has "dpcli: output failed"
timeout 60 "$dpcli" selftest 0 >&- 2>note
status=$?
check "a self-test without an output: the status is $status, not OutputFault" ended_with 7
into_closed_pipe selftest 0
check "a self-test into a closed pipe: the status is $status, not OutputFault" ended_with 7

# ---- a journal that is cut

# After each of its ten epochs a recording with a limit there, in which nothing races, has the same records and has printed the same, so
# it tells what a journal that is cut has to play to.
for epochs in {1..10}; do
  run record "$lines" "limit$epochs.dpj" --epoch 30000 --limit "$((30000 * epochs))" --ahead 1 </dev/null
  check "a limit of $epochs epochs: the status is $status, not StepLimit" ended_with 11
  cp out "limit$epochs.out"
  replays "a limit of $epochs epochs" "limit$epochs.dpj" "limit$epochs.out"
  check "a limit of $epochs epochs: the replay's report says something else" note_has "epochs $epochs squashes 0 steps $((30000 * epochs)) sent $(bytes_of out) end none"
done
cp limit10.dpj lines.dpj
: >limit0.out
header=$((9 + $(bytes_of "$lines")))
length=$(bytes_of lines.dpj)
record_ends=("$header")
for epochs in {1..10}; do
  record_ends+=("$(($(bytes_of "limit$epochs.dpj") - 1))")
  check "$epochs epochs: the journal isn't the first part of that with 10" cmp -s -n "${record_ends[epochs]}" "limit$epochs.dpj" lines.dpj
  check "epoch $epochs has no output" test "$(bytes_of "limit$((epochs - 1)).out")" -lt "$(bytes_of "limit$epochs.out")"
done

# A cut leaves no journal, or the first records: those that are there whole.
cut_is_right() {
  head -c "$1" lines.dpj >cut.dpj
  run replay cut.dpj
  if (($1 < header)); then
    ended_with 14 && is_empty out
    return
  fi
  local epochs=10
  while ((record_ends[epochs] > $1)); do
    epochs=$((epochs - 1))
  done
  ended_with 0 && same out "limit$epochs.out"
}
# 20 cuts in the header, the last before its last byte, and 30 over all records; right before and behind the end of the header
# and of each record, and three in its gate and its length.
places=()
for number in {0..19}; do places+=("$((number * (header - 1) / 19))"); done
for number in {0..29}; do places+=("$((header + number * (length - header) / 29))"); done
for end in "${record_ends[@]:0:10}"; do places+=("$((end - 1))" "$end" "$((end + 1))" "$((end + 3))" "$((end + 5))"); done
for place in "${places[@]}"; do
  check "cut to $place of $length bytes" cut_is_right "$place"
done

# Of a recording that races the journal alone tells it: cut after each of its records it plays to more and more of what was sent, and cut
# elsewhere to as much as after the last whole one.
u32() { od -An -tu4 -j "$2" -N 4 "$1" | tr -d ' '; }
record_ends_of() {
  local at=$((9 + $(u32 "$1" 5)))
  echo "$at"
  while [[ $(od -An -tu1 -j "$at" -N 1 "$1") -eq 1 ]]; do
    at=$((at + 5 + $(u32 "$1" $((at + 1)))))
    echo "$at"
  done
}
run record "$lines" raced.dpj --epoch 30000 --limit 300000 --mark 4 </dev/null
check "racing: the status is $status, not StepLimit" ended_with 11
cp out raced.out
mapfile -t raced_ends < <(record_ends_of raced.dpj)
check "racing: fewer than ten epochs" test "${#raced_ends[@]}" -gt 10
check "racing: the journal doesn't end with its last record" test "$((raced_ends[-1] + 1))" = "$(bytes_of raced.dpj)"
: >raced_part.out
for end in "${raced_ends[@]}"; do
  head -c "$end" raced.dpj >cut.dpj
  run replay cut.dpj
  grown=1
  ended_with 0 && is_prefix raced_part.out out && is_prefix out raced.out || grown=0
  cp out raced_part.out
  for place in 1 2 5 9; do
    head -c "$((end + place))" raced.dpj >cut.dpj
    run replay cut.dpj
    ended_with 0 && same out raced_part.out || grown=0
  done
  cuts+=("$grown")
done
check "racing, cut after each of the records: $((${#cuts[@]})) cuts, of which some play to something else" test "$(printf '%s\n' "${cuts[@]}" | sort -u)" = 1
check "racing, cut after its last record: another output" same raced_part.out raced.out

# ---- a recorder that is killed

# What a recording prints that isn't killed and doesn't race, or the first of it.
run record "$lines" whole.dpj --limit 6000000 --ahead 1 </dev/null
check "what a recording prints that isn't killed: the status is $status" ended_with 11
cp out whole.out
check "what a recording prints that isn't killed: other lines" is_of_lines whole.out

# has_counted NUMBER, has_printed BYTES: waits for the moment of a kill.
has_counted() {
  local number
  for ((number = 0; number < $1; number++)); do :; done
}
has_printed() {
  while (($(bytes_of printed) < $1)); do
    kill -0 "$recorder" 2>/dev/null || return
    sleep 0.002
  done
}

# kill_is_right AHEAD MOMENT..: what was printed stands in the journal, so a replay sends it first.
kill_is_right() {
  local ahead=$1
  shift
  rm -f killed.dpj
  : >printed
  "$dpcli" record "$lines" killed.dpj --ahead "$ahead" >printed 2>note </dev/null &
  recorder=$!
  "$@"
  kill -9 "$recorder"
  wait "$recorder" 2>wait_note
  [[ $? == 137 ]] || return 1 # it had ended before
  if [[ ! -e killed.dpj ]]; then
    is_empty printed
    return
  fi
  run replay killed.dpj
  if ended_with 14; then
    is_empty printed && is_empty out
  else
    ended_with 0 && is_prefix printed out && is_of_lines out && { ((ahead > 1)) || is_prefix_either_way out whole.out; }
  fi
}
# Each time 20 moments from the program's start on, the first ones before something is printed, and 30 behind that.
for ahead in 1 16; do
  for number in {0..19}; do
    check "$ahead ahead, killed at early moment $number" kill_is_right "$ahead" has_counted "$((200 * number))"
  done
  for number in {0..29}; do
    bytes=$((1 + 250 * number))
    check "$ahead ahead, killed once it had printed $bytes bytes" kill_is_right "$ahead" has_printed "$bytes"
    check "$ahead ahead, killed once it had printed $bytes bytes: it printed less" test "$(bytes_of printed)" -ge "$bytes"
  done
done

# ---- many recordings

# record_many FOLDER NAME COUNT INPUT OPTIONS..: records a guest COUNT times, and replays each recording. Leaves in the folder's file `right`
# how many were right, and how many squashes they had: recording and replay end with 0, send the same, and report the same but for the
# squashes. Each output is right if the command in $is_right says so of its file. Leaves in `why` what was wrong with the first other one.
# $processors, if it isn't empty, is a list of processors on which the program may run.
processors=
record_many() {
  local folder=$1 guest=$2 count=$3 input=$4 number right=0 squashes=0 recorded replayed line
  shift 4
  mkdir "$folder"
  : >"$folder/why"
  for ((number = 0; number < count; number++)); do
    rm -f "$folder/journal"
    timeout 60 ${processors:+taskset -c "$processors"} "$dpcli" record "$guest" "$folder/journal" "$@" >"$folder/out" 2>"$folder/note" <"$input"
    recorded=$?
    timeout 60 "$dpcli" replay "$folder/journal" --workers "$((1 + number % 4))" >"$folder/replayed" 2>"$folder/again" </dev/null
    replayed=$?
    if ((recorded == 0 && replayed == 0)) && same "$folder/out" "$folder/replayed" && same_report "$folder/note" "$folder/again" && $is_right "$folder/out"; then
      right=$((right + 1))
      read -r _ _ _ line _ <"$folder/note"
      squashes=$((squashes + line))
    elif [[ ! -s $folder/why ]]; then
      echo "statuses $recorded and $replayed, $(head -n 1 "$folder/note"), replayed $(head -n 1 "$folder/again")" >"$folder/why"
    fi
  done
  echo "$right $squashes" >"$folder/right"
}
# Sums up the files `right` of some folders, in $right and $squashes. Leaves in $why what was wrong, if something was.
sum_up() {
  read -r right squashes < <(cat "${@/%//right}" | awk '{ right += $1; squashes += $2 } END { print right, squashes }')
  why=$(cat "${@/%//why}" | head -n 1)
}

# The examples but the one that races, a hundred times each with epochs of each length, the four lengths at once. In each schedule an example
# writes the same, as far as its output doesn't say who did what. They synchronise by AMOs and calls. So their hints can be followed
# to the end, as far as the order of AMOs on a word is known, and no epoch is run in vain.
each_time() {
  local name=$1 input=$2 epoch folders=()
  is_right="is_output_of $name"
  for epoch in 500 3000 20000 1000000; do
    folders+=("$many/$name$epoch")
    record_many "$many/$name$epoch" "$guests/$name.elf" 100 "$input" --epoch "$epoch" &
  done
  wait
  for epoch in 500 3000 20000 1000000; do
    sum_up "$many/$name$epoch"
    check "$name a hundred times in epochs of $epoch steps: $right were right; $why" test "$right" = 100
    check "$name a hundred times in epochs of $epoch steps: $squashes squashes" test "$squashes" = 0
  done
  rm -rf "${folders[@]}"
}
each_time hello /dev/null
each_time filter "$guests/filter.in"
each_time clock /dev/null
each_time words "$guests/words.in"
each_time counter_locked /dev/null
each_time producer_consumer /dev/null
each_time deadlock /dev/null

# A guest that takes a lock often, in epochs of so many steps that its threads race on several processors. Forty recordings, four at once, of
# 3,400 epochs. If AMOs aren't put in order some seventy are squashed. One in some hundred thousand is all the same.
is_of_locked() { same "$1" "$here/../bench/locked_4.out"; }
is_right=is_of_locked
folders=()
for number in {1..4}; do
  record_many "$many/locked$number" "$here/../bench/locked_4.elf" 10 /dev/null --epoch 200000 &
  folders+=("$many/locked$number")
done
wait
sum_up "${folders[@]}"
check "forty recordings of a guest that takes a lock often: $right were right; $why" test "$right" = 40
check "forty recordings of a guest that takes a lock often: $squashes squashes" test "$squashes" -le 4
rm -rf "${folders[@]}"

# A thousand recordings of guests that race, sixteen at once.
is_of_crowd() {
  awk '/^thread [0-9]+ came to [0-9]+$/ { threads++; next } /^24 threads counted 60 times each: [0-9]+$/ { sums++; next } { other++ }
    END { exit !(threads == 24 && sums == 1 && other == 0) }' "$1"
}
folders=()
for number in {1..8}; do
  is_right="is_output_of counter_racing"
  record_many "$many/racing$number" "$guests/counter_racing.elf" 63 /dev/null --epoch "$((500 * number * number))" --mark "$((16 * (number % 2)))" &
  is_right=is_of_crowd
  record_many "$many/crowd$number" "$here/crowd.elf" 63 /dev/null --epoch "$((500 * number * number))" --mark "$((16 * (number % 2)))" &
  folders+=("$many/racing$number" "$many/crowd$number")
done
wait
sum_up "${folders[@]}"
check "a thousand recordings of guests that race: $right were right; $why" test "$right" = 1008

# Sixty-four workers, the racing run's threads and the committer on one processor. They wait for each other, and none of them in vain.
folders=()
processors=$(taskset -cp $$ | sed -E 's/.*: ([0-9]+).*/\1/')
for name in counter_locked producer_consumer words; do
  is_right="is_output_of $name"
  input=/dev/null
  [[ ! -e $guests/$name.in ]] || input=$guests/$name.in
  for epoch in 500 20000; do
    record_many "$many/one_processor$name$epoch" "$guests/$name.elf" 10 "$input" --workers 64 --ahead 64 --epoch "$epoch" &
    folders+=("$many/one_processor$name$epoch")
  done
done
wait
processors=
sum_up "${folders[@]}"
check "sixty recordings by 64 workers on one processor: $right were right; $why" test "$right" = 60
rm -rf "${folders[@]}"

if ((failed == 0 && passed != checks)); then
  failed=1
  echo "FAILED: $passed checks were made, not $checks"
fi
if ((failed > 0)); then
  exit 1
fi
echo "$passed checks passed"
