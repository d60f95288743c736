#!/usr/bin/env bash
# Runs the built program with a call and all later ones failing: from the first one on, then from the second, and so
# on until the program makes fewer. Then the same with each call failing alone. `memory` is its allocations, `device`
# its calls on files and streams (reads, writes, syncs, cuts and opens, of which each fails with EIO). Recordings of
# one thread and of racing threads by four workers, which squash epochs, with and without marks; replays of marked
# journals by one and by four workers; inspections; and self-tests, of which only memory fails. Each has to end with a
# status that its command has for that. What is sent has to be a prefix of the output, and what is left of a journal
# has to replay to what was sent, or to more. Prints how many runs of each command ended so, or what went wrong, and
# ends with 1 then.
# The gate doesn't run this. It takes some minutes, and needs a C compiler, cc, for the calls that fail.
#   tests/failing_calls.sh [memory|device]  one of them, or both; of the program crates/dpcli/out/dpcli
#   DPCLI=PROGRAM tests/failing_calls.sh    of another program
set -u
here=$(cd "$(dirname "$(readlink -f "${BASH_SOURCE[0]}")")" && pwd)
guests=$here/../guests
dpcli=$(realpath -m "${DPCLI:-$here/../crates/dpcli/out/dpcli}")
[[ -x $dpcli ]] || { echo "no program: $dpcli"; exit 1; }
work=$(mktemp -d -p /dev/shm 2>/dev/null || mktemp -d) || exit 1
trap 'rm -rf "$work"' EXIT
cd "$work" || exit 1

cat >failing.c <<'C'
#define _GNU_SOURCE
#include <errno.h>
#include <fcntl.h>
#include <stdarg.h>
#include <stdatomic.h>
#include <stdlib.h>
#include <string.h>
#include <sys/syscall.h>
#include <unistd.h>
static atomic_long count;
static int fails(const char *kind, int error) {
  const char *which = getenv("FAILS"), *at = getenv("FAILS_AT"), *until = getenv("FAILS_UNTIL");
  if (!which || strcmp(which, kind) != 0) {
    return 0;
  }
  long number = atomic_fetch_add(&count, 1) + 1;
  if (at && number >= atol(at) && (!until || number <= atol(until))) {
    errno = error;
    return 1;
  }
  return 0;
}
void *__libc_malloc(size_t size);
void *__libc_realloc(void *old, size_t size);
void *__libc_calloc(size_t count, size_t size);
void *__libc_memalign(size_t alignment, size_t size);
void *malloc(size_t size) { return fails("memory", ENOMEM) ? 0 : __libc_malloc(size); }
void *realloc(void *old, size_t size) { return fails("memory", ENOMEM) ? 0 : __libc_realloc(old, size); }
void *calloc(size_t count, size_t size) { return fails("memory", ENOMEM) ? 0 : __libc_calloc(count, size); }
void *aligned_alloc(size_t alignment, size_t size) { return fails("memory", ENOMEM) ? 0 : __libc_memalign(alignment, size); }
int posix_memalign(void **to, size_t alignment, size_t size) {
  if (fails("memory", ENOMEM)) {
    return ENOMEM;
  }
  *to = __libc_memalign(alignment, size);
  return *to ? 0 : ENOMEM;
}
#define DEVICE fails("device", EIO) ? -1 :
ssize_t read(int fd, void *to, size_t size) { return DEVICE syscall(SYS_read, fd, to, size); }
ssize_t write(int fd, const void *of, size_t size) { return DEVICE syscall(SYS_write, fd, of, size); }
ssize_t __write(int fd, const void *of, size_t size) { return write(fd, of, size); }
ssize_t pread(int fd, void *to, size_t size, off_t at) { return DEVICE syscall(SYS_pread64, fd, to, size, at); }
ssize_t pwrite(int fd, const void *of, size_t size, off_t at) { return DEVICE syscall(SYS_pwrite64, fd, of, size, at); }
int fsync(int fd) { return DEVICE syscall(SYS_fsync, fd); }
int fdatasync(int fd) { return DEVICE syscall(SYS_fdatasync, fd); }
int ftruncate(int fd, off_t size) { return DEVICE syscall(SYS_ftruncate, fd, size); }
int open(const char *name, int flags, ...) {
  va_list rest;
  va_start(rest, flags);
  mode_t mode = va_arg(rest, mode_t);
  va_end(rest);
  return DEVICE syscall(SYS_openat, AT_FDCWD, name, flags, mode);
}
C
cc -O2 -shared -fPIC -o failing.so failing.c || exit 1

wrong() {
  echo "FAILED: $*"
  head -n 3 note
  exit 1
}

# is_prefix FILE OF
is_prefix() { cmp -s -n "$(stat -c %s "$1")" "$1" "$2"; }

# fails NUMBER LATER ARGUMENTS..: runs a command with that call failing, and with all later ones if LATER is all.
fails() {
  local number=$1 until=$1
  [[ $2 == one ]] || until=
  shift 2
  env LD_PRELOAD="$work/failing.so" FAILS="$kind" FAILS_AT="$number" ${until:+FAILS_UNTIL="$until"} timeout 60 "$dpcli" "$@" >out 2>note </dev/null
  status=$?
}

# Whether a status is one that a command has if such a call fails.
may_end() {
  case $kind:$status in
    memory:13) return 0 ;;
    # The calls on the system's files need memory too, and so does the line that says so.
    memory:3 | memory:5 | memory:6 | memory:7) [[ $1 == all ]] || grep -q "^dpcli: .*: out of memory$" note ;;
    device:3 | device:5 | device:6 | device:7) return 0 ;;
    *) return 1 ;;
  esac
}

# each NAME OUTPUT ARGUMENTS..: a command with each of its calls failing. OUTPUT is a file with its whole output, or `replayed` if that may
# differ from run to run. First all later calls fail too. That is over after as many runs in a row that don't end by it as there are calls
# that a command makes at most by chance more than another time. Then each call fails alone.
each() {
  local name=$1 output=$2 later number ended unharmed squashes last=0 enough=200
  [[ $kind == memory ]] || enough=50
  shift 2
  for later in all one; do
    ended=0 unharmed=0 squashes=0
    for ((number = 1; unharmed < enough || number <= last; number++)); do
      rm -f journal
      fails "$number" "$later" "$@"
      at="$name, $kind call $number and $later"
      case $status in
        0) unharmed=$((unharmed + 1))
          [[ $output == replayed ]] || cmp -s out "$output" || wrong "$at: status 0, another output"
          read -r _ _ _ squashed _ <note
          [[ $1 != record ]] || squashes=$((squashes + squashed)) ;;
        *) may_end "$later" || wrong "$at: status $status"
          ended=$((ended + 1)) unharmed=0
          ((last < number)) && last=$number ;;
      esac
      [[ $output == replayed ]] || is_prefix out "$output" || wrong "$at: another output"
      [[ $1 != record ]] || left_right "$at" "$output" "$status"
    done
    echo "$kind, $name, $later: $ended of $number ended by it$([[ $1 != record ]] || echo ", $squashes squashes in the others")"
    ((ended > 0)) || wrong "$name, $later: no call failed"
  done
}

# What a recording left: no journal and nothing sent, or one that replays to what was sent or more, and to no more if it ended with 0.
left_right() {
  local ended=$3
  cp out sent
  if [[ ! -s journal ]]; then
    [[ ! -s sent ]] || wrong "$1: no journal, and something was sent"
    return
  fi
  "$dpcli" replay journal --workers 4 >out 2>note </dev/null
  status=$?
  case $status in
    0) is_prefix sent out || wrong "$1: the replay doesn't begin with what was sent"
      [[ $ended != 0 ]] || cmp -s sent out || wrong "$1: status 0, and a replay sends more"
      [[ $2 == replayed ]] || is_prefix out "$2" || wrong "$1: another replay" ;;
    14) [[ ! -s sent ]] || wrong "$1: no journal, and something was sent" ;;
    *) wrong "$1: the replay's status is $status" ;;
  esac
}

"$dpcli" record "$guests/hello.elf" marked --epoch 300 --mark 2 >whole 2>note </dev/null || wrong "a recording"
"$dpcli" record "$guests/counter_racing.elf" raced --epoch 20000 --mark 2 >raced_whole 2>note </dev/null || wrong "a racing recording"
"$dpcli" inspect marked >listed 2>note </dev/null || wrong "an inspection"
"$dpcli" selftest 3 >tested 2>note </dev/null || wrong "a self-test"
for kind in ${1:-memory device}; do
  each "a recording" "$guests/hello.out" record "$guests/hello.elf" journal
  each "a recording of many epochs with marks" "$guests/hello.out" record "$guests/hello.elf" journal --epoch 300 --mark 2 --workers 2
  each "a recording in which nothing races" "$guests/hello.out" record "$guests/hello.elf" journal --epoch 300 --ahead 1
  each "a recording of racing threads" replayed record "$guests/counter_racing.elf" journal --epoch 20000 --mark 2 --workers 4
  each "a replay" whole replay marked
  each "a replay by one worker" whole replay marked --workers 1
  each "a replay of racing threads by four workers" raced_whole replay raced --workers 4
  each "an inspection" listed inspect marked
  [[ $kind == device ]] || each "a self-test" tested selftest 3
done
