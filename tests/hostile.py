"""Runs the built program on spoiled guests, spoiled journals and random command lines.

No case may crash, run longer than ten seconds, use more memory than `memory_bound` says, or end with a status that its command doesn't
have. A guest that is recorded replays to the same output and report, and a journal gives the same answer by any number of workers.

Each case depends on the seed and on its number alone, but for what threads do that run at once. Prints the seed first and a summary at
the end. Ends with 1 after the first case that goes wrong, whose files are kept.
"""
import multiprocessing
import os
import random
import select
import shutil
import struct
import subprocess
import sys
import tempfile
import time

HERE = os.path.dirname(os.path.realpath(__file__))
DPCLI = os.path.realpath(os.environ.get("DPCLI", os.path.join(HERE, "../crates/dpcli/out/dpcli")))
MOST_SECONDS = 10
# Large guests take a second or two. One took more than ten once, on a busy host.
MOST_SECONDS_OF_LARGE = 60
MIB = 1 << 20

# What each command may end with. Memory and the system's devices are there, so no case may end with 13, and 3, 5, 6 and 7 come only where a
# command line names a file that can't be had.
RECORDED = {0, 4, 11}
REPLAYED = {0, 4, 9, 10, 14, 15}
INSPECTED = {0, 9, 14}
OF_WORDS = {
    "record": {0, 2, 3, 4, 6, 8, 11},
    "replay": {0, 2, 4, 6, 9, 10, 14, 15},
    "inspect": {0, 2, 6, 9, 14},
    "selftest": {0, 2},
}


class Wrong(Exception):
    """What is wrong with a case."""


def memory_bound(command, journal_bytes=0, workers=4, ahead=16):
    """The most memory that a command may use, in bytes, as TUTORIAL says.

    What the system says of a child's memory counts that of this program too, as it was when the child began. That is below 40 MiB.
    """
    if command == "record":
        return (128 + 26 * ahead) * MIB
    if command == "replay":
        return (40 + 100 * workers) * MIB + journal_bytes
    if command == "inspect":
        return 40 * MIB + journal_bytes
    return 128 * MIB


class Ran:
    """How a run of the program ended, and what it wrote."""

    def __init__(self, status, seconds, memory, out, note):
        self.status, self.seconds, self.memory, self.out, self.note = status, seconds, memory, out, note


def read(path):
    try:
        with open(path, "rb") as file:
            return file.read()
    except FileNotFoundError:
        return b""


def run(folder, words, given=b"", most_seconds=MOST_SECONDS):
    """Runs the program in a folder, for so many seconds at most."""
    out, note, given_path = (os.path.join(folder, name) for name in ("out", "note", "given"))
    with open(given_path, "wb") as file:
        file.write(given)
    start = time.monotonic()
    with open(given_path, "rb") as stdin, open(out, "wb") as stdout, open(note, "wb") as stderr:
        child = subprocess.Popen([DPCLI, *words], cwd=folder, stdin=stdin, stdout=stdout, stderr=stderr)
        waiting = select.poll()
        ends = os.pidfd_open(child.pid)
        waiting.register(ends, select.POLLIN)
        is_late = not waiting.poll(most_seconds * 1000)
        if is_late:
            child.kill()
        _, wait_status, usage = os.wait4(child.pid, 0)
        os.close(ends)
        child.returncode = os.waitstatus_to_exitcode(wait_status)
    if is_late:
        raise Wrong(f"ran longer than {most_seconds} seconds: {words}")
    if child.returncode < 0:
        raise Wrong(f"ended by signal {-child.returncode}: {words}")
    return Ran(child.returncode, time.monotonic() - start, usage.ru_maxrss * 1024, read(out), read(note))


class Tally:
    """What was seen so far: how often each command ended with each status, and the most time and memory that it took."""

    def __init__(self):
        self.cases, self.statuses, self.most = {}, {}, {}

    def add_case(self, kind):
        self.cases[kind] = self.cases.get(kind, 0) + 1

    def add_run(self, command, ran):
        key = (command, ran.status)
        self.statuses[key] = self.statuses.get(key, 0) + 1
        seconds, memory = self.most.get(command, (0, 0))
        self.most[command] = (max(seconds, ran.seconds), max(memory, ran.memory))

    def add(self, other):
        for mine, others in ((self.cases, other.cases), (self.statuses, other.statuses)):
            for key, count in others.items():
                mine[key] = mine.get(key, 0) + count
        for command, (seconds, memory) in other.most.items():
            was = self.most.get(command, (0, 0))
            self.most[command] = (max(was[0], seconds), max(was[1], memory))

    def print(self):
        print("cases: " + ", ".join(f"{kind} {count}" for kind, count in sorted(self.cases.items())))
        for command in sorted(self.most):
            seconds, memory = self.most[command]
            statuses = ", ".join(f"{status}: {count}" for (of, status), count in sorted(self.statuses.items()) if of == command)
            print(f"{command}: at most {seconds:.2f} s and {memory / MIB:.0f} MiB; statuses {statuses}")


def judged(tally, command, ran, statuses, bound):
    tally.add_run(command, ran)
    if ran.status not in statuses:
        raise Wrong(f"{command} ended with {ran.status}: {ran.note[:200]!r}")
    if ran.memory > bound:
        raise Wrong(f"{command} used {ran.memory / MIB:.0f} MiB, more than {bound / MIB:.0f}")
    return ran


# ---- bytes that are spoiled


def spoil_bytes(rng, data, near=None):
    """Changes a few bits, bytes or numbers. `near` are offsets that are chosen half of the time."""
    data = bytearray(data)
    for _ in range(rng.choice([1, 1, 1, 2, 3, 8])):
        if not data:
            return bytes(data)
        at = rng.choice(near) if near and rng.random() < 0.5 else rng.randrange(len(data))
        at = min(at, len(data) - 1)
        how = rng.randrange(4)
        if how == 0:
            data[at] ^= 1 << rng.randrange(8)
        elif how == 1:
            data[at] = rng.choice([0, 1, 2, 3, 0x7F, 0x80, 0xFE, 0xFF])
        else:
            size = rng.choice([2, 4, 8])
            number = rng.choice([0, 1, 2, (1 << 8 * size) - 1, 1 << 8 * size - 1, rng.getrandbits(8 * size), 4096, 0xFFFFF000])
            word = (number % (1 << 8 * size)).to_bytes(size, "little")
            data[at : at + size] = word[: len(data) - at]
    return bytes(data)


def cut_and_joined(rng, data, other):
    """Cuts data, or puts bytes of another in."""
    at, until = sorted((rng.randrange(len(data) + 1), rng.randrange(len(data) + 1)))
    how = rng.randrange(4)
    if how == 0:
        return data[:at]
    if how == 1:
        return data[:at] + other[rng.randrange(len(other) + 1) :]
    if how == 2:
        return data[:at] + data[until:]
    return data[:at] + bytes(rng.getrandbits(8) for _ in range(rng.randrange(64))) + data[at:]


# ---- guests

# Fields of the ELF header and of the first program header, by offset.
ELF_FIELDS = [0, 4, 5, 6, 16, 18, 20, 24, 28, 42, 44, 52, 56, 60, 64, 68, 72, 76, 80]


def spoil_guest(rng, guests):
    guest = rng.choice(guests)
    if rng.random() < 0.2:
        return cut_and_joined(rng, guest, rng.choice(guests))
    return spoil_bytes(rng, guest, ELF_FIELDS if rng.random() < 0.4 else None)


def options_of_record(rng):
    """Options for a recording of at most 50,000 steps, which isn't cut into too many epochs and marks."""
    limit = rng.choice([1, 100, 5000, 50000])
    epoch = rng.choice([n for n in (1, 7, 100, 500, 3000, 20000, 1000000) if limit <= 200 * n])
    options = {"limit": limit, "epoch": epoch, "slice": rng.choice([1, 3, 100, 1000, 100000])}
    options["ahead"] = rng.choice([1, 2, 16, 64])
    options["workers"] = rng.choice([1, 2, 4, 64])
    options["mark"] = rng.choice([0, 0, 16, 1000] if limit > 20 * epoch else [0, 1, 3, 16])
    return options


def words_of(options):
    return [word for name, value in options.items() for word in (f"--{name}", str(value))]


def fields_of_report(note):
    """A report's line without its squashes."""
    words = note.split()
    return words[:2] + words[4:] if len(words) > 4 and words[2] == b"squashes" else words


def guest_case(rng, folder, corpus, tally):
    guest = spoil_guest(rng, corpus.guests)
    with open(os.path.join(folder, "guest"), "wb") as file:
        file.write(guest)
    options = options_of_record(rng)
    given = bytes(rng.getrandbits(8) for _ in range(rng.choice([0, 0, 1, 100, 5000])))
    bound = memory_bound("record", ahead=options["ahead"])
    recorded = judged(tally, "record", run(folder, ["record", "guest", "journal", *words_of(options)], given), RECORDED, bound)
    journal = read(os.path.join(folder, "journal"))
    if recorded.status == 4:
        if journal or recorded.out:
            raise Wrong("a guest was refused, and something was written or sent")
        return
    answers = replay_by_workers(rng, folder, tally, len(journal))
    if answers.status != 0 or answers.out != recorded.out:
        raise Wrong(f"a recording replays with {answers.status}, to {len(answers.out)} bytes of {len(recorded.out)}")
    if recorded.status == 0 and fields_of_report(answers.note) != fields_of_report(recorded.note):
        raise Wrong(f"recorded {recorded.note!r}, replayed {answers.note!r}")


# ---- journals


def replay_by_workers(rng, folder, tally, journal_bytes):
    """Replays by one worker and by others, which must answer the same."""
    first = None
    for workers in (1, 4, rng.choice([2, 3, 7, 64])):
        bound = memory_bound("replay", journal_bytes, workers)
        ran = judged(tally, "replay", run(folder, ["replay", "journal", "--workers", str(workers)]), REPLAYED, bound)
        if first is None:
            first = ran
        elif (ran.status, ran.out, ran.note) != (first.status, first.out, first.note):
            raise Wrong(f"{workers} workers answer {ran.status} {ran.note!r}, one {first.status} {first.note!r}")
    return first


def records_of(journal):
    """The header of a journal, its records, and what follows them."""
    at = 9 + struct.unpack_from("<I", journal, 5)[0]
    header, records = journal[:at], []
    while at + 5 <= len(journal) and journal[at] == 1:
        end = at + 5 + struct.unpack_from("<I", journal, at + 1)[0]
        if end > len(journal):
            break
        records.append(journal[at:end])
        at = end
    return header, records, journal[at:]


def with_body(body):
    return b"\x01" + struct.pack("<I", len(body)) + body


def spoil_journal(rng, journals):
    """Spoils a journal: its bytes, one record's, or which records it has."""
    journal = rng.choice(journals)
    how = rng.randrange(9)
    if how == 0:
        return spoil_bytes(rng, journal)
    if how == 1:
        return cut_and_joined(rng, journal, rng.choice(journals))
    header, records, rest = records_of(journal)
    if how == 2 or not records:
        return spoil_bytes(rng, header, [0, 1, 5, 9, 9 + 24, 9 + 28]) + b"".join(records) + rest
    k, other = rng.randrange(len(records)), rng.randrange(len(records))
    _, others, _ = records_of(rng.choice(journals))
    if how == 3:
        del records[k]
    elif how == 4:
        records.insert(other, records[k])
    elif how == 5:
        records[k], records[other] = records[other], records[k]
    elif how == 6 and others:
        marks = [record for record in others if record[5:6] != b"\x00"]
        records[k : k + rng.randrange(2)] = [rng.choice(marks or others)]
    elif how == 7:
        # The front of a record has its kind, counts and first fields.
        records[k] = spoil_bytes(rng, records[k], list(range(min(len(records[k]), 48))))
    else:
        records[k] = with_body(spoil_bytes(rng, records[k][5:], list(range(40))))
    return header + b"".join(records) + rest


def journal_case(rng, folder, corpus, tally):
    journal = spoil_journal(rng, corpus.journals)
    with open(os.path.join(folder, "journal"), "wb") as file:
        file.write(journal)
    replayed = replay_by_workers(rng, folder, tally, len(journal))
    bound = memory_bound("inspect", len(journal))
    inspected = judged(tally, "inspect", run(folder, ["inspect", "journal"]), INSPECTED, bound)
    if (inspected.status == 14) != (replayed.status == 14):
        raise Wrong(f"inspect ended with {inspected.status}, replay with {replayed.status}")
    if inspected.status == 0 and replayed.status == 9:
        raise Wrong("replay finds a malformed record where inspect finds none")
    if inspected.status == 9 and replayed.status == 0:
        raise Wrong("inspect finds a malformed record where replay finds none")
    if read(os.path.join(folder, "journal")) != journal:
        raise Wrong("a replay or an inspection changed the journal")


# ---- command lines

NAMES = ["guest", "journal", "nowhere/journal", "", ".", "..", "/", "/dev/null", "/dev/full", "folder", "--", "-", "a" * 300, "\u00e4\u20ac", b"\xff\xfe"]
NUMBERS = ["0", "1", "4", "64", "65", "1000", "100000", "-1", "+1", "01", "1e3", " 1", "1 ", "", "x", "4294967295", "4294967296", "1" * 40, "\u0661"]
OPTIONS = ["--workers", "--epoch", "--slice", "--ahead", "--mark", "--limit", "--worker", "--help", "-h", "--version", "-w", "--workers=2", "--epoch=", "--"]


def random_words(rng):
    command = rng.choice(["record", "replay", "inspect", "selftest", "record", "replay", "help", "RECORD", "", "--help", "--version"])
    words = [command]
    if command == "record":
        words += [rng.choice(["guest", "guest", rng.choice(NAMES)]), rng.choice(["journal", "new", "new", rng.choice(NAMES)])]
    elif command == "selftest":
        words.append(rng.choice(["0", "7", "23", "8003", rng.choice(NUMBERS)]))
    else:
        words.append(rng.choice(["journal", "journal", rng.choice(NAMES)]))
    for _ in range(rng.choice([0, 0, 1, 1, 2, 3])):
        words += [rng.choice(OPTIONS), rng.choice(NUMBERS)]
    if rng.random() < 0.2:
        rng.shuffle(words)
    if rng.random() < 0.1:
        words.insert(rng.randrange(len(words) + 1), rng.choice(NAMES + NUMBERS))
    if rng.random() < 0.05:
        del words[rng.randrange(len(words))]
    return words


def words_case(rng, folder, corpus, tally):
    for name, data in (("guest", rng.choice(corpus.short_guests)), ("journal", rng.choice(corpus.journals))):
        with open(os.path.join(folder, name), "wb") as file:
            file.write(data)
    os.makedirs(os.path.join(folder, "folder"), exist_ok=True)
    before = read(os.path.join(folder, "journal"))
    words = random_words(rng)
    first = words[0] if words and words[0] in OF_WORDS else "other words"
    ran = run(folder, words)
    judged(tally, f"words of {first}", ran, OF_WORDS.get(first, {2}), memory_bound("record", ahead=64))
    if read(os.path.join(folder, "journal")) != before:
        raise Wrong(f"{words} changed a journal that was there")
    if ran.status == 2 and ran.out and not {"--help", "-h", "help", "--version", "-V"} & {*words}:
        raise Wrong(f"{words} are refused, and something was sent")


# ---- the corpus


class Corpus:
    """Guests and journals that are spoiled."""

    def __init__(self, folder):
        paths = []
        for place in ("../guests", "../bench", "."):
            place = os.path.join(HERE, place)
            paths += sorted(os.path.join(place, name) for name in os.listdir(place) if name.endswith(".elf"))
        self.guests = [read(path) for path in paths]
        self.short_guests = [read(path) for path in paths if os.path.basename(path) in ("hello.elf", "filter.elf")]
        self.journals = []
        given = b"a few words of a text, and a few more of them\n" * 40
        for path in paths:
            for options in (["--epoch", "500", "--limit", "20000", "--mark", "3"], ["--limit", "30000"], ["--epoch", "3000", "--limit", "30000", "--mark", "1"]):
                journal = os.path.join(folder, "corpus")
                if os.path.exists(journal):
                    os.remove(journal)
                ran = run(folder, ["record", path, journal, *options], given)
                if ran.status not in (0, 11):
                    raise Wrong(f"{path} {options}: status {ran.status}")
                data = read(journal)
                # Journals are large only by their marks. Large ones make a case slow.
                if len(data) <= MIB // 2:
                    self.journals.append(data)


# ---- large guests and long journals

# A guest's pages, the epochs of a round, the workers, and the epochs of the journal: small and large ones of each.
LARGE_RUNS = [
    (32, 1, 1, 100),
    (32, 16, 4, 100),
    (1008, 1, 1, 100),
    (1008, 16, 4, 25),
    (1008, 16, 4, 100),
    (1008, 64, 64, 100),
    (1008, 64, 64, 200),
]


def guest_of_pages(pages):
    """A guest that adds 1 to a word of each of its pages in turn, for ever. With its stack it has 16 pages more."""
    lui = lambda register, number: number << 12 | register << 7 | 0x37
    first, after, page, size, word = 5, 6, 7, 28, 29
    code = [
        lui(first, 0x11),
        lui(after, 0x10 + pages),
        lui(size, 1),
        first << 15 | page << 7 | 0x13,  # addi page, first, 0
        page << 15 | 2 << 12 | word << 7 | 0x03,  # lw word, 0(page)
        1 << 20 | word << 15 | word << 7 | 0x13,  # addi word, word, 1
        word << 20 | page << 15 | 2 << 12 | 0x23,  # sw word, 0(page)
        size << 20 | page << 15 | page << 7 | 0x33,  # add page, page, size
        0xFE000000 | after << 20 | page << 15 | 6 << 12 | 0x8 << 8 | 0xE3,  # bltu page, after, to the load
        0xFE9FF06F,  # jal to the first addi
    ]
    start, address = 84, 0x10000
    length = start + 4 * len(code)
    header = b"\x7fELF\x01\x01\x01" + bytes(9) + struct.pack("<HHIIIIIHHHHHH", 2, 243, 1, address + start, 52, 0, 0, 52, 32, 1, 0, 0, 0)
    segment = struct.pack("<IIIIIIII", 1, 0, address, address, length, pages * 4096, 7, 4096)
    return header + segment + struct.pack(f"<{len(code)}I", *code)


def large_runs(folder, tally):
    """Records guests of few and of many pages, and replays them. Prints how much memory each run took, and how much it may take."""
    os.makedirs(folder)
    path, journal = os.path.join(folder, "large.elf"), os.path.join(folder, "large.dpj")
    for pages, ahead, workers, epochs in LARGE_RUNS:
        with open(path, "wb") as file:
            file.write(guest_of_pages(pages))
        if os.path.exists(journal):
            os.remove(journal)
        options = ["--ahead", str(ahead), "--workers", str(workers), "--epoch", "20000", "--mark", "4", "--limit", str(20000 * epochs)]
        bound = memory_bound("record", ahead=ahead)
        ran = run(folder, ["record", path, journal, *options], most_seconds=MOST_SECONDS_OF_LARGE)
        recorded = judged(tally, "record", ran, {11}, bound)
        length = os.path.getsize(journal)
        bound_of_replay = memory_bound("replay", length, workers)
        ran = run(folder, ["replay", journal, "--workers", str(workers)], most_seconds=MOST_SECONDS_OF_LARGE)
        replayed = judged(tally, "replay", ran, {0}, bound_of_replay)
        print(
            f"{pages + 16} pages, --ahead {ahead}, --workers {workers}, a journal of {epochs} epochs and {length:,} bytes: "
            f"record {recorded.memory / MIB:.0f} MiB of {bound / MIB:.0f}, replay {replayed.memory / MIB:.0f} MiB of {bound_of_replay / MIB:.0f}",
            flush=True,
        )
    shutil.rmtree(folder)


KINDS = [("guest", guest_case), ("journal", journal_case), ("journal", journal_case), ("words", words_case)]


def run_case(seed, number, folder, corpus, tally):
    """Runs a case in a folder of its own."""
    rng = random.Random(f"{seed}/{number}")
    kind, case = rng.choice(KINDS)
    shutil.rmtree(folder, ignore_errors=True)
    os.makedirs(folder)
    tally.add_case(kind)
    case(rng, folder, corpus, tally)


def run_cases(seed, first, step, until, folder, corpus, results, stopped):
    """Runs every `step`-th case from `first` on until it is late or a case is wrong."""
    tally, number = Tally(), first
    try:
        while time.monotonic() < until and not stopped.is_set():
            run_case(seed, number, folder, corpus, tally)
            number += step
        results.put((tally, None))
    except Exception as wrong:  # also one of this program's own, or nobody would hear of the case
        stopped.set()
        results.put((tally, f"case {number} of seed {seed}: {wrong!r}; its files are in {folder}"))


def main():
    words = sys.argv[1:]
    if not os.access(DPCLI, os.X_OK):
        sys.exit(f"no program: {DPCLI}")
    work = tempfile.mkdtemp(prefix="hostile.", dir="/dev/shm" if os.path.isdir("/dev/shm") else None)
    if words[:1] == ["--case"]:
        number, seed = int(words[1]), int(words[2])
        folder = os.path.join(work, "case")
        corpus = Corpus(work)
        try:
            run_case(seed, number, folder, corpus, Tally())
            print(f"case {number} of seed {seed}: nothing is wrong; its files are in {folder}")
        except Wrong as wrong:
            sys.exit(f"case {number} of seed {seed}: {wrong}; its files are in {folder}")
        return
    seconds = float(words[0]) if words else 120
    seed = int(words[1]) if len(words) > 1 else int.from_bytes(os.urandom(6), "little")
    print(f"seed {seed}", flush=True)
    tally, wrong = Tally(), []
    try:
        large_runs(os.path.join(work, "large"), tally)
    except Wrong as large:
        sys.exit(f"a large guest or journal: {large}; its files are in {work}/large")
    corpus = Corpus(work)
    count = os.cpu_count() if not hasattr(os, "sched_getaffinity") else len(os.sched_getaffinity(0))
    results, stopped = multiprocessing.Queue(), multiprocessing.Event()
    until = time.monotonic() + seconds
    workers = [
        multiprocessing.Process(target=run_cases, args=(seed, first, count, until, os.path.join(work, str(first)), corpus, results, stopped))
        for first in range(count)
    ]
    for worker in workers:
        worker.start()
    for _ in workers:
        part, said = results.get()
        tally.add(part)
        wrong += [said] if said else []
    for worker in workers:
        worker.join()
    tally.print()
    if wrong:
        sys.exit("\n".join(wrong))
    shutil.rmtree(work)
    print(f"{sum(tally.cases.values())} cases passed")


if __name__ == "__main__":
    main()
