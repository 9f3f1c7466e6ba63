"""What the streams of bench/streams.py cost: instructions a byte, and memory.

bench/measure hostile [--check] [WORD ..]    all streams, or those with one of the words in their names

Each stream is run at three sizes under valgrind's callgrind. The three numbers are the instructions for a byte up to
the first size, from there to the second, and from there to the third, so the third shows a cost that grows with the
stream: first those of `relay`, which reads 4096 bytes at a time, then those of a terminal that is fed the stream in
one call, where a step that looks at all the rest costs most. Then `relay` is run at three larger sizes without
valgrind. The numbers are the peaks of resident memory in MB, and `kept` is their growth in bytes for each byte from
the first size to the third.

grows, falls    a third number of instructions is above the second by more than a tenth and 2, or below it by as much
dear            a byte takes more than the bound that is named for the stream
memory          a peak is above 8 MB (20 MB on 4096 columns, 40 MB on 4096 rows) and twice the largest single text
keeps           memory grows by more than 0.5 MB and a tenth of a byte for each byte; where the stream is one text, by
                2.2 bytes for each byte of it
-               the run was not over after two minutes; larger sizes were left out

At the end come screens of four sizes: instructions and memory of the first update, after 80 letters.

--check counts the instructions of three small sizes at equal distances, in one call, and looks at memory at two. A
stream fails if it grows, keeps or takes memory as above. The last line is 'N passed, M failed'; the status is 1 if
anything failed. Without valgrind it says so and passes.
"""
import os
import re
import shutil
import subprocess
import sys
import tempfile
import threading
import time
from concurrent.futures import ThreadPoolExecutor
from pathlib import Path
from typing import NamedTuple, Optional

from streams import BENCH, MB, RELAY, ROOT, SCREENS, STREAMS, letters

# How many seconds a run may take, and the first update of a large screen.
LIMIT, SCREEN_LIMIT = 120, 900
# How much more a byte may take, and how many bytes of memory may be kept for a byte of a stream and of a single text.
FLAT, KEPT, KEPT_TEXT = 1.1, 0.1, 2.2
# What is no growth: instructions a byte, as for reading the input, and a difference of peaks.
FEW, LITTLE = 2, MB // 2


class TooLong(Exception):
    """A run took too long and was ended."""


def fail(words, why):
    sys.exit(f"bench/measure: {' '.join(map(str, words))} failed: {why}")


def instructions(words, pieces, limit=LIMIT):
    """Returns how many instructions a program takes on its input."""
    with tempfile.TemporaryDirectory() as room, tempfile.TemporaryFile() as given:
        given.writelines(pieces)
        given.seek(0)
        words = ["valgrind", "--tool=callgrind", f"--callgrind-out-file={room}/out", *map(str, words)]
        how = {"stdin": given, "stdout": subprocess.DEVNULL, "stderr": subprocess.PIPE, "timeout": limit}
        try:
            ran = subprocess.run(words, **how)
        except subprocess.TimeoutExpired:
            raise TooLong from None
    found = re.search(rb"Collected : (\d+)", ran.stderr)
    if ran.returncode or not found:
        fail(words, ran.stderr.decode(errors="replace")[-300:])
    return int(found[1])


def full_pipe():
    """Returns the ends of a pipe that is full: a writer waits until something is read."""
    read, write = os.pipe()
    os.set_blocking(write, False)
    try:
        while os.write(write, bytes(4096)):
            pass
    except BlockingIOError:
        os.set_blocking(write, True)
    return read, write


def status(process):
    """Returns whether a process sleeps, and its peak of resident memory in bytes; `None` once it has ended."""
    try:
        text = Path(f"/proc/{process}/status").read_text()
    except OSError:
        return None
    found = re.search(r"^State:\s+(\w).*^VmHWM:\s+(\d+) kB$", text, re.M | re.S)
    return found and (found[1] == "S", int(found[2]) * 1024)


class Feeder(threading.Thread):
    """Writes pieces into a pipe, and closes it."""

    def __init__(self, to, pieces):
        super().__init__(daemon=True)
        self.to, self.pieces = to, pieces

    def run(self):
        try:
            with open(self.to, "wb") as given:
                given.writelines(self.pieces)
        except BrokenPipeError:
            pass


def watch(process, feeder, ends_asleep):
    """Returns the peak of a process until it ends, or sleeps with its whole input read: then it waits to write."""
    most, end = 0, time.monotonic() + LIMIT
    while True:
        is_fed, found = not feeder.is_alive(), status(process)
        if not found:
            return most
        sleeps, memory = found
        most = max(most, memory)
        if ends_asleep and is_fed and sleeps:
            return most
        if time.monotonic() > end:
            raise TooLong
        time.sleep(0.001)


def peak(words, pieces):
    """Returns a program's peak of resident memory on its input, in bytes.

    `wait4` counts the memory of this program before `exec` as well, so the peak is read from /proc while the program
    runs. What it shows at its end goes into a full pipe, so that it waits there; updates are written freely.
    """
    given, to = os.pipe()
    shown, write = full_pipe() if "--every" not in words else (None, os.open(os.devnull, os.O_WRONLY))
    started = subprocess.Popen([*map(str, words)], stdin=given, stdout=write)
    os.close(given)
    os.close(write)
    feeder = Feeder(to, pieces)
    feeder.start()
    try:
        most = watch(started.pid, feeder, shown is not None)
    except TooLong:
        started.kill()
        raise
    finally:
        if shown is not None:
            with open(shown, "rb") as rest:
                rest.read()
        started.wait()
    if started.returncode:
        fail(words, f"status {started.returncode}")
    return most


def tried(run, *given):
    """Returns the result of a run, or `None` if it took too long."""
    try:
        return run(*given)
    except TooLong:
        return None


class Result(NamedTuple):
    length: int
    reads: list
    call: list
    peaks: list
    kept: Optional[float]
    marks: list


def at_sizes(run, command, stream, counts):
    """Returns what a run takes at each size; `None` for a size that took too long, and for larger ones."""
    taken = []
    for count in counts:
        taken.append(tried(run, command(count), stream.bytes(count)) if None not in taken else None)
    return taken


def costs_of(command, stream, counts):
    """Returns the instructions a byte from each size to the next; none without a command."""
    if command(1) is None:
        return []
    taken, lengths = at_sizes(instructions, command, stream, counts), [stream.length(it) for it in counts]
    pairs = zip(zip(taken, lengths), zip(taken[1:], lengths[1:]))
    return [None if b is None else (b - a) / (m - n) for (a, n), (b, m) in pairs]


def marks_of_costs(costs, most):
    if most and not (costs[-1] and costs[-1] <= most):
        yield "dear"
    if None in costs[-2:] or costs[-1] > costs[-2] * FLAT + FEW:
        yield "grows"
    elif costs[-1] * FLAT + FEW < costs[-2]:
        yield "falls"


def marks_of_memory(stream, peaks, texts, kept):
    if any(it is None or it > stream.room + 2 * text for it, text in zip(peaks, texts)):
        yield "memory"
    if kept is None or peaks[-1] - peaks[0] > LITTLE and kept >= max(KEPT, KEPT_TEXT * stream.grows):
        yield "keeps"


def measure(stream, counts, larger, has_both=True):
    """Runs a stream at sizes for instructions, in reads and in one call or in one of these, and at sizes for memory."""
    call = costs_of(stream.in_one_call, stream, counts)
    reads = costs_of(stream.command, stream, counts) if has_both or not call else []
    peaks, lengths = at_sizes(peak, stream.command, stream, larger), [stream.length(it) for it in larger]
    kept = None if peaks[-1] is None else (peaks[-1] - peaks[0]) / (lengths[-1] - lengths[0])
    marks = [mark for costs in (reads, call) if costs for mark in marks_of_costs(costs, stream.most)]
    marks += marks_of_memory(stream, peaks, [stream.largest_text(it) for it in larger], kept)
    return Result(stream.length(counts[-1]), reads, call, peaks, kept, [*dict.fromkeys(marks)])


def shown(number, form, of=1):
    return "-" if number is None else format(number / of, form)


def row(name, result):
    costs = (*result.reads, *(result.call or [None] * 3))
    numbers = [f"{shown(it, '.1f' if (it or 0) < 10_000 else '.0f'):>8}" for it in costs]
    numbers += [f"{shown(it, '.1f', MB):>7}" for it in result.peaks]
    marks = " ".join(result.marks)
    return f"{name:31}{result.length / 1000:6.0f}{''.join(numbers)}{shown(result.kept, '.2f'):>7}  {marks}"


def first_update(width, height):
    """Returns the instructions and the memory of a screen's first update."""
    words = [RELAY, "--width", width, "--height", height, "--every", "4096"]
    return tried(instructions, words, [letters(80)], SCREEN_LIMIT), tried(peak, [*map(str, words)], [letters(80)])


def pool():
    return ThreadPoolExecutor(len(os.sched_getaffinity(0)))


def table(streams, screens):
    """Prints a row for each stream, and one for each screen; as many run at a time as there are processors."""
    print(f"{'':37}{'instructions a byte, reads':>27}{'in one call':>21}{'MB, larger sizes':>21}{'bytes':>7}")
    heads = [f"{it:>8}" for it in ("to 1st", "to 2nd", "to 3rd") * 2] + [f"{it:>7}" for it in ("1st", "2nd", "3rd")]
    print(f"{'hostile':31}{'KB':>6}{''.join(heads)}{'kept':>7}  marks", flush=True)
    with pool() as runs:
        # the largest screen takes longest and comes first
        updates = {it: runs.submit(first_update, *it) for it in reversed(screens)}
        results = [(it.name, runs.submit(measure, it, (0, *it.counts), it.larger)) for it in streams]
        for name, result in results:
            print(row(name, result.result()), flush=True)
        if screens:
            print(f"{'first update':32}{'million instructions':>23}{'MB':>11}{'bytes a cell':>24}")
        for width, height in screens:
            taken, memory = updates[width, height].result()
            cells = shown(memory, ".0f", width * height)
            print(f"{f'{width}x{height}':32}{shown(taken, '.1f', 1e6):>23}{shown(memory, '.1f', MB):>11}{cells:>24}")


def check_of(stream):
    """Measures a stream at small sizes, in one call where it can be; a cost that falls is no fault."""
    count = max(stream.counts[0] * 2 // 5, 1)
    result = measure(stream, (count, 2 * count, 3 * count), stream.larger[:2], has_both=False)
    return result._replace(marks=[it for it in result.marks if it != "falls"])


def check(streams):
    """Prints a line for each stream, and the counts; returns the status."""
    failed = 0
    with pool() as runs:
        results = [(it.name, runs.submit(check_of, it)) for it in streams]
        for name, result in results:
            result = result.result()
            costs = " and ".join(shown(it, ".1f") for it in result.call or result.reads)
            peaks = " and ".join(shown(it, ".1f", MB) for it in result.peaks)
            said = ", ".join(result.marks) or "flat"
            failed += bool(result.marks)
            print(f"{name}: {said}; {costs} instructions a byte, {peaks} MB", flush=True)
    print(f"{len(streams) - failed} passed, {failed} failed")
    return 1 if failed else 0


def main(words):
    """Runs the part `hostile` with its words; returns the status."""
    flags = [it for it in words if it.startswith("-")]
    names = [it for it in words if it not in flags]
    streams = [it for it in STREAMS if not names or any(name in it.name for name in names)]
    if set(flags) - {"--check"} or not streams:
        sys.exit(__doc__)
    if not shutil.which("valgrind"):
        print("bench/measure hostile: valgrind is not installed, so nothing is counted")
        print("0 passed, 0 failed")
        return 0
    for program in (RELAY, BENCH):
        if not program.is_file():
            sys.exit(f"bench/measure: {program.relative_to(ROOT)} is not there; bin/build {program.name} builds it")
    if flags:
        return check(streams)
    table(streams, () if names else SCREENS)
    return 0
