"""What the scripts share: the kit, the crates, how many checks run side by side, runs of sources, recorded sessions."""
import os
import re
import shutil
import subprocess
import sys
import tempfile
from pathlib import Path

ROOT = Path(__file__).resolve().parent.parent
# Memory for each check side by side, in KiB: more than any crate here has taken.
ROOM = 5 * 1024 * 1024
# The TERM of recorded sessions by the last word of their names; of all others it is rilqamyn.
TERMS = {
    "direct": "rilqamyn-direct", "xterm": "xterm-256color", "screen": "screen-256color", "tmux": "tmux-256color",
    "linux": "linux",
}


def kit_command():
    """Returns the path of the kit's command."""
    return shutil.which("rt") or sys.exit("the Rattle kit's command rt is not on the path")


def kit_folder():
    """Returns the kit's folder, whose bin/rattle is its prover."""
    return Path(kit_command()).resolve().parent.parent


def crates_of(root=ROOT):
    """Returns for each crate of crates.txt, in its order, what it uses: crates and libraries of the kit."""
    rows = [row.split("#")[0].partition(":") for row in (root / "crates.txt").read_text().splitlines()]
    return {name.split()[0]: used.split() for name, colon, used in rows if colon}


def static_libraries(root=ROOT):
    """Returns the crates of crates.txt that are static libraries."""
    heads = [row.split("#")[0].partition(":")[0].split() for row in (root / "crates.txt").read_text().splitlines()]
    return {words[0] for words in heads if "staticlib" in words}


def crates_below(name, uses):
    """Returns the crates that a crate uses, lowest first, and the crate itself."""
    found = {}
    for below in uses[name]:
        if below in uses:
            found.update(dict.fromkeys(crates_below(below, uses)))
    return [*found, name]


def lanes():
    """Returns how many checks run side by side: one a processor, as far as memory holds them, or RT_JOBS."""
    free = int(re.search(r"MemAvailable:\s+(\d+)", Path("/proc/meminfo").read_text())[1])
    return max(int(os.environ.get("RT_JOBS") or min(len(os.sched_getaffinity(0)), free // ROOM)), 1)


def endings(crate, cases, files=()):
    """Returns how the program of a crate ends for each case, by name: its status, what it writes, with a line feed at
    the end where it wrote none, and what it tells on standard error.

    The sources run unproved, by `rt try`: one compile for all cases. A case is the program's words and its standard
    input; the files that words name lie where it runs. A case that does not end has no ending; where nothing ran the
    kit's lines are printed and the process ends.
    """
    with tempfile.TemporaryDirectory() as folder:
        for name, (words, given) in cases.items():
            Path(folder, name).write_bytes(given)
            Path(folder, name + ".args").write_text("".join(word + "\n" for word in words))
        data = [word for it in files for word in ("--data", f"{it.name}={it}")]
        words = [kit_command(), "try", "--cases", folder, *data]
        ran = subprocess.run(words, cwd=ROOT / "crates" / crate, capture_output=True)
    parts = re.split(rb"^== (\S+)\n", ran.stdout, flags=re.M)
    written = {name.decode(): output for name, output in zip(parts[1::2], parts[2::2])}
    if not written:
        sys.exit(f"{crate}: rt try ran nothing\n{ran.stderr.decode(errors='replace')}")
    ended = re.findall(rb"(.*?)^case=(\S+) (?:run=ended status=(\d+))?.*?\n", ran.stderr, flags=re.M | re.S)
    named = {name.decode(): (int(status), faults) for faults, name, status in ended if status}
    return {name: (status, written.get(name, b""), faults) for name, (status, faults) in named.items()}


def outputs(crate, cases):
    """Returns what the program of a crate writes for each case, as `endings` does."""
    return {name: written for name, (_, written, _) in endings(crate, cases).items()}


def term_of(name):
    """Returns the TERM under which the program of a session ran."""
    return TERMS.get(name.rsplit("-", 1)[-1], "rilqamyn")


def terminal_words(name):
    """Returns the words that name relay's terminal for a recorded session, none for the project's own."""
    return [] if term_of(name.rsplit("-", 1)[0]).startswith("rilqamyn") else ["--terminal", "xterm"]


def recordings():
    """Returns the recorded sessions: name, bytes, size, and the rows that are expected."""
    found = []
    for file in sorted((ROOT / "docs/sessions").glob("*.bytes")):
        width, height = file.stem.rsplit("-", 1)[1].split("x")
        found.append((file.stem, file.read_bytes(), (int(width), int(height)), file.with_suffix(".rows").read_text()))
    return found
