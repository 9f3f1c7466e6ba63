"""Process times of `relay --show` beside those of other terminals.

The other terminals are the crates vt100 and alacritty_terminal, where Debian's packages of them (librust-vt100-dev,
librust-alacritty-terminal-dev) and cargo are installed; they are built by bench/peers. Each reads 4096 bytes at a time
into 80 columns and 24 rows, and keeps no scrollback.
"""
import os
import shutil
import subprocess
import tempfile
from pathlib import Path

PEERS = "vt100", "alacritty_terminal"
PACKAGES = Path("/usr/share/cargo/registry")
LENGTH, RUNS = 8_000_000, 5
CONFIG = f"""[source.crates-io]
replace-with = "debian"

[source.debian]
directory = "{PACKAGES}"
"""


def build_peers(room):
    """Builds the program of the other terminals in a folder, and returns its path; `None` where it can't be built."""
    if not shutil.which("cargo") or not all(any(PACKAGES.glob(f"{it}-*")) for it in PEERS):
        return None
    folder = shutil.copytree(Path(__file__).resolve().parent / "peers", Path(room, "peers"))
    Path(folder, ".cargo").mkdir()
    Path(folder, ".cargo/config.toml").write_text(CONFIG)
    made = subprocess.run(["cargo", "build", "--release", "--offline", "--quiet"], cwd=folder, capture_output=True)
    return folder / "target/release/peers" if made.returncode == 0 else None


def process_time(words, given):
    """Returns the processor seconds that a program takes on its input."""
    given.seek(0)
    process = subprocess.Popen([*map(str, words)], stdin=given, stdout=subprocess.DEVNULL)
    _, status, spent = os.wait4(process.pid, 0)
    process.returncode = os.waitstatus_to_exitcode(status)
    if process.returncode:
        raise subprocess.CalledProcessError(process.returncode, words)
    return spent.ru_utime + spent.ru_stime


def main(relay, streams):
    """Prints a line for each stream: its name and its bytes are given by name."""
    with tempfile.TemporaryDirectory() as room:
        peers = build_peers(room)
        programs = {"relay": [relay, "--show"]} | ({it: [peers, it] for it in PEERS} if peers else {})
        print(f"{f'seconds for {LENGTH // 1_000_000} MB':20}" + "".join(f"{it:>20}" for it in programs))
        for name, content in streams:
            with tempfile.TemporaryFile() as given:
                given.write(content)
                least = [min(process_time(words, given) for _ in range(RUNS)) for words in programs.values()]
            print(f"{name:20}" + "".join(f"{it:20.3f}" for it in least), flush=True)
