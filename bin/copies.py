"""Checks of a copy of a crate: some functions, over contracts that are taken as met, or the whole crate."""
import functools
import os
import re
import shutil
import signal
import subprocess
import sys
import tempfile
from dataclasses import dataclass
from pathlib import Path

from shared import ROOT, crates_below, crates_of, kit_folder, static_libraries
from sources import functions_of, modules_of_types, tokens_of

# The parts of a crate that a check reads.
PARTS = ("src", "specs", "proofs")
# Has a command join a process group.
JOIN = "import os, sys; os.setpgid(0, int(sys.argv[1])); os.execv(sys.argv[2], sys.argv[2:])"
# The lemma by which a batch takes a contract as met, and the proof of such a function.
ANYTHING = """-- Any statement, by a hole.
pub anything : {A : Type 2} → A
anything = ?
"""
TAKEN = """use Rattle.CRATE.proofs.PATH.Statement.{statement}
use Rattle.CRATE.proofs.Anything.{anything}

pub NAME_spec : {M : Type 1} → statement M
NAME_spec = anything
"""


class Answer:
    """What the prover said of a crate with wrong bodies: which functions have a goal that it did not prove, and why."""

    # How it says that a proof names what a wrong body took away.
    NAMES = re.compile(r"has no field|is not in scope|has no `|was not admitted|can be named")

    def __init__(self, crate, said):
        self.said = said
        self.has_verdict = re.search(r"^(logic|only)=", said, re.M) is not None
        self.is_proved = re.search(r"^logic=proved ", said, re.M) is not None
        # (what the prover's front end could not read, by file and line)
        self.unread = re.findall(r"^(?:\./)?(src/\S+?):(\d+):\d+: (error\[.*)", said, re.M)
        self.goals, self.faults = {}, {}
        for path, status in re.findall(rf"^fn {crate}::(\S+?): (.*)", said, re.M):
            goals = re.search(r"`search` did not prove ((?:`[^`]*`(?:, )?)+)", status)
            if goals:
                self.goals[tuple(path.split("::"))] = re.findall(r"`([^`]*)`", goals[1])
        error = r"^(?:\./)?proofs/(\S+)/(?:Answers|Invariants|Proof)\.antt:\d+:\d+: error: (.*(?:\n .*)*)"
        for path, text in re.findall(error, said, re.M):
            self.faults.setdefault(tuple(path.split("/")), []).append(text)

    def refusals(self):
        """Returns each function that has a goal which is not proved, with that goal, except functions whose proof only
        names what is no longer there."""
        found = {}
        for path, texts in self.faults.items():
            real = next((text for text in texts if not self.NAMES.search(text)), None)
            if real:
                goal = re.match(r"`([^`]*)`: ", real)
                found[path] = f"goal {goal[1]}, by its answer" if goal else real.split("\n")[0][:120]
        return found | {path: f"goal {goals[0]}" for path, goals in self.goals.items() if path not in self.faults}


@dataclass
class Crate:
    """A crate, the libraries of the project and of the kit that it uses, and all libraries of the project below it."""

    name: str
    own: list
    of_kit: list
    below: list

    @property
    def folder(self):
        return ROOT / "crates" / self.name

    def words(self):
        """Returns how the prover is to check the crate, over the libraries below it as they are built."""
        rlibs = {it: ROOT / f"crates/{it}/out/rlib/{it}.rlib" for it in self.below}
        kit = kit_folder()
        words = [kit / "bin/rattle", "check", "--crate-name", self.name]
        words.append("src/main.rt" if (self.folder / "src/main.rt").is_file() else "src/lib.rt")
        externs = [(it, kit / f"rlibs/{it}.rlib") for it in ("std", *self.of_kit)]
        externs += [(it, rlibs[it]) for it in self.own]
        folders = [kit / "rlibs", *(it.parent for it in rlibs.values())]
        words += [word for name, rlib in externs for word in ("--extern", f"{name}={rlib}")]
        words += [word for it in folders for word in ("-L", f"dependency={it}")]
        words += ["--antt-project", kit / "rattle/logic/antt-project.json", "--logic-built", kit / "logic_built"]
        words += ["--crate-type", "staticlib"] if self.name in static_libraries() else []
        return [*words, "--links", f"{self.name}=", "--jobs", "1"]


def is_of_the_gate(name):
    """Whether the library is as the gate built it after its last change: from nothing, so without the kit's stamp."""
    made = ROOT / f"crates/{name}/out/rlib/{name}.rlib"
    if not made.is_dir() or (made.parent / "stamp").exists():
        return False
    files = [it for part in PARTS for it in Path(ROOT, "crates", name, part).rglob("*") if it.is_file()]
    return max(it.stat().st_mtime for it in files) < made.stat().st_mtime


def crates_with_libraries():
    """Returns the crates of crates.txt, in its order."""
    uses, crates = crates_of(), []
    for name, used in uses.items():
        own, of_kit = ([it for it in used if (it in uses) == is_own] for is_own in (True, False))
        crates.append(Crate(name, own, of_kit, crates_below(name, uses)[:-1]))
    return crates


def without_body(function, text):
    """Returns the text with a body that meets every contract, on as many lines. A body that callers read stays: that of
    a `const fn`, and that after an `impl` type."""
    head = text[: function.start].rsplit(b"\n", 1)[-1] + text[function.start : function.body]
    if re.search(rb"\bconst\s+fn\b|->\s*impl\b", head):
        return text
    lines = text[function.body : function.end].count(b"\n")
    return text[: function.body] + b"{ loop {} " + b"\n" * lines + b"}" + text[function.end :]


def take_as_met(crate, room, texts, changed):
    """Has a copy of the crate take the contract of each function as met, except for those that are changed, by their
    files, and those that may call themselves, whose proofs are of other statements."""
    tokens = tokens_of(texts)
    modules = modules_of_types(texts, tokens)
    for path, text in texts.items():
        # (from the last one on, so that those before it stay where they are)
        for it in sorted(functions_of(path, text, tokens[path]), key=lambda it: -it.start):
            calls_itself = re.search(rb"\b%s\b" % it.name.encode(), text[it.body : it.end])
            if (path, it.key) in changed or calls_itself or it.name == "main":
                continue
            text = without_body(it, text)
            place = it.place(modules)
            folder = Path(room, "proofs", *place)
            folder.mkdir(parents=True, exist_ok=True)
            for name in ("Answers", "Invariants"):
                (folder / f"{name}.antt").unlink(missing_ok=True)
            proof = TAKEN.replace("CRATE", crate.name).replace("PATH", ".".join(place)).replace("NAME", it.name)
            (folder / "Proof.antt").write_text(proof)
        Path(room, path).write_bytes(text)
    Path(room, "proofs/Anything.antt").write_text(ANYTHING)
    with open(Path(room, "proofs/Lib.antt"), "a") as root:
        root.write("pub mod Anything\n")


@functools.cache
def guard():
    """Starts a process group that ends when this process does, however that ends, and returns its id."""
    ends, _held = os.pipe()
    # (the read returns when this process's end of the pipe closes)
    keeper = subprocess.Popen(["sh", "-c", "read _; kill -9 0"], stdin=ends, preexec_fn=os.setpgrp)
    # (else the interpreter would wait for the threads' checks)
    signal.signal(signal.SIGINT, signal.SIG_DFL)
    return keeper.pid


def check(crate, texts, kept, changed):
    """Checks a copy of the crate with these texts as its source files, over the work that the folder keeps: the
    functions that are changed, by their files, with the contracts of all others taken as met; or, if none is, the
    whole crate. It takes `guard` first in the main thread."""
    with tempfile.TemporaryDirectory(prefix="edits-") as room:
        for part in PARTS:
            if Path(crate.folder, part).is_dir():
                shutil.copytree(Path(crate.folder, part), Path(room, part))
        for path, text in texts.items():
            Path(room, path).write_bytes(text)
        words = [*crate.words(), "--incremental", kept]
        if changed:
            take_as_met(crate, room, texts, {(path, it.key) for path, it in changed})
            words.append("--allow-holes")
        words += [word for path in sorted({it.path for _, it in changed}) for word in ("--only", path)]
        how = {"cwd": room, "stdin": subprocess.DEVNULL, "stdout": subprocess.PIPE, "stderr": subprocess.STDOUT}
        joined = [sys.executable, "-ISc", JOIN, str(guard()), *words]
        return Answer(crate.name, subprocess.run(joined, text=True, errors="replace", **how).stdout)
