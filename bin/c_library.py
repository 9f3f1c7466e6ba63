"""The library for C as callers link it: the archive with the kit's heap in it, the shared library, and what pkg-config
reads."""
import os
import shutil
import subprocess
import tempfile
from pathlib import Path

from shared import ROOT, kit_folder

NAME, VERSION = "rilqamyn", "0.1.0"
OUT = ROOT / "crates/terminal_c/out"
INCLUDE = ROOT / "include"
# A shared library hands out the declared calls alone.
EXPORTED = "{ global: rilqamyn_*; local: *; };\n"


def pkg_config(include, lib):
    """Returns the file by which pkg-config finds a header and a library in these folders."""
    return f"""\
Name: {NAME}
Description: A terminal that keeps its screen and sends viewers what changed
Version: {VERSION}
Cflags: -I{include}
Libs: -L{lib} -l{NAME}
"""


def join_archives():
    """Makes the archive: what the prover's build wrote, and the few functions of the kit's heap that it calls."""
    archive = OUT / f"lib{NAME}.a"
    tool = kit_folder() / "toolchain/bin/llvm-ar"
    with tempfile.TemporaryDirectory(dir=OUT) as folder:
        for part in OUT / "libterminal_c.a", kit_folder() / "c/liblibc_c.a":
            subprocess.run([tool, "x", part], cwd=folder, check=True)
        made = Path(folder, archive.name)
        subprocess.run([tool, "qcsD", made, *sorted(os.listdir(folder))], cwd=folder, check=True)
        made.replace(archive)
    return archive


def share(archive):
    """Makes the shared library, where there is a compiler for C; returns whether there is."""
    if not shutil.which("cc"):
        return False
    with tempfile.NamedTemporaryFile("w", suffix=".map") as script:
        script.write(EXPORTED)
        script.flush()
        flags = ["-shared", f"-Wl,--version-script={script.name},-soname,lib{NAME}.so", "-Wl,--no-undefined"]
        whole = ["-Wl,--whole-archive", archive, "-Wl,--no-whole-archive"]
        subprocess.run(["cc", *flags, *whole, "-o", OUT / f"lib{NAME}.so"], check=True)
    return True


def make():
    """Makes all that callers link, beside what the prover's build wrote; returns what could not be made."""
    missing = [] if share(join_archives()) else [f"lib{NAME}.so, since there is no cc"]
    (OUT / f"{NAME}.pc").write_text(pkg_config(INCLUDE, OUT))
    return missing
