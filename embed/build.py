#!/usr/bin/env python3
"""Builds the library for other programs from proved code.

usage: build.py

Makes crates/tenphsar/out/libtenphsar.a over the proved libraries that `rt ci` left in crates/*/out, in minutes: the
crate tenphsar is proved once more, and nothing is made where it is not. Beside it stands libtenphsar.bc, what LLVM
compiled, for embed/wasm/module.py. Ends with 1 and a line where a library is missing or older than its sources.
"""

import os
import shutil
import subprocess
import sys
import tempfile
from pathlib import Path

TOP = Path(__file__).resolve().parents[1]
CRATE = "tenphsar"
OUT = TOP / "crates" / CRATE / "out"
ANEW = "remove crates/*/out/rlib, and run `rt ci`, which takes what it kept"
REST = ("ld.lld", "llvm-ar", "rattle-x64")
KEEPING = """#!/bin/sh
[ ! -f module.bc ] || cp module.bc '{kept}' || exit 1
exec '{clang}' "$@"
"""


def kit():
    """The folder of the kit whose `rt` is called here."""
    command = shutil.which("rt")
    if command is None:
        sys.exit("build.py: there is no rt")
    return Path(command).resolve().parents[1]


def libraries():
    """What each crate of crates.txt uses, by its name."""
    used = {}
    for line in (TOP / "crates.txt").read_text().splitlines():
        head, colon, names = line.partition("#")[0].partition(":")
        if colon:
            used[head.split()[0]] = names.split()
    return used


def rlib_of(crate):
    """Where the proved library of a crate stands."""
    return TOP / "crates" / crate / "out" / "rlib" / f"{crate}.rlib"


def sources_of(crate):
    """The files from which a library is proved."""
    for part in ("src", "specs", "proofs"):
        yield from (path for path in (TOP / "crates" / crate / part).rglob("*") if path.is_file())


def fault_of(crate):
    """What keeps the proved library of a crate from being used, or None.

    Its folder is as old as the run of `rt ci` that put the library there; the files in it may be kept from an earlier one.
    `rt ci` puts back what stood there before it ran, so that a library may be older than what it proved.
    """
    rlib = rlib_of(crate)
    if not (rlib / "format").exists():
        return f"there is no proved library of {crate}: run `rt ci`"
    made = rlib.stat().st_mtime
    newer = next((path for path in sources_of(crate) if path.stat().st_mtime > made), None)
    if newer is None:
        return None
    return f"the proved library of {crate} is older than {newer.relative_to(TOP)}: {ANEW}"


def words_for(used, rattle_kit, toolchain, archive):
    """The call that proves the crate and builds its archive."""
    words = [rattle_kit / "bin" / "rattle", "build", "--crate-name", CRATE, "src/lib.rt"]
    words += ["-L", f"dependency={rattle_kit}/rlibs", "--extern", f"std={rattle_kit}/rlibs/std.rlib"]
    for name in used[CRATE]:
        rlib = rlib_of(name) if name in used else rattle_kit / "rlibs" / f"{name}.rlib"
        words += ["--extern", f"{name}={rlib}", "-L", f"dependency={rlib.parent}"]
    words += ["--antt-project", rattle_kit / "rattle" / "logic" / "antt-project.json"]
    words += ["--logic-built", rattle_kit / "logic_built", "--links", f"{CRATE}=", "--crate-type", "staticlib"]
    return list(map(str, [*words, "--backend", "llvm", "--toolchain", toolchain, "-o", archive]))


def make_toolchain(folder, rattle_kit, kept):
    """Writes the kit's toolchain into a folder, with a clang that also copies what it compiles to `kept`."""
    real = rattle_kit / "toolchain"
    (folder / "bin").mkdir()
    (folder / "lib").symlink_to(real / "lib")
    for name in REST:
        (folder / "bin" / name).symlink_to(real / "bin" / name)
    clang = folder / "bin" / "clang"
    clang.write_text(KEEPING.format(kept=kept, clang=real / "bin" / "clang"))
    clang.chmod(0o755)


def main():
    """Builds the archive; gives the exit number."""
    used, rattle_kit = libraries(), kit()
    fault = next(filter(None, map(fault_of, filter(used.__contains__, used[CRATE]))), None)
    if fault:
        sys.exit(f"build.py: {fault}")
    OUT.mkdir(exist_ok=True)
    archive, module = OUT / f"lib{CRATE}.a", OUT / f"lib{CRATE}.bc"
    for made in (archive, module):
        made.unlink(missing_ok=True)
    with tempfile.TemporaryDirectory() as folder:
        make_toolchain(Path(folder), rattle_kit, module)
        words = words_for(used, rattle_kit, folder, archive)
        run = subprocess.run(words, cwd=OUT.parent, stdout=subprocess.PIPE, stderr=subprocess.STDOUT, text=True,
                             errors="replace", check=False)
    lines = run.stdout.splitlines()
    is_made = run.returncode == 0 and any(line.startswith("logic=proved ") for line in lines)
    print("\n".join(lines[-1:] if is_made else lines))
    if not is_made:
        archive.unlink(missing_ok=True)
        sys.exit(f"build.py: {CRATE} was not built")
    print(f"{archive.relative_to(TOP)}: {archive.stat().st_size} bytes")


if __name__ == "__main__":
    sys.exit(main() if len(sys.argv) == 1 else __doc__)
