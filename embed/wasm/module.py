#!/usr/bin/env python3
"""Builds the module for WebAssembly from what embed/build.py made.

usage: module.py [BITCODE MODULE]

BITCODE is the proved library as LLVM compiled it for x86-64, crates/tenphsar/out/libtenphsar.bc where no words are
given, and MODULE what is made of it, crates/tenphsar/out/tenphsar.wasm. Rattle proves and lowers the library for 64
bits, and for wasm64 it links no heap: so its code for x86-64 is given the layout and the name of wasm64, which has
pointers of the same size, and is compiled by the kit's clang and linked with heap.c. It reads nothing of the
processor. No proof speaks of this.
"""

import re
import subprocess
import sys
import tempfile
from pathlib import Path

HERE = Path(__file__).resolve().parent
sys.path.insert(0, str(HERE.parent))
from build import OUT, kit  # pylint: disable=wrong-import-position

TARGET = "wasm64-unknown-unknown"
LAYOUT = "e-m:e-p:64:64-p10:8:8-p20:8:8-i64:64-i128:128-n32:64-S128"
FROM_LAYOUT = "e-m:e-p270:32:32-p271:32:32-p272:64:64-i64:64-i128:128-f80:128-n8:16:32:64-S128"
FLAGS = (f"--target={TARGET}", "-mcpu=lime1", "-mllvm", "-expand-div-rem-bits=64", "--no-default-config",
         "-no-canonical-prefixes", "-ffunction-sections", "-fdata-sections", "-O2")
STACK = 1 << 20


def for_wasm(text):
    """The text of a module for x86-64 as one for wasm64."""
    for old, new in ((f'target datalayout = "{FROM_LAYOUT}"', f'target datalayout = "{LAYOUT}"'),
                     ('target triple = "x86_64-unknown-linux-gnu"', f'target triple = "{TARGET}"')):
        if text.count(old) != 1:
            sys.exit(f"module.py: the library's code doesn't have the line {old}")
        text = text.replace(old, new)
    return re.sub(r' "(target-cpu|probe-stack|stack-probe-size)"="[^"]*"', "", text)


def exports_of(text):
    """The calls that the library exports, and the two of heap.c."""
    return [*re.findall(r"^define (?!internal)[^@]*@(tenphsar_\w+)", text, re.M), "tenphsar_take", "tenphsar_give"]


def clang(program, *words):
    """Calls a program of the kit's clang."""
    binary = kit() / "toolchain" / "bin" / program
    run = subprocess.run(list(map(str, [binary, *words])), stderr=subprocess.PIPE, text=True, check=False)
    if run.returncode:
        sys.exit(f"module.py: {program} ended with {run.returncode}: {run.stderr[-2000:]}")


def build(bitcode, module):
    """Builds the module of a library's bitcode."""
    with tempfile.TemporaryDirectory() as held:
        folder = Path(held)
        read, written, code, heap = (folder / name for name in ("read.ll", "module.ll", "code.o", "heap.o"))
        clang("clang", "--target=x86_64-unknown-linux-gnu", "--no-default-config", "-S", "-emit-llvm", "-x", "ir", bitcode,
              "-o", read)
        text = for_wasm(read.read_text(encoding="latin-1"))
        written.write_text(text, encoding="latin-1")
        clang("clang", *FLAGS, "-c", "-x", "ir", written, "-o", code)
        clang("clang", *FLAGS, "-Wall", "-Wextra", "-Werror", "-ffreestanding", "-nostdinc", "-c", HERE / "heap.c", "-o", heap)
        clang("ld.lld", "-flavor", "wasm", "-mwasm64", "--no-entry", "--stack-first", "-z", f"stack-size={STACK}",
              "--gc-sections", "--strip-all", *(f"--export={name}" for name in exports_of(text)), code, heap, "-o", module)


def main(words):
    """Builds a module and says its size; gives the exit number."""
    bitcode, module = map(Path, words or (OUT / "libtenphsar.bc", OUT / "tenphsar.wasm"))
    if not bitcode.exists():
        sys.exit(f"module.py: there is no {bitcode}: run embed/build.py")
    build(bitcode, module)
    print(f"{module}: {module.stat().st_size} bytes")


if __name__ == "__main__":
    sys.exit(main(sys.argv[1:]) if len(sys.argv) in (1, 3) else __doc__)
