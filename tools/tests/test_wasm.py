"""Tests the WebAssembly module under Node: that it answers as the program does."""

import os
import shutil
import subprocess
import unittest
from pathlib import Path

import generating
from calling import EXAMPLES, TOP, program

PLAYER = TOP / "embed" / "wasm" / "play.mjs"
CLASS = TOP / "embed" / "page" / "tenphsar.js"
MODULE = Path(os.environ.get("TENPHSARWASM", TOP / "crates" / "tenphsar" / "out" / "tenphsar.wasm"))
WITHOUT_FLAG = 24
SHOWN = """
import fs from "node:fs";
import { Refused, Session, changesOf, loadEngine } from CLASS;
const engine = await loadEngine(fs.readFileSync(MODULE));
const session = new Session(engine), other = new Session(engine);
const answer = session.order("load d", "par", '  img id="a" dur="2s"', "  img", "%%");
for (const change of changesOf(answer)) console.log(JSON.stringify(change));
console.log(session.moment("d"), session.moment("e"), session.next("d"), session.next("e"), other.moment("d"));
try { session.order("d event x click"); } catch (refused) {
  console.log(refused instanceof Refused, refused.line, refused.word, refused.column);
}
const long = session.line(new Uint8Array(200000).fill(120));
console.log(long.code, new TextDecoder().decode(long.answer).trim());
session.order("d advance 1500ms");
console.log(JSON.stringify(session.screen("d").get("2")), session.screen("e").size);
session.order("d advance 1500ms");
console.log(session.moment("d"), session.next("d"));
session.close();
other.close();
try { session.moment("d"); } catch (closed) { console.log(closed.message); }
"""
KEPT = """
import fs from "node:fs";
import { Session, loadEngine } from CLASS;
const engine = await loadEngine(fs.readFileSync(MODULE));
const sizes = [];
for (let round = 0; round < 300; round++) {
  const session = new Session(engine);
  session.order("load d", "par", ...Array.from({ length: 40 }, (_, at) => `  img id="a${at}" dur="2s" repeatCount="3"`), "%%");
  session.order("d advance 10s");
  session.close();
  sizes.push(engine.memory.buffer.byteLength);
}
console.log(sizes[299] - sizes[0]);
"""


def node_version():
    """The first number of Node's version, or None where there is no Node."""
    if shutil.which("node") is None:
        return None
    told = subprocess.run(["node", "--version"], capture_output=True, text=True, check=False).stdout
    return int(told.lstrip("v").split(".")[0])


def lacking():
    """What is not here that the tests need, or None."""
    if node_version() is None or node_version() < 20:
        return "there is no Node of version 20 or later"
    if not MODULE.exists():
        return f"there is no {MODULE}, which embed/wasm/module.py makes"
    return None


def node(*words, text=b""):
    """Node's exit number and output."""
    flags = ["--no-warnings"] + ["--experimental-wasm-memory64"] * (node_version() < WITHOUT_FLAG)
    run = subprocess.run(["node", *flags, *map(str, words)], input=text, stdout=subprocess.PIPE, check=False)
    return run.returncode, run.stdout


def script(text):
    """What a script over the class and the module writes, as lines."""
    text = text.replace("CLASS", repr(str(CLASS))).replace("MODULE", repr(str(MODULE)))
    return node("--input-type=module", "-e", text)[1].decode().splitlines()


@unittest.skipIf(lacking(), lacking())
class Module(unittest.TestCase):
    def test_each_example(self):
        for session in sorted(EXAMPLES.glob("*.play")):
            if not Path(f"{session}.args").exists():
                with self.subTest(session.name):
                    transcript = Path(f"{session}.stdout").read_bytes()
                    refused = any(line.startswith(b"! ") for line in transcript.splitlines())
                    self.assertEqual(node(PLAYER, MODULE, text=session.read_bytes()), (int(refused), transcript))

    def test_generated_sessions(self):
        text = generating.sessions(7, 1000).encode()
        run = subprocess.run([program(), "run"], input=text, stdout=subprocess.PIPE, check=False)
        self.assertEqual(node(PLAYER, MODULE, text=text), (run.returncode, run.stdout))

    def test_the_class(self):
        times = '"begin":0,"end":2000,"iteration":0,"finished":0}'
        self.assertEqual(script(SHOWN), [
            '{"moment":0,"element":"#1","state":"active",' + times, '{"moment":0,"element":"a","state":"active",' + times,
            '{"moment":0,"element":"#3","state":"frozen","begin":0,"end":0,"iteration":0,"finished":1}',
            "0 null 2000 null null", "true 6 no-element null", "2 ! 7 long-line",
            '{"showing":"playing","iteration":0,"position":1500} 0', "3000 null", "the session is closed"])

    def test_memory_is_given_back(self):
        self.assertEqual(script(KEPT), ["0"])


if __name__ == "__main__":
    unittest.main()
