#!/usr/bin/env python3
"""Serves the page.

usage: serve.py [PORT [MODULE]]

PORT is 8000 where none is given, and MODULE the WebAssembly module, crates/tenphsar/out/tenphsar.wasm where none is.
Another server needs the files of this folder with tenphsar.wasm among them, which it gives as application/wasm; and it
gives parts of files, without which a browser can't seek in media.
"""

import functools
import http.server
import io
import re
import sys
from pathlib import Path

HERE = Path(__file__).resolve().parent
MODULE = HERE.parents[1] / "crates" / "tenphsar" / "out" / "tenphsar.wasm"


class Handler(http.server.SimpleHTTPRequestHandler):
    """Gives the files of the page, and the module by the name tenphsar.wasm."""

    extensions_map = {**http.server.SimpleHTTPRequestHandler.extensions_map, ".js": "text/javascript",
                      ".wasm": "application/wasm", ".webm": "video/webm", ".svg": "image/svg+xml"}

    def __init__(self, module, *words):
        self.module = module
        super().__init__(*words, directory=str(HERE))

    def translate_path(self, path):
        return str(self.module) if path == "/tenphsar.wasm" else super().translate_path(path)

    def send_head(self):
        """Gives a part of a file where one is asked for: a browser seeks in sound and video by that."""
        wanted = re.fullmatch(r"bytes=([0-9]+)-([0-9]*)", self.headers.get("Range", ""))
        path = Path(self.translate_path(self.path))
        if not wanted or not path.is_file():
            return super().send_head()
        whole = path.read_bytes()
        first, last = int(wanted[1]), min(int(wanted[2] or len(whole)), len(whole) - 1)
        part = whole[first:last + 1]
        self.send_response(206 if part else 416)
        self.send_header("Content-Type", self.guess_type(path))
        self.send_header("Content-Range", f"bytes {first}-{last}/{len(whole)}" if part else f"bytes */{len(whole)}")
        self.send_header("Content-Length", str(len(part)))
        self.end_headers()
        return io.BytesIO(part)

    def end_headers(self):
        self.send_header("Accept-Ranges", "bytes")
        self.send_header("Cache-Control", "no-cache")
        super().end_headers()

    def log_message(self, *_):
        """Says nothing of each request."""


def server(port, module):
    """A server of the page on this machine alone; port 0 is any that is free."""
    return http.server.ThreadingHTTPServer(("127.0.0.1", port), functools.partial(Handler, Path(module).resolve()))


def main(words):
    """Serves until it is interrupted."""
    port, module = int(words[0]) if words else 8000, words[1] if len(words) > 1 else MODULE
    if not Path(module).exists():
        sys.exit(f"serve.py: there is no {module}: run embed/build.py and embed/wasm/module.py")
    with server(port, module) as served:
        print(f"http://127.0.0.1:{served.server_port}/", flush=True)
        try:
            served.serve_forever()
        except KeyboardInterrupt:
            pass


if __name__ == "__main__":
    is_asked = len(sys.argv) > 3 or sys.argv[1:2] and not sys.argv[1].isdigit()
    sys.exit(__doc__ if is_asked else main(sys.argv[1:]))
