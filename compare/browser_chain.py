#!/usr/bin/env python3
"""Plays a chain of references in a browser, and tells how many of its elements have their interval and no other.

usage: browser_chain.py [BROWSER [RESTART]]

BROWSER is chromium where it is left out, and RESTART a value of `restart`, which isn't written where it is left out. The page
browser_chain.html makes the chain of `smilplay gen 30` as SVG animation, steps it, and sends back what it heard.
"""

import subprocess
import sys
import tempfile
import threading
from http.server import BaseHTTPRequestHandler, HTTPServer
from pathlib import Path

PAGE = Path(__file__).with_suffix(".html")
SECONDS = 120


class Page(BaseHTTPRequestHandler):
    """Hands out the page, and takes in its answer."""

    def do_GET(self):
        self.send_response(200)
        self.send_header("Content-Type", "text/html")
        self.end_headers()
        self.wfile.write(PAGE.read_bytes())

    def do_POST(self):
        self.server.answer = self.rfile.read(int(self.headers["Content-Length"])).decode()
        self.send_response(204)
        self.end_headers()
        threading.Thread(target=self.server.shutdown).start()

    def log_message(self, *_):
        pass


def answer_of(browser, restart):
    """What the page tells in the browser, or None where it tells nothing in time."""
    server = HTTPServer(("127.0.0.1", 0), Page)
    server.answer = None
    address = f"http://127.0.0.1:{server.server_port}/" + (f"?restart={restart}" if restart else "")
    late = threading.Timer(SECONDS, server.shutdown)
    late.start()
    with tempfile.TemporaryDirectory() as profile:
        with subprocess.Popen([browser, "--headless=new", "--no-sandbox", "--disable-gpu", f"--user-data-dir={profile}", address],
                              stdout=subprocess.DEVNULL, stderr=subprocess.DEVNULL) as run:
            server.serve_forever()
            run.terminate()
    late.cancel()
    return server.answer


def main(words):
    if len(words) > 2 or words[:1] in (["--help"], ["-h"]):
        print(__doc__.strip())
        return 2
    answer = answer_of(words[0] if words else "chromium", words[1] if len(words) > 1 else "")
    print(answer or "no answer")
    return 0 if answer else 1


if __name__ == "__main__":
    sys.exit(main(sys.argv[1:]))
