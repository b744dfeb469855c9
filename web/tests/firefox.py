#!/usr/bin/env python3
"""Has Firefox go through the page in a frame of web/tests/firefox.html, which posts what came of it: Debian has no driver for it.

    web/tests/firefox.py [--program PROGRAM] [--page FOLDER]

Ends with 1 where something fails, or where nothing is posted within two minutes."""

from __future__ import annotations

import argparse
import functools
import http.server
import json
import subprocess
import sys
import tempfile
import threading
from pathlib import Path
from typing import Any

import commands

HERE = Path(__file__).resolve().parent
TOP = HERE.parent.parent
PATIENCE = 120
LONG = """var i : 0..1000 := 0;
var j : 0..1000 := 0;
var k : 0..1000 := 0;
while i < 1000 { j := 0; while j < 1000 { k := 0; while k < 1000 { k := k + 1; } j := j + 1; } i := i + 1; }
"""
WIDE = """var x : 0..1 := uniform 0..1;
var n : 0..40 := 22;
about old x;
while n > 0 { observe choose { x : 3, 1 - x : 1 }; n := n - 1; }
"""


class Handler(http.server.SimpleHTTPRequestHandler):
    """Serves the page, this folder below /tests/ and the questions, and takes the results."""

    questions = b""
    results: list[Any] = []
    done = threading.Event()

    def do_GET(self) -> None:
        if self.path != "/questions.json":
            super().do_GET()
            return
        self.send_response(200)
        self.send_header("Content-Type", "application/json")
        self.end_headers()
        self.wfile.write(self.questions)

    def do_POST(self) -> None:
        self.results.append(json.loads(self.rfile.read(int(self.headers["Content-Length"]))))
        self.send_response(204)
        self.end_headers()
        self.done.set()

    def translate_path(self, path: str) -> str:
        return str(HERE / path.removeprefix("/tests/")) if path.startswith("/tests/") else super().translate_path(path)

    def guess_type(self, path: Any) -> str:
        return "text/javascript" if str(path).endswith(".mjs") else super().guess_type(path)

    def log_message(self, format: str, *args: Any) -> None:
        pass


def main() -> None:
    parser = argparse.ArgumentParser()
    parser.add_argument("--program", type=Path, default=TOP / "bin" / "kuifje")
    parser.add_argument("--page", type=Path, default=TOP / "dist" / "page")
    given = parser.parse_args()
    asked = commands.of_pages(given.program, ["README.md", "docs/COURSE.md", "examples/pin/README.md"])
    listed = [{"words": it.words, "files": it.question()[1], "status": it.status, "out": it.out.decode(errors="replace"), "err": it.err.decode(errors="replace")} for it in asked]
    Handler.questions = json.dumps({"commands": listed, "long": LONG, "wide": WIDE}).encode()
    server = http.server.ThreadingHTTPServer(("127.0.0.1", 0), functools.partial(Handler, directory=str(given.page)))
    threading.Thread(target=server.serve_forever, daemon=True).start()
    with tempfile.TemporaryDirectory() as home:
        words = ["firefox-esr", "--headless", "--no-remote", "--profile", home, f"http://127.0.0.1:{server.server_port}/tests/firefox.html"]
        browser = subprocess.Popen(words, stdout=subprocess.DEVNULL, stderr=subprocess.DEVNULL)
        Handler.done.wait(PATIENCE)
        browser.terminate()
        try:
            browser.wait(20)
        except subprocess.TimeoutExpired:
            browser.kill()
            browser.wait()
    server.shutdown()
    if not Handler.results:
        sys.exit(f"firefox: nothing was posted within {PATIENCE} seconds")
    told = Handler.results[0]
    print(f"firefox: {told['browser']}")
    for it in told["results"]:
        print(f"  {it['name']}: {'FAILED, ' + it['fault'] if it['fault'] else 'passed'} {it['note']}")
    sys.exit(1 if any(it["fault"] for it in told["results"]) else 0)


main()
