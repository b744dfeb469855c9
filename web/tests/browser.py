"""A server for the page's folder, and a browser that is driven by selenium (Debian: chromium, chromium-driver, python3-selenium)."""

from __future__ import annotations

import functools
import http.server
import threading
import time
from collections.abc import Callable
from pathlib import Path
from typing import Any

from selenium import webdriver
from selenium.webdriver.chrome.options import Options
from selenium.webdriver.chrome.service import Service
from selenium.webdriver.remote.webelement import WebElement

PATIENCE = 60.0


class Handler(http.server.SimpleHTTPRequestHandler):
    """Serves files, and says nothing of it. Some are replaced, and some come with another type."""

    replaced: dict[str, bytes] = {}
    plain = False

    def do_GET(self) -> None:
        body = self.replaced.get(self.path.lstrip("/"))
        if body is None:
            super().do_GET()
            return
        self.send_response(200)
        self.send_header("Content-Type", "application/wasm")
        self.send_header("Content-Length", str(len(body)))
        self.end_headers()
        self.wfile.write(body)

    def guess_type(self, path: Any) -> str:
        return "application/octet-stream" if self.plain and str(path).endswith(".wasm") else super().guess_type(path)

    def log_message(self, format: str, *args: Any) -> None:
        pass


class Server:
    """The folder at an address of this machine."""

    def __init__(self, folder: Path, replaced: dict[str, bytes] | None = None, plain: bool = False) -> None:
        handler = type("Own", (Handler,), {"replaced": replaced or {}, "plain": plain})
        self.server = http.server.ThreadingHTTPServer(("127.0.0.1", 0), functools.partial(handler, directory=str(folder)))
        threading.Thread(target=self.server.serve_forever, daemon=True).start()

    @property
    def address(self) -> str:
        return f"http://127.0.0.1:{self.server.server_port}/"

    def close(self) -> None:
        self.server.shutdown()
        self.server.server_close()


def chromium(width: int = 1500, height: int = 1000) -> webdriver.Chrome:
    options = Options()
    for word in ("--headless=new", "--no-sandbox", "--disable-gpu", "--disable-dev-shm-usage", f"--window-size={width},{height}"):
        options.add_argument(word)
    options.set_capability("goog:loggingPrefs", {"browser": "ALL"})
    driver = webdriver.Chrome(options=options, service=Service("/usr/bin/chromedriver"))
    driver.set_script_timeout(600)
    return driver


class Page:
    """The page in a browser, and what a reader does with it."""

    def __init__(self, driver: webdriver.Chrome, address: str) -> None:
        self.driver, self.address = driver, address

    def open(self, hash_part: str = "") -> None:
        """Loads the page anew, with this behind its address."""
        self.driver.get("about:blank")
        self.driver.get(self.address + hash_part)
        self.settle()

    def script(self, text: str, *arguments: Any) -> Any:
        return self.driver.execute_script(text, *arguments)

    def wait(self, until: Callable[[], Any], what: str, patience: float = PATIENCE) -> Any:
        end = time.monotonic() + patience
        while time.monotonic() < end:
            found = until()
            if found:
                return found
            time.sleep(0.02)
        raise AssertionError(f"the page never came to: {what}")

    def settle(self) -> str:
        """Waits until the last question has an answer, or none."""
        return str(self.wait(lambda: self.script("return document.body.dataset.settled"), "an answer"))

    def find(self, selector: str) -> WebElement:
        return self.driver.find_element("css selector", selector)

    def click(self, selector: str) -> None:
        self.find(selector).click()
        self.settle()

    def press(self, name: str, within: str = "body") -> None:
        """Clicks the button of this name that is seen first."""
        buttons = [it for it in self.driver.find_elements("css selector", f"{within} button") if it.text == name or it.get_attribute("aria-label") == name]
        shown = [it for it in buttons if it.is_displayed()]
        if not shown:
            raise AssertionError(f"there is no button {name}")
        shown[0].click()

    def answer(self) -> str:
        return str(self.script("return document.getElementById('answer').innerText"))

    def write(self, text: str, editor: str = "a") -> None:
        """Puts a text in the place of what an editor has, and waits for the answer."""
        self.script("delete document.body.dataset.settled; document.querySelector(`#editor-${arguments[1]} .CodeMirror`).CodeMirror.setValue(arguments[0])", text, editor)
        self.settle()

    def text(self, editor: str = "a") -> str:
        return str(self.script("return document.querySelector(`#editor-${arguments[0]} .CodeMirror`).CodeMirror.getValue()", editor))

    def choose(self, selector: str, value: str) -> None:
        self.script("const it = document.querySelector(arguments[0]); it.value = arguments[1]; it.dispatchEvent(new Event('change'))", selector, value)

    def view(self, name: str) -> None:
        self.click(f"#tab-{name}")

    def ask_many(self, questions: list[tuple[list[str], dict[str, str]]]) -> list[dict[str, Any]]:
        """Asks the page's program one question after the other. Files are base64."""
        done: list[dict[str, Any]] = self.driver.execute_async_script(
            """const [questions, done] = arguments;
            const bytes = (text) => Uint8Array.from(atob(text), (it) => it.charCodeAt(0));
            (async () => {
                const found = [];
                for (const [words, files] of questions) {
                    found.push(await kuifje.ask(words, Object.fromEntries(Object.entries(files).map(([name, text]) => [name, bytes(text)]))));
                }
                done(found);
            })();""",
            questions,
        )
        return done

    def log(self) -> list[str]:
        """What the browser complained of since it was last asked."""
        return [str(it["message"]) for it in self.driver.get_log("browser")]
