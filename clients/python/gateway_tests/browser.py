"""A headless Chromium, driven over its DevTools protocol."""

from __future__ import annotations

import asyncio
import base64
import os
import signal
import tempfile
from collections.abc import AsyncIterator
from contextlib import asynccontextmanager
from typing import Any

from aiohttp import ClientSession, ClientWebSocketResponse

from . import LONG

_OPTIONS = (
    "--headless=new --no-sandbox --disable-gpu --disable-dev-shm-usage --disable-extensions "
    "--no-first-run --disable-background-networking --remote-debugging-port=0 about:blank"
)


class Page:
    """A page of a browser."""

    def __init__(self, socket: ClientWebSocketResponse) -> None:
        self._socket = socket
        self._sent = 0

    async def send(self, method: str, **params: Any) -> Any:
        """Sends a command, and returns its result."""
        self._sent += 1
        await self._socket.send_json({"id": self._sent, "method": method, "params": params})
        while True:
            answer = await self._socket.receive_json(timeout=LONG)
            if answer.get("id") == self._sent:
                return answer["result"]

    async def read(self, expression: str) -> Any:
        """Returns the value of an expression of JavaScript."""
        params = {"expression": expression, "returnByValue": True, "awaitPromise": True}
        answer = await self.send("Runtime.evaluate", **params)
        if "exceptionDetails" in answer:
            raise AssertionError(answer["exceptionDetails"])
        return answer["result"].get("value")

    async def text(self, element: str) -> Any:
        """Returns the text of the element of this id."""
        return await self.read(f"document.getElementById({element!r}).innerText")

    async def until(self, expression: str) -> None:
        """Waits until an expression is true."""
        async with asyncio.timeout(LONG):
            while not await self.read(expression):
                await asyncio.sleep(0.05)

    async def press(self, key: str) -> None:
        """Presses a key, like `Tab`, `Enter` or `Escape`."""
        code = {"Tab": 9, "Enter": 13, "Escape": 27}[key]
        typed = {"text": "\r"} if key == "Enter" else {}
        params = {"key": key, "code": key, "windowsVirtualKeyCode": code}
        await self.send("Input.dispatchKeyEvent", type="keyDown", **params, **typed)
        await self.send("Input.dispatchKeyEvent", type="keyUp", **params)

    async def show_as(self, scheme: str, width: int, height: int) -> None:
        """Sets the color scheme, `light` or `dark`, and the size of the window."""
        features = [{"name": "prefers-color-scheme", "value": scheme}]
        await self.send("Emulation.setEmulatedMedia", features=features)
        size = {"width": width, "height": height, "deviceScaleFactor": 1, "mobile": width < 600}
        await self.send("Emulation.setDeviceMetricsOverride", **size)

    async def picture(self, path: str) -> None:
        """Writes a picture of the page as PNG."""
        shot = await self.send("Page.captureScreenshot", format="png")
        with open(path, "wb") as file:
            file.write(base64.b64decode(shot["data"]))


async def _read_port(errors: asyncio.StreamReader) -> str:
    while line := (await errors.readline()).decode():
        if "DevTools listening on" in line:
            return line.partition("127.0.0.1:")[2].partition("/")[0]
    raise AssertionError("chromium has ended")


@asynccontextmanager
async def open_page(program: str, http: ClientSession, url: str) -> AsyncIterator[Page]:
    """Starts a browser, and opens a page in it."""
    with tempfile.TemporaryDirectory(ignore_cleanup_errors=True) as folder:
        words = [program, f"--user-data-dir={folder}", *_OPTIONS.split()]
        browser = await asyncio.create_subprocess_exec(
            *words, stderr=asyncio.subprocess.PIPE, start_new_session=True
        )
        try:
            assert browser.stderr
            port = await asyncio.wait_for(_read_port(browser.stderr), LONG)
            async with http.get(f"http://127.0.0.1:{port}/json/list") as answer:
                targets = await answer.json()
            target = next(one for one in targets if one["type"] == "page")
            async with http.ws_connect(target["webSocketDebuggerUrl"], max_msg_size=0) as socket:
                page = Page(socket)
                await page.send("Page.navigate", url=url)
                await page.until("document.readyState === 'complete'")
                yield page
        finally:
            os.killpg(browser.pid, signal.SIGKILL)
            await browser.wait()
