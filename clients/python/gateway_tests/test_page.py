"""The page, in a browser."""

from __future__ import annotations

import os
import shutil
import unittest
from typing import Any

from . import GatewayCase, id_of, pay, spend
from .browser import Page, open_page

CHROMIUM = shutil.which("chromium")
# A folder for pictures of the page.
PICTURES = os.environ.get("PICTURES")

ROWS = (
    "[...document.querySelectorAll('#{0} tr')]"
    ".map(row => [...row.cells].map(cell => cell.innerText))"
)

# Keeps how many transactions a second were accepted: as the page shows it, and by the counts that
# it shows and the times of its answers. A busy machine calls the observer late.
WATCH_CHANGES = """
window.shown = 0;
window.changed = null;
new MutationObserver(() => {
  const [rate, count] = [...document.querySelectorAll("[data-answer=accepted] .number")]
    .map(cell => Number(cell.innerText));
  const last = window.changed;
  window.changed = { time: before.time, count };
  if (last && rate > window.shown) {
    window.shown = rate;
    window.accepted = (count - last.count) * 1000 / (window.changed.time - last.time);
  }
}).observe(document.getElementById("answers"), { childList: true });
"""

# The age of the snapshot as the page shows it, and as long as it hasn't changed, in seconds.
AGES = """
[Number(document.getElementById("age").innerText.match(/[0-9.]+/)[0]),
 (performance.now() - window.changed.time) / 1000]
"""


@unittest.skipUnless(CHROMIUM, "there is no chromium")
class InABrowser(GatewayCase):
    async def test_what_it_shows(self) -> None:
        await self.start("--rate", "0")
        first = pay(0, 60, 40)
        self.transactions = [first, spend(first, 1, 40), *(pay(place) for place in range(1, 23))]
        await self.accept(*self.transactions)
        for data in (pay(0), spend(pay(40), 0, 100), first[:-1], b"\7"):
            self.assertEqual((await self.post(data))[0], 400)
        async with open_page(str(CHROMIUM), self.http, f"{self.url}/") as page:
            await page.until("document.getElementById('state').className === 'up'")
            await self.check_numbers(page)
            await self.check_newest(page)
            await self.check_a_change(page)
            await self.check_details(page)
            await self.take_pictures(page)
            await self.check_that_nothing_else_is_loaded(page)

    async def check_numbers(self, page: Page) -> None:
        """Compares each number on the page with what is in the pool."""
        size = sum(map(len, self.transactions))
        await page.until(
            f"document.getElementById('count').innerText === '{len(self.transactions)}'"
        )
        shown = {name: await page.text(name) for name in ("bytes", "capacity", "ticket", "tick")}
        self.assertEqual(
            shown, {"bytes": f"{size:,}", "capacity": "40,000", "ticket": "34", "tick": "7"}
        )
        self.assertEqual(await page.text("share"), f"{size / 400:.1f}%")
        self.assertAlmostEqual(
            await page.read("document.getElementById('meter').value"), size / 40000
        )
        self.assertRegex(await page.text("age"), r"^snapshot \d+\.\d s old$")
        answers = await page.read(ROWS.format("answers"))
        counts = {word: count for word, _, count in answers}
        self.assertEqual(counts, {"accepted": "24", "missing": "2", "undecodable": "2"})

    async def check_newest(self, page: Page) -> None:
        rows = await page.read(ROWS.format("newest"))
        newest = list(enumerate(self.transactions, 11))[:-21:-1]
        short = [f"{id_of(data)[:8]}..{id_of(data)[-8:]}" for _, data in newest]
        sizes = [str(len(data)) for _, data in newest]
        tickets = [str(ticket) for ticket, _ in newest]
        self.assertEqual(rows, [list(row) for row in zip(tickets, short, sizes, strict=True)])

    async def check_a_change(self, page: Page) -> None:
        """What comes to the pool comes to the page, and with it how often a second."""
        await page.read(WATCH_CHANGES)
        await page.until("window.changed !== null")
        more = pay(30)
        await self.accept(more)
        self.transactions.append(more)
        await page.until("window.shown > 0")
        shown, accepted = await page.read("[window.shown, window.accepted]")
        self.assertAlmostEqual(shown, accepted, delta=0.06)
        await self.check_newest(page)
        await page.until("performance.now() - window.changed.time > 600")
        age, unchanged = await page.read(AGES)
        self.assertAlmostEqual(age, unchanged, delta=2)

    async def check_details(self, page: Page) -> None:
        """Finds a transaction by its id with the keyboard, and follows it to its dependent."""
        first, second = map(id_of, self.transactions[:2])
        await page.read("document.getElementById('wanted').focus()")
        await page.send("Input.insertText", text=first.upper())
        await page.press("Enter")
        await page.until("document.getElementById('details').open")
        text = await page.text("parts")
        for part in (
            first,
            f"ticket 11, {len(self.transactions[0])} bytes, format 1, valid at ticks from 0",
            "Inputs (1)",
            "Outputs (2)",
            f"{'aa' * 32}#0 from the ledger state",
            "0: 60 coin",
            "1: 40 coin",
        ):
            self.assertIn(part, text)
        self.assertIn(f"Dependents in the pool (1)\n{second}", text)
        await self.picture(page, "details")
        await page.read(
            f"document.querySelector('#parts ul:last-child [title=\"{second}\"]').focus()"
        )
        await page.press("Enter")
        await page.until(f"document.getElementById('parts').innerText.startsWith('{second}')")
        self.assertIn(f"{first}#1 from the pool", await page.text("parts"))
        await page.press("Escape")
        await page.until("!document.getElementById('details').open")
        await page.read("document.getElementById('wanted').select()")
        await page.send("Input.insertText", text="0" * 64)
        await page.press("Enter")
        await page.until("document.getElementById('problem').innerText !== ''")
        self.assertEqual(await page.text("problem"), "the pool has no such transaction")

    async def take_pictures(self, page: Page) -> None:
        """Nothing is wider than the window, in each size and both schemes."""
        for name, width, height in (("desk", 1200, 900), ("phone", 360, 780)):
            for scheme in ("light", "dark"):
                await page.show_as(scheme, width, height)
                await page.read("scrollTo(0, 0)")
                wide = await page.read("document.documentElement.scrollWidth")
                self.assertLessEqual(wide, width)
                await self.picture(page, f"{name}-{scheme}")

    async def picture(self, page: Page, name: str) -> None:
        if PICTURES:
            await page.picture(f"{PICTURES}/{name}.png")

    async def check_that_nothing_else_is_loaded(self, page: Page) -> None:
        names: Any = await page.read(
            "performance.getEntriesByType('resource').map(one => one.name)"
        )
        self.assertTrue(names)
        self.assertEqual({name.startswith(f"{self.url}/mempool") for name in names}, {True})
