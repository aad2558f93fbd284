"""The gateway's copies of the pool and of the ledger state, after random lines and posts."""

from __future__ import annotations

import random

from keltuvar_gateway.ledger import Ledger
from keltuvar_gateway.state import read_state
from keltuvar_gateway.transactions import format_reference, read_references
from tests.test_program import PLAIN, PLAIN_ID

from . import OPENING, OUTPUTS, GatewayCase, id_of, pay, spend

STEPS = 60


class Copies(GatewayCase):
    async def test_random_lines(self) -> None:
        seed = random.randrange(2**32)
        with self.subTest(seed=seed):
            await self.check_random_lines(random.Random(seed))

    async def check_random_lines(self, rng: random.Random) -> None:
        gateway = await self.start("--rate", "0")
        self.made = [pay(place, 60, 40) for place in range(OUTPUTS)]
        self.tick, self.declared = 7, 0
        for _ in range(STEPS):
            step = rng.choice([self.post_some, self.post_some, self.adopt, self.back, self.remove])
            await step(rng)
        held, unspent = await self.compare_pool(), await self.saved_outputs()
        await self.check_outputs(unspent)
        self.assertEqual(gateway._keeper.counts["starts"], 1)
        await gateway.end(save=False)
        await self.start("--rate", "0")
        self.assertEqual([await self.compare_pool(), await self.saved_outputs()], [held, unspent])

    async def post_some(self, rng: random.Random) -> None:
        for _ in range(rng.randrange(6)):
            data = rng.choice(self.made)
            status, _ = await self.post(data)
            if status == 202:
                self.made += [spend(data, 0, 60), spend(data, 1, 39, 1)]

    async def adopt(self, rng: random.Random) -> None:
        """Adopts some of the pool's transactions, perhaps after one that it doesn't hold."""
        items = (await self.operate("forge 100000"))[0].split()[3:]
        ids = [f"#{item.partition(':')[2]}" for item in items[: rng.randrange(len(items) + 1)]]
        others = [f"n{self.declared + 1}"] if rng.randrange(2) else []
        before = await self.saved_outputs()
        self.declared += 1
        self.tick += 1
        lines = [f"bytes n{self.declared} {rng.choice(self.made).hex()}"]
        lines.append(" ".join([f"adopt {self.tick}", *others, *ids]))
        answer = (await self.operate(*lines, f"forget n{self.declared}"))[1]
        if answer.startswith("refused"):
            self.assertEqual(await self.saved_outputs(), before)

    async def back(self, rng: random.Random) -> None:
        (answer,) = await self.operate(f"back {rng.randrange(4)}")
        self.assertIn(answer.split()[0], ("kept", "refused"))

    async def remove(self, rng: random.Random) -> None:
        items = (await self.operate("snapshot"))[0].split()[4:]
        if items:
            await self.operate(f"remove #{rng.choice(items).partition(':')[2]}")
        await self.compare_pool()

    async def compare_pool(self) -> list[str]:
        """Compares the list, the ids and the bytes with what the conversation says."""
        items = [item.split(":") for item in (await self.operate("snapshot"))[0].split()[4:]]
        shown = [
            line.split() for line in await self.operate(*(f"show #{one}" for _, one in items))
        ]
        listed = (await self.get("/mempool/txs?limit=1000"))["transactions"]
        self.assertEqual([str(one["ticket"]) for one in listed], [ticket for ticket, _ in items])
        self.assertEqual([one["id"] for one in listed], [one for _, one in items])
        self.assertEqual((await self.get("/mempool"))["count"], len(items))
        newest = (await self.get("/mempool/txs?newest=1000"))["transactions"]
        self.assertEqual(newest, listed[::-1])
        for _, size, transaction_id, digits in shown:
            async with self.http.get(f"{self.url}/mempool/txs/{transaction_id}") as answer:
                data = await answer.read()
            self.assertEqual((data.hex(), str(len(data))), (digits, size))
        return [words[2] for words in shown]

    async def saved_outputs(self) -> set[str]:
        """Saves, and returns the outputs of the ledger state."""
        await self.operate("save")
        state = read_state(self.state, whole=True)
        return {format_reference(reference) for reference in state.outputs}

    async def check_outputs(self, outputs: set[str]) -> None:
        """A block that spends one of these outputs isn't refused for that, and any other is."""
        for number, data in enumerate(self.made[: 2 * OUTPUTS]):
            spent = format_reference(next(iter(read_references(data))))
            # The pool may keep this name for a transaction that it holds.
            name = f"o{number}"
            lines = [f"bytes {name} {data.hex()}", f"adopt {self.tick} {name}"]
            adopted = (await self.operate(*lines))[1]
            self.assertEqual(adopted.endswith(" missing 0"), spent not in outputs, adopted)
            await self.operate(*(["back 1"] if adopted.startswith("kept") else []))


class Ledgers(GatewayCase):
    async def test_a_block_and_the_way_back(self) -> None:
        outputs = {bytes(34): PLAIN[52:159]}
        ledger = Ledger(5, 100, dict(outputs))
        ledger.adopt(6, 200, [(PLAIN_ID, PLAIN)])
        self.assertEqual(list(ledger.outputs), [bytes.fromhex(PLAIN_ID) + b"\0\0"])
        kept = dict(ledger.outputs)
        ledger.sync(7, None, kept | outputs)
        self.assertEqual((ledger.tick, ledger.block, len(ledger.outputs)), (7, 200, 2))
        ledger.back(1)
        self.assertEqual((ledger.tick, ledger.outputs), (6, kept))
        ledger.back(1)
        self.assertEqual((ledger.tick, ledger.block, ledger.outputs), (5, 100, outputs))
        with self.assertRaises(ValueError):
            ledger.back(1)

    async def test_an_output_that_is_made_and_spent_in_one_block(self) -> None:
        first = pay(0)
        second = spend(first, 0, 100)
        opening = bytes.fromhex(OPENING) + b"\0\0"
        ledger = Ledger(0, 1, {opening: b"x"})
        ledger.adopt(1, None, [(id_of(first), first), (id_of(second), second)])
        self.assertEqual(list(ledger.outputs), [bytes.fromhex(id_of(second)) + b"\0\0"])
        ledger.back(1)
        self.assertEqual(ledger.outputs, {opening: b"x"})
        with self.assertRaises(ValueError):
            ledger.adopt(1, None, [(id_of(second), second)])
