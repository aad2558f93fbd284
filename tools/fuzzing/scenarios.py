"""Random scenarios for tools/fuzz, most lines of which do what they are meant to, and each refusal comes up.

A Scene keeps what the lines have declared, and about what the pool holds. That is a guess, by which further lines are picked: nothing is
compared with it.
"""

from fuzzing.scripts import TICK_TOP, UNIT, Need, make_datum, pick_condition, pick_plain_condition
from fuzzing.transactions import COIN, FLAWS, QUANTITY_TOP, Output, Tx, draft_valid, spoil
from repository import read_scenario_words

LONGEST_LINE = 4096

# Names that are words of the language.
WORDS = [*read_scenario_words(), "none", "yes", "no"]


class Scene:
    def __init__(self, rng, reads):
        self.rng = rng
        self.reads = reads
        self.lines = []
        self.outputs = {}
        self.txs = []
        self.scripts = {"yes": Need(), "no": Need(unsure=True)}
        self.policies = ["yes"]
        self.script_bytes = {"01", "00"}
        self.data = {"unit": UNIT}
        self.ledger = {}
        self.pool = []
        self.tick = 0
        self.given = 0
        self.named = 0

    # Lines

    def say(self, line):
        """Adds the line, or nothing where it would be too long."""
        if len(line) > LONGEST_LINE and self.rng.randrange(50):
            return False
        if self.rng.randrange(60) == 0:
            line = " " * self.rng.randrange(3) + line.replace(" ", " " * self.rng.randrange(1, 3)) + " " * self.rng.randrange(3)
        self.lines.append(line)
        return True

    def make_name(self, letter, taken):
        self.named += 1
        name = f"{letter}{self.named}"
        if self.rng.randrange(40) == 0:
            name = self.rng.choice(WORDS)
        elif self.rng.randrange(40) == 0:
            name = name.ljust(16, "z")
        return f"{letter}{self.named}" if name in taken else name

    def declare_script(self, plain=False):
        script, need = (pick_plain_condition if plain else pick_condition)(self.rng, self.tick)
        if script in self.script_bytes:
            return "yes"
        name = self.make_name("s", self.scripts)
        if not self.say(f"script {name} {script if self.rng.randrange(5) else script.upper()}"):
            return "yes"
        self.script_bytes.add(script)
        self.scripts[name] = need
        if plain:
            self.policies.append(name)
        return name

    def name_datum(self, datum):
        """Returns a name of the datum, which is declared where it has none."""
        for name, octets in self.data.items():
            if octets == datum:
                return name
        name = self.make_name("d", self.data)
        self.say(f"data {name} {datum}")
        self.data[name] = datum
        return name

    # Words

    def pick_token(self):
        if self.rng.randrange(3):
            return (self.rng.choice(self.policies), "")
        return (self.rng.choice(self.policies), self.rng.choice(("gold", "a", "z" * 32, "0")))

    def spell_bundle(self, bundle):
        words = []
        for (policy, token), quantity in bundle.items():
            if quantity == 0:
                continue
            if (policy, token) == COIN:
                words.append(f"{quantity}" if self.rng.randrange(8) else f"{quantity}*coin")
            else:
                words.append(f"{quantity}*{policy}" + (f".{token}" if token else ""))
        self.rng.shuffle(words)
        return ",".join(words) or "-"

    def spell_payment(self, output):
        words = self.spell_bundle(output.bundle)
        if output.datum != "unit" or self.rng.randrange(10) == 0:
            return f"{words}@{output.script}/{output.datum}"
        return words if output.script == "yes" else f"{words}@{output.script}"

    def pick_lock(self):
        """Returns a script and a datum for an output."""
        rng = self.rng
        script = "yes"
        if rng.randrange(5) < 2:
            script = self.declare_script() if rng.randrange(3) == 0 else rng.choice(list(self.scripts))
        if rng.randrange(4) == 0:
            return script, self.name_datum(make_datum(rng)) if rng.randrange(2) else rng.choice(list(self.data))
        return script, "unit"

    # What the pool holds

    def apply(self, unspent, tx):
        """Returns whether it is valid upon what is unspent, which it then changes."""
        fits = tx.sound and tx.first <= self.tick <= tx.last
        fits = fits and all(reference in unspent for reference in tx.inputs + tx.references)
        if not fits or any(reference in unspent for reference in tx.made()):
            return False
        for reference in tx.inputs:
            del unspent[reference]
        unspent.update(dict.fromkeys(tx.made()))
        return True

    def find_unspent(self, count=None):
        unspent = dict(self.ledger)
        for tx in self.pool[:count]:
            self.apply(unspent, tx)
        return unspent

    def look_again(self):
        unspent = dict(self.ledger)
        self.pool = [tx for tx in self.pool if self.apply(unspent, tx)]

    # Declarations

    def declare_opening(self):
        rng = self.rng
        if rng.randrange(3) == 0:
            self.tick = rng.choice((1, 7, 1000, 2**63, TICK_TOP))
            self.say(f"tick {self.tick}")
        if rng.randrange(4) == 0:
            self.say(f"block {rng.choice((1, 150, 300, 600, 1000, 3000, 20_000, 2**39))}")
        if rng.randrange(8) == 0:
            self.say(f"limit {rng.choice((1, 3, 5, 10, 20, 2**32))}")
        if rng.randrange(6) == 0:
            self.given = rng.choice((41, 2**32 - 2, 2**63 - 1, TICK_TOP - rng.randrange(9)))
            self.say(f"last {self.given}")
        for _ in range(rng.randrange(1, 25)):
            self.declare_output()
        settings = [line for line in self.lines if line.split()[0] in ("tick", "block", "limit", "last")]
        others = [line for line in self.lines if line not in settings]
        for line in settings:
            others.insert(rng.randrange(len(others) + 1), line)
        self.lines = others

    def declare_output(self):
        rng = self.rng
        bundle = {}
        if rng.randrange(12):
            bundle[COIN] = rng.choice((1, 5, 100, 100, 1000, 10**9, QUANTITY_TOP))
        for _ in range(rng.choice((0, 0, 0, 1, 2))):
            bundle[self.pick_token()] = rng.choice((1, 7, 1000, QUANTITY_TOP))
        if bundle and rng.randrange(25) == 0:
            token = rng.choice(list(bundle))
            bundle[token] = -bundle[token]
        output = Output(bundle, *self.pick_lock())
        name = self.make_name("g", self.outputs)
        if self.say(f"out {name} {self.spell_payment(output)}"):
            self.outputs[name] = output
            self.ledger[name] = None

    def declare_tx(self, flaw=None):
        """Says the line of a transaction, and returns it, or None where there is no line."""
        draft = draft_valid(self)
        if flaw:
            spoil(self, draft, flaw)
        return self.say_tx(draft)

    def say_tx(self, draft):
        name = self.make_name("t", self.outputs.keys() | {tx.name for tx in self.txs})
        words = list(draft.inputs.values()) + [f"ref={reference}" for reference in dict.fromkeys(draft.references)]
        words += [f"policy={policy}" for policy in dict.fromkeys(draft.policies)]
        if draft.forge:
            words.append(f"forge={self.spell_bundle(draft.forge)}")
        words += [f"from={draft.first}"] * (draft.first > 0) + [f"to={draft.last}"] * (draft.last < TICK_TOP)
        pays = [f"out={self.spell_payment(output)}" for output in draft.outputs]
        body = (*sorted(words), *pays)
        words += [f"sign={key}" for key in draft.keys] + [f"badsign={key}" for key in dict.fromkeys(draft.bad_keys)]
        if self.rng.randrange(3) == 0:
            self.rng.shuffle(words)
        places = sorted(self.rng.randrange(len(words) + 1) for _ in pays)
        for place, pay in zip(reversed(places), reversed(pays)):
            words.insert(place, pay)
        if not words or not self.say(f"tx {name} {' '.join(words)}"):
            return None
        tx = Tx(name, body, list(draft.inputs), draft.references, draft.outputs, draft.first, draft.last, draft.sound)
        self.txs.append(tx)
        self.outputs.update(zip(tx.made(), tx.outputs))
        return tx

    # Commands

    def submit(self, tx):
        self.say(f"submit {tx.name}")
        stands = any(tx.body == other.body for other in self.pool)
        if self.given < TICK_TOP and not stands and self.apply(self.find_unspent(), tx):
            self.pool.append(tx)
            self.given += 1

    def submit_new(self):
        flaw = self.rng.choice(FLAWS) if self.rng.randrange(5) == 0 else None
        tx = self.declare_tx(flaw)
        if tx:
            self.submit(tx)

    def submit_known(self):
        if self.txs:
            self.submit(self.rng.choice(self.txs[-20:]))

    def submit_twin(self):
        """Declares a transaction once more, with other signatures and so of the same id, and submits it."""
        lines = [line for line in self.lines if line.startswith("tx ")]
        if not lines:
            return
        _, name, *words = self.rng.choice(lines).split()
        first = next((tx for tx in self.txs if tx.name == name), None)
        twin = self.make_name("t", self.outputs.keys() | {tx.name for tx in self.txs})
        key = self.rng.randrange(256)
        if first and f"sign={key}" not in words and self.say(f"tx {twin} {' '.join(words)} sign={key}"):
            tx = Tx(twin, first.body, first.inputs, first.references, first.outputs, first.first, first.last, first.sound)
            self.txs.append(tx)
            self.outputs.update(zip(tx.made(), tx.outputs))
            self.submit(tx)

    def remove(self):
        pool = [tx for tx in self.pool if self.rng.randrange(4) == 0][:6]
        some = pool + [self.rng.choice(self.txs) for _ in range(self.rng.choice((0, 0, 1, 2))) if self.txs]
        if self.pool and not some:
            some = [self.rng.choice(self.pool)]
        if some and self.say("remove " + " ".join(tx.name for tx in some)):
            bodies = {tx.body for tx in some}
            self.pool = [tx for tx in self.pool if tx.body not in bodies]
            self.look_again()

    def pick_ledger(self):
        """Returns a tick, words for the block bytes, and references: mostly those after a block of the pool's oldest."""
        rng = self.rng
        kept = self.find_unspent(rng.randrange(len(self.pool) + 1))
        if rng.randrange(4) == 0:
            kept = {reference: None for reference in kept if rng.randrange(5)}
        if rng.randrange(4) == 0:
            others = list(self.outputs)
            kept.update(dict.fromkeys(rng.sample(others, min(len(others), 3))))
        if rng.randrange(20) == 0:
            kept = {}
        tick = self.tick + rng.choice((0, 0, 1, 1, 2)) if rng.randrange(10) else rng.choice((0, 5, TICK_TOP))
        block = f" block={rng.choice((1, 100, 400, 2000, 100_000, 2**39))}" if rng.randrange(6) == 0 else ""
        references = list(kept)
        rng.shuffle(references)
        return min(tick, TICK_TOP), block, references[:200]

    def sync(self):
        tick, block, references = self.pick_ledger()
        if self.say(" ".join([f"sync {tick}{block}", *references])):
            self.tick, self.ledger = tick, dict.fromkeys(references)
            self.look_again()

    def sync_taken(self):
        """Adopts a ledger state with an output of a transaction that comes after."""
        tx = self.declare_tx()
        if tx and tx.outputs:
            references = list(dict.fromkeys([*self.find_unspent(0), *tx.inputs, self.rng.choice(tx.made())]))
            if self.say(" ".join([f"sync {self.tick}", *references])):
                self.ledger = dict.fromkeys(references)
                self.look_again()
                self.submit(tx)

    def pick_ticket(self):
        return self.rng.choice((0, max(0, self.given - self.rng.randrange(10)), min(self.given + 1, TICK_TOP), TICK_TOP))

    def pick_bytes(self):
        return self.rng.choice((0, 180, 181, 362, 1000, self.rng.randrange(5000), TICK_TOP))

    def read(self):
        rng = self.rng
        kind = rng.randrange(8)
        if kind <= 1 or not self.reads:
            self.say("snapshot")
        elif kind == 2:
            self.say(f"after {self.pick_ticket()}")
        elif kind == 3:
            self.say(f"lookup {self.pick_ticket()}")
        elif kind == 4 and self.txs:
            self.say(f"has {rng.choice(self.txs[-30:]).name}")
        elif kind == 5:
            self.say(f"{rng.choice(('take', 'forge'))} {self.pick_bytes()}")
        elif kind == 6:
            self.say(f"offer {rng.choice((0, 1, 2, 100, TICK_TOP))} {self.pick_bytes()}")
        else:
            tick, block, references = self.pick_ledger()
            self.say(" ".join([f"for {tick}{block}", *references]))

    def declare_anything(self):
        kind = self.rng.randrange(4)
        if kind == 0:
            self.declare_script(plain=self.rng.randrange(2) == 0)
        elif kind == 1:
            self.name_datum(make_datum(self.rng))
        elif kind == 2:
            self.declare_tx()
        else:
            self.lines.append(self.rng.choice(("", "  ", "# a comment", "#", " # submit nobody")))


STEPS = (
    (Scene.submit_new, 50),
    (Scene.submit_known, 8),
    (Scene.submit_twin, 2),
    (Scene.remove, 6),
    (Scene.sync, 7),
    (Scene.sync_taken, 1),
    (Scene.read, 16),
    (Scene.declare_anything, 8),
)


def make_wide_lines(rng):
    """Returns lines with transactions near the greatest numbers of inputs, references and outputs."""
    count = rng.choice((247, 255, 256, 257))
    lines = ["block 2000000"] + [f"out w{place} 1" for place in range(count + 1)]
    lines.append("tx wa " + " ".join(f"in=w{place}" for place in range(count)) + f" out={count}")
    lines.append(f"tx wb in=w{count} " + " ".join(f"ref=w{place}" for place in range(count)) + " out=1")
    outputs = rng.choice((148, 150, 151, 200))
    lines.append(f"tx wc in=wa.0 out={count - outputs} " + " ".join("out=1" for _ in range(outputs)))
    sync = "sync 1 " + " ".join(f"w{place}" for place in range(count))
    return lines + ["submit wb", "submit wa", "submit wc", "snapshot", sync, "snapshot"]


def make_scenario(rng):
    """Returns the bytes of a random scenario."""
    if rng.randrange(60) == 0:
        return ("\n".join(make_wide_lines(rng)) + "\n").encode()
    scene = Scene(rng, reads=rng.randrange(5) < 3)
    scene.declare_opening()
    calls, weights = zip(*STEPS)
    count = rng.choice((rng.randrange(8), rng.randrange(40), rng.randrange(40), rng.randrange(160)))
    for call in rng.choices(calls, weights, k=count):
        call(scene)
    return ("\n".join(scene.lines) + "\n" * rng.randrange(2)).encode()
