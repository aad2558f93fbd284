"""Random transactions for tools/fuzz: valid ones, and ones that something is wrong with."""

from dataclasses import dataclass, field

from fuzzing.scripts import TICK_TOP

COIN = ("coin", "")
QUANTITY_TOP = 2**63 - 1
# What may be wrong with a transaction that is made.
FLAWS = (
    "no-inputs interval negative missing reference address datum no-policy unbalanced signature validator policy-script"
).split()


@dataclass
class Output:
    bundle: dict
    script: str = "yes"
    datum: str = "unit"


@dataclass
class Tx:
    """What a line declares; `sound` tells whether it is valid where its references lead to unspent outputs at a good tick."""

    name: str
    body: tuple
    inputs: list
    references: list
    outputs: list
    first: int
    last: int
    sound: bool

    def made(self):
        return [f"{self.name}.{place}" for place in range(len(self.outputs))]


@dataclass
class Draft:
    """The parts of a transaction that is being made."""

    inputs: dict = field(default_factory=dict)
    references: list = field(default_factory=list)
    outputs: list = field(default_factory=list)
    keys: dict = field(default_factory=dict)
    bad_keys: list = field(default_factory=list)
    forge: dict = field(default_factory=dict)
    policies: list = field(default_factory=list)
    first: int = 0
    last: int = TICK_TOP
    sound: bool = True


def split_quantity(rng, quantity, count):
    """Returns so many quantities, none above the greatest, whose sum it is; the count grows where it has to."""
    parts = []
    for left in range(count - 1, 0, -1):
        part = min(rng.choice((0, 1, quantity // (left + 1), quantity)), QUANTITY_TOP)
        parts.append(part)
        quantity -= part
    while quantity > QUANTITY_TOP:
        parts.append(QUANTITY_TOP)
        quantity -= QUANTITY_TOP
    return parts + [quantity]


def take_input(scene, draft, reference):
    """Adds an input with a redeemer that its script accepts, and says what else the script asks."""
    rng = scene.rng
    output = scene.outputs[reference]
    need = scene.scripts[output.script]
    redeemer = "unit"
    if need.answer is not None:
        redeemer = scene.name_datum("01" + (need.answer % 2**64).to_bytes(8, "big").hex())
    if need.same:
        redeemer = output.datum
        draft.sound &= need.answer is None
    word = f"in={reference}"
    if redeemer != "unit" or rng.randrange(12) == 0:
        word += f":{output.script}/{output.datum}/{redeemer}"
    draft.inputs[reference] = word
    if need.keeps:
        draft.outputs.append(Output({COIN: max(0, output.bundle.get(COIN, 0))}, output.script, output.datum))
    meet(scene, draft, need)


def meet(scene, draft, need):
    draft.keys.update(dict.fromkeys(need.keys))
    draft.first, draft.last = max(draft.first, need.first), min(draft.last, need.last)
    draft.sound &= not need.unsure
    if need.looks and not draft.references:
        take_reference(scene, draft)


def take_reference(scene, draft):
    others = [reference for reference in scene.find_unspent() if reference not in draft.inputs and reference not in draft.references]
    if others:
        draft.references.append(scene.rng.choice(others))


def forge_some(scene, draft, total):
    rng = scene.rng
    policy, token = scene.pick_token()
    held = [held for held, quantity in total.items() if quantity > 0 and held != COIN]
    if held and rng.randrange(2):
        policy, token = rng.choice(held)
        quantity = -rng.choice((1, min(total[policy, token], QUANTITY_TOP)))
    else:
        quantity = rng.choice((1, 5, 1000, QUANTITY_TOP))
    draft.forge[policy, token] = quantity
    total[policy, token] = total.get((policy, token), 0) + quantity
    draft.policies.append(policy)
    meet(scene, draft, scene.scripts[policy])


def pay(scene, draft, total):
    """Adds outputs that pay what is left of the total."""
    rng = scene.rng
    for output in draft.outputs:
        for token, quantity in output.bundle.items():
            total[token] = total.get(token, 0) - quantity
    draft.sound &= all(quantity >= 0 for quantity in total.values())
    count = rng.choice((0, 1, 1, 1, 2, 2, 3, 4))
    bundles = [{} for _ in range(count)]
    for token, quantity in total.items():
        if quantity <= 0:
            continue
        for place, part in enumerate(split_quantity(rng, quantity, max(1, rng.randrange(count + 1)))):
            if place == len(bundles):
                bundles.append({})
            bundles[place][token] = part
    draft.outputs += [Output(bundle, *scene.pick_lock()) for bundle in bundles]


def draft_valid(scene):
    rng = scene.rng
    draft = Draft()
    unspent = list(scene.find_unspent())
    sure = [reference for reference in unspent if not scene.scripts[scene.outputs[reference].script].unsure]
    some = sure if sure and rng.randrange(8) else unspent
    for reference in rng.sample(some, min(len(some), rng.choice((1, 1, 1, 1, 2, 3, 12)))):
        take_input(scene, draft, reference)
    draft.sound &= bool(draft.inputs)
    draft.references = [reference for reference in draft.references if reference not in draft.inputs]
    if rng.randrange(6) == 0:
        take_reference(scene, draft)
    total = {}
    for reference in draft.inputs:
        for token, quantity in scene.outputs[reference].bundle.items():
            total[token] = total.get(token, 0) + quantity
    if rng.randrange(4) == 0:
        forge_some(scene, draft, total)
    pay(scene, draft, total)
    if rng.randrange(5) == 0:
        draft.first = max(draft.first, scene.tick - rng.randrange(3))
        draft.last = min(draft.last, scene.tick + rng.randrange(4))
    if draft.first > draft.last:
        draft.sound, draft.last = False, TICK_TOP
    if rng.randrange(6) == 0:
        draft.keys[rng.randrange(256)] = None
    if rng.randrange(150) == 0:
        draft.keys.update(dict.fromkeys(range(rng.randrange(160, 172))))
    return draft


def pick_missing(scene, draft):
    """Returns a reference to an output that isn't there to be spent."""
    unspent = scene.find_unspent()
    gone = [reference for reference in scene.outputs if reference not in unspent and reference not in (*draft.inputs, *draft.references)]
    if gone and scene.rng.randrange(3):
        return scene.rng.choice(gone)
    return f"{scene.rng.choice(scene.txs).name}.{scene.rng.choice((250, 999, 65_535))}" if scene.txs else "nothing.0"


def spoil(scene, draft, flaw):
    """Has something be wrong with the transaction, most often what the flaw is called after."""
    rng = scene.rng
    draft.sound = False
    missing = pick_missing(scene, draft)
    first = next(iter(draft.inputs), missing)
    if flaw == "no-inputs":
        draft.inputs.clear()
    elif flaw == "interval":
        draft.first, draft.last = rng.choice(((scene.tick + 1, TICK_TOP), (0, scene.tick - 1)))
        if draft.first > TICK_TOP or draft.last < 0:
            draft.first, draft.last = 3, 4
    elif flaw == "negative":
        draft.outputs.append(Output({COIN: -rng.choice((1, QUANTITY_TOP))}))
    elif flaw == "missing":
        draft.inputs[missing] = f"in={missing}"
    elif flaw == "reference":
        draft.references.append(missing)
    elif flaw == "address":
        draft.inputs[first] = f"in={first}:{rng.choice(list(scene.scripts))}"
    elif flaw == "datum" and first in scene.outputs:
        draft.inputs[first] = f"in={first}:{scene.outputs[first].script}/{rng.choice(list(scene.data))}"
    elif flaw == "no-policy":
        token = rng.choice((COIN, scene.pick_token()))
        draft.forge[token] = rng.choice((1, -1))
    elif flaw == "unbalanced" and draft.outputs:
        bundle = rng.choice(draft.outputs).bundle
        token = rng.choice(list(bundle) + [scene.pick_token()])
        bundle[token] = max(0, bundle.get(token, 0) + rng.choice((1, -1)))
    elif flaw == "signature":
        draft.bad_keys.append(rng.randrange(256))
    elif flaw == "validator":
        draft.inputs = {reference: f"in={reference}" for reference in draft.inputs}
        draft.keys.clear()
    elif flaw == "policy-script":
        draft.policies.append(rng.choice(["no", *scene.policies]))
