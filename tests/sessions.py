"""Makes random sessions, runs them through matcher.py, and has the checker compute that the rules say the same.

    python3 tests/sessions.py FIRST LAST CALLS      sessions with the seeds FIRST to LAST - 1, of CALLS calls each

A session is cut into stretches, each of which starts from the book that the matcher has there. A copy of the repository is made in
a temporary folder, the stretches are added to its crate `rules` as theorems by computation (answers, rows and the whole book
afterwards), and `rt check` checks them there. Prints what was met.
"""
import collections
import pathlib
import random
import shutil
import subprocess
import sys
import tempfile

from matcher import Book

ROOT = pathlib.Path(__file__).resolve().parent.parent
KINDS = {"L": "Kind.Limit", "N": "Kind.Hidden", "R": "Kind.Reserve", "I": "Kind.Immediate", "M": "Kind.Market"}
SIDES = {"B": "Buy", "S": "Sell"}
STEPS = {"S": "Step.Setter", "D": "Step.Displayed", "N": "Step.Hidden"}
REFUSALS = {
    1: "OrderNumber", 2: "Participant", 3: "Quantity", 4: "Price", 5: "DisplayQuantity", 6: "ReportRoom", 7: "AwayPrice", 8: "RoundLot",
    20: "Phase", 21: "OldNumber", 22: "BookFull", 23: "NoSuchOrder", 24: "ReductionTooLarge", 25: "NoOppositePrice",
}


# What a session does

def entry(rnd, number, lot):
    kind = rnd.choice("LLLNRRRIM")
    quantity = rnd.choice([4, 6, 9, 10, 15, 25, 30, 43, 70]) * lot // 10 or 1
    display = 0
    if kind == "R":
        display = rnd.choice([1, 1, 2]) * lot
        quantity = max(quantity, display) + rnd.choice([0, lot // 2, 5 * lot // 2])
    price = 0 if kind == "M" else 100_000 + 100 * rnd.randint(-2, 2)
    participant = rnd.randint(1, 6)
    odd = rnd.random()
    if odd < 0.02: display = rnd.choice([display + 1, 0, quantity - quantity % lot + lot])
    elif odd < 0.04: price += 50
    elif odd < 0.05: number = rnd.choice([0, 1_000_000])
    elif odd < 0.06: participant = rnd.choice([0, 24, 25])
    elif odd < 0.07: quantity = rnd.choice([0, 500_000, 500_001])
    elif odd < 0.09: price = rnd.choice([0, 1, 9_999, 10_000, 10_001, 10_050, 99_999_900, 99_999_999, 100_000_000])
    return ("enter", rnd.choice("BS"), kind, number, participant, quantity, display, price)


def join_play(rnd, number, lot):
    """A reserve order whose later shown part alone is marked, and trades: what is left of it joins the hidden part."""
    side = rnd.choice("BS")
    other, price = ("S", 100_300) if side == "B" else ("B", 99_700)
    display = rnd.choice([1, 1, 2]) * lot
    return [
        ("quote", price if side == "B" else 0, price if side == "S" else 0),
        ("enter", side, "R", number + 1, rnd.randint(1, 6), display + rnd.choice([lot, 5 * lot // 2, 4 * lot]), display, price),
        ("quote", 0, 0),
        ("enter", other, "I", number + 2, rnd.randint(1, 6), display - lot + 6 * lot // 10, 0, price),
        ("enter", other, "I", number + 3, rnd.randint(1, 6), display - lot + 7 * lot // 10, 0, price),
        ("reduce", number + 1, rnd.choice([5, 10, 12, 15, 18, 20, 25]) * lot // 10),
    ]


def session(seed, calls):
    """(lot, ranking letter, dealing, [(room, call)])"""
    rnd = random.Random(seed)
    lot, letter, dealing = rnd.choice([100, 100, 100, 10, 1000]), rnd.choice("BS"), rnd.choice(["parity", "parity", "time"])
    asks, number = [], 0
    crowd = seed % 5 == 0
    if rnd.random() < 0.1:
        asks.append((400, ("halt",)))
    # what a new book refuses, and the one call that it takes
    for call in [("quote", 99_900, 100_100), ("close",), ("resume",), ("cancel", 1), ("reduce", 1, 1), ("enter", "B", "L", 1, 1, lot, 0, 100_000)]:
        if rnd.random() < 0.1:
            asks.append((400, call))
    asks.append((400, ("open",)))
    if crowd:
        # 128 orders that rest, on both sides and at many prices
        for _ in range(129):
            number += 1
            side = rnd.choice("BS")
            price = 100_000 + (-100 if side == "B" else 100) * rnd.randint(3, 9)
            kind = rnd.choice("LNR")
            asks.append((400, ("enter", side, kind, number, rnd.randint(1, 24), 3 * lot, lot if kind == "R" else 0, price)))
    for _ in range(calls):
        if rnd.random() < 0.05:
            asks += [(400, call) for call in join_play(rnd, number, lot)]
            number += 3
        room, z = (399 if rnd.random() < 0.01 else 400), rnd.random()
        near = lambda: rnd.randint(max(1, number - 8), number + 1)
        if z < 0.05: call = ("quote", rnd.choice([0, 99_800, 99_900, 100_000, 99_999_999, 100_000_000]), rnd.choice([0, 1, 100_000, 100_100, 100_200, 99_999_999, 100_000_000]))
        elif z < 0.11: call = ("cancel", rnd.choice([near(), near(), near(), 0]))
        elif z < 0.19: call = ("reduce", rnd.choice([near(), near(), near(), near(), 0, 1_000_000]), rnd.choice([1, 4, 5, 6, 9, 10, 13, 15, 25, 40, 0, 5_000_010]) * lot // 10)
        elif z < 0.205: call = (rnd.choice(["halt", "halt", "halt", "open"]),)
        elif z < 0.24: call = ("resume",)
        elif z < 0.245: room, call = rnd.choice([400, 399]), ("close",)
        else:
            number += rnd.choice([0, 1, 1, 1, 1, 2]) if number else 1
            call = entry(rnd, number, lot)
        asks.append((room, call))
    return lot, letter, dealing, asks


# What the checker reads

def listed(items):
    return "".join(f"{x} ∷ " for x in items) + "[]"


def told_order(side, kind, number, participant, quantity, display, price):
    return f"order {SIDES[side]} {KINDS[kind]} {number} {participant} {quantity} {display} {price}"


def told_call(room, call):
    name, *args = call
    if name == "enter":
        told = f"Enter ({told_order(*args)})"
    else:
        told = " ".join([name.capitalize(), *map(str, args)])
    return f"({room}, {told})"


def told_row(row):
    return f"GivenBack {row[1]} {row[2]}" if row[0] == "G" else f"Trade {STEPS[row[0]]} {row[1]} {row[2]} {row[3]} {row[4]}"


def told_answer(answer):
    number, traded, back, rows = answer
    told = f"accepted {traded} {back}" if number == 0 else f"refused Refusal.{REFUSALS[number]}"
    return f"({told}, {listed(map(told_row, rows))})"


def told_queue(book, key):
    parts = sorted((p for p in book.parts if (p["side"], p["price"], p["category"]) == key), key=lambda p: p["time"])
    wheel = book.wheels.get(key, {"seats": [], "used": 0})
    told = listed(f"part {p['order']} {p['participant']} {p['quantity']} {str(p['marked']).lower()}" for p in parts)
    return f"(queue ({told}) (wheel_with ({listed(wheel['seats'])}) {wheel['used']}))"


def told_side(book, side):
    prices = sorted({p["price"] for p in book.parts if p["side"] == side}, reverse=side == "B")
    return listed(f"level {v} {told_queue(book, (side, v, 2))} {told_queue(book, (side, v, 3))}" for v in prices)


def told_book(book):
    orders = [book.orders[n] for n in sorted(book.orders)]
    told = listed(told_order(o["side"], o["kind"], o["number"], o["participant"], o["quantity"], o["display"], o["price"]) for o in orders)
    return (f"record {{ lot = {book.lot}; steps = steps; phase = Phase.{book.phase}; last = {book.last}; bid = {book.away['B']}; offer = {book.away['S']};"
            f" orders = {told}; buys = {told_side(book, 'B')}; sells = {told_side(book, 'S')} }}")


HEAD = """-- Random sessions. Assumes nothing.
use Rattle.std.specs.Prelude.{◌≡◌, ℕ, true, false, List, [], ◌∷◌}
use Rattle.allocation.specs.Wheels.{wheel_with}
use Rattle.allocation.specs.Dealings.{parity, time}
use Rattle.allocation.specs.Rankings.{buyers_letter, sellers_letter, higher_is_better, lower_is_better}
use Rattle.rules.specs.declared.orders.Side.{Side}
use Rattle.rules.specs.declared.orders.Side.TheVariants.{Buy, Sell}
use Rattle.rules.specs.declared.orders.Kind.{Kind}
use Rattle.rules.specs.declared.orders.Order.{Order}
use Rattle.rules.specs.declared.phases.Phase.TheVariants as Phase
use Rattle.rules.specs.declared.phases.Step.TheVariants as Step
use Rattle.rules.specs.declared.calls.Call.TheVariants.{Open, Halt, Resume, Close, Quote, Enter, Cancel, Reduce}
use Rattle.rules.specs.declared.answers.Refusal.TheVariants as Refusal
use Rattle.rules.specs.declared.answers.Row.TheVariants.{Trade, GivenBack}
use Rattle.rules.specs.Codes.{accepted, refused}
use Rattle.rules.specs.Books.{Ranking, ranked_by, Book, part, queue, level}
use Rattle.rules.specs.Rules.{steps, new_book}
use Rattle.rules.specs.Runs.{Event, run, final}
use Rattle.rules.specs.Cases.{what_came}

abbrev order : Side → Kind → ℕ → ℕ → ℕ → ℕ → ℕ → Order
order s k n p q d v = record { number = n; participant = p; side = s; kind = k; quantity = q; display = d; price = v }
"""
RANKINGS = {"B": "(ranked_by buyers_letter higher_is_better)", "S": "(ranked_by sellers_letter lower_is_better)"}
STRETCH = 12


def main(first, last, calls):
    met, rows, specs, proofs, stretches = collections.Counter(), 0, HEAD, "", []
    full = (ROOT / "crates/rules/proofs/Cases.antt").read_text().split("\n")
    uses = [l for l in full if l.startswith("use ") and "specs.Cases" not in l]
    unfolding = next(l for l in full if l.startswith("unfolding "))
    for seed in range(first, last):
        lot, letter, dealing, asks = session(seed, calls)
        book, start = Book(lot, dealing), f"new_book {lot}"
        for cut in range(0, len(asks), STRETCH):
            name, some = f"{seed}_{cut // STRETCH}", asks[cut:cut + STRETCH]
            answers = [book.call(call, room) for room, call in some]
            for number, _, _, rs in answers:
                met[number] += 1
                rows += len(rs)
            met["most orders"] = max(met["most orders"], len(book.orders))
            specs += f"\nabbrev start_{name} : Book\nstart_{name} = {start}\n"
            specs += f"\nabbrev past_{name} : List Event\npast_{name} = run {RANKINGS[letter]} {dealing} start_{name}\n    (" + "\n    ∷ ".join(told_call(*a) for a in some) + "\n    ∷ [])\n"
            start = told_book(book)
            specs += f"\nabbrev pub Stretch_{name} : Type 0\nStretch_{name} =\n    (what_came past_{name} ≡ (" + "\n    ∷ ".join(map(told_answer, answers)) + "\n    ∷ []))\n"
            specs += f"    × (final start_{name} past_{name} ≡ {start})\n"
            proofs += f"\npub stretch_{name} : Stretch_{name}\n{unfolding}\nstretch_{name} = (refl, refl)\n"
            stretches.append(f"Stretch_{name}")
    proofs = "-- Random sessions come out. Assumes nothing.\n" + "\n".join(uses) + f"\nuse Rattle.rules.specs.Random.{{{', '.join(stretches)}}}\n" + proofs
    with tempfile.TemporaryDirectory() as folder:
        copy = pathlib.Path(folder) / "repository"
        shutil.copytree(ROOT, copy, ignore=shutil.ignore_patterns(".git", "out", "must-fail"))
        crate = copy / "crates/rules"
        (crate / "specs/Random.antt").write_text(specs)
        (crate / "proofs/Random.antt").write_text(proofs)
        for part in ("specs", "proofs"):
            with open(crate / part / "Lib.antt", "a") as lib:
                lib.write("pub mod Random\n")
        done = subprocess.run(["rt", "check"], cwd=crate, capture_output=True, text=True)
    told = [l for l in (done.stdout + done.stderr).split("\n") if "error" in l or l.startswith("logic=")]
    print("\n".join(l[:400] for l in told[:12]))
    print(f"sessions {last - first}, stretches {len(stretches)}, rows {rows}, answers met {dict(sorted(met.items(), key=lambda x: str(x[0])))}")
    return 0 if any(l.startswith("logic=proved") for l in told) else 1


if __name__ == "__main__":
    sys.exit(main(*map(int, sys.argv[1:4])))
