"""Shows that the theorems have teeth: each wrong rule below is put into a copy of the definitions, and the check must fail.

    python3 tests/wrong_rules.py          prints, for each wrong rule, the first declarations that no longer hold
"""
import pathlib
import re
import shutil
import subprocess
import sys
import tempfile

ROOT = pathlib.Path(__file__).resolve().parent.parent

# what goes wrong, the file of crates/rules/specs (or of another crate's), the right text, the wrong text
WRONG = [
    ("the next seat is passed over after a leave", "allocation/Wheels",
     "retain stays w = wheel_with (filter stays w.seats)", "retain stays w = wheel_with (cond (first_stays stays w.seats) (filter stays w.seats) (drop 1 (filter stays w.seats) ++ take 1 (filter stays w.seats)))"),
    ("the setter step is taken below the round lot", "Trading", "taken lot l = nat_le lot (displayed l)", "taken lot l = true"),
    ("a mark is given at an equal price", "Marks", "beats rank s v (Some w) = better rank s v w", "beats rank s v (Some w) = good rank s v w"),
    ("reserve is shown before the later part joins", "Reserve",
     "    let c : Book = on rank e (join_hidden b.lot e.number) b in", "    let c : Book = on rank e (show_anew b.lot e false) b in"),
    ("no part loses the shares that trade", "Trading",
     "(with_queue s (queue (lowered k.parts d.shares) d.wheel) l) in", "(with_queue s (queue k.parts d.wheel) l) in"),
    ("a step is skipped", "Trading",
     "step_shares deal lot (suc q) Step.Hidden l = dealing_shares deal lot (suc q) l.hidden.wheel l.hidden.parts", "step_shares deal lot (suc q) Step.Hidden l = dealt [] l.hidden.wheel"),
    ("a cancel does nothing", "Rules", "(GivenBack n (resting n b) ∷ []) (take_off n (resting n b) b)", "(GivenBack n (resting n b) ∷ []) b"),
    ("the remainder is dropped", "Entering", "n (rs ++ (GivenBack e.number n ∷ [])) b", "n rs b"),
    ("a reduction takes the shown parts first", "TakingOff",
     "level l.price (lose (reverse (drop (length h) xs)) l.shown) (lose (take (length h) xs) l.hidden)", "level l.price (lose (shares_in_order m s) l.shown) (lose (shares_in_order (m - sum s) h) l.hidden)"),
    ("an arrival trades through the away price", "Trading", "e.price) true && (away s b == 0 || good rank s v (away s b))", "e.price) true"),
    ("a market order needs no opposite price", "Refusals", "(Refusal.NoOppositePrice, no_opposite b e)", "(Refusal.NoOppositePrice, false)"),
]

# what a wrong text uses beside what its file imports
MORE = {
    "the next seat is passed over after a leave": [("filter, ◌==◌, nat_lt}", "filter, take, drop, ◌==◌, nat_lt}")],
    "a mark is given at an equal price": [("level, better, side, away}", "level, better, good, side, away}")],
    "a reduction takes the shown parts first": [
        ("use Rattle.allocation.specs.ByTime.{shares_in_order}\n", "use Rattle.allocation.specs.ByTime.{shares_in_order}\nuse Rattle.allocation.specs.Dealings.{sum}\n"),
    ],
}


def failing(text):
    """the declarations that the checker names in its errors"""
    return list(dict.fromkeys(re.findall(r"error: `([^`]+)`", text)))


def main():
    missed = 0
    for what, name, right, wrong in WRONG:
        with tempfile.TemporaryDirectory() as folder:
            copy = pathlib.Path(folder) / "repository"
            shutil.copytree(ROOT, copy, ignore=shutil.ignore_patterns(".git", "out", "must-fail"))
            crate, _, module = name.rpartition("/")
            crate = crate or "rules"
            file = copy / f"crates/{crate}/specs/{module}.antt"
            text = file.read_text()
            assert text.count(right) == 1, (what, text.count(right))
            text = text.replace(right, wrong)
            for had, wanted in MORE.get(what, []):
                assert text.count(had) == 1, (what, had)
                text = text.replace(had, wanted)
            file.write_text(text)
            done = subprocess.run(["rt", "check"], cwd=copy / "crates" / crate, capture_output=True, text=True)
        out = done.stdout + done.stderr
        names = failing(out)
        # a text with an error of its own is no rule
        unread = "not in scope" in out or re.search(rf"^\./specs/{module}\.antt:[0-9:]+ error:", out, re.M)
        if "logic=not-proved" not in out or not names or unread:
            missed += 1
        print(f"{what}: {'NOT A RULE' if unread else ', '.join(names[:8]) or 'NOT NOTICED'}", flush=True)
    return 1 if missed else 0


if __name__ == "__main__":
    sys.exit(main())
