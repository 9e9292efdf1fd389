"""Shows that an order cannot skip a state or be in one twice: each use of the states below must be refused by the compiler.

    python3 tests/states.py          prints, for each use, the error that refuses it; ends with status 1 if one is not refused for its reason

For each use a copy of the repository is made in a temporary folder, and `rt try --test` compiles the crate `entering` there, and proves nothing.
It compiles a library only where it has a test, so the copy gets one that does nothing.
"""
import concurrent.futures
import os
import pathlib
import shutil
import subprocess
import sys
import tempfile

ROOT = pathlib.Path(__file__).resolve().parent.parent
CRATE = "crates/entering"
SOURCE = "src/entering.rt"
TEST = "\n#[test]\nfn nothing() {}\n"
TRADE = "    let traded = arrived.trade::<K, D>(&mut book.state, dealing, report);\n"
PLACE = "    let placed = traded.place::<K>(&mut book.state, report);\n"

# what is tried, the right lines, the wrong ones, what the compiler must say
USES = [
    ("an order is placed that has not traded", TRADE + PLACE, PLACE.replace("traded", "arrived"), ["error[unknown-method]", "`place`", "`Arrived`"]),
    ("an order is placed twice", PLACE, PLACE + PLACE.replace("placed", "again") + "    let _ = again.reply();\n", ["error[borrow-e0382]", "use of moved value: `traded`"]),
    ("an order trades twice", TRADE, TRADE + TRADE.replace("traded", "again") + "    let _ = again.place::<K>(&mut book.state, report).reply();\n", ["error[borrow-e0382]", "use of moved value: `arrived`"]),
    ("an order comes in and is let go", TRADE, "    let _late = arrive(order);\n" + TRADE, ["error[linear-value-let-go]", "`Arrived` is not `Drop`"]),
    ("an order is made by hand outside of the module of the states", "    let arrived = arrive(order);\n", "    let arrived = crate::stages::Arrived { order };\n", ["error[private-field]", "`order`", "`Arrived` is private"]),
]


def tried(use):
    """what is said of one use, and whether it is refused for its reason"""
    what, right, wrong, reason = use
    with tempfile.TemporaryDirectory() as folder:
        copy = pathlib.Path(folder) / "repository"
        shutil.copytree(ROOT, copy, ignore=shutil.ignore_patterns(".git", "out", "must-fail"))
        file = copy / CRATE / SOURCE
        text = file.read_text()
        assert text.count(right) == 1, (what, text.count(right))
        file.write_text(text.replace(right, wrong))
        with open(copy / CRATE / "src/lib.rt", "a") as lib:
            lib.write(TEST)
        done = subprocess.run(["rt", "try", "--test"], cwd=copy / CRATE, capture_output=True, text=True)
    errors = [line for line in (done.stdout + done.stderr).splitlines() if line.startswith(SOURCE + ":") and "error[" in line]
    said = [line for line in errors if all(word in line for word in reason)]
    if done.returncode != 0 and said:
        told = said[0].split(SOURCE + ":", 1)[1].split(": note:")[0].split(": help:")[0]
        return f"refused: {what}: {told}", True
    return f"NOT REFUSED FOR ITS REASON: {what}: status {done.returncode}: {errors[:1]}", False


def main():
    missed = 0
    with concurrent.futures.ThreadPoolExecutor(min(4, os.cpu_count() or 1)) as pool:
        for line, refused in pool.map(tried, USES):
            print(line, flush=True)
            missed += not refused
    print(f"{len(USES)} uses, {missed} not refused")
    sys.exit(1 if missed else 0)


main()
