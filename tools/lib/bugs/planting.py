"""Lists the wrong bodies that the contracts of crates let through, as `rt plant` does, but over the libraries that `rt ci` left in a
clone, so that no library is proved first.

    tools/dev/bugs plant --over CLONE [--minutes N] [--most N] [--all] [--giving-up] NAME..

A crate gets N minutes (4) and as many plants (200) at most; it takes one processor and 1 to 3 GB. Of a program or an archive for C
`rt ci` leaves no library: it is proved first, some minutes more. `rt plant --help` says what its lines mean: `proves` is a contract to
strengthen, unless that body is right, and `no-ensures` a function that any body passes.

    --giving-up   only the bodies that give up, in less time: none calls the right one, and one that says the same counts as let through

After the lines of each crate stands a row of a table: how many of its functions have a contract, and how many plants were refused, were
let through, or say the same as the right body. The status is 0 if each plant of each crate was judged; with 1 some were not: for lack
of minutes, by --most, because they do not compile, or because the tactics met a limit."""
import argparse
import json
import os
import re
import subprocess
import sys

from archives import below, crates, is_left_by_ci, kit, library_words, makes_library
from plants import kit_tool
from repository import crates_of

COUNTS = re.compile(r"(?m)^plants crate=\w+ planted-in=(\d+) untested=(\d+) no-ensures=(\d+) proves=(\d+) same=(\d+) refused=(\d+) (.* not-run=(\d+))$")
ALL_JUDGED = "elsewhere=0 not-judged=0 not-source=0 not-run=0"


def said_of(clone, crate):
    """What a check says of a crate in whose folder this runs, and its status: of a library that `rt ci` left, that it proved each function."""
    if not makes_library(clone, crate):
        words = [f"{kit()}/bin/rattle", "check", *library_words(clone, crate), "--incremental", "out/incremental", "--jobs", "1"]
        ran = subprocess.run(words, stdout=subprocess.PIPE, stderr=subprocess.STDOUT, text=True)
        return f"{ran.stdout}\ncrate {crate}: looked at", ran.returncode
    with open(f"out/rlib/{crate}.rlib/toolchain/mir.json", encoding="utf-8") as it:
        return "\n".join([*(f"fn {name}: proved" for name, _ in json.load(it)), f"crate {crate}: proved by rt ci"]), 0


def leave_out_callers(tool):
    """Lets the kit's tool write no body that calls the right one."""
    plant = tool.plant
    tool.bodies.Bodies.over_the_real_one = lambda *_: []
    tool.plant = lambda crate, copy, functions, _, most: plant(crate, copy, functions, [], most)


def look_at(clone, crate, words, gives_up):
    """Runs the kit's tool in a crate of a clone, as if it had checked the crate."""
    tool = kit_tool()
    if gives_up:
        leave_out_callers(tool)
    os.chdir(f"{clone}/crates/{crate}")

    def said_by_check(*_):
        said, status = said_of(clone, crate)
        print(said)
        return status

    tool.rt.main = said_by_check
    return tool.main("--jobs", "1", *words)


def add_words(parser):
    parser.add_argument("--over", type=os.path.abspath, required=True)
    parser.add_argument("--minutes", type=int, default=4)
    parser.add_argument("--most", type=int, default=200)
    parser.add_argument("--all", action="store_true")
    parser.add_argument("--giving-up", action="store_true")
    parser.add_argument("--one", action="store_true", help=argparse.SUPPRESS)
    parser.add_argument("names", nargs="+")


def refuse_unless_left(given):
    """Ends where a crate is unknown, or the clone lacks a library."""
    known, every = crates_of(), crates(given.over)
    lacking = [it for it in given.names if it not in known]
    if lacking:
        sys.exit(f"crates.txt names no crate {lacking[0]}")
    wanted = {it for name in given.names for it in [name, *below(name, every)] if makes_library(given.over, it)}
    if not is_left_by_ci(given.over, wanted):
        sys.exit(f"bugs plant: {given.over} has not all libraries that rt ci leaves")


def run(given):
    limits = ["--minutes", str(given.minutes), *["--all"] * given.all]
    if given.one:
        return look_at(given.over, given.names[0], [*limits, "--max", str(given.most)], given.giving_up)
    refuse_unless_left(given)
    words = [sys.executable, *sys.argv[:2], "--one", "--over", given.over, *limits, "--most", str(given.most), *["--giving-up"] * given.giving_up]
    rows, is_whole = [], True
    for name in given.names:
        ran = subprocess.run([*words, name], stdin=subprocess.DEVNULL, stdout=subprocess.PIPE, stderr=subprocess.DEVNULL, text=True)
        found = COUNTS.search(ran.stdout)
        print(ran.stdout, end="", flush=True)
        is_whole = is_whole and ran.returncode == 0 and found is not None and found[7] == ALL_JUDGED
        if found:
            rows.append(f"| `{name}` | {' | '.join(found[at] for at in (1, 6, 4, 5, 3, 2))} | {found[7]} |")
    print("| crate | functions | refused | let through | same | no contract | untested | others |\n|---|---|---|---|---|---|---|---|")
    print("\n".join(rows))
    return 0 if is_whole else 1
