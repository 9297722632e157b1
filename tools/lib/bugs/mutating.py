"""Plants bugs in what no contract speaks of, and holds the programs with each against the rows of the gate that reach it.

    tools/dev/bugs mutate --over CLONE [--jobs N] [--only TEXT] [--let-through FILE] FOLDER

A mutant is a wrong body of a function of flight_tools or flight_run that has no clause, as `rt plant` writes it: a constant, an
argument, an error, nothing done. All mutants stand in one copy of the tree, each after the question whether it is planted, and so the
programs are built once, without proof and with an address sanitizer. Each row of try_programs and each talk of try_server runs once
without a mutant; a mutant is then tried with the rows that ran through its function, the quickest first, up to the first that does not pass.

CLONE is a clone of this tree in which `rt ci` has run; its libraries say what types there are. FOLDER gets the tree, the programs and
what was found; what is there already is not done again, so that a run can go on. `--only` takes the mutants whose place or function has
TEXT in it. With `--let-through` the mutants are the bodies that contracts let through: FILE is what `bugs plant --all` printed, and
FOLDER one for these alone. Not in the gate: on a processor of 2.5 GHz the list and the build take some fifteen minutes, the rows ten,
a mutant a few seconds.

Prints the rows that do not pass in this build, so that no mutant meets them, the mutants that no row reached, those that passed all rows
that reach them, the functions for which no mutant compiled, and a table by crate. The status is 0 if each mutant that was asked for
and compiled was tried, whatever it came to."""
import argparse
import collections
import json
import multiprocessing
import os
import sys

from archives import is_left_by_ci

from mutants.building import build
from mutants.listing import PROGRAMS, let_through, mutants_over, names, read_mutants, without_clause, write_mutants
from mutants.trial import Bench, room_for_benches

COLUMNS = ["caught", "passed", "not reached", "not compiled"]

bench = None


def begin(folder, room):
    """Gives a process a bench of its own."""
    global bench
    bench = Bench(folder, room)


def traced(asked):
    (case,) = asked
    return {"of": case, **bench.traced(case)}


def tried(asked):
    number, cases = asked
    return {"of": number, "catcher": bench.catcher_of(number, cases)}


def results_of(given, name, work, asked):
    """What the work comes to, by the first item of what is asked: what stands in a file of the folder, and the rest side by side."""
    path, found = f"{given.folder}/{name}", {}
    if os.path.isfile(path):
        with open(path, encoding="utf-8") as file:
            found = {it["of"]: it for it in map(json.loads, file)}
    left = [it for it in asked if it[0] not in found]
    with room_for_benches() as room, multiprocessing.Pool(given.jobs, begin, [given.folder, room]) as pool, open(path, "a", encoding="utf-8") as file:
        for it in pool.imap_unordered(work, left):
            found[it["of"]] = it
            file.write(json.dumps(it) + "\n")
            file.flush()
    return found


def built(clone, folder, plants):
    """The mutants of the programs in the folder, which are listed and built where they aren't yet."""
    kinds = ["let_through", "mutants"] if plants else ["mutants", "let_through"]
    path, other = (f"{folder}/{it}.json" for it in kinds)
    if os.path.isfile(other):
        sys.exit(f"bugs mutate: {folder} has mutants of the other kind")
    if not os.path.isfile(path):
        os.makedirs(folder, exist_ok=True)
        write_mutants(path, mutants_over(clone, let_through(plants.read()) if plants else without_clause))
    mutants = read_mutants(path)
    build(folder, mutants)
    write_mutants(path, mutants)
    return mutants


def came_to(mutant, reached, results):
    if mutant["is_refused"]:
        return "not compiled"
    if mutant["number"] not in reached:
        return "not reached"
    return "caught" if results[mutant["number"]]["catcher"] else "passed"


def report(mutants, reached, results):
    """Prints what nothing caught, and how many mutants of each crate came to what."""
    counts = collections.defaultdict(collections.Counter)
    for it in mutants:
        what = came_to(it, reached, results)
        counts[it["crate"]][what] += 1
        if what in ("not reached", "passed"):
            print(f"{what:<11}  {it['shown']}: {{ {it['body']} }}")
    planted = {it["shown"] for it in mutants if not it["is_refused"]}
    print(*(f"no mutant    {it}\n" for it in sorted({it["shown"] for it in mutants} - planted)), sep="", end="")
    print(f"| crate | {' | '.join(COLUMNS)} |\n|---|{'---|' * len(COLUMNS)}")
    for crate, of_crate in [*counts.items(), ("all", sum(counts.values(), collections.Counter()))]:
        print(f"| `{crate}` | {' | '.join(str(of_crate[it]) for it in COLUMNS)} |")


def add_words(parser):
    parser.add_argument("--over", type=os.path.abspath, required=True)
    parser.add_argument("--jobs", type=int, default=os.cpu_count())
    parser.add_argument("--only", default="")
    parser.add_argument("--let-through", type=argparse.FileType(encoding="utf-8"))
    parser.add_argument("folder", type=os.path.abspath)


def reached_by_cases(given):
    """The cases that pass without a mutant and run through the function of each, by its number, the quickest first."""
    with room_for_benches() as room:
        cases = [*Bench(given.folder, room).cases]
    reached = collections.defaultdict(list)
    for it in sorted(results_of(given, "traced.jsonl", traced, [(it,) for it in cases]).values(), key=lambda it: it["seconds"]):
        if not it["passes"]:
            print(f"left out     {it['of']}")
        for number in it["reached"] * it["passes"]:
            reached[number].append(it["of"])
    return reached


def run(given):
    if not is_left_by_ci(given.over, {*names()} - {*PROGRAMS}):
        sys.exit(f"bugs mutate: {given.over} has not all libraries that rt ci leaves")
    mutants = built(given.over, given.folder, given.let_through)
    reached = reached_by_cases(given)
    asked = [it for it in mutants if given.only in it["shown"]]
    work = [(it["number"], reached[it["number"]]) for it in asked if it["number"] in reached and not it["is_refused"]]
    report(asked, reached, results_of(given, "tried.jsonl", tried, work))
    return 0
