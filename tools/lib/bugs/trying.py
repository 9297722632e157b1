"""Tries edits: puts each into a copy of its crate, checks it, and prints the function that it changes and the clause that refused it.

    tools/dev/bugs try [--jobs N] [--over CLONE] [--from FOLDER [--own]] [NAME..]
    tools/dev/bugs try --gate [NAME..]
    tools/dev/bugs try --table [NAME..]

NAME is a crate, or one edit of it as CRATE/EDIT; without names those of all crates are tried. Edits in different functions of a crate
share a check, and the answer is read function by function. An edit that is refused by another clause than the one that it names, by a
name that it took away, or not at all, is a failure. The status is 0 if each edit is refused by the clause that it names.

    --gate        only the edits that the gate tries, over the libraries that `rt ci` left here, as many crates at a time as cores and
                  memory allow
    --table       try nothing, and print each edit with the function and the clause that it names
    --jobs N      how many crates are tried at a time (1); each needs 0.5 to 4 GB
    --over CLONE  take the libraries below that `rt ci` left in a clone of this tree, and check only the functions that the edits change:
                  a crate takes a minute. Otherwise `rt check` proves what lies below first, if `out/` does not have it.
    --from FOLDER the edits of FOLDER/NAME.txt for the crate NAME: wrong bodies that nobody means to keep, written to see what a crate's
                  contracts let through. If one names no clause, any clause of a function that it changes will do.
    --own         with --from, the crate's own edits beside them, in the same checks"""
import concurrent.futures
import os
import shutil
import sys
import tempfile

from archives import below, crates, is_left_by_ci, is_proved_there
from edit_trials import Trial, TrialOverLibraries
from edits import Bad, edits_of, read_edits
from provers import provers
from repository import ROOT, copied, crates_of


def add_words(parser):
    parser.add_argument("--gate", action="store_true")
    parser.add_argument("--table", action="store_true")
    parser.add_argument("--jobs", type=int, default=1)
    parser.add_argument("--over", type=os.path.abspath)
    parser.add_argument("--from", dest="folder", type=os.path.abspath)
    parser.add_argument("--own", action="store_true")
    parser.add_argument("names", nargs="*")


def planted_in(folder, crate):
    """The edits of a folder for a crate."""
    path = f"{folder}/{crate}.txt"
    edits, faults = read_edits(crate, path, path) if os.path.isfile(path) else ([], [])
    if faults:
        raise Bad("\n".join(faults))
    return edits


def edits_by_crate(given):
    """The edits that are asked for, by crate: those of the tree, and those of a folder."""
    own = {it: edits_of(it) if given.own or not given.folder else [] for it in crates_of()}
    if given.gate:
        own = {crate: [it for it in edits if it.is_tried_by_gate] for crate, edits in own.items()}
    return own, {it: planted_in(given.folder, it) if given.folder else [] for it in crates_of()}


def chosen_by(found, names):
    """The edits of each crate that the names choose: CRATE chooses all of its, CRATE/EDIT one. Without names all are chosen."""
    wanted = [(crate, edit) for crate, _, edit in (it.partition("/") for it in names)]
    for crate, edit in wanted:
        if crate not in found:
            raise Bad(f"crates.txt names no crate {crate}")
        if edit and edit not in [it.name for it in found[crate]]:
            raise Bad(f"{crate} has no edit {edit} here")
    return {crate: [it for it in edits if not names or (crate, "") in wanted or (crate, it.name) in wanted] for crate, edits in found.items()}


def tried(room, crate, clone, own, planted, is_last):
    """The rows of a crate's own edits and of planted ones, tried in a copy there. What `rt ci` proved in the clone is looked at without an
    edit in the last crate alone, which shows that the clone serves."""
    has_control = True
    if clone:
        trial = TrialOverLibraries(room, crate, clone)
        has_control = is_last or not is_proved_there(clone, crate)
    else:
        copied(room, [crate], is_built=True)
        trial = Trial(room, crate)
    trial.takes_any_clause = bool(planted)
    rows = trial.rows([*own, *planted], has_control)
    return rows[: len(own)], rows[len(own) :]


def print_table(found):
    """Each edit of these, with the function and the clause that must refuse it."""
    print("| crate | edit | tried by | function | clause |\n|---|---|---|---|---|")
    for name, edits in found.items():
        for edit in edits:
            function, clause = edit.refused_by or ("", "")
            print(f"| `{name}` | `{edit.name}` | {'the gate' if edit.is_tried_by_gate else 'hand'} | `{function}` | {clause} |")
    print(f"\n{sum(map(len, found.values()))} edits")


def print_rows(name, rows, kind):
    """Prints the rows of a crate, and returns how many of them are faults."""
    for edit, is_right, function, what in rows:
        print(f"| `{name}` | `{edit}`{kind} | `{function}` | {what if is_right else 'FAULT, ' + what} |", flush=True)
    return sum(not is_right for _, is_right, _, _ in rows)


def try_all(names, own, planted, over, jobs):
    """Tries the edits of these crates. Returns how many were tried and how many are faults, of the own ones and of the planted."""
    count, faults, kinds = [0, 0], [0, 0], ["", ", planted"]
    with tempfile.TemporaryDirectory(prefix="try-edits-") as room, concurrent.futures.ThreadPoolExecutor(jobs) as pool:
        # (what takes longest begins first)
        heaviest = sorted(names, key=lambda it: -len(own[it]) - len(planted[it]))
        made = {it: pool.submit(tried, f"{room}/{it}", it, over, own[it], planted[it], it == names[-1]) for it in heaviest}
        for name in names:
            for which, rows in enumerate(made[name].result()):
                count[which] += len(rows)
                faults[which] += print_rows(name, rows, kinds[which])
            shutil.rmtree(f"{room}/{name}", ignore_errors=True)
    return count, faults


def run(given):
    own, planted = edits_by_crate(given)
    every = {it: own[it] + planted[it] for it in own}
    chosen = chosen_by(every, given.names)
    own, planted = ({crate: [it for it in chosen[crate] if it in edits] for crate, edits in part.items()} for part in (own, planted))
    names = [it for it, edits in chosen.items() if edits]
    if given.table:
        print_table(own)
        return 0
    over, jobs = (ROOT, provers()) if given.gate else (given.over, given.jobs)
    if over and not is_left_by_ci(over, {lower for name in names for lower in below(name, crates(ROOT))}):
        sys.exit(f"bugs try: {over} has not all libraries that rt ci leaves")
    print("| crate | edit | function | refused by |\n|---|---|---|---|", flush=True)
    count, faults = try_all(names, own, planted, over, jobs)
    print(f"\nedits: {count[0]} tried, {faults[0]} not refused by the clause that they name", flush=True)
    if given.folder:
        print(f"planted edits: {count[1]} tried, {faults[1]} not refused", flush=True)
    return 1 if any(faults) or not any(count) else 0
