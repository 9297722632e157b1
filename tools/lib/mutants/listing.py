"""Mutants: functions that no clause speaks of, or whose contract lets wrong bodies through, with such bodies."""

import collections
import json
import re

from archives import below, crates, root_of
from plants import kit_tool
from repository import ROOT

PROGRAMS = ["flight_tools", "flight_run"]
MOST_OF_A_FUNCTION = 4
# How a body of the kit's names what it can't reach by that path.
PATHS = [("std_alloc::vec::", "std::vec::"), ("std_alloc::string::", "std::string::"), ("std::String::", "std::string::String::")]
PATHS += [("std::Vec::", "std::vec::Vec::"), ("std_io::Error::", "std::io::Error::")]

# A line on a body that a contract let through, and the one that ends a crate.
LET_THROUGH = re.compile(r"(?m)^proves +(.+?): \{ (.*?) ?\}$|^plants crate=(\w+) ")


def names():
    """The crates that the programs are built of, each after those below it."""
    every = crates(ROOT)
    wanted = {it for program in PROGRAMS for it in [program, *below(program, every)]}
    return [it for it in every if it in wanted]


def source_of(tool, clone, crate):
    """The functions of a crate as the kit reads them, with the types of all that is below it."""
    source = tool.bodies.Source(f"{ROOT}/crates/{crate}")
    source.read(root_of(ROOT, crate))
    built = tool.rt.Crate(f"{clone}/crates/{crate}", clone, {})
    for library, rlib in tool.libraries(built).items():
        if library not in (*tool.rt.SEALED, "libc", "os"):
            source.add_library(library, f"{rlib}/lang")
    return source, tool.ensured_by_traits(built, source)


def is_said_by_trait(tool, source, function, ensured):
    """Whether the clauses of a method's trait say what it does, as they do where the impl has a ghost member: an output of `Display`,
    what `From` gives. What `Debug` prints is nobody's."""
    if not function.in_trait:
        return False
    trait, (start, end) = tool.bodies.named(function.block.trait)[0], function.block.span
    has_ghost = b"ghost " in source.data[function.file][start:end]
    return trait == "Debug" or (has_ghost and (trait, function.name) in ensured)


def has_no_clause(tool, source, function, ensured):
    """Whether no clause speaks of a function that answers or changes something."""
    is_constant = source.data[function.file][: function.start].rstrip().endswith(b"const")
    is_declared = not function.has_body or bool(function.block and function.block.is_trait)
    is_left_out = is_declared or is_constant or function.name == "main" or function.ret == ["!"]
    is_said = function.has_ensures or is_said_by_trait(tool, source, function, ensured)
    return not is_left_out and not is_said and bool(function.ret or function.mutates)


def is_in_scope(source, function, body):
    """Whether a body takes memory only where the function is given some."""
    head = source.data[function.file][function.named[0] : function.opens]
    return not re.search(r"\balloc\b", body) or re.search(rb"\balloc\s*:", head)


def in_program(source, function, body):
    """A body with the paths by which a program reaches what it names, or None where it can't stand there."""
    body = re.sub(r"(?<![:\w])io::Error", "std::io::Error", body)
    for was, path in PATHS:
        body = body.replace(was, path)
    return body if "Default::default" not in body and is_in_scope(source, function, body) else None


def without_clause(tool, crate, source, function, ensured):
    """The wrong bodies of a function of which no clause speaks; None of another one. Those that answer something go before those that
    only fail."""
    if not has_no_clause(tool, source, function, ensured):
        return None
    found = sorted(tool.bodies.Bodies(source, function).giving_up(), key=lambda it: it.kind == "failure")
    return [it.text for it in found]


def let_through(said):
    """What gives the bodies of a function that its contract let through, as `bugs plant --all` printed them; None of another function. A
    body that calls the function itself is left out: it would call the mutant."""
    found, here = {}, collections.defaultdict(list)
    for shown, body, crate in LET_THROUGH.findall(said):
        if crate:
            found[crate], here = here, collections.defaultdict(list)
        elif not re.search(rf"\b[Ss]elf::{re.escape(shown.rpartition(':')[2])}\b", body):
            here[shown].append(body)
    return lambda tool, crate, source, function, ensured: found.get(crate, {}).get(function.shown)


def kept_tokens(bodies):
    """Lets the kit read each file once."""
    read, kept = bodies.Source.tokens, {}

    def tokens(self, file):
        place = (self.folder, file)
        if place not in kept:
            kept[place] = read(self, file)
        return kept[place]

    bodies.Source.tokens = tokens


def mutants_over(clone, wrong_bodies=without_clause):
    """All mutants, by number from 1; one without a body, as if refused, for a function for which none can be written. The libraries that
    `rt ci` left in a clone say what types there are."""
    tool, found = kit_tool(), []
    kept_tokens(tool.bodies)
    for crate in names():
        source, ensured = source_of(tool, clone, crate)
        for function in source.functions:
            wrong = wrong_bodies(tool, crate, source, function, ensured)
            if wrong is not None:
                bodies = [it for it in (in_program(source, function, it) for it in wrong) if it is not None][:MOST_OF_A_FUNCTION]
                for body in bodies or [""]:
                    place = {"crate": crate, "file": function.file, "at": function.opens, "shown": f"crates/{crate}/{function.shown}"}
                    found.append({"number": len(found) + 1, **place, "body": body, "is_refused": not bodies})
    return found


def read_mutants(path):
    with open(path, encoding="utf-8") as file:
        return json.load(file)


def write_mutants(path, mutants):
    with open(path, "w", encoding="utf-8") as file:
        json.dump(mutants, file, indent=1)
