"""What `rt ci` left: its libraries, how a crate is checked over them, and how an archive of the library for C is built over them."""

import functools
import os
import re
import subprocess

from repository import ROOT

# What an archive is built for, and the lowest processor of it that is promised: plain x86-64, with SSE2 and nothing after it.
TARGETS = {"x86_64": "x86_64-unknown-linux-gnu", "aarch64": "aarch64-unknown-linux-gnu"}
PROCESSORS = {"x86_64": "x86-64", "aarch64": "generic"}


def crates(top):
    """What each crate of crates.txt uses."""
    with open(f"{top}/crates.txt", encoding="utf-8") as file:
        rows = re.findall(r"^(\w+)[^:#\n]*:([^#\n]*)", file.read(), re.M)
    return {name: uses.split() for name, uses in rows}


def below(name, every):
    """The repository's crates below a crate."""
    found = []
    for it in every[name]:
        if it in every:
            found += [more for more in [*below(it, every), it] if more not in found]
    return found


def processor_words(target):
    """The words of `rattle` and `rt` that say what an archive is built for."""
    return ["--target", TARGETS[target], "--cpu", PROCESSORS[target]]


def root_of(top, name):
    """The file that a crate begins with."""
    return "src/main.rt" if os.path.isfile(f"{top}/crates/{name}/src/main.rt") else "src/lib.rt"


def makes_library(top, name):
    """Whether a crate is built into a library for other crates, and neither a program nor an archive for C."""
    with open(f"{top}/crates.txt", encoding="utf-8") as file:
        is_archive = re.search(rf"^{name} +staticlib\b", file.read(), re.M) is not None
    return not is_archive and root_of(top, name) == "src/lib.rt"


def is_left_by_ci(top, names):
    """Whether the libraries of these crates are those that `rt ci` left: what `rt check` builds has a stamp."""
    folders = [(it, f"{top}/crates/{it}/out/rlib") for it in names]
    return all(os.path.isfile(f"{at}/{it}.rlib/format") and not os.path.exists(f"{at}/stamp") for it, at in folders)


def texts_below(folder):
    """The bytes of each source, definition and proof of a crate, by its path."""
    found = {}
    for part in ("src", "specs", "proofs"):
        for at, _, names in os.walk(f"{folder}/{part}"):
            for name in names:
                with open(f"{at}/{name}", "rb") as it:
                    found[os.path.relpath(f"{at}/{name}", folder)] = it.read()
    return found


def is_proved_there(clone, name):
    """Whether `rt ci` proved this very text of a crate in a clone."""
    own = f"crates/{name}"
    return is_left_by_ci(clone, [name]) and texts_below(f"{clone}/{own}") == texts_below(f"{ROOT}/{own}")


@functools.cache
def kit():
    """The folder of the kit, as `rt doc` names its first page."""
    return os.path.dirname(subprocess.run(["rt", "doc"], stdout=subprocess.PIPE, text=True, check=True).stdout.strip())


def library_words(top, name):
    """The words of `rattle` that name a crate, its libraries (the kit's, and those that `rt ci` proved and left in a clone) and the logic."""
    at_kit, every = kit(), crates(ROOT)
    words = ["--crate-name", name, root_of(ROOT, name)]
    for it in ["std", *(it for it in every[name] if it not in every)]:
        words += ["--extern", f"{it}={at_kit}/rlibs/{it}.rlib"]
    words += ["-L", f"dependency={at_kit}/rlibs"]
    for it in below(name, every):
        at = f"{top}/crates/{it}/out/rlib"
        words += ["--extern", f"{it}={at}/{it}.rlib"] * (it in every[name]) + ["-L", f"dependency={at}"]
    return [*words, "--antt-project", f"{at_kit}/rattle/logic/antt-project.json", "--logic-built", f"{at_kit}/logic_built"]


def archive_words(top, name, target, to, kept):
    """The command that proves a crate over the libraries that `rt ci` proved and left, and builds its archive for a target. It
    runs in the crate's folder; what it proves lies in the folder `kept`."""
    words = [f"{kit()}/bin/rattle", "build", *library_words(top, name)]
    words += ["--incremental", kept, "--links", f"{name}=", "--crate-type", "staticlib", *processor_words(target)]
    return [*words, "--toolchain", f"{kit()}/toolchain", "--backend", "llvm", "-o", to]
