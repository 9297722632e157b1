"""The files of an installation, by their paths below its prefix: (bytes, mode)."""

import glob
import os
import subprocess

import completions
import help_texts
import manual
from repository import ROOT
from version import version

HERE = os.path.dirname(os.path.abspath(__file__))
PROGRAMS = ("flight_run", "flight_tools")
ARCHIVES = ("libneedlemauve.a", "libneedlemauve_board.a")
# The list of what is installed, by which it is taken away.
LIST = "share/needlemauve/installed"
CMAKE = ("needlemauve-config.cmake", "needlemauve-config-version.cmake")


class Unusable(Exception):
    """Why there is nothing to install, in a sentence."""


def content(path):
    with open(path, "rb") as file:
        return file.read()


def filled(name, prefix):
    """A template with the version and the prefix."""
    text = content(f"{HERE}/{name}").decode()
    return text.replace("@VERSION@", version()).replace("@PREFIX@", prefix).encode()


def built(folder):
    """The programs and archives of a folder; they are of this version."""
    for name in (*PROGRAMS, *ARCHIVES):
        if not os.path.isfile(f"{folder}/{name}"):
            raise Unusable(f"there is no {folder}/{name}: tools/build makes it")
    said = help_texts.said(f"{folder}/flight_tools", "--version").split()[-1]
    if said != version():
        raise Unusable(f"{folder}/flight_tools is of version {said}, and not {version()}: tools/build makes it anew")
    found = {f"bin/{name}": (content(f"{folder}/{name}"), 0o755) for name in PROGRAMS}
    return {**found, **{f"lib/{name}": (content(f"{folder}/{name}"), 0o644) for name in ARCHIVES}}


def documents():
    """README and CHANGELOG, the documents that they link to, the examples, and what editors need."""
    paths = ["README.md", "CHANGELOG.md"]
    for pattern in ("docs/**/*.md", "docs/figures/*.png", "examples/*/*", "editors/**"):
        paths += (it for it in glob.glob(pattern, root_dir=ROOT, recursive=True) if os.path.isfile(f"{ROOT}/{it}"))
    return {f"share/doc/needlemauve/{it}": content(f"{ROOT}/{it}") for it in paths}


def files(folder, prefix):
    """All files of an installation with this prefix, over the programs and archives of a folder."""
    found = built(folder)
    tools = f"{folder}/flight_tools"
    commands = help_texts.commands_of(tools)
    plain = {
        "include/needlemauve.h": content(f"{ROOT}/include/needlemauve.h"),
        "lib/pkgconfig/needlemauve.pc": filled("needlemauve.pc", prefix),
        **{f"lib/cmake/needlemauve/{it}": filled(it, prefix) for it in CMAKE},
        **{f"share/needlemauve/{it}": content(f"{ROOT}/crates/needlemauve/{it}") for it in ("memory.c", "memory.h")},
        "share/man/man1/flight_run.1": filled("flight_run.1", prefix),
        **{f"share/man/man1/{name}": text.encode() for name, text in manual.pages(help_texts.about_of(tools), commands, version()).items()},
        **{f"share/{path}": text.encode() for path, text in completions.files(commands).items()},
        **documents(),
    }
    return {**found, **{path: (bytes, 0o644) for path, bytes in plain.items()}}


def files_or_why(folder, prefix):
    try:
        return files(folder, prefix)
    except (OSError, subprocess.SubprocessError) as why:
        raise Unusable(str(why)) from None
