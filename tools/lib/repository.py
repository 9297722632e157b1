"""The crates of the repository, and copies of some of them."""
import os
import shutil

ROOT = os.path.dirname(os.path.dirname(os.path.dirname(os.path.abspath(__file__))))


def crates_of(root=ROOT):
    """The crates in the order of crates.txt, each with the crates of the repository that it stands on."""
    found = {}
    with open(f"{root}/crates.txt", encoding="utf-8") as it:
        for line in it:
            name, _, rest = line.split("#")[0].partition(":")
            if name.strip():
                found[name.split()[0]] = rest.split()
    return {name: [it for it in below if it in found] for name, below in found.items()}


def below(crates, names):
    """These crates and all that they stand on."""
    wanted, found = list(names), set()
    while wanted:
        name = wanted.pop()
        if name not in found:
            found.add(name)
            wanted += crates[name]
    return found


def take_over(folder, name, parts):
    """Copies what `rt` built of a crate into a copy of it. `rt` itself judges by its stamp whether that still is of these sources."""
    for part in parts:
        if os.path.isdir(f"{ROOT}/crates/{name}/out/{part}"):
            shutil.copytree(f"{ROOT}/crates/{name}/out/{part}", f"{folder}/crates/{name}/out/{part}", dirs_exist_ok=True)


def copied(folder, names, is_built=False):
    """Makes the folder a copy of the repository with these crates and those below them alone, and returns which these are. With
    `is_built` also the libraries that `rt` built of the crates below, and what it kept of these crates."""
    wanted = below(crates_of(), names)
    os.makedirs(folder, exist_ok=True)
    for name in sorted(wanted):
        for part in ("src", "specs", "proofs"):
            shutil.rmtree(f"{folder}/crates/{name}/{part}", ignore_errors=True)
        shutil.copytree(f"{ROOT}/crates/{name}", f"{folder}/crates/{name}", ignore=shutil.ignore_patterns("out", "edits"), dirs_exist_ok=True)
        if is_built:
            take_over(folder, name, ["incremental"] if name in names else ["rlib"])
    shutil.copy(f"{ROOT}/HANDLES", folder)
    with open(f"{ROOT}/crates.txt", encoding="utf-8") as it:
        lines = [line for line in it if line.split(":")[0].split()[:1] and line.split(":")[0].split()[0] in wanted]
    with open(f"{folder}/crates.txt", "w", encoding="utf-8") as it:
        it.writelines(lines)
    return wanted
