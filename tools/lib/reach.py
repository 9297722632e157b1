"""Which programs stand on a crate, which commands of flight_tools reach it, and a flight_tools that has only some commands."""
import os
import re

from repository import ROOT, below, crates_of

PROGRAM = "flight_tools"
# The commands whose words are not their plan's name.
WORDS = {"LanguageServer": "lsp", "Explain": "check"}
# The plan that prints help or the version.
NO_COMMAND = "Said"
# The `match` of the plans: what stands before its arms, and what ends it.
ARM = "\n        CommandPlan::"
ARMS, END = f"\n    match plan {{{ARM}{NO_COMMAND}", "\n    }\n}\n"
# What a program that has only some commands answers to another one.
NOT_BUILT = """
        _ => Err(Fault::Replaced("this build", "it has only the commands of the rows that it was built for")),"""


def programs_on(names):
    """The programs that stand on one of these crates, in the order of crates.txt."""
    known = crates_of()
    is_program = lambda it: os.path.isfile(f"{ROOT}/crates/{it}/src/main.rt")
    return [it for it in known if is_program(it) and below(known, [it]) & set(names)]


def test_crates_on(names):
    """The crates of tests that stand on one of these crates."""
    known = crates_of()
    return [it for it in known if it.endswith("_tests") and below(known, [it]) & set(names)]


def source(name):
    with open(f"{ROOT}/crates/{PROGRAM}/src/{name}.rt", encoding="utf-8") as file:
        return file.read()


def crates_in(text, imports):
    """The crates that a text of flight_tools names, or whose functions it calls by the names that it imports."""
    direct = crates_of()[PROGRAM]
    called = {crate for crate, names in imports for name in names if re.search(rf"\b{name}\s*[({{]", text)}
    return {it for it in direct if it in called or re.search(rf"\b{it}::", text)}


def arms_of(text):
    """The arms of the `match` of the plans in a program's text, each after the word of its command, or None for that of the help."""
    body = text.split(ARMS)[1].split(END)[0]
    arms = [(re.match(r"\w+", arm)[0], arm) for arm in f"{NO_COMMAND}{body}".split(ARM)]
    return [(None if plan == NO_COMMAND else WORDS.get(plan, plan.lower()), arm) for plan, arm in arms]


def imports_of(text):
    """The crates of the `use` lines of a text, each with the names that it brings."""
    return [(crate, re.findall(r"\w+", names)) for crate, names in re.findall(r"(?m)^use (\w+)::([^;]*);", text)]


def crates_of_arm(arm, text):
    """The crates that an arm of flight_tools calls directly, also through a module of the program."""
    modules = [it for it in re.findall(r"(?m)^mod (\w+);", text) if f"{it}::" in arm]
    return crates_in(arm, imports_of(text)).union(*(crates_in(source(it), []) for it in modules))


def crates_of_commands():
    """The crates that each command of flight_tools calls directly, read from the program's `match` of its plans."""
    text, found = source("main"), {}
    for command, arm in arms_of(text):
        if command:
            found.setdefault(command, set()).update(crates_of_arm(arm, text))
    return found


def keep_commands(top, commands):
    """Takes all but these commands out of flight_tools in a copy of the repository, and what is then unused out of its `use` lines, its
    modules and its line in crates.txt."""
    text, own = source("main"), f"{top}/crates/{PROGRAM}/src"
    front, rest = text.split(ARMS)
    arms = arms_of(text)
    kept = [arm for command, arm in arms if command in {None, *commands}]
    if kept == [arm for _, arm in arms]:
        return
    text = ARM.join([f"{front}\n    match plan {{", *kept]) + NOT_BUILT + END + rest.split(END, 1)[1]
    for module in re.findall(r"(?m)^mod (\w+);\n", text):
        if f"{module}::" not in text:
            text = text.replace(f"mod {module};\n", "")
            os.remove(f"{own}/{module}.rt")
    named = re.sub(r"(?m)^use .*\n", "", text)
    unused = [crate for crate, names in imports_of(text) if not any(re.search(rf"\b{it}\b", named) for it in [crate, *names])]
    text = re.sub(rf"(?m)^use ({'|'.join(unused)})::.*\n", "", text) if unused else text
    with open(f"{own}/main.rt", "w", encoding="utf-8") as file:
        file.write(text)
    sources = [text, *(source(it) for it in re.findall(r"(?m)^mod (\w+);", text))]
    with open(f"{top}/crates.txt", encoding="utf-8") as file:
        lines = file.read()
    line = re.search(rf"(?m)^{PROGRAM}:.*", lines)[0]
    used = [it for it in line.split() if it.endswith(":") or any(re.search(rf"\b{it}::", its) for its in sources)]
    with open(f"{top}/crates.txt", "w", encoding="utf-8") as file:
        file.write(lines.replace(line, " ".join(used)))


def commands_on(names):
    """The commands of flight_tools that stand on one of these crates; none where all of the program does, as on what reads its words."""
    known, by_command = crates_of(), crates_of_commands()
    of_all = {PROGRAM, *known[PROGRAM]} - set().union(*by_command.values())
    if below(known, of_all - {PROGRAM}) & set(names) or PROGRAM in names:
        return []
    return [command for command, its in by_command.items() if below(known, its) & set(names)]
