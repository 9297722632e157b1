"""What the functions of an object file or an archive for x86-64 can call, by its machine code and relocations.

A call that names no function (`dyn`, a function pointer) is an edge to UNKNOWN. A jump through a register that was read from a table
of distances is a `match`, and stays in its function."""
import bisect
import collections
import re
import subprocess

UNKNOWN = "a call that names no function"
LABEL = re.compile(r"^[0-9a-f]+ <(.*)>:$")
SECTION = re.compile(r"^Disassembly of section (.*):$")
INSTRUCTION = re.compile(r"^ *([0-9a-f]+):\t(\S+)(?: +(.*?))? *$")
RELOCATION = re.compile(r"^\t+ *([0-9a-f]+): (R_X86_64_\w+)\t(.*)$")
ADDEND = re.compile(r"([-+])0x([0-9a-f]+)$")
NAMED = re.compile(r"^[0-9a-f]+ <(.*?)(?:\+0x[0-9a-f]+)?>$")
# How far a jump's table is read before it, in instructions.
NEAR = 12


def lines_of(path):
    return subprocess.run(["objdump", "-dr", "--no-show-raw-insn", path], stdout=subprocess.PIPE, text=True, errors="replace", check=True).stdout.splitlines()


def is_match(before, register):
    """Whether the last instructions read a distance from a table into the register and add where the table stands."""
    writes = [it for it in before if it[1].endswith(f",{register}") and not it[0].startswith(("cmp", "test"))]
    return len(writes) > 1 and writes[-1][0] == "add" and writes[-2][0] == "movslq" and ",4)" in writes[-2][1]


class Code:
    """The functions of a file, by their places in its sections, and what each of them names."""

    def __init__(self, path):
        self.starts = collections.defaultdict(list)
        self.calls = collections.defaultdict(set)
        lines = lines_of(path)
        section = ""
        for line in lines:
            if found := SECTION.match(line):
                section = found[1]
            elif found := LABEL.match(line):
                self.starts[section].append((int(line.split()[0], 16), found[1]))
        self.read(lines)

    def function_at(self, section, place):
        """The function that has this place of a section of code; None if the section has no code."""
        starts = self.starts.get(section)
        return starts[max(0, bisect.bisect(starts, (place, "\x7f")) - 1)][1] if starts else None

    def read(self, lines):
        name, before, waiting = "", collections.deque(maxlen=NEAR), None
        for line in lines:
            if found := LABEL.match(line):
                name, before, waiting = found[1], collections.deque(maxlen=NEAR), None
                self.calls[name]
            elif found := RELOCATION.match(line):
                self.relocate(name, found[2], found[3])
                waiting = None
            elif found := INSTRUCTION.match(line):
                self.follow(name, waiting)
                waiting = self.take(name, found[2], (found[3] or "").split(" # ")[0].strip(), before)
        self.follow(name, waiting)

    def take(self, name, word, rest, before):
        """One instruction. Returns what it calls if no relocation of it names that."""
        target = None
        if word.startswith(("call", "j")):
            if rest.startswith("*"):
                if not (word.startswith("j") and rest[1:].startswith("%") and is_match(before, rest[1:])):
                    self.calls[name].add(UNKNOWN)
            else:
                target = rest
        before.append((word, rest))
        return target

    def follow(self, name, target):
        """A call or a jump within a section."""
        if target is not None:
            found = NAMED.match(target)
            self.calls[name].add(found[1] if found else UNKNOWN)

    def relocate(self, name, kind, symbol):
        """What an instruction names by a relocation: a function, or a place of a section."""
        addend = ADDEND.search(symbol)
        to = symbol[: addend.start()] if addend else symbol
        if not to.startswith("."):
            self.calls[name].add(to)
            return
        place = int(addend[1] + addend[2], 16) if addend else 0
        # A place in relation to the next instruction is four bytes further.
        function = self.function_at(to, place + 4 * (kind in ("R_X86_64_PC32", "R_X86_64_PLT32")))
        if function is not None:
            self.calls[name].add(function)

    def way(self, start, ends):
        """The functions on a way from one to the first of these, that it can reach by calls; None if it reaches none."""
        came, waiting = {start: None}, collections.deque([start])
        while waiting:
            at = waiting.popleft()
            if at in ends:
                found = []
                while at is not None:
                    found.append(at)
                    at = came[at]
                return found[::-1]
            for to in sorted(self.calls.get(at, ())):
                if to not in came:
                    came[to] = at
                    waiting.append(to)
        return None
