"""How edits are tried: several in one check of a copy of their crate, whose words are read function by function."""
import os
import re
import shutil
import subprocess

from archives import kit, library_words
from edits import FUNCTION, Bad, function_at, head_above
from repository import ROOT

# The head of an impl or a trait, whose methods the prover names by the type, then by the trait, and then by the trait's argument, where
# that is a type and no letter: as `ErrorFromIoError` for `From<io::Error>`.
HEAD = re.compile(r"\s*(?:unsafe )?(?:impl(?:<.*?>)? (?:(?P<of>[A-Za-z]\w*)(?:<(?P<what>[A-Za-z][\w:]*)?.*>)? for )?(?:&\S+ |&)?(?P<type>[A-Z]\w*)(?:<dyn (?P<dyn>[A-Z]\w*)>)?|(?:pub )?trait (?P<trait>\w+))")

# What the checker says where a proof names something that an edit took away.
BY_NAME = re.compile(r"has no field|is not in scope|has no `|was not admitted|is not a field|is no name")


def plain(parts):
    """A function's module and name, of the parts of its path: types are left out, and a closure is the function that it stands in."""
    if "fn" in parts:
        at = parts.index("fn")
        parts = parts[:at] + parts[at + 1 : at + 2]
    return "::".join(it for it in parts if not it[:1].isupper())


def clause_of(goal):
    """The clause that a goal shows, as an edit names it. Of functions that call each other the function's name stands in front."""
    if re.search(r"(?:^|-)returns(?:-|$)", goal):
        found = re.search(r"clause-(\w+)", goal)
        return f"ensures {found[1]}" if found else "ensures"
    found = re.search(r"(?:^|-)loop-(\w+)-", goal)
    if found:
        return f"loop {found[1]}"
    found = re.match(r"(.+?)-requires", goal)
    if found:
        return f"requires {found[1]}"
    return goal


def has_function(module, name, text_of):
    """Whether a module's file has a function of this name."""
    try:
        return bool(re.search(rf"\bfn {re.escape(name)}\b", text_of(f"src/{module.replace('::', '/')}.rt")))
    except OSError:
        return False


class Said:
    """What a check says: by function, the clauses that it could not show, in order."""

    def __init__(self, status, text, text_of):
        self.is_proved, self.text = status == 0 and bool(re.search(r"logic=proved|^only=(\d+) (?:proved=\1|holes=0)$|^holes=0$", text, re.M)), text
        self.is_uncompiled = bool(re.search(r"\berror\[[\w-]+\]", text))
        self.is_uncovered = "ahead of the check: " in text
        self.is_limit = status == 3 or bool(re.search(r"antt ran out of|outgrew the memory limit|stopped at the step limit", text))
        self.clauses, self.named, self.uncompiled = {}, set(), {}
        for line in text.split("\n"):
            self.read(line, text_of)

    def note(self, function, goal, text_of):
        module, _, names = function.rpartition("::")
        if "+" in names:
            # (of functions that call each other, as `+condition`, the goal's name begins with the one; not of one that calls itself)
            first = goal.split("-")[0]
            function = f"{module}::{first if has_function(module, first, text_of) else names.strip('+')}"
        clauses = self.clauses.setdefault(function, [])
        if clause_of(goal) not in clauses:
            clauses.append(clause_of(goal))

    def clauses_of(self, function, is_only_name):
        """Those of a function; where no other edit of the check names one of its name, and its proof stands with its type's, in another
        module, those of the one function of its name."""
        if function in self.clauses or not is_only_name:
            return self.clauses.get(function, [])
        alike = [its for name, its in self.clauses.items() if name.split("::")[-1] == function.split("::")[-1]]
        return alike[0] if len(alike) == 1 else []

    def read(self, line, text_of):
        found = re.match(r"(?:note: )?(?:\./)?proofs/(.+)/(?:Answers|Invariants|Proof)\.antt:\d+:\d+: error: (?:`([^`]+)`: )?(.*)", line)
        if found:
            function = plain(found[1].split("/"))
            if BY_NAME.search(found[3]):
                self.named.add(function)
            elif found[2]:
                self.note(function, found[2], text_of)
            return
        found = re.match(r"(?:\./)?(proofs/[A-Z]\S*)\.antt:(\d+):\d+: error: ", line)
        if found:
            # (a law has no body to edit: what is tried is an example that would be false)
            above = text_of(f"{found[1]}.antt").split("\n")[: int(found[2])]
            names = [it[1] for it in (re.match(r"(?:pub )?([a-z]\w*) :", text) for text in above) if it]
            self.note(found[1].replace("/", "::"), f"example {names[-1]}" if names else "example", text_of)
            return
        found = re.match(r"(src/\S+?):(\d+):\d+: error\[[\w-]+\]", line)
        if found:
            function = function_at(found[1], text_of(found[1]), int(found[2]) - 1)
            self.uncompiled.setdefault(function, line[:160])
            return
        found = re.match(r"(?:note: )?(src/\S+?):(\d+):\d+: .*?\(`([^`]+)`\)", line)
        if found:
            function = function_at(found[1], text_of(found[1]), int(found[2]) - 1)
            if function:
                self.note(function, found[3], text_of)
            return
        found = re.match(r"fn [a-z0-9_]+::(\S+): no proof: .*?did not prove ([^;]*)", line)
        if found:
            for goal in re.findall(r"`([^`]+)`", found[2]):
                self.note(plain(found[1].split("::")), goal, text_of)


def argument_name(argument):
    """A trait's argument in the prover's name of an impl; nothing for a letter, which stands for any type."""
    return "".join(it[:1].upper() + it[1:] for it in argument.split("::")) if len(argument) > 1 else ""


def path_at(lines, head, function):
    """The end of the path by which the prover knows the function with its head in this line (from 0), which an edit names by module and
    name: a method's is its type and its name. None where what stands around it cannot be read."""
    own = len(lines[head]) - len(lines[head].lstrip())
    if own == 0:
        return function
    for line in reversed(lines[:head]):
        if line.strip() and len(line) - len(line.lstrip()) < own:
            found = HEAD.match(line)
            if found:
                of_any = f"Dyn{found['dyn']}" if found["dyn"] else ""
                of_type = found["trait"] or found["type"] + of_any + (found["of"] or "") + argument_name(found["what"] or "")
                return f"{of_type}::{function.split('::')[-1]}"
    return None


def path_of(function, text_of, edit):
    """The end of the path by which the prover knows a function that an edit names by module and name. A method's is its type, which may
    be of another module, and its name. It is the one of its name that the edit changes, or else that its module has; where that is not
    one, the whole module."""
    module, _, name = function.rpartition("::")
    changed = [(path, text.split("\n"), line) for path, text, line in edit.places(text_of)]
    heads = {(path, head_above(lines, line)) for path, lines, line in changed if function_at(path, "\n".join(lines), line) == function}
    if not heads and module:
        path = f"src/{module.replace('::', '/')}.rt"
        heads = {(path, at) for at, line in enumerate(text_of(path).split("\n")) if (found := FUNCTION.match(line)) and found[1] == name}
    if not heads:
        heads = {(path, head_above(lines, line)) for path, lines, line in changed if (function_at(path, "\n".join(lines), line) or "").split("::")[-1] == name}
    if len(heads) != 1:
        return module
    path, head = heads.pop()
    return path_at(text_of(path).split("\n"), head, function) or module


class Trial:
    """A crate in a copy of the repository, in which its edits are tried."""

    # Whether an edit may leave open by which clause it is refused.
    takes_any_clause = False

    def __init__(self, root, crate):
        self.folder, self.crate = f"{root}/crates/{crate}", crate

    def text_of(self, path):
        with open(f"{ROOT}/crates/{self.crate}/{path}", encoding="utf-8") as it:
            return it.read()

    def texts_with(self, edits):
        """The texts that these edits change, with all of them."""
        made = {}
        for edit in edits:
            made.update(edit.applied(lambda path: made.get(path, self.text_of(path))))
        return made

    def go_together(self, edits):
        """Whether each edit's text still stands once where the others are applied."""
        try:
            return bool(self.texts_with(edits))
        except Bad:
            return False

    def words(self, edits, looked_at):
        """The check of the crate with these edits, which looks at least at the functions that those `looked_at` name."""
        return ["rt", "check", "--jobs", "1", *(["--allow-holes"] if edits else [])]

    def check(self, edits, looked_at):
        made = self.texts_with(edits)
        try:
            for path, text in made.items():
                with open(f"{self.folder}/{path}", "w", encoding="utf-8") as it:
                    it.write(text)
            ran = subprocess.run(self.words(edits, looked_at), cwd=self.folder, stdout=subprocess.PIPE, stderr=subprocess.STDOUT, stdin=subprocess.DEVNULL, text=True, errors="replace")
            return Said(ran.returncode, ran.stdout, self.text_of)
        finally:
            for path in made:
                with open(f"{self.folder}/{path}", "w", encoding="utf-8") as it:
                    it.write(self.text_of(path))

    def is_far_reaching(self, edit):
        """Whether it changes more outside functions than what a file uses: functions of other files may depend on that."""
        outside = [old.strip() for (_, old, _), place in zip(edit.pairs, edit.places(self.text_of)) if function_at(*place) is None]
        return any(not old.startswith(("use ", "ghost use ")) for old in outside)

    def groups(self, edits):
        """Parts the edits so that in each part no two touch one function, and none changes what stands outside functions of another's file."""
        parts = []
        for edit in edits:
            touched = edit.functions(self.text_of)
            if self.is_far_reaching(edit):
                parts.append([(edit, {None, *touched}, {None})])
                continue
            files = {path for path, _, _ in edit.pairs}
            if edit.refused_by:
                touched.add(edit.refused_by[0])
            for part in parts:
                apart = not any(None in others for _, _, others in part) and all(
                    not (touched - {None} & functions - {None}) and not ((None in touched or None in functions) and files & others)
                    for _, functions, others in part
                )
                if apart and self.go_together([*(it for it, _, _ in part), edit]):
                    part.append((edit, touched, files))
                    break
            else:
                parts.append([(edit, touched, files)])
        return [[edit for edit, _, _ in part] for part in parts]

    def judge(self, edit, said, group):
        """A row of the table: whether the edit is refused as it says, the function, and by what; or None where it is to be tried alone."""
        touched = edit.functions(self.text_of) - {None}
        wanted, is_alone = [edit.refused_by[0]] if edit.refused_by else sorted(touched), len(group) == 1
        names = [it.refused_by[0].split("::")[-1] for it in group if it.refused_by]
        clauses = [it for function in wanted for it in said.clauses_of(function, is_alone or names.count(function.split("::")[-1]) == 1)]
        function = ", ".join(wanted) or "(none)"
        if clauses and not said.is_uncompiled and not said.is_proved:
            if edit.refused_by:
                is_right = edit.refused_by[1] in clauses
                return is_right, function, edit.refused_by[1] if is_right else f"another clause: {', '.join(clauses)}"
            return self.takes_any_clause, function, f"{'' if self.takes_any_clause else 'unnamed: '}{', '.join(clauses)}"
        if not is_alone:
            return None
        if said.is_uncompiled:
            return self.uncompiled_row(edit, function, next(it for it in said.text.split("\n") if "error[" in it))
        if said.is_proved:
            return False, function, "NOT REFUSED"
        if said.clauses:
            return False, function, "elsewhere: " + "; ".join(f"{name} {', '.join(its)}" for name, its in said.clauses.items())
        if said.named:
            return False, function, f"by names alone, in {', '.join(sorted(said.named))}"
        if said.is_limit:
            return False, function, "by a limit of the prover alone"
        if said.is_uncovered:
            return False, function, "no contract was tried: the borrow checker does not cover the edited body"
        return False, function, "not judged: " + " / ".join(said.text.strip().split("\n")[-3:])[:300]

    def uncompiled_row(self, edit, function, line):
        """The row of an edit that does not compile, with the compiler's line: refused as it says only if it names that error."""
        clause = edit.refused_by[1] if edit.refused_by else ""
        is_right = clause.startswith("error ") and f"error[{clause.removeprefix('error ')}]" in line
        return is_right, function, clause if is_right else f"it does not compile: {line[:160]}"

    def rows(self, edits, has_control=True):
        """A row of each of these edits, in their order: its name, whether it is refused as it says, the function, and by what."""
        applying, rows = [], {}
        for edit in edits:
            try:
                edit.applied(self.text_of)
                applying.append(edit)
            except (Bad, OSError) as error:
                rows[edit] = (edit.name, False, "", str(error))
        if applying and has_control and not self.check([], applying).is_proved:
            rows.update({it: (it.name, False, "", "it is not proved without an edit") for it in applying})
        else:
            rows.update({edit: (edit.name, *row) for group in self.groups(applying) for edit, row in self.judged(group)})
        return [rows[it] for it in edits]

    def judged(self, group):
        """The row of each edit of a group. Those whose functions do not compile are told so, and the others are checked without them."""
        said = self.check(group, group)
        broken = [(edit, it) for edit in group if len(group) > 1 for it in sorted(edit.functions(self.text_of) & said.uncompiled.keys() - {None})[:1]]
        for edit, function in broken:
            yield edit, self.uncompiled_row(edit, function, said.uncompiled[function])
        rest = [it for it in group if it not in [edit for edit, _ in broken]]
        if broken:
            yield from self.judged(rest) if rest else []
            return
        for edit in rest:
            yield edit, self.judge(edit, said, group) or self.judge(edit, self.check([edit], [edit]), [edit])


class TrialOverLibraries(Trial):
    """A copy of a crate, of which only the functions are checked that must be refused, over the libraries that `rt ci` left in a clone."""

    def __init__(self, root, crate, clone=ROOT):
        super().__init__(root, crate)
        self.clone = clone
        for part in ("src", "specs", "proofs"):
            if os.path.isdir(f"{ROOT}/crates/{crate}/{part}"):
                shutil.copytree(f"{ROOT}/crates/{crate}/{part}", f"{self.folder}/{part}")
        os.mkdir(f"{self.folder}/kept")

    def looked_at(self, edit):
        """The functions of an edit, by the prover's paths; none where an example must be refused: then all is checked."""
        wanted = [edit.refused_by[0]] if edit.refused_by else sorted(edit.functions(self.text_of) - {None})
        return [path_of(it, self.text_of, edit) for it in wanted if not it.startswith("proofs::")]

    def words(self, edits, looked_at):
        # (what the first check keeps of definitions and proofs, the others take over)
        words = [f"{kit()}/bin/rattle", "check", *library_words(self.clone, self.crate), "--incremental", f"{self.folder}/kept", "--jobs", "1", "--allow-holes"]
        paths = [self.looked_at(it) for it in looked_at]
        named = dict.fromkeys(path for its in paths for path in its) if all(paths) else []
        return [*words, *(word for it in named for word in ("--only", it))]
