"""Names in backticks: each exists in the tree.

What is checked of a span in backticks:

- a path: the file or folder exists, from the top, from the document, or below some crate;
- `a::b::c`: where `a` is a crate, `b` and `c` are defined in it; else `a` and its last name stand in one crate;
- `A.B.name`: the module of definitions A.B exists and has the name, or A is a record or type with that field;
- one word: it stands in the code of the tree, comments and documents apart, or in the kit's pages;
- several words: only those that are plainly names (with `_`, `::` or `/`); the rest is prose or a command, and left out;
- the names in "`f`: `c`, `d`" after a function f: they are clauses (`ensures`) of f, or fields of a record of definitions that
  the clauses of f name, directly or through another definition.

Fenced blocks are left out."""
import os
import re

SKIPPED = {"out", ".git", "bin", "__pycache__"}
CODE = (".rt", ".antt", ".rs", ".py", ".sh", ".c", ".h", ".js", ".css", ".html", ".toml", ".rows")
WORD = re.compile(r"[A-Za-z_][A-Za-z0-9_]*")
PATHLIKE = re.compile(r"^[\w.*{}<>-]*(/[\w.*{},<>-]*)+$")
NAME = re.compile(r"^[A-Za-z_]\w*$")
QUALIFIED = re.compile(r"^[A-Za-z_]\w*(<.*>)?(::(\w+|\{[\w, ]+\}|<.*>|\*))+(\(.*\))?$")
DOTTED = re.compile(r"^[A-Za-z_]\w*(\.[A-Za-z_]\w*)+$")
# Words of Rust, of shells and of the kit's own tools, which no file of a repository defines.
COMMON = set("""Ok Err Some None Box Vec String Option Result dyn impl fn pub crate mod use self Self str u8 u16 u32 u64 u128
usize i8 i16 i32 i64 bool char ensures requires ghost law forbid main rt clap thiserror sha2 std core alloc cargo rustc clang gcc
git python3 bash sh jq awk sed cmp diff cat grep parallel chromium tshark sqlite3 just proved Abort Wait Threads Net Processes
abbrev unfoldable record data omega grind search simp unsafe extern inline always derive Drop Clone Copy Debug Display From
PATH DIR CC NAME FILE OUT IN WDT ADT RULES""".split())
# Names of other projects, of the system and of the toolchain, which the documents mention.
OUTSIDE = set("""CFE_SB_MsgId_t NOOP SET_LC_STATE SET_AP_STATE SET_AP_PERM_OFF RESET LC_SAMPLE_AP fsync ctypes libc nice
memcmp memcpy malloc calloc realloc free Lts DebugStruct""".split())
# Names that documents show because they are wrong.
WRONG_ON_PURPOSE = {"u9"}
HEX = re.compile(r"(?=.*\d)[0-9a-f]{4,}|[0-9a-f]{7,}")


def is_placeholder(text):
    """Whether a path has a place for something: `crates/NAME/src`, `*.rt`, `/DIR/x`."""
    return bool(re.search(r"[*<>{}]|\b[A-Z]{2,}\b|^/|^~|\.\.\.", text))


def stripped(path, text):
    """The text without its comments."""
    if path.endswith((".rt", ".rs", ".c", ".h", ".js")):
        text = re.sub(r"/\*.*?\*/", " ", text, flags=re.S)
        return re.sub(r"(?<!:)//[^\n]*", "", text)
    if path.endswith(".antt"):
        return re.sub(r"--[^\n]*", "", text)
    return text


class Tree:
    """What there is: files, and the words of each crate's code."""

    def __init__(self, root, kit):
        self.root = root
        self.files, self.folders, self.bases = set(), set(), set()
        self.words = set()          # all words of code
        self.crates = {}            # crate: words of its code and specs
        self.clauses = {}           # (crate, type or None, function): names of its `ensures`
        self.reach = {}             # the same: the names that its `ensures` use
        self.definitions = {}       # a definition: its fields, and the names that it uses
        self.sources = {}           # `rows`: the crates with a source file rows.rt, and the words of it
        self.modules = {}           # `Host.Stream`: words of that module of definitions
        for folder, inner, names in os.walk(root):
            inner[:] = [it for it in inner if it not in SKIPPED]
            at = os.path.relpath(folder, root)
            self.folders.add(at)
            for name in names:
                path = os.path.normpath(os.path.join(at, name))
                self.files.add(path)
                self.bases.update((name, os.path.splitext(name)[0]))
                if name.endswith(CODE) or (at.startswith("tools") and "." not in name) or name in ("run", "crates.txt"):
                    self.read(path)
        for place in list(self.folders):
            self.bases.add(os.path.basename(place))
        self.kit = self.words_of_kit(kit)

    def read(self, path):
        with open(os.path.join(self.root, path), encoding="utf-8", errors="replace") as it:
            text = stripped(path, it.read())
        words = set(WORD.findall(text))
        self.words |= words
        parts = path.split(os.sep)
        if parts[0] != "crates" or len(parts) < 3:
            return
        crate = parts[1]
        if parts[2] in ("src", "specs", "proofs"):
            self.crates.setdefault(crate, set()).update(words)
            self.crates[crate].update(it[:-3] if it.endswith(".rt") else it for it in parts[3:])
        if path.endswith(".antt") and parts[2] == "specs":
            module = ".".join(parts[3:])[: -len(".antt")]
            self.modules.setdefault(module, set()).update(words)
            self.read_definitions(text)
        if path.endswith(".rt"):
            self.sources.setdefault(parts[-1][:-3], []).append(words)
            self.read_clauses(crate, text)

    def read_definitions(self, text):
        """Each definition, with its fields and the names that it uses."""
        current = None
        for line in text.split("\n"):
            if line.startswith("use "):
                continue
            head = re.match(r"\s*(?=.*\b(?:abbrev|unfoldable|record|data) )(?:abbrev |unfoldable )?(?:pub )?(?:record |data )?([A-Z]\w*)\b.*:", line)
            if head:
                current = self.definitions.setdefault(head.group(1), (set(), set()))
            if current is None:
                continue
            field = re.match(r"\s+(?:pub )?«?([a-z_]\w*)»? :", line)
            if field:
                current[0].add(field.group(1))
            current[1].update(re.findall(r"\b[A-Z]\w*", line))

    def fields_of(self, owner):
        """The fields of all records that the clauses of a function reach, by at most three definitions."""
        fields, names = set(), set(self.reach.get(owner, ()))
        for _ in range(3):
            found = [self.definitions[it] for it in names if it in self.definitions]
            fields = fields.union(*(own for own, _ in found))
            names = set().union(*(others for _, others in found))
        return fields

    def read_clauses(self, crate, text):
        """The names of the clauses of each function."""
        owner, kind, is_clause = None, None, False
        for line in text.split("\n"):
            found = re.match(r"(?:unsafe )?impl\b.*?(?:\bfor )?(\w+)(?:<[^{]*>)? \{|(?:pub )?trait (\w+)", line)
            if found or line.startswith("}"):
                kind = found and (found.group(1) or found.group(2))
            found = re.match(r"\s*(?:pub(?:\([a-z: ]+\))? )?(?:const )?(?:unsafe )?(?:extern \"C\" )?fn (\w+)", line)
            if found:
                owner, is_clause = (crate, kind if line.startswith(" ") else None, found.group(1)), False
                self.clauses.setdefault(owner, set())
            if owner is None:
                continue
            found = re.match(r"\s*(ensures|requires)\*?\s*(?:ghost )?([a-z_]\w*)?", line)
            if found:
                is_clause = found.group(1) == "ensures"
                if is_clause and found.group(2):
                    self.clauses[owner].add(found.group(2))
            elif line.strip() == "{":
                is_clause = False
            if is_clause:
                self.reach.setdefault(owner, set()).update(re.findall(r"\b[A-Z]\w*", line))

    @staticmethod
    def words_of_kit(kit):
        """The names of the kit's libraries and their words, as far as its folder is there."""
        words = set()
        for folder in ("rlibs", "rattle/std", "rattle"):
            top = os.path.join(kit, folder)
            if os.path.isdir(top):
                words.update(re.sub(r"^lib|\.\w+$", "", it) for it in os.listdir(top))
        for page in ("rattle/std/COMMON.md", "rattle/LIBRARY.md", "rattle/LANGUAGE.md", "rattle/CRATES.md", "START-HERE.md"):
            path = os.path.join(kit, page)
            if os.path.isfile(path):
                with open(path, encoding="utf-8", errors="replace") as it:
                    words.update(WORD.findall(it.read()))
        return words

    def has_word(self, word):
        known = (self.words, COMMON, OUTSIDE, WRONG_ON_PURPOSE, self.bases, self.kit)
        return any(word in it for it in known) or bool(HEX.fullmatch(word)) or self.is_archive(word)

    def is_archive(self, name):
        """`libNAME.a`, which a crate NAME builds."""
        found = re.fullmatch(r"lib(\w+?)(\.a)?", name)
        return bool(found) and found.group(1) in self.crates

    def has_path(self, text, document):
        text = text.rstrip("/")
        beside = os.path.normpath(os.path.join(os.path.dirname(document), text))
        if any(it in self.files or it in self.folders for it in (os.path.normpath(text), beside)):
            return True
        end = os.sep + text
        return any(it.endswith(end) for it in self.files) or any(it.endswith(end) for it in self.folders)


def wrong_path(tree, text, document):
    is_built = "/out/" in text or text.startswith(("out/", "bin/", "/"))
    if is_placeholder(text) or is_built or re.fullmatch(r"[\d./]+", text):
        return None
    if tree.has_path(text, document) or all(tree.has_word(it) for it in WORD.findall(text)) and "." not in text:
        return None
    return "no such file or folder"


def wrong_qualified(tree, text):
    text = re.sub(r"\(.*\)$|<[^:]*>", "", text)
    parts = [it for it in text.split("::") if it and it != "*"]
    names = [re.findall(r"\w+", it) for it in parts]
    first = names[0][0]
    rest = [it for group in names[1:] for it in group]
    if first in tree.crates:
        lacking = [it for it in rest if it not in tree.crates[first]]
        if lacking and any(all(it in words for it in rest) for words in tree.sources.get(first, ())):
            return None
        return f"no `{lacking[0]}` in crate {first}" if lacking else None
    every = [first] + rest
    if any(all(it in words for it in every) for words in tree.crates.values()):
        return None
    if all(tree.has_word(it) for it in every):
        known = [it for it in every if it in tree.kit or it in COMMON]
        return None if len(known) == len(every) else f"no crate has all of {', '.join(every)}"
    return f"no `{next(it for it in every if not tree.has_word(it))}` in the tree"


def wrong_dotted(tree, text):
    parts = text.split(".")
    if "." + parts[-1] in CODE + (".md", ".json", ".csv"):
        is_there = text in tree.bases or any(it.startswith(parts[0]) and it.endswith(text) for it in tree.bases)
        return None if is_there else "no such file"
    if text in tree.bases or text in tree.modules or tree.is_archive(text) or any(it.startswith(text + ".") for it in tree.modules):
        return None
    for length in range(len(parts) - 1, 0, -1):
        ends = "." + ".".join(parts[:length])
        rest = parts[length:]
        if any(("." + it).endswith(ends) and all(word in words for word in rest) for it, words in tree.modules.items()):
            return None
    if any(all(it in words for it in parts) for words in list(tree.modules.values()) + list(tree.crates.values())):
        return None
    if all(tree.has_word(it) for it in parts):
        return None
    return f"no module, file or field of that name"


def wrong(tree, text, document):
    """Why a span names nothing; None where it does; and whether it was looked at."""
    text = text.strip()
    if re.fullmatch(r"[A-Za-z_]\w*!?", text):
        word = text.rstrip("!")
        return (None if tree.has_word(word) else "not in the tree's code"), True
    if QUALIFIED.match(text):
        return wrong_qualified(tree, text), True
    if PATHLIKE.match(text):
        return wrong_path(tree, text, document), True
    if DOTTED.match(text):
        return wrong_dotted(tree, text), True
    lacking, looked = None, False
    for token in re.split(r"[\s,;()\[\]\"'=]+", text):
        token = token.rstrip(".:")
        if token.startswith(("-", "$", "#", "@")) or not token:
            continue
        if QUALIFIED.match(token):
            looked, lacking = True, lacking or wrong_qualified(tree, token)
        elif PATHLIKE.match(token) and token.startswith(("crates/", "tools/", "docs/", "include/", ".ci/")):
            looked, lacking = True, lacking or wrong_path(tree, token, document)
        elif re.fullmatch(r"[a-z]\w*_\w+", token):
            looked, lacking = True, lacking or (None if tree.has_word(token) else f"`{token}` not in the tree's code")
    return lacking, looked


CLAUSES = re.compile(r"`([A-Za-z_][\w:]*)`(?: \([^()]*\))?: ((?:`[a-z_]\w*`(?: \([^()]*\))?(?:, | and |, and )?)+)")


def wrong_clauses(tree, line):
    """Clauses that the function in front of them has not."""
    for found in CLAUSES.finditer(line):
        parts = found.group(1).split("::")
        function = parts[-1]
        owners = [it for it in tree.clauses if it[2] == function]
        if parts[0] in tree.crates:
            owners = [it for it in owners if it[0] == parts[0]]
        if len(parts) > 1 and any(it[1] == parts[-2] for it in owners):
            owners = [it for it in owners if it[1] == parts[-2]]
        if not owners:
            continue
        known = set().union(*(tree.clauses[it] for it in owners))
        fields = set().union(*(tree.fields_of(it) for it in owners))
        if len(parts) == 1 and not known:
            continue
        for clause in re.findall(r"`([a-z_]\w*)`", re.sub(r"\([^()]*\)", "", found.group(2))):
            if clause not in known and clause not in fields:
                yield clause, f"no clause of `{found.group(1)}` (it has {', '.join(sorted(known)) or 'none with a name'})"


def faults_of(tree, document, lines):
    """The wrong names of a document, each with its line, and how many names were checked."""
    found, checked, is_fenced = [], 0, False
    for number, line in enumerate(lines, 1):
        if line.lstrip().startswith("```"):
            is_fenced = not is_fenced
        if is_fenced or line.lstrip().startswith("```"):
            continue
        for span in re.findall(r"(?<!`)`([^`]+)`(?!`)", line):
            reason, is_checked = wrong(tree, span.replace("\\|", "|"), document)
            checked += is_checked
            if reason:
                found.append(f"{document}:{number}: `{span}`: {reason}")
        found += [f"{document}:{number}: `{clause}`: {reason}" for clause, reason in wrong_clauses(tree, line)]
    return found, checked
