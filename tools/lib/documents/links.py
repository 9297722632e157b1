"""Links of Markdown documents: each file exists, each anchor is a heading of its file, and none leaves the repository."""
import os
import re

LINK = re.compile(r"!?\[[^\]]*\]\(([^)\s]+)\)")


def unfenced(lines):
    """The lines outside fenced blocks, with their numbers from 1."""
    is_fenced = False
    for number, line in enumerate(lines, 1):
        if line.lstrip().startswith("```"):
            is_fenced = not is_fenced
        elif not is_fenced:
            yield number, line


def anchors_of(lines):
    """The anchors of a document's headings, as renderers of Markdown make them."""
    found = {}
    for _, line in unfenced(lines):
        heading = re.match(r"#{1,6} (.*)", line)
        if heading:
            words = re.sub(r"[^\w\- ]", "", LINK.sub("", heading[1].replace("`", "")).strip().lower())
            name = words.replace(" ", "-")
            count = found.get(name, 0)
            found[name] = count + 1
            if count:
                found[f"{name}-{count}"] = 1
    return set(found)


def faults_of(root, document, lines):
    """The links of a document that lead nowhere, each with its line, and how many links there are."""
    found, count = [], 0
    for number, line in unfenced(lines):
        for target in LINK.findall(re.sub(r"`[^`]*`", "", line)):
            count += 1
            where = f"{document}:{number}: link {target}"
            path, _, anchor = target.partition("#")
            if re.match(r"[a-z]+:", path) or path.startswith("/"):
                found.append(f"{where}: it leaves the repository")
                continue
            file = os.path.normpath(os.path.join(os.path.dirname(document), path)) if path else document
            if not os.path.exists(f"{root}/{file}"):
                found.append(f"{where}: no such file")
            elif anchor:
                with open(f"{root}/{file}", encoding="utf-8") as it:
                    if anchor not in anchors_of(it.read().split("\n")):
                        found.append(f"{where}: no such heading")
    return found, count
