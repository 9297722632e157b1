"""Conditions of rules, from their words to comparisons and prefix order, as the page's data has them (crates/run_page/page/DATA.md)."""

import re

WORD = re.compile(r"<=|>=|!=|==|[<>()]|-?\w+")
COMPARE = {
    "<": int.__lt__,
    "<=": int.__le__,
    "!=": int.__ne__,
    "==": int.__eq__,
    ">=": int.__ge__,
    ">": int.__gt__,
}


class Condition:
    """`comparisons` has (field, operator, number) by names, `tree` the condition in prefix order."""

    def __init__(self, text):
        self.text = text
        self.words = WORD.findall(text)
        self.comparisons = []
        self.tree = self.chain(0)

    def chain(self, level):
        if level == 3:
            return self.single()
        operator = ["or", "xor", "and"][level]
        tree = self.chain(level + 1)
        while self.words and self.words[0] == operator:
            self.words.pop(0)
            tree = [operator, *tree, *self.chain(level + 1)]
        return tree

    def single(self):
        word = self.words.pop(0)
        if word == "not":
            return ["not", *self.single()]
        if word == "(":
            tree = self.chain(0)
            self.words.pop(0)
            return tree
        self.comparisons.append((word, self.words.pop(0), self.words.pop(0)))
        return [len(self.comparisons) - 1]

    def truth(self, verdicts):
        """The whole condition's, where each comparison has the one of the list."""
        words = iter(self.tree)

        def read():
            word = next(words)
            if isinstance(word, int):
                return verdicts[word]
            if word == "not":
                inner = read()
                return {"true": "false", "false": "true"}.get(inner, inner)
            return joined(word, read(), read())

        return read()


def joined(word, one, other):
    if word == "and" and "false" in (one, other):
        return "false"
    if word == "or" and "true" in (one, other):
        return "true"
    for worse in ["error", "stale"]:
        if worse in (one, other):
            return worse
    if word == "xor":
        return "true" if one != other else "false"
    return {"and": "true", "or": "false"}[word]


def compared(value, operator, number):
    return "true" if COMPARE[operator](value, number_of(number)) else "false"


def number_of(text):
    return int(text, 0)
