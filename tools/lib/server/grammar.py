"""Which words may follow others, by a grammar in the notation of docs/RULES.md: `"word"` and KIND are words, `[ ]` may be left out, `{ }`
may stand any number of times, and `|` stands between alternatives."""

import re

PART = re.compile(r'"([^"]*)"|([A-Z]+)|([a-z]+)|([\[\]{}|])')
WORD, KIND, RULE, MAYBE, MANY = "word", "kind", "rule", "maybe", "many"
CLOSING = {"[": ("]", MAYBE), "{": ("}", MANY)}


class Grammar:
    """A grammar. A state is a tuple of parts that may follow; a part is its sort, and a word, a kind, a rule's name or alternatives."""

    def __init__(self, text):
        names = re.split(r"^(\w+) := ", text, flags=re.M)
        self.rules = {name: self.alternatives([it.groups() for it in PART.finditer(body)]) for name, body in zip(names[1::2], names[2::2])}

    def alternatives(self, parts, end=None):
        """The alternatives in front of a list of parts, up to this sign; they are taken out of the list."""
        found = [()]
        while parts:
            word, kind, rule, sign = parts.pop(0)
            if sign is not None and sign == end:
                break
            if sign == "|":
                found.append(())
            elif sign is not None:
                close, sort = CLOSING[sign]
                found[-1] += ((sort, tuple(self.alternatives(parts, close))),)
            else:
                found[-1] += ((WORD, word) if word is not None else (KIND, kind) if kind is not None else (RULE, rule),)
        return found

    def expand(self, states):
        """The states with a word or a kind in front, and the empty one where all may end here."""
        found, left = set(), list(states)
        while left:
            state = left.pop()
            sort, body = state[0] if state else (WORD, "")
            if sort in (WORD, KIND):
                found.add(state)
                continue
            rest = state if sort == MANY else state[1:]
            left += [it + rest for it in (self.rules[body] if sort == RULE else body)]
            left += [state[1:]] if sort in (MAYBE, MANY) else []
        return found

    def start(self, rule):
        """The states before the first word of a rule."""
        return self.expand(self.rules[rule])

    def after(self, states, word, fits):
        """The states after a word; `fits` says whether a word is of a kind."""
        return self.expand({it[1:] for it in states if it and (word == it[0][1] if it[0][0] == WORD else fits(it[0][1], word))})
