"""Choices of a completion, as an editor shows them."""

import re

from places import range_of
from rule_reading import CHOICE_KINDS, NAMES

NAME_KINDS = [CHOICE_KINDS[it] for it in NAMES]
MEMBERS = {"kind", "label", "detail", "sortText", "textEdit"}
BEFORE = re.compile(r"[\w.]*\Z", re.A)


def choices_in_order(items):
    """The kind, label and detail of each choice, in the order in which an editor shows them."""
    return [(it["kind"], it["label"], it["detail"]) for it in sorted(items, key=lambda it: it["sortText"])]


def names_and_words(choices):
    """The names in their order, and other words by their letters."""
    return [it for it in choices if it[0] in NAME_KINDS], sorted(it for it in choices if it[0] not in NAME_KINDS)


def faults_of_choices(text, at, items):
    """Choices come in the order in which they are shown, and each replaces the word that ends at the place."""
    orders = [it["sortText"] for it in items]
    if orders != sorted(set(orders)):
        yield f"the order {orders}"
    where = range_of(text, at - len(BEFORE.search(text[:at])[0]), at)
    for it in items:
        if it["textEdit"] != {"newText": it["label"], "range": where} or set(it) != MEMBERS:
            yield f"the choice {it}, not in {where}"
