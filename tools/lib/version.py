"""The project's version."""

import re

from repository import ROOT

FILE = "crates/lc_model/src/version.rt"


def version():
    with open(f"{ROOT}/{FILE}", encoding="utf-8") as file:
        return re.search(r'VERSION: &str = "([^"]*)"', file.read()).group(1)
