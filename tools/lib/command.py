"""What the scripts of `tools/` share as commands."""

import argparse
import sys


def show_help(text):
    """Prints what a script does, and ends it with status 0, where `-h` or `--help` is among its words."""
    if {"-h", "--help"} & set(sys.argv[1:]):
        print(text.strip())
        sys.exit(0)


def parser_of(text):
    """A parser of words, for a script or a verb whose help is this text; its second paragraph is the usage."""
    show_help(text)
    return argparse.ArgumentParser(add_help=False, usage=text.split("\n\n")[1].strip())
