"""The kit's tool behind `rt plant`, taken as a module: it reads functions and writes wrong bodies for them."""

import importlib.machinery
import types

from archives import kit

TOOL = "rt-plant"


def kit_tool():
    """The kit's tool. By itself it takes a comment in front of a field or a variant for its name, and what it writes then does not
    compile: here comments are left out."""
    tool = types.ModuleType(TOOL)
    tool.__file__ = f"{kit()}/bin/{TOOL}"
    importlib.machinery.SourceFileLoader(TOOL, tool.__file__).exec_module(tool)
    of_kit = tool.bodies.without_attributes
    tool.bodies.without_attributes = lambda words: of_kit([it for it in words if not it.startswith("///")])
    return tool
