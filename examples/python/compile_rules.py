"""Compiles a rule text and judges its watchpoint table, by `ctypes` over the library for C.

    python3 compile_rules.py NEEDLEMAUVE.so RULES

Python bypasses the header's checks for NULL and lengths, so a caller has to keep to them: no argument is None, and each buffer has
the length that is passed."""
import ctypes as c
import sys

# The bytes of the two table files of a text.
WDT, ADT = 4_380, 19_516
WATCHPOINTS = 1


class Compiled(c.Structure):
    """`needlemauve_compiled` of the header."""

    _fields_ = [("code", c.c_uint32), ("of", c.c_uint32), ("at", c.c_uint64), ("text", c.c_uint64)]
    _fields_ += [(name, c.c_uint32) for name in ("watchpoints", "rules", "length")] + [("sentence", c.c_char * 252)]


def library_at(path):
    """The library, with the types of the calls below."""
    library = c.CDLL(path)
    library.needlemauve_compile.argtypes = [c.c_char_p, c.c_size_t, c.c_char_p, c.c_char_p, c.POINTER(Compiled)]
    library.needlemauve_validate.argtypes = [c.c_uint32, c.c_char_p, c.c_size_t, c.c_uint32 * 2]
    return library


def main(library, rules):
    with open(rules, "rb") as file:
        text = file.read()
    library, compiled = library_at(library), Compiled()
    wdt, adt = c.create_string_buffer(WDT), c.create_string_buffer(ADT)
    if library.needlemauve_compile(text, len(text), wdt, adt, compiled):
        sys.exit(f"refused: {compiled.code} at {compiled.at}: {compiled.sentence.decode()}")
    fault = library.needlemauve_validate(WATCHPOINTS, wdt, WDT, (c.c_uint32 * 2)())
    print(f"{compiled.watchpoints} watchpoints, {compiled.rules} rules; the watchpoint table has fault {fault}")


if __name__ == "__main__":
    main(*sys.argv[1:])
