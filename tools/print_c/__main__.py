"""Prints the proved library as one file of C:

    python3 tools/print_c KIT LIBRARIES HEADER CRATES >FILE.c

mir.py reads what the compiler knows of a crate, liveness.py says how often locals are read, source.py reads names and comments.
library.py says which functions are printed. Of each, evaluate.py goes through the body, and makes statements of it: frames.py
has the names of its locals, values.py what they hold, memory.py reads and writes, choices.py has conditions and loops.
expression.py and statement.py are the words of C, forms.py says what stands for what, and write.py makes text of it. head.c is
the beginning of the text.
"""
import json
import pathlib
import sys

from library import CRATES, Library
from mir import Crates
from source import Sources


def main(kit: str, libraries: str, header: str, crates: str) -> str:
    folders = [pathlib.Path(kit) / "rlibs/core.rlib", *(pathlib.Path(libraries) / f"{name}.rlib" for name in CRATES)]
    sources = Sources(pathlib.Path(crates), list(CRATES))
    functions = [own for folder in folders for own in json.loads((folder / "toolchain/mir.json").read_text())]
    library = Library(Crates(functions), pathlib.Path(header).read_text(), sources)
    by_name = {path.split("::")[-1]: path for path in library.crates.tokens if path.startswith("sketch_c::")}
    head = pathlib.Path(__file__).with_name("head.c").read_text()
    return library.text(head, [by_name[name] for name in library.declared])


if __name__ == "__main__":
    sys.setrecursionlimit(5000)
    sys.stdout.write(main(*sys.argv[1:]))
