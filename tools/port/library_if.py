#!/usr/bin/env python3
"""Takes `if◌then◌else◌` from the library, whose gate lets nothing else stand under that name.

usage: library_if.py [FOLDER]

Run once at the top of the repository, after respell.py. The definition of crates/octets/specs/Octets.antt, which copied the
library's, goes, and each file that took it from there takes it from `Rattle.std.specs.Prelude`.
"""

import os
import re
import sys

NAME = "if◌then◌else◌"
OWN = re.compile(r"^(ghost )?use Rattle\.octets\.specs\.Octets\.\{([^}]*)\}(;?)\n", re.M)
LIBRARY = re.compile(r"^(ghost )?use Rattle\.std\.specs\.Prelude\.\{([^}]*)\}(;?)\n", re.M)
DEFINITION = re.compile(r"infix 10 if◌then◌else◌\nabbrev pub if◌then◌else◌[^\n]*\nif true then[^\n]*\nif false then[^\n]*\n\n")


def without(m):
    names = [n.strip() for n in m.group(2).split(",") if n.strip() != NAME]
    if not names:
        return ""
    return f"{m.group(1) or ''}use Rattle.octets.specs.Octets.{{{', '.join(names)}}}{m.group(3)}\n"


def turn(text):
    own = [m for m in OWN.finditer(text) if NAME in m.group(2)]
    if not own and not DEFINITION.search(text):
        return text
    at = own[0].start() if own else text.index("use ")
    rt = bool(own and own[0].group(3))
    text = DEFINITION.sub("", text)
    library = LIBRARY.search(text)
    if library:
        line = f"{library.group(1) or ''}use Rattle.std.specs.Prelude.{{{library.group(2)}, {NAME}}}{library.group(3)}\n"
        text = text[: library.start()] + line + text[library.end() :]
    else:
        line = f"{'ghost ' if rt else ''}use Rattle.std.specs.Prelude.{{{NAME}}}{';' if rt else ''}\n"
        text = text[:at] + line + text[at:]
    return OWN.sub(lambda m: without(m) if NAME in m.group(2) else m.group(0), text)


def main(argv):
    root = (argv or ["."])[0]
    changed = 0
    for folder, dirs, names in os.walk(os.path.join(root, "crates")):
        dirs[:] = sorted(d for d in dirs if d != "out")
        for name in sorted(names):
            if not name.endswith((".antt", ".rt")):
                continue
            path = os.path.join(folder, name)
            with open(path, encoding="utf-8") as f:
                text = f.read()
            new = turn(text)
            if new != text:
                changed += 1
                with open(path, "w", encoding="utf-8") as f:
                    f.write(new)
    print(f"library_if: {changed} files change")
    return 0


if __name__ == "__main__":
    raise SystemExit(main(sys.argv[1:]))
