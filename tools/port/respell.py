#!/usr/bin/env python3
"""Brings this repository's own names to snake case: `part-of` becomes `part_of`.

usage: respell.py [--check] [FOLDER]

Run once at the top of the repository, after the kit's own script. What turns: definitions, lemmas, fields, constructors and
bound names that stand in specs/ and proofs/, wherever clauses, proofs and must-fail edits cite them. What stays: functions of
src/, exported C names, strings, inputs and outputs, and every name that a file imports from a library of the kit. A prime
becomes an apostrophe. Names that would fall together are listed, and then nothing is written.
"""

import collections
import os
import re
import sys

WORD = re.compile(r"[^\s(){}.;,@\"«»\[\]⟦⟧|]+")
HYPHENED = re.compile(r"◌?[A-Za-zα-ωΑ-Ω_][\w'′]*(?:-[\w'′]+)+◌?")
# A name of a library that is written with its module stays.
LIBRARY_PATH = re.compile(r"(?<![\w.])(?:mathlib|native|lib|borrow|types|denote|mir|Prim)(?:\.[\w-]+)+\.$")
USE = re.compile(r"\b(?:ghost )?use ([\w.·]+?)(?:\.\{([^}]*)\}|)(?=[\s;]|$)", re.S)
CLAUSE = re.compile(r"\b(?:requires|ensures)\s*\*?\s*(?:\w+\s*)?\{|\bghost\s+(?:\w+\s*:\s*)?\{|\bghost\s+\w+\s*(?::|=)\s*\{|ghost use [^;]*;")
QUIET = re.compile(r'"(?:[^"\\\n]|\\.)*"|(?<![^\s(){}.;,])--[^\n]*')
OWN = re.compile(r"Rattle[.·](\w+)")
LIBRARIES = {"std", "std_alloc", "std_collections", "std_heap", "std_io", "core", "io", "libc", "os"}


def files(root):
    for folder, dirs, names in os.walk(os.path.join(root, "crates")):
        dirs[:] = sorted(d for d in dirs if d != "out")
        for name in sorted(names):
            if name.endswith((".antt", ".rt", ".edit")):
                yield os.path.join(folder, name)


def read(path):
    with open(path, encoding="utf-8") as f:
        return f.read()


def new_name(word):
    return word.replace("-", "_").replace("′", "'")


def is_own(path):
    m = OWN.match(path)
    return bool(m) and m.group(1) not in LIBRARIES


def imported(text, own):
    """The names that a file imports, from the repository's crates (own) or from the kit's libraries."""
    found = set()
    for path, items in USE.findall(text):
        if is_own(path) != own:
            continue
        for item in items.split(","):
            words = item.split()
            if not words:
                continue
            found.add(words[0])
            if len(words) == 3:  # old as new: the new name is this file's
                found.discard(words[0]) if not own else None
                if not own:
                    found.add(words[0])
    return found


def walk_of(path):
    """Whether a file walks the code of one function, with labels that Rattle makes."""
    return re.search(r"/proofs/[^/]+/", path) is not None


def turned(word, keep, only):
    if not HYPHENED.fullmatch(word) and "′" not in word:
        return word
    if word in keep or (only is not None and word not in only and "-" in word):
        return word
    return new_name(word)


def turn(text, keep, only):
    def outside(part):
        def one(m):
            stays = LIBRARY_PATH.search(part[max(0, m.start() - 80) : m.start()])
            return m.group() if stays else turned(m.group(), keep, only)

        return WORD.sub(one, part)

    out, at = [], 0
    for m in QUIET.finditer(text):
        out += [outside(text[at : m.start()]), m.group() if m.group().startswith('"') else comment(m.group(), only)]
        at = m.end()
    return "".join(out + [outside(text[at:])])


DECLARED = set()


def comment(text, only):
    """In a comment a declared name of two parts or more turns where it stands as code does."""
    return re.sub(r"`([^`\n]+)`", lambda m: "`" + WORD.sub(lambda w: new_name(w.group()) if w.group() in DECLARED else w.group(), m.group(1)) + "`", text)


def clauses(text, change):
    """Applies a change to the ghost parts of a .rt file alone."""
    out, at = [], 0
    for m in CLAUSE.finditer(text):
        if m.start() < at:
            continue
        end = m.end()
        if text[m.end() - 1] == "{":
            depth, end = 1, m.end()
            while depth and end < len(text):
                depth += (text[end] == "{") - (text[end] == "}")
                end += 1
        out += [text[at : m.start()], change(text[m.start() : end])]
        at = end
    return "".join(out + [text[at:]])


def declared(text):
    """Names that a file declares: at a signature, as a field, as a constructor."""
    found = set()
    for line in text.split("\n"):
        m = re.match(r"\s*(?:(?:abbrev|unfoldable|pub|data|record|infix\w* \d+)\s+)*([^\s(){}.;,@\"«»:]+)\s*(?:\(.*\)\s*|\{.*\}\s*)*:(?:\s|$)", line)
        if m:
            found.add(m.group(1))
        m = re.match(r"\s*\|?\s*([^\s(){}.;,@\"«»:]+(?: [^\s(){}.;,@\"«»:]+)*)\s+:\s", line)
        if m:
            found.update(m.group(1).split())
    return found


def edit(text, keep_of, only):
    lines, file = [], ""
    for line in text.split("\n"):
        kind, _, rest = line.partition(": ")
        if kind == "file":
            file = rest
        if kind in ("old", "new"):
            if file.endswith(".antt"):
                rest = turn(rest, keep_of(file), only)
            elif re.search(r"[≡→≤×]|ghost use", rest):
                rest = turn(rest, keep_of(file), only)
            line = kind + ": " + rest
        lines.append(line)
    return "\n".join(lines)


def main(argv):
    check = "--check" in argv
    root = ([a for a in argv if a != "--check"] or ["."])[0]
    texts = {p: read(p) for p in files(root)}
    for p, t in texts.items():
        if p.endswith(".antt") and not walk_of(p):
            DECLARED.update(n for n in declared(t) if HYPHENED.fullmatch(n))
    said = collections.defaultdict(dict)
    out = {}
    for p, t in texts.items():
        keep = imported(t, own=False)
        if p.endswith(".antt"):
            only = None
            if walk_of(p):
                only = DECLARED
            out[p] = turn(t, keep, only)
            plain = re.sub(r"\bRattle\.[\w.]*", " ", QUIET.sub(" ", t))
            words = set(WORD.findall(plain))
            for w in words:
                said[p].setdefault(turned(w, keep, only), set()).add(w)
        elif p.endswith(".rt"):
            out[p] = clauses(t, lambda part: turn(part, keep, None))
        else:
            crate = p.split("/must-fail/")[0]
            out[p] = edit(t, lambda f: imported(texts.get(os.path.join(crate, f), ""), own=False), None)
    met = [(p, n, sorted(ws)) for p in said for n, ws in said[p].items() if len(ws) > 1]
    for p, n, ws in met:
        print(f"meet: {p}: {' '.join(ws)} -> {n}")
    changed = [p for p in out if out[p] != texts[p]]
    print(f"respell: {len(DECLARED)} names with a dash are declared; {len(changed)} files change; {len(met)} places where names meet")
    if met and "--anyway" not in argv:
        return 1
    if not check:
        for p in changed:
            with open(p, "w", encoding="utf-8") as f:
                f.write(out[p])
    return 0


if __name__ == "__main__":
    raise SystemExit(main(sys.argv[1:]))
