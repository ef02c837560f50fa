#!/usr/bin/env python3
"""Counts the places that a design pass looks at: eight points, a row each.

usage: places.py [--list N]

Run at the top of the repository. Points 1 to 7 are read from crates/*/src, point 8 from crates/*/proofs. A row has the count
and how it falls into kinds; --list N prints each place of point N. The rule of a point stands above its function. The code is
read by its layout (`rt fmt`) and by the words of names and comments, not compiled: look at the list behind a count.
"""
import collections, difflib, glob, itertools, re, sys
from types import SimpleNamespace as Item

QUIET = re.compile(r"//[^\n]*|/\*.*?\*/|\br(#*)\".*?\"\1|b?\"(?:\\.|[^\"\\])*\"|b?'(?:\\(?:x..|.)|[^'\\\n])'", re.S)
INT = r"(?:u8|u16|u32|u64|usize)"

def mask(text):
    """The same text with comments blank and literals as ~, so that brackets can be counted."""
    return QUIET.sub(lambda m: re.sub(r"[^\n]", " " if m.group()[0] == "/" else "~", m.group()), text)

def close(text, i, pairs="([{)]}"):
    """The place of the bracket that closes the one at i."""
    depth = 0
    for j in range(i, len(text)):
        if text[j] in pairs and text[j - 1:j + 1] not in ("->", "=>"):
            depth += 1 if text[j] in pairs[:len(pairs) // 2] else -1
            if depth == 0:
                return j
    raise ValueError("a bracket is not closed")

def split(text, mark=","):
    """The parts of a list, each with its offset."""
    depth, last = 0, 0
    for i, c in enumerate(text + mark):
        depth += (c in "([{<") - (c in ")]}" or c == ">" and text[i - 1] not in "-=")
        if c == mark and depth == 0:
            part, start, last = text[last:i], last, i + 1
            if part.strip():
                yield start + len(part) - len(part.lstrip()), " ".join(part.split())

def read(path):
    """The functions, types, constants, loops and impls of traits in a file."""
    text = open(path, encoding="utf-8").read()
    m, lines, head = mask(text), text.split("\n"), re.compile(r"(?:\[[^\]]*\]|[^{;\[])*")

    def new(i, **more):
        line = m.count("\n", 0, i) + 1
        k = line - 2
        while k >= 0 and re.match(r"\s*(//|#\[)", lines[k]):
            k -= 1
        comment = " ".join(w.strip(" /") for w in lines[k + 1:line - 1])
        return Item(path=path, crate=path.split("/")[1], line=line, source=lines[line - 1].strip(), comment=comment, **more)

    impls = [(g.start(), close(m, g.end() - 1), g.group(1))
             for g in re.finditer(r"^ *(?:unsafe )?impl\b(?:[^{;]*?\b(\w+)(?:<[^{;]*?>)? for\b)?[^{;]*\{", m, re.M)]
    yield from (new(a + len(m[a:]) - len(m[a:].lstrip()), what="impl", name=trait) for a, _, trait in impls if trait)
    for g in re.finditer(r"\bfn (\w+)", m):
        i = m.index("(", close(m, g.end(), "<>") if m[g.end()] == "<" else g.end())
        end = close(m, i)
        f = new(g.start(), what="fn", name=g.group(1), needs=[])
        f.of = next(("trait" if trait else "impl" for a, b, trait in impls if a < g.start() < b), "")
        f.params = [new(i + 1 + o, name=p.partition(":")[0].replace("mut ", ""), type=re.sub(r"'\w+ ", "", p.partition(":")[2].strip()))
                    for o, p in split(m[i + 1:end])]
        stop = head.match(m, end + 1).end()
        answer = re.match(r"\s*->\s*(.*?)\s*(?:\b(?:ghost|requires|ensures|where)\b.*)?$", m[end + 1:stop], re.S)
        f.answer = re.sub(r"'\w+ ", "", answer.group(1)) if answer else ""
        while clause := re.search(r"\b(ghost|requires|ensures)\b[\s*:\w]*$", m[end + 1:stop]):
            end = close(m, stop)
            f.needs += [text[stop + 1:end]] * (clause.group(1) == "requires")
            stop = head.match(m, end + 1).end()
        f.body = m[stop:close(m, stop) + 1] if m[stop] == "{" else ""
        f.tokens = re.findall(r"~+|\w+(?:::\w+)*|[=!<>]=|=>|&&|\|\||\.\.|\S", f.body)
        f.within = lambda i, stop=stop: new(stop + i)
        yield f
    for g in re.finditer(r"\b(struct|enum) (\w+)[^{(;]*\{", m):
        t = new(g.start(), what=g.group(1), name=g.group(2), parts=[])
        for o, p in split(m[g.end():close(m, g.end() - 1)]):
            p = re.sub(r"#\[.*?\] ?|\bpub ", "", p)
            t.parts.append(new(g.end() + o, name=re.match(r"\w*", p).group(), type=re.sub(r"^\w+:? ?", "", p)))
        yield t
    for g in re.finditer(r"\bconst (\w+): ([^=]*?) =\s*([^;]*)", m):
        yield new(g.start(), what="const", name=g.group(1), type=g.group(2), value=g.group(3))
    yield from (new(g.start(), what="loop", name=g.group()) for g in re.finditer(r"\b(?:while|loop)\b", m))

ALL = [x for path in sorted(glob.glob("crates/*/src/**/*.rt", recursive=True)) for x in read(path)]
FUNCTIONS, STRUCTS, ENUMS, CONSTS = ([x for x in ALL if x.what == what] for what in ("fn", "struct", "enum", "const"))
# Structs of numbers alone, as programs in other languages have them or a state keeps them; and all other types.
PLAIN = {t.name for t in STRUCTS if "repr(C)" in t.comment}
OWN = {t.name for t in STRUCTS + ENUMS} - PLAIN
NUMBERS = INT + "".join("|" + name for name in sorted(PLAIN))

# 1. An enum in the shape of Option or Result: two variants, of which one alone is missing, refused or bad; or more, of which
# one is Refused(..). A flag beside a value, or a code in place of an enum, by the name of a field or parameter. A constant that
# is a code. A function that answers a code, or a number or text that stands for none, by the words of its comment.
BAD = re.compile(r"(No(t|ne|[A-Z]\w*)?|Not[A-Z]\w*|Nothing|Missing|Absent|Unknown|Refused|Bad|Broken|Wrong|Failed|Invalid|Unreadable|Error)$")
FLAG = re.compile(r"(named|given|some|found|valid|usable|gives|done|cleared|started|handed|asked|confirmed|live|present|exists|(is|has)_\w+)$")
CODE = re.compile(r"(\w*kind|\w*number|says|event|node|which|outcome|existence|support|status|result|policy|disposition|agreement|settings|"
                  r"alignments|code|test|refused|word|tag|p|sp|np|adkim|aspf|psd|t|dkim|spf)$")
NONE = re.compile(r"\b(\d+|empty|nothing|another|its end|domain,|end|they are),? (where|for|for any|for more)\b|\b0 (is|for) no(ne)?\b|nothing is there|"
                  r"\b(or|else) (\d+|the \w+'s (length|end))\b|\b\d+ (it|too)\b|\b0 and 0 where\b")
ANSWER = re.compile(r"number (of (a|an|the|no|p|t|that|adkim|psd)\b|stored)|by its number|(?<!ctet )as (a digit|digits of mixed base|a number)|"
                    r"^(?!How many).*\bnodes?\b|[Oo]f what kind|[Tt]he (\w+'s )?row (in|of)|of that number")

def own_shapes():
    for t in ENUMS:
        bad, data = [bool(BAD.match(v.name)) for v in t.parts], [bool(v.type) for v in t.parts]
        if len(t.parts) == 2 and (sum(bad) == 1 or sum(data) == 1) and not any(w in t.name + t.comment for w in ("Error", "Fault")) and \
                not any(re.search(r"\b%s\b" % t.name, v.type) for v in t.parts):
            yield "enum", t
        elif any(v.name == "Refused" and v.type for v in t.parts):
            yield "enum of more", t
    for x in STRUCTS + FUNCTIONS:
        c = " for C" if "repr(C)" in x.comment or 'extern "C"' in x.source else ""
        for p in x.parts if x.what == "struct" else x.params:
            kind = "flag" if FLAG.match(p.name) and p.type in ("bool", "u8", "u64") else "code" if CODE.match(p.name) and re.fullmatch(INT, p.type) else ""
            if kind:
                yield kind + (" field" if x.what == "struct" else " parameter") + c, p, "%s of %s" % (p.name, x.name)
    said = ""
    for c in CONSTS:
        said = c.comment or said
        if re.fullmatch(INT, c.type) and c.value[0].isdigit() and (c.type == "u8" or re.search(r"\bnumbers?\b", said)):
            yield "code constant", c
    for f in FUNCTIONS:
        if re.fullmatch(NUMBERS + r"|&(mut )?\[.*\]", f.answer) and NONE.search(f.comment):
            yield "none in an answer", f
        elif f.answer in ("u8", "u16", "usize") and ANSWER.search(f.comment) and not any("&mut" in p.type for p in f.params):
            yield "code answer", f

# 2. Functions with the same body but for names, numbers and texts (ten tokens, and more than one call), or with nearly the same
# (thirty tokens), or with one name in two crates and bodies alike; none of a trait, and no two small methods. Types with nearly
# the same names of parts (or half of them, five or more), or whose names differ by a word in front, or of two variants, one of
# them the same. Constants of one name and type, lengths aside, in two files.
WORDS = set("as bool break continue else enum false fn for if impl in let loop match mod mut pub ref return self Self struct true while int 0".split())

def shape(f, known):
    names = {}
    for t in f.tokens:
        t = "int" if re.fullmatch(INT, t) else "0" if t[0] in "~0123456789" else t
        yield t if t in WORDS or not re.match(r"\w", t) else names.setdefault(t, "v%d" % len(names)) if known else "v"

def alike(a, b, least):
    m = difflib.SequenceMatcher(None, a, b, autojunk=False)
    return 2 * min(len(a), len(b)) >= least * (len(a) + len(b)) and m.quick_ratio() >= least and m.ratio() >= least

def twin_functions(f, g):
    if f.of and g.of and min(len(f.exact), len(g.exact)) < 20:
        return False
    if f.exact == g.exact:
        return f.name == g.name or len(f.exact) >= 10 and not re.fullmatch(r"\{ v0 \( [^({]*(\( [^({]*\) )?\) \}", " ".join(f.exact))
    if f.name == g.name and f.crate != g.crate and alike(f.loose, g.loose, 0.65):
        return True
    same = re.sub(INT, "int", f.answer) == re.sub(INT, "int", g.answer)
    return min(len(f.exact), len(g.exact)) >= 30 and alike(f.exact, g.exact, 0.83 if same else 0.9)

def twin_types(a, b):
    names, others = ({p.name for p in t.parts} for t in (a, b))
    payloads, theirs = ({(p.name, p.type) for p in t.parts if p.type} for t in (a, b))
    common, both = len(names & others), len(names | others)
    return a.what == b.what and (common > 1 and 5 * common >= 4 * both or common >= 5 and 2 * common >= both or len(a.parts) == len(b.parts) and (
        re.fullmatch("[A-Z][a-z]+(%s|%s)" % (a.name, b.name), max(a.name, b.name, key=len)) or a.what == "enum" and len(a.parts) == 2 and payloads & theirs))

def twins():
    for f in FUNCTIONS:
        f.exact, f.loose = list(shape(f, True)), list(shape(f, False))
    length = lambda c: re.sub(r"\d+", "N", c.type)
    for kind, items, test in (("function", [f for f in FUNCTIONS if f.body and f.of != "trait" and f.name != "main"], twin_functions), ("type", STRUCTS + ENUMS, twin_types),
                              ("constant", CONSTS, lambda a, b: a.path != b.path and a.name == b.name and length(a) == length(b))):
        found = collections.defaultdict(list)
        for a, b in itertools.combinations(items, 2):
            if test(a, b):
                found[id(a)].append(b)
                found[id(b)].append(a)
        for x in items:
            if found[id(x)]:
                yield kind, x, "as " + ", ".join("%s::%s" % (y.crate, y.name) for y in found[id(x)][:4]) + ", .." * (len(found[id(x)]) > 4)

# 3. Every `while` and `loop`.
def loops():
    yield from ((x.name, x) for x in ALL if x.what == "loop")

# 4. Equality: a test same_..(a, b), or one that is a match of cases alone. Order: the smaller or larger of two. A value and its
# number by cases or a constant table alone; or the one into the other by value. Printing: a text into lent memory. Copying:
# three fields of one value into another, each by itself, or octets one by one. An impl of what a derive writes.
def leaves_only(code):
    """Whether a body has cases and constants alone: no call but of a variant, nothing computed, no struct, no index."""
    code = re.sub(r"\bmatch [^{]*\{", "match x {", code)
    return re.search(r"\b(match|if)\b", code) and not re.search(r"\b(?!if\b|match\b|return\b)(?:\w+::)*[a-z]\w* \(|\b(let|while|for|loop|as)\b|[-+*/%&[.]|<|\w+ : ", code)

def by_hand():
    for f in (f for f in FUNCTIONS if f.of != "trait"):
        code, types = " ".join(f.tokens), [p.type for p in f.params]
        few = 1 <= len(types) <= 2 and sum(t in OWN for t in types) == 1 and all(t in OWN | PLAIN | {"bool"} for t in types)
        taken = collections.Counter(a or b for _, a, _, b in re.findall(r"\blet (\w+) = (\w+)\.\1;|\b(\w+): (\w+)\.\3\b", f.body))
        if f.answer == "bool" and (re.match(r"same_", f.name) or leaves_only(code) and code.startswith("{ match") and "==" not in code):
            yield "equality", f
        elif re.fullmatch(r"\{ if (\w+) <=? (\w+) \{ return (\1|\2) ; \} (\1|\2) \}", code):
            yield "order", f
        elif f.answer not in ("", "bool") and leaves_only(code) and not re.search(r"(=>|return|\}) [a-z]\w* [,;}]", code) or any(
                c.path == f.path and c.value[0] == "[" and c.type.startswith("[%s;" % f.answer) and re.search(r"\b%s\b" % c.name, code) for c in CONSTS):
            yield "cases or table", f
        elif few and f.answer not in types and re.fullmatch(NUMBERS + r"|\[u8; \d+\]", f.answer) or len(types) == 1 and f.answer in OWN and (
                types[0] in PLAIN and re.search(r"\b%s(::| \{)" % f.answer, code) or re.fullmatch(INT, types[0]) and re.search(r"\bmatch\b|!= 0|%", code)):
            yield "conversion", f
        elif f.answer in ("usize", "Written") and any(p.type == "&mut [u8]" and p.name in ("out", "lines") for p in f.params):
            yield "printing", f
        elif max(taken.values(), default=0) >= 3 and f.answer in OWN | PLAIN and re.search(r" [A-Z]\w*[a-z] \{", code) or \
                re.search(r"while [^}]* (\w+) \[ (\w+) \] = [^;]*\b(?!\1\b)\w+ \[ \2 \]", code):
            yield "copying", f
    for x in ALL:
        if x.what == "impl" and x.name in ("PartialEq", "Eq", "PartialOrd", "Ord", "Clone", "Copy", "Default", "Hash", "Debug"):
            yield "impl", x

# 5. The same fact in a `requires`, names of parameters aside, at three functions or more. A run of two or more parameters, name
# and type, at three functions or more, of which any two neighbours are together in half of the functions that have the rarer
# one; the longest runs first, and no parameter in two runs.
def facts():
    found = collections.defaultdict(dict)
    for f in FUNCTIONS:
        for _, fact in (part for need in f.needs for part in split(need, "×")):
            seen, names = {}, {p.name for p in f.params}
            while fact.startswith("(") and close(fact, 0) == len(fact) - 1:
                fact = fact[1:-1]
            fact = re.sub(r"\b[a-z_]\w*", lambda g: seen.setdefault(g.group(), "v%d" % len(seen)) if g.group() in names else g.group(), fact)
            found[fact][f.path, f.name] = f
    for fact, at in found.items():
        yield from (("fact", f, fact) for f in at.values() if len(at) >= 3)
    lists = [[(p.name, p.type) for p in f.params if p.type and p.name != "self"] for f in FUNCTIONS]
    having = collections.Counter(p for ps in lists for p in set(ps))
    both = collections.Counter(pair for ps in lists for pair in set(itertools.combinations(ps, 2)))
    runs = lambda ps: [(a, b) for a, b in itertools.combinations(range(len(ps) + 1), 2) if b - a >= 2]
    held = collections.Counter(run for ps in lists for run in {tuple(ps[a:b]) for a, b in runs(ps)})
    for f, ps in zip(FUNCTIONS, lists):
        used = set()
        for a, b in sorted(runs(ps), key=lambda r: (r[0] - r[1], r)):
            pairs = zip(ps[a:b], ps[a + 1:b])
            if held[tuple(ps[a:b])] >= 3 and not used & set(range(a, b)) and all(2 * both[x, y] >= min(having[x], having[y]) for x, y in pairs):
                used |= set(range(a, b))
                yield "run", f, ", ".join("%s: %s" % p for p in ps[a:b])

# 6. An array field beside a count or length, or beside another as long; a local array of a fixed size; a slice beside a count, or
# of octets beside wider numbers, or of keys beside places, as parameters; constant tables of one file that belong together (a
# text and where its parts begin, or as long as one another); a function that searches what is stored by a loop.
def buffers():
    size = re.compile(r"(\w*count|\w*length|\w*size|used|labels|identifiers|others|records|len)$")
    bare = lambda p: size.match(p.name) and re.fullmatch(INT + "|Labels", p.type)
    for t in STRUCTS:
        arrays = [p for p in t.parts if p.type.startswith("[")]
        for p in arrays:
            if any(map(bare, t.parts)) or sum(q.type.split(";")[1] == p.type.split(";")[1] for q in arrays) > 1:
                yield "array field", p, "of " + t.name
    for f in FUNCTIONS:
        for g in re.finditer(r"let mut \w+ = \[[^\],]+; [^\]]+\]", f.body):
            yield "local array", f.within(g.start()), "in " + f.name
        lent = [re.match(r"&(mut )?\[", p.type) for p in f.params] + [None]
        pairs = ["%s, %s" % (p.name, q.name) for i, (p, q) in enumerate(zip(f.params, f.params[1:])) if lent[i] and bare(q) or
                 bare(p) and lent[i + 1] and not lent[i - 1] or re.match(r"&\[(u8\] &\[u16|u64; \w+\] &\[usize; \w+)\]", p.type + " " + q.type)]
        if pairs:
            yield "parameters", f, "; ".join(pairs)
        if re.match(r"(find|look_up|next|repeats|comes|is_stored)", f.name) and re.search(r"\bwhile\b.*\bif\b.*\breturn\b.*\}.*\}", f.body, re.S):
            yield "search", f
    for _, tables in itertools.groupby((c for c in CONSTS if c.type.startswith("[")), key=lambda c: c.path):
        tables = list(tables)
        lengths = collections.Counter(c.type.split(";")[1] for c in tables)
        yield from (("constant table", c) for c in tables if lengths[c.type.split(";")[1]] > 1 or len(tables) > 1 and any(d.value[0] == "*" for d in tables))

# 7. A match of which two arms or more go on by calls of different functions; three or more `if x == n { return .. }` on one
# number, if they and what stands last call two functions or more.
def dispatch():
    call = re.compile(r"=>\s*(?:\{\s*)?(?:return )?(?:(?:\w+::)*[A-Z]\w*\()?((?:\w+::)*[a-z_]\w*)\(")
    for f in FUNCTIONS:
        for g in re.finditer(r"\bmatch\b[^{};]*\{", f.body):
            if len(set(call.findall(f.body, g.end(), close(f.body, g.end() - 1)))) >= 2:
                yield "match", f.within(g.start()), "in " + f.name
        chain = re.findall(r"\bif (\w+(?:\.\w+)*) (?:==|<|<=) [\w~]+ \{\s*return ((?:\w+::)*[a-z_]\w*\()?", f.body)
        last = re.findall(r"\}\s*((?:\w+::)*[a-z_]\w*\()[^;{}]*\}$", f.body)
        for name, n in collections.Counter(x for x, _ in chain).items():
            if n >= 3 and len({c for x, c in chain if x == name and c} | set(last)) >= 2:
                yield "chain of ifs", f, "on " + name

# 8. Answers, as `pub NAME : goal.NAME` in a function's folder; lemmas, as signatures in the files beside, at the top or in a
# module without a name (definitions that are no law, and not `unfoldable` or `abbrev`, among them).
def proofs():
    for path in sorted(glob.glob("crates/*/proofs/**/*.antt", recursive=True)):
        inner, opening = 0, False
        for n, line in enumerate(open(path, encoding="utf-8").read().split("\n"), 1):
            x, depth = Item(path=path, line=n, source=line.strip()), len(line) - len(line.lstrip())
            if not x.source or x.source.startswith("--"):
                continue
            inner = min(inner, depth)
            if path.count("/") > 3:
                if path.endswith("/Answers.antt") and re.match(r"pub (\S+) : goal\.\1$", line):
                    yield "answer", x
            elif opening or depth == inner and re.match(r"module _( |$)", x.source):
                opening = not re.search(r"\bwhere$", x.source)
                inner += 0 if opening else 2
            elif depth == inner and re.match(r"(pub )?[^\s(){}:]+ :( |$)", x.source):
                yield "lemma", x

POINTS = {"own Option and Result, flags, codes": own_shapes, "twins": twins, "loops by hand": loops, "what derives and conversions write": by_hand,
          "facts and parameters that go together": facts, "buffers, tables, searches by hand": buffers, "switches": dispatch, "proof files": proofs}

def main(words):
    if words and (len(words) != 2 or words[0] != "--list" or words[1] not in tuple("12345678")):
        sys.exit(__doc__.split("\n\n")[1])
    for n, (name, point) in enumerate(POINTS.items(), 1):
        if not words:
            kinds = collections.Counter(place[0] for place in point())
            print("%d. %s: %d (%s)" % (n, name, sum(kinds.values()), ", ".join("%s %d" % k for k in sorted(kinds.items()))))
        elif n == int(words[1]):
            for kind, x, *more in sorted(point(), key=lambda place: (place[0], place[1].path, place[1].line)):
                print("%s:%d: %s: %s%s" % (x.path, x.line, kind, x.source, "".join(" -- " + m for m in more)))

main(sys.argv[1:])
