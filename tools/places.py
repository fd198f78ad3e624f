#!/usr/bin/env python3
"""Lists where the code has a form that a newer one may replace.

    tools/places.py            at the top of a checkout: each place, point by point
    tools/places.py --counts   the numbers alone

It finds candidates by their spelling. Which of them are places is for a reader to say; docs/DESIGN-PASS.md does.
"""
import collections, difflib, glob, itertools, re, sys

COUNTS = "--counts" in sys.argv
FILES = sorted(f for f in glob.glob("crates/*/src/**/*.rt", recursive=True) if not f.endswith("/tests.rt"))
TEXT = {f: open(f).read() for f in FILES}
LINES = [(f, n, line) for f in FILES for n, line in enumerate(TEXT[f].split("\n"), 1)]


def show(point, what, found):
    print(f"{point} {what}: {len(found)}")
    if not COUNTS:
        for place in found:
            print("    " + place)


def grep(pattern, keep=lambda line: True):
    return [f"{f[7:]}:{n}: {line.strip()}" for f, n, line in LINES
            if re.search(pattern, line) and not line.lstrip().startswith("//") and keep(line)]


def functions():
    """Each function's file, name and parameters."""
    for f in FILES:
        for m in re.finditer(r"\bfn (\w+)(?:<[^>]*>)?\(((?:[^()]|\([^()]*\))*)\)", TEXT[f]):
            yield f, m.group(1), m.group(2), m.start()


def body(f, start):
    """The lines of the function that begins there, without its contract."""
    out, inside, depth = [], False, 0
    for line in TEXT[f][start:].split("\n"):
        if re.match(r"\s*(requires|ensures)\b", line):
            continue
        if not inside:
            inside = line.rstrip().endswith("{")
            depth = 1
            if line.rstrip().endswith(";"):
                break
            continue
        depth += line.count("{") - line.count("}")
        if depth <= 0:
            break
        out.append(line)
    return out


def scans():
    """Loops whose body is one `if` that returns or counts, or one addition."""
    found = []
    for f in FILES:
        lines = TEXT[f].split("\n")
        for n, line in enumerate(lines):
            if not re.match(r"\s*for .* \{$", line):
                continue
            margin = re.match(r" *", line).group()
            inner = list(itertools.takewhile(lambda l: l != margin + "}", lines[n + 1:]))
            first = inner[0].strip() if inner else ""
            one = first.startswith("if ") and inner[-1] == margin + "    }" and sum(l.startswith(margin + "    }") for l in inner) == 1
            if len(inner) <= 5 and (one and re.search(r"return|\+= ", " ".join(inner)) or re.search(r"^\w+ \+= ", first)):
                found.append(f"{f[7:]}:{n + 1}: {line.strip()}")
    return found


def facts():
    """Facts that stand in the contracts of three functions or more, whatever the moment that they speak of."""
    at = collections.defaultdict(set)
    for f in FILES:
        name = None
        for line in TEXT[f].split("\n"):
            m = re.match(r"\s*(?:pub(?:\(crate\))? )?fn (\w+)", line)
            if m:
                name = m.group(1)
            m = re.match(r"\s*(?:requires|ensures)\*?(?: \w+)? \{ (.*) \};?$", line)
            for part in re.split(r"\)? × \(?", m.group(1)) if m else []:
                at[re.sub(r"\.(now|old|new)\b", "", re.sub(r"^\(+|\)+$", "", part.strip()))].add(f"{f[7:]} {name}")
    return [f"{fact}   in {len(names)}: {', '.join(sorted(names))}" for fact, names in sorted(at.items()) if len(names) >= 3]


def groups():
    """Parameters, three or more, that travel together through three functions or more; only the largest groups."""
    at = collections.defaultdict(set)
    for f, name, params, _ in functions():
        names = sorted({re.sub(r"\s+", " ", p.strip().replace("mut ", "", 1)) for p in params.split(",")
                        if ":" in p and "self" not in p})
        for size in range(3, len(names) + 1):
            for group in itertools.combinations(names, size):
                at[group].add(f"{f[7:]} {name}")
    many = {g: n for g, n in at.items() if len(n) >= 3}
    return [f"{', '.join(g)}   in {len(n)}: {', '.join(sorted(n))}" for g, n in sorted(many.items())
            if not any(set(g) < set(h) and n <= m for h, m in many.items())]


def twins():
    """Functions whose bodies are nearly the same words."""
    bodies = []
    for f, name, _, start in functions():
        words = re.findall(r"\w+|[^\w\s]", "\n".join(body(f, start)))
        if len(words) >= 20:
            bodies.append((f"{f[7:]} {name}", words))
    return [f"{a}  and  {b}" for (a, x), (b, y) in itertools.combinations(bodies, 2)
            if difflib.SequenceMatcher(None, x, y, autojunk=False).ratio() >= 0.8]


def beside():
    """Structs that hold an array, a slice or a Vec, and a number beside it."""
    found = []
    for f in FILES:
        for m in re.finditer(r"struct (\w+)(?:<[^>]*>)? \{(.*?)\n\}", TEXT[f], re.S):
            fields = re.findall(r"^\s*(?:pub(?:\(crate\))? )?(\w+): ([^,\n]+),", m.group(2), re.M)
            if any("[" in t or "Vec<" in t for _, t in fields) and any(t in ("usize", "u32") for _, t in fields):
                found.append(f"{f[7:]} {m.group(1)}: " + ", ".join(f"{n}: {t}" for n, t in fields))
    return found


show(1, "own enums", grep(r"^\s*(pub(\(crate\))? )?enum "))
show(1, "constants that are numbers", grep(r"\bconst [A-Z_]+: [ui](8|16|32|64|size) ="))
show(1, "kinds and numbers as plain numbers in signatures", grep(r"\bfn .*(\b(kind|number): u\d+|number\(.*-> u8)"))
show(1, "a flag beside a value", grep(r"\(\w+, bool\)"))
show(2, "pairs of functions of nearly the same words", twins())
show(3, "loops", grep(r"^\s*(for|while|loop)\b"))
show(3, "loops that only look for an element or count", scans())
show(3, "loops with while or loop", grep(r"^\s*(while|loop)\b"))
show(3, "loops over numbers", grep(r"^\s*for .* in (?!.*\[)[^\[]*\.\."))
show(3, "counters kept by hand", grep(r"\b\w+ [+-]= 1;"))
show(4, "functions that compare, copy, convert, number, name or print",
     grep(r"\bfn (eq|ne|cmp|partial_cmp|clone|hash|fmt|from|try_from|default|number|name|(from|into|to)_\w+)\b"))
show(4, "matches with an arm for each of many variants", grep(r"^\s*\w+::\w+(\(\w+\))? => .*,$"))
show(5, "facts in three contracts or more", facts())
show(5, "groups of three parameters or more in three functions or more", groups())
show(6, "structs of a buffer with a number beside", beside())
show(6, "functions that take a buffer and a place or a size in it", [
    f"{f[7:]} {name}" for f, name, params, _ in functions()
    if re.search(r"&(mut )?(\[\w+\]|Vec<)", params) and re.search(r"\b\w+: usize", params)])
show(7, "function pointers, dyn, tables", grep(r"\bfn\(|\bdyn\b|: \[fn"))
show(7, "steps chosen by a word or a number", grep(r"^\s*(\"\w+\"|\d+) => "))
answers = sorted(glob.glob("crates/*/proofs/**/*.antt", recursive=True))
for crate in sorted({f.split("/")[1] for f in answers}):
    mine = [f for f in answers if f.split("/")[1] == crate]
    parts = {kind: [f for f in mine if f.endswith("/" + kind + ".antt")] for kind in ("Answers", "Invariants")}
    lines = lambda fs: sum(open(f).read().count("\n") for f in fs)
    lemmas = [f for f in mine if f.count("/") == 3]
    specs = glob.glob(f"crates/{crate}/specs/**/*.antt", recursive=True)
    print(f"8 proofs of {crate}: {len(parts['Answers'])} files of answers ({lines(parts['Answers'])} lines), "
          f"{len(parts['Invariants'])} of invariants ({lines(parts['Invariants'])}), {len(lemmas)} of lemmas ({lines(lemmas)}), "
          f"specs/ {len(specs)} ({lines(specs)})")
