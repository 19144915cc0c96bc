#!/usr/bin/env python3
"""Counts the places in src/ that docs/DESIGN-PASS.md speaks of: tools/places.py [--list]. It reads text alone: what it finds are candidates,
and the page says of each kind which are none."""
import glob
import re
import sys

KIT = "crates/*/src/**/*.rt"


def sources():
    for path in sorted(glob.glob(KIT, recursive=True)):
        with open(path, encoding="utf-8") as f:
            yield path, f.read()


def line_of(text, at):
    return text.count("\n", 0, at) + 1


def matches(pattern, keep=lambda m: True):
    """Places of a pattern, over all files."""
    return [
        f"{path}:{line_of(text, m.start())}: {' '.join(m.group(0).split())[:90]}"
        for path, text in sources()
        for m in re.finditer(pattern, text, re.M)
        if keep(m)
    ]


def mixed(m):
    """An enum of two variants, or with a variant that carries nothing beside one that carries something."""
    body = re.sub(r"\{[^{}]*\}|\([^()]*\)", "+", m.group(2))
    variants = [v.strip() for v in body.split(",") if v.strip()]
    full = [v for v in variants if v.endswith("+")]
    return (len(variants) == 2 and full) or (full and len(full) < len(variants))


def functions():
    """Each function: path, line, name, parameters, contract, body."""
    head = re.compile(r"^( *)(?:pub(?:\([^)]*\))? )?fn (\w+)(<[^>]*>)?\(", re.M)
    for path, text in sources():
        for m in head.finditer(text):
            depth, at = 1, m.end()
            while depth:
                depth += {"(": 1, ")": -1}.get(text[at], 0)
                at += 1
            params = text[m.end() : at - 1]
            rest = text[at:]
            ind = m.group(1)
            stop = re.search(rf"^{ind}\}}$", rest, re.M)
            whole = rest[: stop.end()] if stop else rest
            yield path, line_of(text, m.start()), m.group(2), params, whole


def names(params):
    return re.findall(r"(?:^|,)\s*(?:mut )?(\w+):", params)


def hand_loops():
    return matches(r"^ *(?:'\w+: )?(?:while .*\{|loop \{)$")


def together():
    """Functions that take three or more of the parameters that lend a session, and those that lend the store."""
    session = {"held", "name", "text", "answers", "values"}
    store = {"filed", "all", "names", "texts", "lens", "plans"}
    found = []
    for path, line, name, params, _ in functions():
        said = set(names(params))
        for what, group in (("session", session), ("store", store)):
            if len(said & group) >= 3:
                found.append(f"{path}:{line}: {name} ({what})")
    return found


def field_copies():
    """Struct literals with two fields or more that are taken over from one other value."""
    found = []
    for path, text in sources():
        for m in re.finditer(r"\b[A-Z]\w*(?:::\w+)? \{([^{}]*)\}", text):
            rows = re.findall(r"(\w+): (\w+)\.(\w+)\b", m.group(1))
            same = [v for f, v, g in rows if f == g]
            if len(same) >= 2 and any(same.count(v) >= 2 for v in same):
                found.append(f"{path}:{line_of(text, m.start())}: {' '.join(m.group(0).split())[:90]}")
    return found


def twins():
    """Functions with as many parameters whose bodies are the same but for names, numbers and types."""
    shapes = {}
    for path, line, name, params, whole in functions():
        at = whole.find("\n{\n") if "\n{\n" in whole else whole.find("{\n")
        body = whole[at:]
        tokens = re.findall(r"\w+|[^\w\s]", body)
        if len(tokens) < 24:
            continue
        shape = tuple("w" if re.match(r"\w", t) and t not in KEYWORDS else t for t in tokens)
        shapes.setdefault((len(names(params)), shape), []).append(f"{path}:{line}: {name}")
    return [" = ".join(group) for group in shapes.values() if len(group) > 1]


KEYWORDS = set("let mut while for in if else return match loop true false".split())

KINDS = [
    ("1a", "own enums of two variants, or with a bare variant beside a full one", lambda: enums()),
    ("1b", "structs with a flag beside values", lambda: flags()),
    ("1c", "numbers for kinds, states, errors or none: constants", lambda: matches(r"^(?:pub )?const (?:UP|DOWN|VARIABLE|IDLE|ANSWERING|COLLECTING|SPOILED|OPENED|PRINTING|E[A-Z]{2,7}): (?:usize|i32) = .*;$")),
    ("1d", "numbers for kinds, errors or none: results", lambda: numbers_for_none()),
    ("2", "functions of one shape", twins),
    ("3", "`while` and `loop`", hand_loops),
    ("3i", "`for` over an index that only indexes", lambda: matches(r"^ *for \w+ in 0\.\.\w+\.len\(\)")),
    ("4a", "struct literals that copy fields of one value", field_copies),
    ("4b", "derives of Clone and Copy alone", lambda: matches(r"^ *#\[derive\(Clone, Copy\)\]$")),
    ("4c", "conversions and comparisons by hand", lambda: matches(r"^(?:pub )?fn (?:number_of|is_same|mode_of|code_of|held_of|filed_of|put_held|put_filed|errno_of|reason|digit_of|digit|show_answer)\b")),
    ("5", "functions with parameters that travel together", together),
    ("6", "a buffer with its length beside it, in a struct", lambda: matches(r"^ *(?:pub )?\w+: \[\w+; \w+\],\n *(?:pub )?len: usize,")),
    ("6p", "a buffer and the place in it as parameters", lambda: matches(r"\b(?:out|buf|err|line): &mut \[u8\],\s*at: usize")),
    ("7", "enums without values that only say which step runs", lambda: matches(r"^(?:pub )?enum (?:Pen|Errand|Kind|Call) \{")),
    ("8", "answers", None),
]


def enums():
    found = []
    for path, text in sources():
        for m in re.finditer(r"^((?:pub(?:\([^)]*\))? )?enum \w+(?:<[^>]*>)?) \{\n(.*?)^\}", text, re.M | re.S):
            if mixed(m):
                found.append(f"{path}:{line_of(text, m.start())}: {m.group(1)}")
    return found


def flags():
    found = []
    for path, text in sources():
        for m in re.finditer(r"^((?:pub )?(?:struct|enum) \w+[^\n]*) \{\n(.*?)^\}", text, re.M | re.S):
            if re.search(r"\w+: bool,", m.group(2)):
                found.append(f"{path}:{line_of(text, m.start())}: {m.group(1)}")
    return found


def numbers_for_none():
    wanted = {"unsound_at", "slot_of", "turn_after", "turn_of", "pause", "told", "again", "errno_of", "complain", "take", "mode_of"}
    found = []
    for path, line, name, params, whole in functions():
        result = re.match(r" -> ([\w<>]+)", whole)
        if name in wanted and (result and result.group(1) in {"usize", "i32", "Served", "Tried", "bool", "Mode"} or "error: i32" in params):
            found.append(f"{path}:{line}: {name}")
    return found


def answers():
    files = glob.glob("crates/*/proofs/**/Answers.antt", recursive=True)
    goals = lines = 0
    for path in files:
        with open(path, encoding="utf-8") as f:
            text = f.read()
        goals += len(re.findall(r"^pub \S+ : goal\.", text, re.M))
        lines += text.count("\n")
    print(f"8: answers in {len(files)} files: {goals} goals, {lines} lines")


for kind, what, find in KINDS:
    if find is None:
        answers()
        continue
    places = find()
    print(f"{kind}: {what}: {len(places)}")
    if "--list" in sys.argv:
        for place in places:
            print("   ", place)
