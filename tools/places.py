#!/usr/bin/env python3
"""Lists the places in crates/*/src/*.rt that a rewrite in today's forms looks at, by point.

    python3 tools/places.py [FOLDER]            counts, a line for each point and pattern
    python3 tools/places.py [FOLDER] --list     and each place, as file:line: text

A place is a match of a pattern in code without its comments and tests, or, for the facts and the parameters of point 5, a clause or a
triple of parameters that stands in three functions or more. Not every place is one to change: docs/DESIGN-PASS.md says of each.
"""
import collections
import itertools
import pathlib
import re
import sys

PATTERNS = {
    "1 a bool or a number for a result": [
        ("law answering a number", r"fn \w+\(\) -> u8"),
        ("bool answered by what writes", r"fn \w+[^{;]*?&mut [^{;]*?-> bool"),
        ("number of a refusal", r"fn number\(&?self\) -> u8"),
        ("refusal as an option", r"fn \w+_refusal\([^{]*?-> Option"),
        ("flag of a kind", r"\bdrifts: bool"),
        ("flag beside a value", r"\bleads: bool"),
    ],
    "2 twins": [
        ("one name in two files", None),
        ("one shape in two functions", None),
        ("three fields in two types", None),
    ],
    "3 loops": [
        ("counter by hand", r"\bwhile [^{]*\{"),
        ("range", r"\bfor \w+ in [^{]*?\.\.[^{]*\{"),
        ("loop that only tests or counts", r"\bfor [^{]* in [^{]*\{\s*if [^{]*\{\s*(?:return|found \+= 1)"),
        ("loop over items with an index", r"\.enumerate\(\) \{"),
        ("loop that sums or multiplies", r"\bfor [^{]*\{\s*(?:let [^;]*;\s*)?\w+ (?:[-+*]= |= (?:plus|times)\()"),
    ],
    "4 written by hand": [
        ("conversion", r"fn (?:from_number|drifts|digit|number)\("),
        ("equality or opposite", r"fn (?:is_negative|differ|other)\("),
        ("cast", r"\bas (?:usize|[ui]\d+)\b"),
        ("match to a bool", r"matches!\("),
        ("match to an option or a result", r"\b(?:None => None|Some\(\w+\) => Ok|None => \{\}|Some\(\w+\) => Err)"),
    ],
    "5 facts and parameters": [
        ("fact in three contracts", None),
        ("three parameters in three functions", None),
    ],
    "6 buffers": [
        ("array in a struct", r"\b(?:pub\(crate\) |pub )?\w+: \[\w+; \d+\],"),
        ("length beside", r"\b\w*(?:_count|len): usize,"),
    ],
    "7 switches": [
        ("enum that picks a step", r"\b(?:Part|Trial|Judgement)::\w+(?:\([^)]*\))? =>"),
        ("function pointer", r": fn\("),
    ],
}


def code_of(path):
    """The code of a file, with comments blanked so that lines keep their numbers; tests are left out."""
    text = re.sub(r"//[^\n]*", "", path.read_text())
    return text


def sources(top):
    return [p for p in sorted(top.glob("crates/*/src/*.rt")) if p.name != "tests.rt"]


def functions(code):
    """The name, parameters, clauses and body of each function."""
    for m in re.finditer(r"\bfn (\w+)(?:<[^(]*>)?\(", code):
        depth, i = 1, m.end()
        while depth:
            depth += {"(": 1, ")": -1}.get(code[i], 0)
            i += 1
        params = code[m.end() : i - 1]
        first = re.search(r"[{;]", code[i:])
        contract = first and re.search(r"\b(?:requires|ensures)\b", code[i : i + first.start()])
        end = re.search(r"\n *\{(?=[\n}])|;\n\n|;\n\}", code[i:]) if contract else first
        clauses = code[i : i + end.start()] if end else ""
        body_start = i + end.end() if end else i
        depth, j = 1, body_start
        while depth and j < len(code):
            depth += {"{": 1, "}": -1}.get(code[j], 0)
            j += 1
        yield m.group(1), m.start(), params, clauses, code[body_start : j - 1]


def shape(body):
    """A body with its names, numbers and operators blurred."""
    words = re.sub(r"\b(?!for|in|if|return|true|false|let|mut|match|while|else)\w+\b", "x", body)
    return re.sub(r"[-+*/<>=!&|.]+", "o", re.sub(r'"[^"]*"', 'x', re.sub(r"\s+", " ", words))).strip()


def twins(top):
    names, shapes = collections.defaultdict(list), collections.defaultdict(list)
    for p in sources(top):
        code = code_of(p)
        for name, at, _, _, body in functions(code):
            where = f"{p.relative_to(top)}:{code.count(chr(10), 0, at) + 1}: fn {name}"
            if body.strip() and name not in ("fmt", "main", "from", "new", "choose", "make", "plus", "add", "sign", "grows"):
                names[name].append(where)
            if len(body.split()) > 4 and name not in ("fmt", "from"):
                shapes[shape(body)].append(where)
    one = [" ~ ".join(v) for k, v in names.items() if len(v) > 1]
    two = [" ~ ".join(v) for k, v in shapes.items() if len(v) > 1 and k]
    fields = {}
    for p in sources(top):
        for m in re.finditer(r"struct (\w+)[^{;]*\{([^}]*)\}", code_of(p)):
            fields[f"{p.relative_to(top)}: {m.group(1)}"] = set(re.findall(r"(\w+: [^,\n]+),", re.sub(r"pub(?:\(crate\))? |ghost [^\n]*", "", m.group(2))))
    three = [f"{a} ~ {b}: {', '.join(sorted(fields[a] & fields[b]))}" for a, b in itertools.combinations(fields, 2) if len(fields[a] & fields[b]) > 2]
    return one, two, three


def travellers(top):
    facts, triples = collections.defaultdict(list), collections.defaultdict(list)
    for p in sources(top):
        crate = p.relative_to(top).parts[1]
        code = code_of(p)
        for name, at, params, clauses, _ in functions(code):
            where = f"{p.relative_to(top)}:{code.count(chr(10), 0, at) + 1} {name}"
            for m in re.finditer(r"(?:requires|ensures) (?:\w+ )?\{ (.*) \}", clauses):
                if "result" in m.group(1) or "work" in m.group(1).split("length")[0]:
                    continue
                fact = m.group(1).strip("()")
                fact = re.sub(r"\b(\w+)\.new ≡ \1\.old", r"\1 unchanged", fact).replace(".old", "").replace(".now", "")
                for part in fact.split(") × ("):
                    facts[crate, part].append(where)
            given = re.findall(r"(\w+): ([^,]+)", re.sub(r"\s+", " ", params))
            for three in itertools.combinations(sorted(set(given)), 3):
                triples[crate, three].append(where)
    one = [f"{c}: {f}: {len(set(w))}: {', '.join(sorted(set(w)))}" for (c, f), w in facts.items() if len(set(w)) > 2]
    together = collections.defaultdict(set)
    for (crate, three), where in triples.items():
        if len(where) > 2:
            together[crate, tuple(where)].update(three)
    two = [f"{c}: {', '.join(': '.join(x) for x in sorted(t))}: {len(w)}: {', '.join(w)}" for (c, w), t in together.items()]
    return one, two


def found(top, pattern):
    for p in sources(top):
        code = code_of(p)
        for m in re.finditer(pattern, code):
            line = code.count("\n", 0, m.start()) + 1
            yield f"{p.relative_to(top)}:{line}: {' '.join(m.group(0).split())[:110]}"


def main():
    words = [w for w in sys.argv[1:] if w != "--list"]
    top = pathlib.Path(words[0] if words else ".")
    special = dict(zip(["one name in two files", "one shape in two functions", "three fields in two types"], twins(top)))
    special.update(zip(["fact in three contracts", "three parameters in three functions"], travellers(top)))
    for point, patterns in PATTERNS.items():
        print(point)
        for name, pattern in patterns:
            places = special[name] if pattern is None else list(found(top, pattern))
            print(f"    {name}: {len(places)}")
            if "--list" in sys.argv:
                for place in places:
                    print(f"        {place}")
    proofs = [p for p in top.glob("crates/*/proofs/**/*.antt")]
    answers = [p for p in proofs if p.name == "Answers.antt"]
    print("8 proofs")
    print(f"    lines: {sum(len(p.read_text().splitlines()) for p in proofs)}")
    print(f"    files of answers: {len(answers)}")
    print(f"    answers: {sum(len(re.findall(r'^pub [^ ]+ :', p.read_text(), re.M)) for p in answers)}")


main()
