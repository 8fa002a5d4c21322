#!/usr/bin/env python3
"""Lists the places in crates/*/src that a design pass looks at: `tools/places.py [POINT]`, at the repository's top.

It goes by text, so it lists more than there is to change; docs/DESIGN-PASS.md says which places it is about."""
import collections
import glob
import re
import sys

# Lines that look like the older forms, by point.
LINES = {
    1: [
        ("a flag with a value beside it", r"\(bool, \w+\)"),
        ("a number for a refusal", r"^\s*(number: \d+,|(Memory|Call|Air|Layout) \{ number)|Fault::\w+\(?\w*\)? *\{ *number: \d|Fault::\w+ \{$"),
        ("a number for a kind", r"\bkind: u8"),
        ("an answer inside an answer", r"Result<(Result<|Option<Vec)"),
    ],
    3: [
        ("a loop that counts", r"\bwhile\b.*\{|\bfor \w+ in [^{]*\.\.|\bloop \{"),
        ("an element by a counted index", r"\w\[[^\]\[;.]*(\bat\b|\bn\b|\bi\b|\bused\b)[^\]\[;.]*\]"),
        ("elements one by one", r"(\b\w+\[\d\].*){2}|^\s+\w+\[\d\] \| "),
    ],
    4: [
        ("a conversion or comparison by hand", r"fn (same|is|number|address|text|sak|nack|refused|layer|kind_in|order_of|digit|digit_of|digit_value|byte_value|hex_of|pair)\("),
        ("a cast", r"\bas (u8|u16|u32|u64|usize)\b"),
        ("a match that asks for one case", r"_ => return Err\("),
    ],
    6: [
        ("a buffer and how much of it is used", r"^\s+(pub(\(crate\))? )?(count|len|used): (u8|usize),|\bat: usize\b|-> usize$"),
        ("an array made for a while", r"let mut \w+ = \[[^\]]*; [^\]]+\]"),
    ],
    7: [
        ("a switch on a kind", r"match (\w+\.)?kind\b|if \w*\.?kind [!=]=|Kind::\w+ =>"),
    ],
}


def sources():
    for path in sorted(glob.glob("crates/*/src/**/*.rt", recursive=True)):
        with open(path) as file:
            yield path, file.read().split("\n")


def functions():
    """Each function: its place, and its lines without comments and clauses."""
    for path, lines in sources():
        for start, line in enumerate(lines):
            head = re.match(r"( *)(pub(\(crate\))? )?fn (\w+)", line)
            if not head:
                continue
            end = start
            while end < len(lines) and lines[end] != head[1] + "}":
                end += 1
            body = [l for l in lines[start + 1 : end] if not re.match(r" *(//|ensures|requires|\{$)", l)]
            yield f"{path}:{start + 1} {head[4]}", lines[start], body


def shape(body):
    text = " ".join(line.strip() for line in body)
    text = re.sub(r'b?"[^"]*"|b?\'[^\']*\'|\b\d[\w.]*', "0", text).replace("!=", "==")
    return re.sub(r"\b(?!if|else|match|for|in|let|mut|return|Some|None|Ok|Err|self)\w+\b", "x", text)


def twins():
    """Functions of one shape, or of one name, and constants of one name."""
    shapes, names = collections.defaultdict(list), collections.defaultdict(list)
    for place, _, body in functions():
        if len(body) >= 3:
            shapes[shape(body)].append(place)
        name = place.split()[1]
        if name not in ("main", "run", "new"):
            names[name].append(place)
    for path, lines in sources():
        for number, line in enumerate(lines):
            constant = re.match(r"(?:pub(?:\(crate\))? )?const (\w+):", line)
            if constant:
                names[constant[1]].append(f"{path}:{number + 1} {constant[1]}")
    groups = {tuple(group) for group in list(shapes.values()) + list(names.values()) if len(group) > 1}
    return [f"twins? {', '.join(group)}" for group in sorted(groups)]


def facts():
    """Facts that three or more contracts state of what is passed, and parameters that four or more functions take together."""
    said, together = collections.Counter(), collections.Counter()
    for path, lines in sources():
        for line in lines:
            clause = re.match(r" *requires(?: \w+)? \{ (.*) \}", line)
            if clause:
                said.update({re.sub(r"[()]|\b(self|cursor|window|picture|frame|cells)\b[\w.]*?(?=\b(len|old|now)\b)", "", f).strip() for f in clause[1].split("×")})
    for _, head, _ in functions():
        names = re.findall(r"(\w+): ", head.split("->")[0])
        together.update((a, b) for i, a in enumerate(names) for b in names[i + 1 :])
    return [f"{n} contracts: {fact}" for fact, n in said.most_common() if n > 2] + [
        f"{n} functions: {a} and {b}" for (a, b), n in together.most_common() if n > 3
    ]


def proofs():
    paths = sorted(glob.glob("crates/*/proofs/**/*.antt", recursive=True))
    lines = {path: open(path).read().split("\n") for path in paths}
    answers = [path for path in paths if path.endswith(("Answers.antt", "Invariants.antt", "Proof.antt"))]
    stated = [(p, l) for p in paths for l in lines[p] if re.match(r"(pub )?[\w≢'-]+ : ", l)]
    return [
        f"{len(paths)} files, {sum(len(l) - 1 for l in lines.values())} lines",
        f"{len(answers)} files of answers and invariants, {sum(1 for p, _ in stated if p in answers)} stated in them",
        f"{sum(1 for p, _ in stated if p not in answers)} lemmas",
    ]


def listed(point):
    if point in LINES:
        for what, pattern in LINES[point]:
            for path, lines in sources():
                for number, line in enumerate(lines):
                    if re.search(pattern, line) and not line.strip().startswith("//"):
                        yield f"{what}: {path}:{number + 1}: {line.strip()}"
    else:
        yield from {2: twins, 5: facts, 8: proofs}[point]()


for point in [int(word) for word in sys.argv[1:]] or range(1, 9):
    rows = list(listed(point))
    print(f"{point}: {len(rows)} lines", *rows, sep="\n    ")
