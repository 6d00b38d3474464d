"""Lists what may want one form in crates/*/src: functions whose bodies have one shape, and facts that many contracts state.

    python3 tools/shapes.py twins    groups of functions whose bodies are the same but for names and constants
    python3 tools/shapes.py facts    facts that stand in the contracts of three functions or more
"""

import collections
import glob
import re
import sys

START = re.compile(r"^(\s*)(?:pub(?:\([a-z]+\))? )?(?:const )?fn (\w+)")
WORDS = {"if", "else", "for", "in", "while", "let", "mut", "match", "return", "Some", "None", "Ok", "Err", "as", "true", "false"}


def functions(path):
    """Each function of a file: its name, the lines of its contract, and the lines of its body."""
    lines = open(path, encoding="utf-8").read().split("\n")
    at = 0
    while at < len(lines):
        start = START.match(lines[at])
        if not start:
            at += 1
            continue
        margin, name = start.groups()
        head = at
        while not lines[at].rstrip().endswith("{") and not lines[at].rstrip().endswith(";"):
            at += 1
        contract = [line for line in lines[head : at + 1] if re.match(r"\s*(requires|ensures)\b", line)]
        body = []
        at += 1
        if lines[at - 1].rstrip().endswith("{"):
            while lines[at] != margin + "}":
                body.append(lines[at])
                at += 1
        yield name, contract, body


def shape(body):
    """The body with every name and constant left out."""
    text = re.sub(r"//.*", "", "\n".join(body))
    text = re.sub(r'"[^"]*"', "S", text)
    tokens = re.findall(r"[A-Za-z_]\w*|\d[\d_]*|[^\s\w]", text)
    return " ".join(t if t in WORDS or not re.match(r"\w", t) else "x" for t in tokens)


def all_functions():
    for path in sorted(glob.glob("crates/*/src/*.rt")):
        for name, contract, body in functions(path):
            yield f"{path[len('crates/'):]}:{name}", contract, body


def twins():
    groups = collections.defaultdict(list)
    for name, _, body in all_functions():
        if any(line.strip() for line in body):
            groups[shape(body)].append(name)
    for names in groups.values():
        if len(names) > 1:
            print(len(names), *names)


def facts():
    stated = collections.defaultdict(set)
    for name, contract, _ in all_functions():
        for line in contract:
            clause = line[line.index("{") + 1 : line.rindex("}")] if "{" in line and "}" in line else ""
            for fact in re.split(r" × |→|\(λ [^.]*\. ", clause):
                fact = fact.strip(" ()")
                if re.search(r"[≤<≡]|^Each|^Ready|^Within|^NextIn", fact) and "result" not in fact.split(" ")[0]:
                    stated[re.sub(r"\b(self|division|table|walk)\.(now|old|entry)\.", "", fact)].add(name)
    for fact, names in sorted(stated.items(), key=lambda item: -len(item[1])):
        if len(names) > 2:
            print(len(names), fact, "|", *sorted(names))


if __name__ == "__main__":
    {"twins": twins, "facts": facts}[sys.argv[1]]()
